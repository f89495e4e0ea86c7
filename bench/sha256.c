/* SHA-256 and HMAC-SHA-256 in plain C, the same algorithm as the crate digest: a schedule of 64 words, then 64 rounds.
 * Prints the nanoseconds of one digest of a megabyte and of one tag of 60 bytes, on average. */
#include <stdint.h>
#include <stdio.h>
#include <stdlib.h>
#include <string.h>
#include <time.h>

static const uint32_t K[64] = {
    0x428a2f98, 0x71374491, 0xb5c0fbcf, 0xe9b5dba5, 0x3956c25b, 0x59f111f1, 0x923f82a4, 0xab1c5ed5,
    0xd807aa98, 0x12835b01, 0x243185be, 0x550c7dc3, 0x72be5d74, 0x80deb1fe, 0x9bdc06a7, 0xc19bf174,
    0xe49b69c1, 0xefbe4786, 0x0fc19dc6, 0x240ca1cc, 0x2de92c6f, 0x4a7484aa, 0x5cb0a9dc, 0x76f988da,
    0x983e5152, 0xa831c66d, 0xb00327c8, 0xbf597fc7, 0xc6e00bf3, 0xd5a79147, 0x06ca6351, 0x14292967,
    0x27b70a85, 0x2e1b2138, 0x4d2c6dfc, 0x53380d13, 0x650a7354, 0x766a0abb, 0x81c2c92e, 0x92722c85,
    0xa2bfe8a1, 0xa81a664b, 0xc24b8b70, 0xc76c51a3, 0xd192e819, 0xd6990624, 0xf40e3585, 0x106aa070,
    0x19a4c116, 0x1e376c08, 0x2748774c, 0x34b0bcb5, 0x391c0cb3, 0x4ed8aa4a, 0x5b9cca4f, 0x682e6ff3,
    0x748f82ee, 0x78a5636f, 0x84c87814, 0x8cc70208, 0x90befffa, 0xa4506ceb, 0xbef9a3f7, 0xc67178f2};

typedef struct {
    uint32_t state[8];
    uint8_t block[64];
    size_t filled;
    uint64_t total;
} hasher;

static uint32_t ror(uint32_t x, int n) { return (x >> n) | (x << (32 - n)); }

static void compress(uint32_t s[8], const uint8_t *p) {
    uint32_t w[64];
    for (int t = 0; t < 16; t++)
        w[t] = (uint32_t)p[4 * t] << 24 | (uint32_t)p[4 * t + 1] << 16 | (uint32_t)p[4 * t + 2] << 8 | p[4 * t + 3];
    for (int t = 16; t < 64; t++)
        w[t] = (ror(w[t - 2], 17) ^ ror(w[t - 2], 19) ^ (w[t - 2] >> 10)) + w[t - 7] +
               (ror(w[t - 15], 7) ^ ror(w[t - 15], 18) ^ (w[t - 15] >> 3)) + w[t - 16];
    uint32_t a = s[0], b = s[1], c = s[2], d = s[3], e = s[4], f = s[5], g = s[6], h = s[7];
    for (int t = 0; t < 64; t++) {
        uint32_t t1 = h + (ror(e, 6) ^ ror(e, 11) ^ ror(e, 25)) + ((e & f) ^ (~e & g)) + K[t] + w[t];
        uint32_t t2 = (ror(a, 2) ^ ror(a, 13) ^ ror(a, 22)) + ((a & b) ^ (a & c) ^ (b & c));
        h = g; g = f; f = e; e = d + t1; d = c; c = b; b = a; a = t1 + t2;
    }
    s[0] += a; s[1] += b; s[2] += c; s[3] += d; s[4] += e; s[5] += f; s[6] += g; s[7] += h;
}

static void start(hasher *h) {
    static const uint32_t first[8] = {0x6a09e667, 0xbb67ae85, 0x3c6ef372, 0xa54ff53a, 0x510e527f, 0x9b05688c, 0x1f83d9ab, 0x5be0cd19};
    memcpy(h->state, first, sizeof first);
    h->filled = 0;
    h->total = 0;
}

static void feed(hasher *h, const uint8_t *p, size_t n) {
    h->total += n;
    if (h->filled) {
        size_t room = 64 - h->filled, m = n < room ? n : room;
        memcpy(h->block + h->filled, p, m);
        h->filled += m; p += m; n -= m;
        if (h->filled < 64) return;
        compress(h->state, h->block);
        h->filled = 0;
    }
    for (; n >= 64; p += 64, n -= 64) compress(h->state, p);
    memcpy(h->block, p, n);
    h->filled = n;
}

static void finish(hasher *h, uint8_t out[32]) {
    uint64_t bits = h->total * 8;
    h->block[h->filled++] = 0x80;
    if (h->filled > 56) {
        memset(h->block + h->filled, 0, 64 - h->filled);
        compress(h->state, h->block);
        h->filled = 0;
    }
    memset(h->block + h->filled, 0, 56 - h->filled);
    for (int i = 0; i < 8; i++) h->block[56 + i] = (uint8_t)(bits >> (56 - 8 * i));
    compress(h->state, h->block);
    for (int i = 0; i < 32; i++) out[i] = (uint8_t)(h->state[i / 4] >> (24 - 8 * (i % 4)));
}

__attribute__((noinline)) static void sha256(const uint8_t *p, size_t n, uint8_t out[32]) {
    hasher h;
    start(&h);
    feed(&h, p, n);
    finish(&h, out);
}

__attribute__((noinline)) static void hmac(const uint8_t *key, size_t k, const uint8_t *text, size_t n, uint8_t out[32]) {
    uint8_t block[64] = {0}, inner[32];
    hasher h;
    if (k > 64) sha256(key, k, block); else memcpy(block, key, k);
    for (int i = 0; i < 64; i++) block[i] ^= 0x36;
    start(&h); feed(&h, block, 64); feed(&h, text, n); finish(&h, inner);
    for (int i = 0; i < 64; i++) block[i] ^= 0x36 ^ 0x5c;
    start(&h); feed(&h, block, 64); feed(&h, inner, 32); finish(&h, out);
    memset(block, 0, sizeof block);
}

static double now(void) {
    struct timespec t;
    clock_gettime(CLOCK_MONOTONIC, &t);
    return t.tv_sec * 1e9 + t.tv_nsec;
}

int main(void) {
    enum { MB = 1000000, LARGE = 200, SMALL = 200000 };
    uint8_t *input = calloc(MB, 1), text[60] = {0}, key[32], out[32];
    double t = now();
    for (int i = 0; i < LARGE; i++) { sha256(input, MB, out); input[0] = out[0]; }
    printf("sha256-1MB %.0f\n", (now() - t) / LARGE);
    memset(key, 7, sizeof key);
    t = now();
    for (int i = 0; i < SMALL; i++) { hmac(key, sizeof key, text, sizeof text, out); text[0] = out[0]; }
    printf("hmac-60 %.0f\n", (now() - t) / SMALL);
    return 0;
}
