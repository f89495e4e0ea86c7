#!/usr/bin/env python3
"""Compares the program's digests and tags with python's hashlib and hmac: argument 1 is the program."""
import hashlib
import hmac
import os
import random
import subprocess
import sys
import tempfile

PIT = sys.argv[1]
random.seed(20261117)


def hexed(data):
    return data.hex() or "-"


def message(n):
    return random.randbytes(n)


cases = []  # (line, expected answer)


def sha256(data):
    cases.append((f"sha256 {hexed(data)}", f"ok {hashlib.sha256(data).hexdigest()}"))


def two(first, second):
    cases.append((f"two {hexed(first)} {hexed(second)}", f"ok {hashlib.sha256(first + second).hexdigest()}"))


def tag(key, text, work):
    if work != 64 or len(key) > 131 or len(text) > 300:
        expected = "wiped refused 2 0"
    else:
        expected = f"wiped ok {hmac.new(key, text, hashlib.sha256).hexdigest()}"
    cases.append((f"hmac {hexed(key)} {hexed(text)} {work}", expected))


for n in range(0, 301):
    sha256(message(n))
for n in (511, 512, 513, 1000, 4095, 4096, 4097, 65535, 65536, 99999):
    sha256(message(n))
for n in (0, 1, 63, 64, 65, 127, 128, 200):
    for m in (0, 1, 54, 55, 56, 57, 62, 63, 64, 65, 119, 120, 128, 300):
        two(message(n), message(m))
for _ in range(200):
    two(message(random.randrange(0, 400)), message(random.randrange(0, 400)))
for n in range(0, 133):
    tag(message(n), message(random.randrange(0, 301)), 64)
for n in range(0, 302):
    tag(message(random.randrange(0, 132)), message(n), 64)
for work in (0, 1, 32, 63, 65, 128, 255):
    tag(message(32), message(60), work)
    tag(message(132), message(301), work)
tag(b"", b"", 64)

run = subprocess.run([PIT, "digests"], input="\n".join(c[0] for c in cases) + "\n", capture_output=True, text=True)
answers = run.stdout.splitlines()
if run.returncode != 0 or len(answers) != len(cases):
    sys.exit(f"digests: status {run.returncode}, {len(answers)} answers to {len(cases)} commands")
for (line, expected), answer in zip(cases, answers):
    if answer != expected:
        sys.exit(f"digests: {line[:80]}: expected {expected}, got {answer}")


def program(*words):
    done = subprocess.run([PIT, *words], capture_output=True, text=True)
    return done.returncode, done.stdout, done.stderr


count = len(cases)
with tempfile.TemporaryDirectory() as folder:
    path = os.path.join(folder, "input")
    for n in (0, 1, 55, 56, 64, 999_999, 1_000_000, 1_000_001):
        data = message(n)
        with open(path, "wb") as out:
            out.write(data)
        status, out, err = program("sha256", path)
        if n <= 1_000_000:
            good = (status, out) == (0, hashlib.sha256(data).hexdigest() + "\n")
        else:
            good = status == 1 and out == "" and "refusal 2 at byte 0" in err
        if not good:
            sys.exit(f"digests: file of {n} bytes: {status} {out} {err}")
        count += 1
    for n in (0, 60, 300, 301):
        data = message(n)
        with open(path, "wb") as out:
            out.write(data)
        key = message(32)
        status, out, err = program("hmac", key.hex(), path)
        if n <= 300:
            good = (status, out) == (0, hmac.new(key, data, hashlib.sha256).hexdigest() + "\n")
        else:
            good = status == 1 and out == "" and "refusal 2 at byte 0" in err
        if not good:
            sys.exit(f"digests: tag of {n} bytes: {status} {out} {err}")
        count += 1
    for words in (["hmac", "0g", path], ["hmac", "abc", path], ["sha256", os.path.join(folder, "absent")], ["sha256"], ["nonsense"]):
        status, out, err = program(*words)
        if status != 1 or out != "" or not err:
            sys.exit(f"digests: {words}: {status} {out} {err}")
        count += 1

status, out, err = program("vectors")
if status != 0 or out.splitlines()[-1] != "12 of 12 vectors agree":
    sys.exit(f"digests: vectors: {status} {out[-200:]} {err}")
print(f"digests: {count} inputs agree")
