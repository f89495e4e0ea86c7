#!/usr/bin/env python3
"""The board and the ledger against a model of their own, through the program.

usage: services.py PATH_OF_PIT

The model below is written from the rules alone. Random bodies (good ones, ones at every bound, damaged ones and lines
that are no body at all) go through `pit board FILE` and `pit ledger FILE`; every line that comes back is compared.
"""
import random
import subprocess
import sys
import tempfile

SEED = 20250117
FILES = 24
LINES = 1500

OPERATIONS = [0, 1, 2, 3, 4, 255, 256, 257, 0x0300, 65535]
TRUCKS = [0, 1, 31, 62, 63, 64, 65, 255, 256, 65535]
SPOTS = [0, 1, 2, 5, 30, 31, 32, 33, 255, 256, 257, 261, 65535]
PILES = [0, 1, 14, 15, 16, 17, 255, 256, 65535]
WEIGHTS = [0, 1, 2, 99, 100, 101, 255, 256, 65535, 65536, 16777216, 499_999_999, 500_000_000, 500_000_001,
           999_999_999, 1_000_000_000, 1_000_000_001, 2**31, 2**32 - 1_000_000_000, 2**32 - 1]


class Board:
    """64 trucks, each at one spot; spot 0 is the gate."""

    def __init__(self):
        self.spot = {truck: 0 for truck in range(64)}

    def perform(self, operation, a, b, w, tail):
        if operation not in (1, 2, 3) or any(tail) or w != 0 or (operation != 1 and b != 0):
            return 1, 0
        if a > 63:
            return 2, 0
        if operation == 3:
            return 0, self.spot[a]
        if operation == 2:
            self.spot[a] = 0
            return 0, 0
        if not 1 <= b <= 31:
            return 3, 0
        others = [truck for truck, spot in self.spot.items() if spot == b and truck != a]
        if len(others) >= 4:
            return 4, 0
        self.spot[a] = b
        return 0, len(others) + 1


class Ledger:
    """16 piles; none may pass a thousand million."""

    LIMIT = 10**9

    def __init__(self):
        self.pile = [0] * 16

    def perform(self, operation, a, b, w, tail):
        unused = {1: b, 2: 0, 3: b | w}
        if operation not in unused or unused[operation] or any(tail):
            return 1, 0
        if a > 15:
            return 2, 0
        if operation == 3:
            return 0, self.pile[a]
        if operation == 1:
            if self.pile[a] + w > self.LIMIT:
                return 5, 0
            self.pile[a] += w
            return 0, self.pile[a]
        if b > 15:
            return 3, 0
        if w > self.pile[a]:
            return 4, 0
        if a != b and self.pile[b] + w > self.LIMIT:
            return 5, 0
        self.pile[a] -= w
        self.pile[b] += w
        return 0, self.pile[b]


def body(operation, a, b, w, tail=bytes(6)):
    return b"".join(n.to_bytes(size, "little") for n, size in ((operation, 2), (a, 2), (b, 2), (w, 4))) + tail


def read_line(line):
    """The 16 bytes that a line writes, or None."""
    digits = b"0123456789abcdef"
    if len(line) != 32:
        return None
    values = [digits.find(bytes([c]).lower()) for c in line]
    if -1 in values:
        return None
    return bytes(16 * values[i] + values[i + 1] for i in range(0, 32, 2))


def expected(service, line):
    taken = read_line(line)
    if taken is None:
        return "bad body"
    fields = [int.from_bytes(taken[i:j], "little") for i, j in ((0, 2), (2, 4), (4, 6), (6, 10))]
    code, value = service.perform(*fields, taken[10:])
    return f"code {code} value {value}"


def good_board(rng):
    """A call that a foreman could mean; few spots, so that they fill up."""
    truck = rng.randrange(64) if rng.random() < 0.7 else rng.choice([0, 1, 2, 3, 4, 5, 6, 63])
    kind = rng.random()
    if kind < 0.7:
        return body(1, truck, rng.choice([1, 2, 3, 5, 31]), 0)
    return body(2 if kind < 0.85 else 3, truck, 0, 0)


def good_ledger(rng):
    a, b = rng.randrange(16), rng.randrange(16)
    kind = rng.random()
    weight = rng.choice(WEIGHTS) if rng.random() < 0.4 else rng.randrange(300_000_000)
    if kind < 0.4:
        return body(1, a, 0, weight)
    if kind < 0.85:
        return body(2, a, a if rng.random() < 0.2 else b, weight)
    return body(3, a, 0, 0)


def at_bounds(rng, firsts, seconds):
    weight = rng.choice(WEIGHTS) if rng.random() < 0.5 else 0
    return body(rng.choice(OPERATIONS[:5] if rng.random() < 0.8 else OPERATIONS), rng.choice(firsts), rng.choice(seconds), weight)


def damaged(rng, whole):
    """A body with one byte changed, often in its tail."""
    bytes_ = bytearray(whole)
    at = rng.randrange(10, 16) if rng.random() < 0.5 else rng.randrange(16)
    bytes_[at] = rng.choice([1, 2, 127, 128, 255, rng.randrange(256)])
    return bytes(bytes_)


def no_body(rng, whole):
    """A line that is no body, or one in other letters."""
    text = whole.hex().encode()
    at = rng.randrange(32)
    return rng.choice([
        b"",
        b" ",
        text[:-1],
        text[:-2],
        text + b"0",
        text + b"00",
        text + b"\r",
        text[:-1] + b"\r",
        b" " + text,
        b" " + text[1:],
        text + b" ",
        b"0x" + text[2:],
        text[:at] + rng.choice([b"g", b"G", b"/", b":", b"@", b"`", b"x", b"-", b"\xff", b"\x00", b"\t"]) + text[at + 1:],
        text[:at] + "é".encode() + text[at + 2:],
        text.upper(),
        bytes(c - 32 if 97 <= c <= 102 and rng.random() < 0.5 else c for c in text),
        text * 2,
        rng.randbytes(32).replace(b"\n", b"\x0b"),
        rng.randbytes(16).hex().encode(),
    ])


def line(rng, good, firsts, seconds):
    kind = rng.random()
    whole = good(rng)
    if kind < 0.55:
        return whole.hex().encode()
    if kind < 0.75:
        return at_bounds(rng, firsts, seconds).hex().encode()
    if kind < 0.9:
        return damaged(rng, whole).hex().encode()
    return no_body(rng, whole)


def run(program, name, lines, ended=True):
    """What the program prints for a file of these lines."""
    with tempfile.NamedTemporaryFile() as file:
        file.write(b"\n".join(lines) + (b"\n" if ended and lines else b""))
        file.flush()
        done = subprocess.run([program, name, file.name], capture_output=True, timeout=120)
    if done.returncode != 0:
        sys.exit(f"{name}: status {done.returncode}: {done.stderr.decode(errors='replace')}")
    return done.stdout.decode()


def compare(program, name, model, lines, ended=True):
    """Compares a run line by line, and answers how many replies it had of each code."""
    service = model()
    wanted = [expected(service, each) for each in lines]
    printed = run(program, name, lines, ended)
    if printed == "".join(each + "\n" for each in wanted):
        return wanted
    for at, (each, want, got) in enumerate(zip(lines, wanted, printed.split("\n"))):
        if want != got:
            sys.exit(f"{name}, line {at + 1}, {each!r}: expected {want!r}, printed {got!r}")
    sys.exit(f"{name}: {len(wanted)} lines expected, {printed.count(chr(10))} printed")


def shown(program, name, bodies, wanted):
    printed = run(program, name, [each.hex().encode() for each in bodies]).split("\n")[-1 - len(wanted):-1]
    if printed != wanted:
        sys.exit(f"{name}: shown case: expected {wanted}, printed {printed}")
    return len(bodies)


def shown_cases(program):
    four = [body(1, truck, 5, 0) for truck in (10, 11, 12, 13)]
    count = shown(program, "board", four + [body(1, 14, 5, 0)], ["code 4 value 0"])
    count += shown(program, "board", four + [body(1, 12, 5, 0)], ["code 0 value 4"])
    count += shown(program, "board", four + [body(1, 14, 5, 0), body(2, 10, 0, 0), body(1, 14, 5, 0), body(3, 14, 0, 0)],
                   ["code 4 value 0", "code 0 value 0", "code 0 value 4", "code 0 value 5"])
    hundred = body(1, 0, 0, 100)
    count += shown(program, "ledger", [hundred, body(2, 0, 1, 100)], ["code 0 value 100"])
    count += shown(program, "ledger", [hundred, body(2, 0, 1, 101)], ["code 4 value 0"])
    full = body(1, 2, 0, 10**9)
    count += shown(program, "ledger", [full, body(2, 2, 2, 10**9), body(1, 2, 0, 0), body(1, 2, 0, 1)],
                   ["code 0 value 1000000000", "code 0 value 1000000000", "code 5 value 0"])
    return count


def main():
    program = sys.argv[1]
    rng = random.Random(SEED)
    count = shown_cases(program)
    seen = {"board": set(), "ledger": set()}
    for _ in range(FILES // 2):
        for name, model, good, firsts, seconds in (("board", Board, good_board, TRUCKS, SPOTS), ("ledger", Ledger, good_ledger, PILES, PILES)):
            lines = [line(rng, good, firsts, seconds) for _ in range(LINES)]
            seen[name].update(each.split(" value")[0] for each in compare(program, name, model, lines, lines[-1] == b"" or rng.random() < 0.5))
            count += len(lines)
    for name, codes in (("board", 5), ("ledger", 6)):
        missing = {f"code {code}" for code in range(codes)} | {"bad body"}
        if missing - seen[name]:
            sys.exit(f"{name}: never met {sorted(missing - seen[name])}")
        compare(program, name, Board if name == "board" else Ledger, [])
        compare(program, name, Board if name == "board" else Ledger, [b""])
    print(f"services: {count} bodies agree")


if __name__ == "__main__":
    main()
