#!/usr/bin/env python3
"""Lines: an independent reader, compared with `pit read-many` on many lines. Run: lines.py PATH-OF-PIT"""
import random
import subprocess
import sys

HEADER, TAG = 10, 32
LAST = 1_000_000
NAMES = {1: "CALL", 2: "ORDER", 3: "ANSWER", 4: "CERT", 5: "COMMITTED", 6: "SHEET", 7: "CHARGE"}
# the fields between header and tag: name, width, and whether it is a number, bytes or an inner line of a kind
MIDDLE = {
    1: [("stamp", 4, int), ("body", 16, bytes)],
    2: [("place", 4, int), ("history", 32, bytes), (1, 62, "line")],
    3: [("place", 4, int), ("history", 32, bytes), ("tablet", 2, int), ("stamp", 4, int), ("reply", 8, bytes)],
    5: [("place", 4, int), ("history", 32, bytes), ("tablet", 2, int), ("stamp", 4, int)],
    6: [("place", 4, int), ("history", 32, bytes), ("print", 32, bytes)],
    7: [(2, 140, "line"), (2, 140, "line")],
}


def middle(kind, f):
    if kind != 4:
        return MIDDLE[kind]
    return MIDDLE[3] + [("count", 2, int)] + [("entry", 34, "entry")] * (2 * f + 1)


def size_of(kind, f):
    return HEADER + sum(w for _, w, _ in middle(kind, f)) + TAG


def num(b):
    return int.from_bytes(b, "little")


class Refused(Exception):
    pass


def parse(f, view, kinds, data, at):
    """The line in words, or Refused(number, offset): all checks on this line, then on its inner lines in turn."""
    if len(data) < HEADER or num(data[0:2]) != len(data):
        raise Refused(3, at)
    kind = num(data[2:4])
    if kind not in kinds:
        raise Refused(4, at)
    if len(data) != size_of(kind, f):
        raise Refused(5, at)
    if num(data[6:10]) != view:
        raise Refused(6, at)
    sender = num(data[4:6])
    boxes = 3 * f + 1
    may = {1: 256 <= sender <= 271, 2: sender == view % boxes, 3: sender < boxes, 4: 256 <= sender <= 271,
           5: sender < boxes, 6: sender < boxes, 7: 256 <= sender <= 271}[kind]
    if not may:
        raise Refused(7, at)
    pos, words, inner, entries = HEADER, [], [], []
    good = True
    for name, width, sort in middle(kind, f):
        part = data[pos:pos + width]
        if sort is int:
            n = num(part)
            if name in ("place", "stamp"):
                good &= 1 <= n <= LAST
            if name == "tablet":
                good &= n < 16
                if kind == 4:
                    good &= sender == 256 + n
            if name == "count":
                good &= n == 2 * f + 1
            else:
                words.append(f"{name} {n}")
            if name == "place" and kind == 6:
                good &= n % 8 == 0
        elif sort is bytes:
            words.append(f"{name} {part.hex()}")
        elif sort == "entry":
            entries.append((num(part[:2]), part[2:]))
        else:
            inner.append((name, pos, part))
        pos += width
    for a, b in zip(entries, entries[1:]):
        good &= a[0] < b[0]
    good &= all(b < boxes for b, _ in entries)
    if not good:
        raise Refused(8, at)
    text = " ".join([NAMES[kind], f"from {sender} view {view}"] + words + [f"tag {data[pos:].hex()}"])
    if kind == 4:
        text += ":" + "".join(f" box {b} tag {t.hex()}" for b, t in entries)
    if inner:
        text += ": " + "; ".join(parse(f, view, {k}, part, at + p) for k, p, part in inner)
    return text


def expected(f, view, kinds, data):
    if not 1 <= f <= 3:
        return "refused 1 0"
    try:
        return parse(f, view, set(range(1, 8)) if kinds == "all" else set(map(int, kinds.split(","))), data, 0)
    except Refused as r:
        return f"refused {r.args[0]} {r.args[1]}"


rng = random.Random(20)


def noise(n):
    return bytes(rng.getrandbits(8) for _ in range(n))


def le(n, w):
    return (n % (1 << (8 * w))).to_bytes(w, "little")


def build(kind, f, view, **o):
    """A right line of the kind, but for the fields given: by name, or `size`, `number` (the kind told), `sender`, `seen` (the view told)."""
    boxes = 3 * f + 1
    tablet = o.get("tablet", rng.randrange(16))
    sender = o.get("sender", {1: 256 + rng.randrange(16), 2: view % boxes, 4: 256 + tablet,
                              7: 256 + rng.randrange(16)}.get(kind, rng.randrange(boxes)))
    out = b""
    voters = o.get("boxes", sorted(rng.sample(range(boxes), 2 * f + 1)))
    voters = iter(voters)
    inners = iter(o.get("inner", []))
    for name, width, sort in middle(kind, f):
        if sort is int:
            right = {"stamp": rng.randint(1, LAST), "place": rng.randint(1, LAST // 8) * 8 if kind == 6 else rng.randint(1, LAST),
                     "tablet": tablet, "count": 2 * f + 1}[name]
            out += le(o.get(name, right), width)
        elif sort is bytes:
            out += noise(width)
        elif sort == "entry":
            out += le(next(voters), 2) + noise(32)
        else:
            out += next(inners, None) or build(name, f, view)
    size = HEADER + len(out) + TAG
    return le(o.get("size", size), 2) + le(o.get("number", kind), 2) + le(sender, 2) + le(o.get("seen", view), 4) + out + noise(TAG)


def patched(data, at, b):
    return data[:at] + b + data[at + len(b):]


cases = []


def add(f, view, kinds, data):
    cases.append((f, view, kinds, data))


VIEWS = [0, 1, 7, 2 ** 32 - 1]
for f in (1, 2, 3):
    for view in VIEWS:
        for kind in range(1, 8):
            for _ in range(20):
                add(f, view, "all", build(kind, f, view))
            # every field at and beyond its limits
            for stamp in (0, 1, 2, LAST - 1, LAST, LAST + 1, 2 ** 32 - 1):
                for name in ("stamp", "place"):
                    add(f, view, "all", build(kind, f, view, **{name: stamp}))
            for place in (8, 12, 16, LAST - 8, LAST, LAST + 8, 4, 7, 9):
                add(f, view, "all", build(kind, f, view, place=place))
            for tablet in (0, 14, 15, 16, 255, 256, 65535):
                add(f, view, "all", build(kind, f, view, tablet=tablet))
                add(f, view, "all", build(kind, f, view, tablet=tablet, sender=256 + tablet if tablet < 65000 else 3))
            for sender in list(range(12)) + [255, 256, 257, 270, 271, 272, 65535]:
                add(f, view, "all", build(kind, f, view, sender=sender))
                add(f, view, "all", build(kind, f, view, sender=sender, tablet=max(0, sender - 256) % 65536))
            for other in (view + 1, view - 1, view ^ (1 << 24), view ^ 256):
                add(f, view, "all", build(kind, f, view, seen=other % 2 ** 32))
            for number in list(range(0, 10)) + [256 + kind, 65535]:
                add(f, view, "all", build(kind, f, view, number=number))
            size = size_of(kind, f)
            for wrong in (0, 9, 10, size - 1, size, size + 1, 62, 65535, size + 65536):
                add(f, view, "all", build(kind, f, view, size=wrong))
            # kinds that are taken
            for kinds in ("1", "2,4,6,7", "2,3,5", "1,2", "7", "4", "3,5", str(kind)):
                add(f, view, kinds, build(kind, f, view))
            # a line of another pit
            for g in (0, 1, 2, 3, 4, 255):
                add(g, view, "all", build(kind, f, view))
        # CERT entries
        boxes = 3 * f + 1
        q = 2 * f + 1
        for count in (0, q - 1, q, q + 1, 65535):
            add(f, view, "all", build(4, f, view, count=count))
        for _ in range(60):
            add(f, view, "all", build(4, f, view, boxes=[rng.randrange(boxes + 1) for _ in range(q)]))
            right = sorted(rng.sample(range(boxes), q))
            i = rng.randrange(q)
            add(f, view, "all", build(4, f, view, boxes=right[:i] + [right[i] + rng.choice([-1, 1, 256])] + right[i + 1:]))
        add(f, view, "all", build(4, f, view, boxes=list(range(boxes - q, boxes))))
        add(f, view, "all", build(4, f, view, boxes=list(range(boxes - q + 1, boxes + 1))))
        add(f, view, "all", build(4, f, view, boxes=list(range(q - 1, -1, -1))))
        add(f, view, "all", build(4, f, view, boxes=[0] * q))
        # faults in inner lines, at each place where one stands
        bad_calls = [build(1, f, view, size=61), build(1, f, view, number=2), build(1, f, view, seen=view ^ 1),
                     build(1, f, view, sender=255), build(1, f, view, stamp=0), build(1, f, view, stamp=LAST + 1)]
        bad_orders = [build(2, f, view, size=141), build(2, f, view, number=1), build(2, f, view, seen=view ^ 1),
                      build(2, f, view, sender=(view + 1) % boxes), build(2, f, view, place=0), build(2, f, view, place=LAST + 1)]
        bad_orders += [build(2, f, view, inner=[c]) for c in bad_calls]
        for c in bad_calls:
            add(f, view, "all", build(2, f, view, inner=[c]))
            add(f, view, "all", build(2, f, view, inner=[c], place=0))
            add(f, view, "1", build(2, f, view, inner=[c]))
        for o in bad_orders:
            add(f, view, "all", build(7, f, view, inner=[o]))
            add(f, view, "all", build(7, f, view, inner=[None, o]))
            for p in bad_orders:
                add(f, view, "all", build(7, f, view, inner=[o, p]))
# every single byte of one line of each kind damaged, each length shorter, and some longer
for kind in range(1, 8):
    for f, view in ((1, 0), (3, 7)):
        good = build(kind, f, view)
        for i in range(len(good)):
            for _ in range(6):
                add(f, view, "all", patched(good, i, bytes([good[i] ^ rng.randrange(1, 256)])))
            add(f, view, "all", good[:i])
            add(f, view, "all", patched(good[:i], 0, le(i, 2)) if i >= 2 else good[:i])
        for more in range(1, 80):
            add(f, view, "all", good + noise(more))
            add(f, view, "all", patched(good + noise(more), 0, le(len(good) + more, 2)))
# a size field that would fit only if the length were cut to 16 bits
long = build(1, 1, 0) + bytes(65536)
assert len(long) == 65598 and num(long[:2]) == 62
add(1, 0, "all", long)
# no bytes, few bytes, noise
for n in range(0, 40):
    for _ in range(20):
        add(1, 0, "all", noise(n))
for _ in range(30000):
    f = rng.choice((1, 2, 3))
    view = rng.choice(VIEWS + [rng.getrandbits(32)])
    kind = rng.randrange(1, 8)
    data = build(kind, f, view)
    for _ in range(rng.randrange(0, 3)):
        at = rng.randrange(len(data))
        data = patched(data, at, noise(min(rng.randrange(1, 5), len(data) - at)))
    add(f, view, rng.choice(["all", "all", "2,4,6,7", "2,3,5", "1"]), data)

lines = [f"{f} {view} {kinds} {data.hex() or '-'}" for f, view, kinds, data in cases]
want = [expected(*c) for c in cases]
for bad in ("", "1 0 all", "1 0 all 0", "1 0 all 0g", "1 0 8 -", "1 0 1,,2 -", "1 x all -", "1 4294967296 all -", "1 0 all - -", "18446744073709551616 0 all -"):
    lines.append(bad)
    want.append("bad command")
run = subprocess.run([sys.argv[1], "read-many"], input="\n".join(lines) + "\n", capture_output=True, text=True)
got = run.stdout.splitlines()
if run.returncode != 0 or len(got) != len(want):
    print(f"lines: status {run.returncode}, {len(got)} answers to {len(want)} lines")
    sys.exit(1)
for line, a, b in zip(lines, want, got):
    if a != b:
        print(f"lines: {line[:400]}\n  expected {a}\n  found    {b}")
        sys.exit(1)
# the command for one line answers the same
for i in rng.sample(range(len(cases)), 40):
    if len(lines[i]) < 3000:
        one = subprocess.run([sys.argv[1], "read"] + lines[i].split(" "), capture_output=True, text=True)
        if one.stdout != want[i] + "\n":
            print(f"lines: read {lines[i]}\n  expected {want[i]}\n  found    {one.stdout}")
            sys.exit(1)
numbers = {w.split()[1] for w in want if w.startswith("refused")}
assert numbers == set("1345678"), numbers
assert {w.split()[0] for w in want if not w.startswith(("refused", "bad"))} == set(NAMES.values())
print(f"lines: {len(want)} lines agree")
