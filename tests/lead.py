#!/usr/bin/env python3
"""Compares the lead, through replayed traces, with an independent model written from the rules. Argument 1 is the program."""
import hashlib
import hmac
import random
import subprocess
import sys

PIT = sys.argv[1]
PARTIES = list(range(10)) + list(range(256, 272))
LAST = 1_000_000
ROOM = 332


def key_of(party):
    return hashlib.sha256(party.to_bytes(2, "little")).digest()


def hexed(data):
    return data.hex() or "-"


class Cards:
    """Each party has a card of its own: tags are HMACs, without limit."""

    def stamp(self, party, text):
        if party not in PARTIES or len(text) > 300:
            return None
        return hmac.new(key_of(party), text, hashlib.sha256).digest()

    def check(self, party, text, tag):
        return self.stamp(party, text) == tag


class Register:
    """One register for all parties: the tag is the number of the row."""

    def __init__(self, rows):
        self.rows, self.limit = [], rows

    def stamp(self, party, text):
        if party not in PARTIES or len(text) > 300 or len(self.rows) >= self.limit:
            return None
        self.rows.append((party, text))
        return (len(self.rows) - 1).to_bytes(4, "little") + bytes(28)

    def check(self, party, text, tag):
        number = int.from_bytes(tag[:4], "little")
        return tag[4:] == bytes(28) and number < len(self.rows) and self.rows[number] == (party, text)


class Refused(Exception):
    pass


class Lead:
    def __init__(self, f, view, seal):
        self.f, self.view, self.seal = f, view, seal
        self.number = view % (3 * f + 1)
        self.place, self.history, self.rows = 0, bytes(32), {}

    def read_call(self, line):
        if len(line) < 10 or int.from_bytes(line[0:2], "little") != len(line):
            raise Refused(3, 0)
        if int.from_bytes(line[2:4], "little") != 1:
            raise Refused(4, 0)
        if len(line) != 62:
            raise Refused(5, 0)
        if int.from_bytes(line[6:10], "little") != self.view:
            raise Refused(6, 0)
        sender = int.from_bytes(line[4:6], "little")
        if not 256 <= sender <= 271:
            raise Refused(7, 0)
        stamp = int.from_bytes(line[10:14], "little")
        if not 1 <= stamp <= LAST:
            raise Refused(8, 0)
        if not self.seal.check(sender, line[:30], line[30:]):
            raise Refused(9, 0)
        return sender, stamp, line[14:30]

    def take(self, line, room):
        if room < ROOM:
            raise Refused(2, 0)
        sender, stamp, body = self.read_call(line)
        row = self.rows.get(sender, (0, 0, bytes(32), bytes(16)))
        if stamp < row[0] or (stamp == row[0] and body != row[3]):
            raise Refused(15, 0)
        fresh = stamp > row[0]
        if fresh:
            if self.place >= LAST:
                raise Refused(17, 0)
            row = (stamp, self.place + 1, hashlib.sha256(self.history + line[:30]).digest(), body)
        text = (140).to_bytes(2, "little") + (2).to_bytes(2, "little") + self.number.to_bytes(2, "little") + self.view.to_bytes(4, "little")
        text += row[1].to_bytes(4, "little") + row[2] + line
        tag = self.seal.stamp(self.number, text)
        if tag is None:
            raise Refused(12, 0)
        if fresh:
            self.place, self.history = row[1], row[2]
            self.rows[sender] = row
        return text + tag


class Trace:
    def __init__(self, dice):
        self.dice, self.lines, self.want = dice, [], []
        self.lead, self.room, self.calls = None, ROOM, []

    def say(self, line, answer):
        self.lines.append(line)
        if answer is not None:
            self.want.append(answer)

    def open(self):
        f = self.dice.choice([0, 1, 1, 1, 2, 3, 4, 255, 256])
        view = self.dice.choice([0, 1, 7, 12, 2**32 - 1, self.dice.randrange(2**32)])
        rows = self.dice.choice([1, 3, 12, 100000])
        kind, seal = self.dice.choice([("card", Cards()), ("card", Cards()), ("register", Register(100000)), (f"register:{rows}", Register(rows))])
        line = f"pit {f} {view} {kind} {self.dice.choice(['board', 'ledger'])}"
        if not 1 <= f <= 3:
            return self.say(line, "refused 1 0")
        self.lead, self.calls = Lead(f, view, seal), []
        self.say(line, "ok")

    def stamped(self, party, text):
        tag = self.lead.seal.stamp(party, text)
        self.say(f"seal stamp {party} {hexed(text)}", "refused 12 0" if tag is None else f"ok {tag.hex()}")
        return tag if tag is not None else bytes(32)

    def call(self):
        """A CALL line: new, repeated, old, with another body, or damaged."""
        dice = self.dice
        tablet = dice.choice([0, 0, 1, 2, 15, 15, 16]) if dice.random() < 0.95 else dice.randrange(65536 - 256)
        sender = 256 + tablet
        last = self.lead.rows.get(sender, (0, 0, b"", bytes(16)))
        stamp = dice.choice([last[0] + 1, last[0] + 1, last[0] + 1, last[0] + dice.randrange(1, 9), last[0], max(0, last[0] - 1), 0, LAST, LAST + 1]) if dice.random() < 0.9 else dice.randrange(2**32)
        if stamp >= 2**32:
            stamp = 1
        body = last[3] if stamp == last[0] and dice.random() < 0.7 else dice.randbytes(16)
        view = self.lead.view if dice.random() < 0.97 else dice.randrange(2**32)
        text = (62).to_bytes(2, "little") + (1).to_bytes(2, "little") + (sender % 65536).to_bytes(2, "little") + view.to_bytes(4, "little") + stamp.to_bytes(4, "little") + body
        line = text + self.stamped(sender % 65536, text)
        return line

    def damaged(self, line):
        dice, line = self.dice, bytearray(line)
        way = dice.randrange(6)
        if way == 0:
            line[dice.randrange(len(line))] ^= 1 << dice.randrange(8)
        elif way == 1:
            del line[dice.randrange(len(line)):]
        elif way == 2:
            line += dice.randbytes(dice.randrange(1, 5))
        elif way == 3:
            line[2:4] = dice.randrange(9).to_bytes(2, "little")
        elif way == 4:
            line[4:6] = dice.choice([0, 3, 9, 10, 255, 256, 271, 272, 65535]).to_bytes(2, "little")
        else:
            line += dice.randbytes(30)
            line[0:2] = len(line).to_bytes(2, "little")
        return bytes(line)

    def take(self):
        dice = self.dice
        line = dice.choice(self.calls) if self.calls and dice.random() < 0.35 else self.call()
        if dice.random() < 0.2:
            line = self.damaged(line)
        else:
            self.calls.append(line)
        try:
            written = self.lead.take(line, self.room)
            answer = f"ok {len(written)} {written.hex()}"
        except Refused as why:
            answer = "refused %d %d" % why.args
        self.say(f"lead take {hexed(line)}", answer)

    def step(self):
        what = self.dice.random()
        if self.lead is None or what < 0.01:
            if self.lead is None and what > 0.5:
                return self.say(self.dice.choice(["lead show", "lead take 00", "seal stamp 0 00"]), "bad command")
            return self.open()
        if what < 0.04:
            self.room = self.dice.choice([0, 1, 139, 140, 331, 332, 332, 332, 333, 1000])
            return self.say(f"room {self.room}", None)
        if what < 0.08:
            return self.say("lead show  # where it stands", f"place {self.lead.place} history {self.lead.history.hex()}")
        if what < 0.10:
            bad = ["lead", "lead show 1", "lead take", "lead take 0", "lead take zz", "lead take 00 00", "room", "room x", "room 1 2", "room 1000001", "pit", "pit 1 0 card",
                   "pit 1 0 card barge", "pit 1 0 stone board", "pit x 0 card board", "pit 1 4294967296 card board", "pit 1 0 card board 5", "pit 1 0 register:0 board",
                   "box 0 show", "tablet 0 call 00", "dance", "seal stamp 65536 00", "seal check 0 00"]
            return self.say(self.dice.choice(bad), "bad command")
        if what < 0.11:
            return self.say(self.dice.choice(["", "   ", "# a comment", "\t# another"]), None)
        self.take()


dice = random.Random(20261118)
total = 0
met = set()
for turn in range(60):
    trace = Trace(dice)
    for _ in range(300):
        trace.step()
    done = subprocess.run([PIT, "replay"], input="\n".join(trace.lines) + "\n", capture_output=True, text=True)
    got = done.stdout.splitlines()
    if done.returncode != 0 or len(got) != len(trace.want):
        sys.exit(f"lead: trace {turn}: status {done.returncode}, {len(got)} answers where {len(trace.want)} are due; {done.stderr}")
    for number, (want, have) in enumerate(zip(trace.want, got)):
        if want != have:
            sys.exit(f"lead: trace {turn}, answer {number}: expected {want}, got {have}")
        met.add(" ".join(want.split()[:2]) if want.startswith("refused") else want.split()[0])
    total += len(trace.lines)
lacking = {f"refused {n}" for n in (1, 2, 3, 4, 5, 6, 7, 8, 9, 12, 15)} - met
if lacking:
    sys.exit(f"lead: never met: {sorted(lacking)}")
print(f"lead: {total} commands agree")
