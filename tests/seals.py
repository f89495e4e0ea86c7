#!/usr/bin/env python3
"""Cards and registers against an independent model: hashlib and hmac for the card, a list of rows for the register.

usage: tests/seals.py PATH-OF-PIT
"""
import hashlib
import hmac
import os
import random
import subprocess
import sys
import tempfile

PIT = sys.argv[1]
PARTIES = list(range(10)) + list(range(256, 272))
STRANGERS = [10, 11, 100, 255, 272, 300, 511, 512, 65535]
LONGEST = 300
REFUSED = "refused 12 0"


def key_of(party):
    return hashlib.sha256(party.to_bytes(2, "little")).digest()


class Card:
    """Stamps for its owner; accepts the HMAC-SHA-256 tags under the keys of all 26 parties."""

    def __init__(self, owner):
        self.owner = owner

    def ready(self, party):
        return party == self.owner and party in PARTIES

    def stamp(self, party, text):
        if not self.ready(party) or len(text) > LONGEST:
            return None
        return hmac.new(key_of(party), text, hashlib.sha256).digest()

    def check(self, party, text, tag):
        if party not in PARTIES or len(text) > LONGEST:
            return False
        return tag == hmac.new(key_of(party), text, hashlib.sha256).digest()


class Register:
    """Writes rows, and accepts what they say."""

    def __init__(self, limit):
        self.limit = limit
        self.rows = []

    def ready(self, party):
        return party in PARTIES and len(self.rows) < self.limit

    def stamp(self, party, text):
        if not self.ready(party) or len(text) > LONGEST:
            return None
        self.rows.append((party, text))
        return self.tag(len(self.rows) - 1)

    @staticmethod
    def tag(number):
        return number.to_bytes(4, "little") + bytes(28)

    def check(self, party, text, tag):
        return any((party, text, tag) == (p, x, self.tag(n)) for n, (p, x) in enumerate(self.rows))


def hexed(data):
    return data.hex() or "-"


class Session:
    """Commands for one seal, with the answers that the model gives."""

    def __init__(self, kind, number, model):
        self.args = [PIT, "seal", kind, str(number)]
        self.model = model
        self.lines = []
        self.answers = []

    def ready(self, party):
        self.lines.append(f"ready {party}")
        self.answers.append("yes" if self.model.ready(party) else "no")

    def stamp(self, party, text):
        tag = self.model.stamp(party, text)
        self.lines.append(f"stamp {party} {hexed(text)}")
        self.answers.append(REFUSED if tag is None else "ok " + tag.hex())
        return tag

    def check(self, party, text, tag):
        self.lines.append(f"check {party} {hexed(text)} {hexed(tag)}")
        self.answers.append("yes" if self.model.check(party, text, tag) else "no")

    def bad(self, line):
        self.lines.append(line)
        self.answers.append("bad command")

    def damaged(self, dice, party, text, tag):
        """The triple itself, and the triple with each of its parts spoilt."""
        self.check(party, text, tag)
        self.check(dice.choice(PARTIES), text, tag)
        self.check(dice.choice(STRANGERS), text, tag)
        self.check(party, text + b"\0", tag)
        self.check(party, text[:-1], tag)
        self.check(party, text, tag[:-1])
        self.check(party, text, tag + b"\0")
        self.check(party, text, b"")
        self.check(party, text, flipped(dice, tag))
        if text:
            self.check(party, flipped(dice, text), tag)

    def run(self):
        done = subprocess.run(self.args, input="\n".join(self.lines) + "\n", capture_output=True, text=True)
        if done.returncode != 0:
            sys.exit(f"seals: {self.args} ended with {done.returncode}: {done.stderr}")
        got = done.stdout.splitlines()
        if len(got) != len(self.answers):
            sys.exit(f"seals: {self.args}: {len(got)} answers to {len(self.answers)} commands")
        for line, want, have in zip(self.lines, self.answers, got):
            if want != have:
                sys.exit(f"seals: {self.args}: {line}\n  model {want}\n  pit   {have}")
        return len(got)


def flipped(dice, data):
    """The bytes with one bit changed."""
    spoilt = bytearray(data)
    spoilt[dice.randrange(len(spoilt))] ^= 1 << dice.randrange(8)
    return bytes(spoilt)


def some_text(dice):
    length = dice.choice([0, 1, 2, 30, 55, 56, 63, 64, 65, 127, 128, 298, 299, 300, 301, 302, 400, dice.randrange(301)])
    text = dice.randbytes(length)
    zeros = dice.choice([0, 0, 0, 1, 5])
    return text[: max(0, length - zeros)] + bytes(min(zeros, length))


def card_session(dice, owner):
    session = Session("card", owner, Card(owner))
    for party in PARTIES + STRANGERS:
        session.ready(party)
    for length in range(0, 306, 3):
        text = dice.randbytes(length)
        tag = session.stamp(owner, text)
        session.check(owner, text, tag if tag is not None else bytes(32))
    for _ in range(12):
        text = some_text(dice)
        tag = session.stamp(owner, text)
        if tag is not None:
            session.damaged(dice, owner, text, tag)
        session.stamp(dice.choice(PARTIES), text)
        session.stamp(dice.choice(STRANGERS), text)
    for party in PARTIES:
        # a card accepts the tags of all parties, whoever stamped them
        text = some_text(dice)
        session.check(party, text, hmac.new(key_of(party), text, hashlib.sha256).digest())
        session.check(party, text, hmac.new(key_of(dice.choice(PARTIES)), text, hashlib.sha256).digest())
    return session.run()


def register_session(dice, rows, stamps):
    session = Session("register", rows, Register(rows))
    given = []
    session.check(0, b"", bytes(32))
    for _ in range(stamps):
        party = dice.choice(PARTIES + STRANGERS[:2])
        # now and then an old text again, or an old text with one zero more
        text = some_text(dice)
        if given and dice.random() < 0.3:
            text = dice.choice(given)[1] + dice.choice([b"", b"\0"])
        tag = session.stamp(party, text)
        if tag is not None:
            given.append((party, text, tag))
        if given and dice.random() < 0.4:
            session.damaged(dice, *dice.choice(given))
        session.ready(dice.choice(PARTIES + STRANGERS))
    # everything is kept to the end, and nothing stands past the last row
    for party, text, tag in given:
        session.check(party, text, tag)
        session.check(party, text + b"\0", tag)
        session.check(party, text, Register.tag(len(given)))
        session.check(party, text, b"\xff" * 32)
    return session.run()


def bad_commands():
    session = Session("register", 4, Register(4))
    for line in ["", " ", "ready", "ready x", "ready -1", "ready 65536", "ready 0 0", "stamp 0", "stamp 0 0", "stamp 0 0g",
                 "stamp 0 00 00", "stamp 0 0g", "check 0 00", "check 0 00 0", "check 0 00 00 00", "seal 0 00", "stamp  0 00"]:
        session.bad(line)
    session.stamp(0, b"\0")
    return session.run()


def said(*args):
    """What a command says: on standard output with status 0, or what went wrong on standard error with status 1."""
    done = subprocess.run([PIT, *args], capture_output=True, text=True, stdin=subprocess.DEVNULL)
    if done.returncode == 0 and not done.stderr:
        return done.stdout.strip()
    if done.returncode == 1 and not done.stdout and done.stderr.startswith("pit: "):
        return done.stderr.strip()
    sys.exit(f"seals: {args}: {done}")


def expect(want, have):
    if want != have:
        sys.exit(f"seals: expected {want!r}, and pit says {have!r}")
    return 1


def key_files():
    keys = [key_of(p).hex() for p in PARTIES]
    spoilt = keys[4][:10] + "G" + keys[4][11:]
    cases = [
        (keys, "26 keys read"),
        (keys[:25], "pit: the file ends after 25 keys, where 26 are wanted"),
        ([], "pit: the file ends after 0 keys, where 26 are wanted"),
        (keys + [""], "pit: line 27: a key too many, where 26 are wanted"),
        (keys[:3] + [keys[3][:-1]] + keys[4:], "pit: line 4: 63 characters, where a key has 64 hex digits"),
        (keys[:1] + [""] + keys[1:], "pit: line 2: 0 characters, where a key has 64 hex digits"),
        (keys[:4] + [spoilt] + keys[5:], "pit: line 5: character 11 is no hex digit"),
    ]
    done = 0
    for lines, want in cases:
        with tempfile.NamedTemporaryFile("w", suffix=".keys", delete=False) as file:
            file.write("".join(line + "\n" for line in lines))
        done += expect(want, said("keys", file.name))
        os.unlink(file.name)
    return done + expect("pit: No such file or directory (os error 2)", said("keys", "/no/such/file"))


def main():
    dice = random.Random(20261117)
    done = 0
    for owner in [0, 7, 9, 256, 260, 271, 10, 255, 272, 65535]:
        done += card_session(dice, owner)
    for rows, stamps in [(0, 10), (1, 20), (2, 40), (3, 60), (25, 60), (40, 300), (300, 250), (100000, 100)]:
        done += register_session(dice, rows, stamps)
    done += bad_commands()
    done += expect("pit: a register has at most 100000 rows", said("seal", "register", "100001"))
    done += key_files()
    print(f"seals: {done} commands agree")


main()
