#!/usr/bin/env python3
"""Speed of the digests: the program, the same algorithm in plain C at -O3, and python's hashlib (OpenSSL), in one run.
Run `rt run` in crates/pit first, then `python3 bench/digests.py`. Prints nanoseconds and ratios; it is no test and sets no limit."""
import hashlib
import hmac
import os
import subprocess
import sys
import tempfile
import time

HERE = os.path.dirname(os.path.abspath(__file__))
PIT = sys.argv[1] if len(sys.argv) > 1 else os.path.join(HERE, "..", "crates", "pit", "out", "pit")
TURNS = 5


def measured(command):
    out = subprocess.run(command, capture_output=True, text=True, check=True).stdout
    return {name: float(value) for name, value in (line.split() for line in out.splitlines())}


def openssl():
    data = bytearray(1_000_000)
    start = time.perf_counter_ns()
    for _ in range(200):
        data[0] = hashlib.sha256(data).digest()[0]
    large = (time.perf_counter_ns() - start) / 200
    key, text = bytes([7]) * 32, bytearray(60)
    start = time.perf_counter_ns()
    for _ in range(20_000):
        text[0] = hmac.digest(key, text, "sha256")[0]
    return {"sha256-1MB": large, "hmac-60": (time.perf_counter_ns() - start) / 20_000}


with tempfile.TemporaryDirectory() as folder:
    contestants = {"program": lambda: measured([PIT, "bench"])}
    for compiler in ("gcc", "clang"):
        binary = os.path.join(folder, compiler)
        if subprocess.run(["which", compiler], capture_output=True).returncode == 0:
            subprocess.run([compiler, "-O3", "-o", binary, os.path.join(HERE, "sha256.c")], check=True)
            contestants[f"{compiler} -O3"] = lambda binary=binary: measured([binary])
    contestants["hashlib"] = openssl
    best = {}
    for _ in range(TURNS):
        for name, run in contestants.items():
            for what, value in run().items():
                best[what, name] = min(value, best.get((what, name), value))

for what in ("sha256-1MB", "hmac-60"):
    for name in contestants:
        ratio = best[what, name] / best[what, "program"]
        print(f"{what:10} {name:10} {best[what, name]:12.0f} ns   the program runs at {ratio:.2f} of its speed")

# A new CALL with a card costs 11 blocks: 4 for the CALL's tag (30 bytes), 2 for the history (62 bytes), 5 for the ORDER's tag (108 bytes).
BLOCKS = 11
block = best["sha256-1MB", "program"] / (1_000_000 / 64)
call = best["lead-call", "program"]
print(f"lead-call  program    {call:12.0f} ns   {call / (BLOCKS * block):.2f} times the cost of its {BLOCKS} hash blocks; {1e9 / call:,.0f} calls a second on one core")
