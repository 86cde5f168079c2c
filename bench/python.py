#!/usr/bin/env python3
"""Times `capture` of the package for Python on captures of 16,777,216 half-bits, the most that a capture can have.

    bench/python.py        needs the libdcc_c.so of bindings/python/make, or the one that DCC_SO names

The captures have the half-bits of packets as words: exact ones of 58 and 100 microseconds, measured ones that differ by
at most 3 microseconds from these, and exact ones in runs. Each capture is read ROUNDS times. The script prints the
least of the processor seconds.
"""
import os
import random
import sys
import time

TOP = os.path.join(os.path.dirname(os.path.abspath(__file__)), "..")
sys.path.insert(0, os.path.join(TOP, "bindings", "python"))
import dcc

ROUNDS = int(os.environ.get("ROUNDS", 3))
LINES = "loco s3 speed28 f 4", "idle", "loco s3 functions 0 16", "accessory 12 2 on", "loco l1000 speed128 f 60"


def cut(words):
    """Returns 16,777,216 of the words, which are repeated, as a capture."""
    times = -(-dcc.MOST_HALVES // len(words))
    return " ".join((words * times)[: dcc.MOST_HALVES])


def in_runs(halves):
    """Returns 16,777,216 half-bits in runs."""
    words = []
    for us in halves:
        if words and words[-1][0] == us:
            words[-1][1] += 1
        else:
            words.append([us, 1])
    line = " ".join(f"{us}*{count}" for us, count in words)
    return f"{line}\n" * (dcc.MOST_HALVES // len(halves)) + f"58*{dcc.MOST_HALVES % len(halves)}"


def main():
    halves = [us for line in LINES for us in dcc.halves(dcc.frame(line))]
    chance = random.Random(20261128)
    measured = [us + chance.randint(-3, 3) for us in halves * 200]
    captures = {"exact": cut([*map(str, halves)]), "measured": cut([*map(str, measured)]), "in runs": in_runs(halves)}
    for name, capture in captures.items():
        times = []
        for _ in range(ROUNDS):
            begin = time.process_time()
            found = dcc.capture(capture)
            times.append(time.process_time() - begin)
        assert len(found) == dcc.MOST_HALVES
        print(f"{name}, {len(capture) / 1e6:.0f} MB: {min(times):.2f} s", flush=True)


if __name__ == "__main__":
    main()
