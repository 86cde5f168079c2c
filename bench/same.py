#!/usr/bin/env python3
"""Times `dcc same --who s3` on inputs with two alike captures, in runs, with many different packets. The script prints
the times and the memory.

    bench/same.py [PROGRAM]

PROGRAM is the program to measure, crates/dcc/out/dcc if it is not given (`rt run` in crates/dcc builds it). Each case
runs ROUNDS times, in turn, and the fastest run counts.
"""
import itertools
import os
import resource
import subprocess
import sys
import tempfile
import time

ROUNDS = 3
LIMIT = 16_777_216


def packet(*values):
    check = 0
    for byte in values:
        check ^= byte
    return bytes(values) + bytes([check])


def halves_of(packet):
    halves = [58] * 28
    for byte in packet:
        halves += [100, 100]
        for place in range(7, -1, -1):
            halves += [58, 58] if byte >> place & 1 else [100, 100]
    return halves + [58, 58]


def line_of(packet):
    runs = [(us, len(list(same))) for us, same in itertools.groupby(halves_of(packet))]
    return " ".join(f"{us}*{n}" if n > 1 else f"{us}" for us, n in runs) + "\n"


def functions(to, first):
    return [packet(to, first, bits) for bits in range(256)]


# any two of these conflict
ONE_GROUP = functions(3, 0xDE)
# verifies of variables, which set nothing
SETTING_NOTHING = [packet(3, 0xE4 | cv >> 8, cv & 255, value) for value in range(64) for cv in range(1024)]
# what sets something in s3: groups of functions, speeds, resets, to it and to all
SETTING = [
    one
    for to in (3, 0)
    for one in [
        *itertools.chain.from_iterable(functions(to, first) for first in (0xDE, 0xDF, 0xD8, 0xD9, 0xDA, 0xDB, 0xDC)),
        *(packet(to, 0x80 | bits) for bits in range(64)),
        *(packet(to, 0x40 | bits) for bits in range(64)),
        *(packet(to, 0x3F, bits) for bits in range(256)),
        packet(to, 0),
    ]
]


def cases():
    yield "82,000 packets of 256 kinds, any two in conflict", ONE_GROUP, 82_000
    yield "16,000 different packets that set nothing", SETTING_NOTHING[:16_000], 16_000
    yield f"20,000 packets of all {len(set(SETTING)):,} kinds that set something", sorted(set(SETTING)), 20_000
    yield "as many different ones that set nothing as fit", SETTING_NOTHING, 10**9
    yield "as many of all kinds that set something as fit", sorted(set(SETTING)), 10**9


def write(path, kinds, most):
    lines = [(line_of(one), len(halves_of(one))) for one in kinds]
    count = taken = 0
    text = []
    for line, halves in itertools.cycle(lines):
        if taken == most or 2 * (count + halves) > LIMIT:
            break
        text.append(line)
        count += halves
        taken += 1
    with open(path, "w", encoding="ascii") as capture:
        capture.writelines(text)
        capture.write("---\n")
        capture.writelines(text)
    return taken


def seconds(program, path):
    with open(path, "rb") as capture:
        start = time.perf_counter()
        done = subprocess.run([program, "same", "--who", "s3"], stdin=capture, stdout=subprocess.PIPE, check=False)
        return time.perf_counter() - start, done.stdout.decode().strip()


def main():
    program = (
        sys.argv[1]
        if len(sys.argv) > 1
        else os.path.join(os.path.dirname(__file__), "..", "crates", "dcc", "out", "dcc")
    )
    with tempfile.TemporaryDirectory() as folder:
        path = os.path.join(folder, "captures.txt")
        for name, kinds, most in cases():
            taken = write(path, kinds, most)
            runs = [seconds(program, path) for _ in range(ROUNDS)]
            memory = resource.getrusage(resource.RUSAGE_CHILDREN).ru_maxrss
            print(
                f"{name}: {taken:,} a side, {min(runs)[0]:.2f} s, {runs[0][1]}; most memory {memory / 1024:.1f} MB",
                flush=True,
            )


main()
