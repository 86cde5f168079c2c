#!/usr/bin/env python3
"""Counts the instructions of `dcc_push` beside a plain state machine in C (bench/push.c), by callgrind of valgrind.

    bench/push.py

The inputs are ordinary packets and the half-bits of a noisy track, on which a bad half-bit cuts each seventh
packet. The script needs crates/dcc_c/out/libdcc_c.a (tools/c-library), a C compiler and valgrind. The exit status
is 1 if both give different outcomes, or if `dcc_push` takes more than MOST times the instructions of the state
machine.
"""
import os
import re
import subprocess
import sys
import tempfile

TOP = os.path.join(os.path.dirname(os.path.abspath(__file__)), "..")
MOST = float(os.environ.get("MOST", 0.97))
PACKETS = ["036261", "ff00ff", "039093", "ff00ff", "8cfd71", "c3e83f7f6b", "03ec1c06f5"]


def halves_of(packet):
    bits = [1] * 14
    for byte in bytes.fromhex(packet):
        bits += [0] + [byte >> place & 1 for place in range(7, -1, -1)]
    return [us for bit in bits + [1] for us in ([58, 58] if bit else [100, 100])]


def instructions(words, text):
    counted = ["valgrind", "--tool=callgrind", "--callgrind-out-file=/dev/null", *words]
    ran = subprocess.run(counted, input=text, capture_output=True, text=True, check=True)
    return int(re.search(r"Collected *: *(\d+)", ran.stderr)[1]), ran.stdout


def main():
    halves = [us for packet in PACKETS for us in halves_of(packet)]
    noisy = [
        us for at, packet in enumerate(PACKETS) for us in (halves_of(packet) if at else halves_of(packet)[:60] + [70])
    ]
    with tempfile.TemporaryDirectory() as room:
        program = os.path.join(room, "push")
        library = os.environ.get("LIBRARY", os.path.join(TOP, "crates/dcc_c/out/libdcc_c.a"))
        subprocess.run(
            ["cc", "-O2", "-Wl,--gc-sections", f"-I{TOP}/include", "-o", program, f"{TOP}/bench/push.c", library],
            check=True,
        )
        for name, turn in (("ordinary packets", halves), ("a noisy track", noisy)):
            turns = 440_000 // len(turn)
            text = " ".join(map(str, turn * turns))
            costs, sums = [], []
            for words in ([program], [program, "plain"]):
                with_them, told = instructions(words, text)
                costs.append(with_them)
                sums.append(told)
            reading, _ = instructions([program, "read"], text)
            if sums[0] != sums[1]:
                print(f"{name}: they differ: {sums}")
                return 1
            library_cost, plain_cost = [(cost - reading) / (turns * len(turn)) for cost in costs]
            times = library_cost / plain_cost
            print(
                f"{name}: dcc_push {library_cost:.1f} instructions per half-bit, plain C {plain_cost:.1f}: {times:.2f}"
            )
            if times > MOST:
                print(f"{name}: {MOST:g} times are let through")
                return 1
    return 0


sys.exit(main())
