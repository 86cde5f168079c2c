#!/usr/bin/env python3
"""Times `dcc show` and `dcc run` beside `wc -w` on a capture of 16,000,000 halves, written half by half and in runs
(`58*28`), and prints the times, the ratios and the memory.

    bench/show.py [PROGRAM]

PROGRAM is the built program, crates/dcc/out/dcc if it is not given (built by `rt run` in crates/dcc).
The capture has ordinary packets, a line each: idle, speed, functions, an accessory and a variable write. `dcc run`
plays it to a locomotive and a board. Each program runs ROUNDS times, in turn; the fastest run of each counts.
"""
import itertools
import os
import subprocess
import sys
import tempfile
import time

HALVES = 16_000_000
ROUNDS = 7
PACKETS = [
    [0x03, 0x62, 0x61],
    [0xFF, 0x00, 0xFF],
    [0x03, 0x90, 0x93],
    [0xFF, 0x00, 0xFF],
    [0x8C, 0xFD, 0x71],
    [0xC3, 0xE8, 0x3F, 0x7F, 0x6B],
    [0x03, 0xEC, 0x1C, 0x06, 0xF5],
]


def halves_of(packet):
    halves = [58] * 28
    for byte in packet:
        halves += [100, 100]
        for place in range(7, -1, -1):
            halves += [58, 58] if byte >> place & 1 else [100, 100]
    return halves + [58, 58]


DECODERS = """dcc-decoders 2
loco s3
speed stop f
on
states
pending none
cv 1 3
cv 29 2
board 12
out
position 0 0 0 0
aspect 0 0 0 0
end
"""


def one_by_one(halves):
    return " ".join(map(str, halves))


def in_runs(halves):
    runs = [(us, len(list(same))) for us, same in itertools.groupby(halves)]
    return " ".join(f"{us}*{n}" if n > 1 else f"{us}" for us, n in runs)


def write_capture(path, written, head=""):
    lines = [(written(halves) + "\n", len(halves)) for halves in map(halves_of, PACKETS)]
    count = turn = 0
    with open(path, "w", encoding="ascii") as capture:
        capture.write(head)
        while count + lines[turn][1] <= HALVES:
            capture.write(lines[turn][0])
            count += lines[turn][1]
            turn = (turn + 1) % len(lines)
        capture.write(written([58] * (HALVES - count)) + "\n")


def seconds(words, path):
    with open(path, "rb") as capture:
        start = time.perf_counter()
        subprocess.run(words, stdin=capture, stdout=subprocess.DEVNULL, check=True)
        return time.perf_counter() - start


def peak_memory(words, path):
    """In kilobytes, by GNU time, whose own process is small."""
    with open(path, "rb") as capture:
        timed = ["/usr/bin/time", "-f", "%M"] + words
        told = subprocess.run(timed, stdin=capture, stdout=subprocess.DEVNULL, stderr=subprocess.PIPE, check=True)
        return int(told.stderr)


def main():
    here = os.path.dirname(os.path.abspath(__file__))
    program = sys.argv[1] if len(sys.argv) > 1 else os.path.join(here, "..", "crates", "dcc", "out", "dcc")
    with tempfile.TemporaryDirectory() as folder:
        for name, written in [("half by half", one_by_one), ("in runs", in_runs)]:
            capture = os.path.join(folder, "capture.txt")
            played = os.path.join(folder, "played.txt")
            write_capture(capture, written)
            write_capture(played, written, DECODERS)
            programs = [(["wc", "-w"], capture), ([program, "show"], capture), ([program, "run"], played)]
            times = [min(times) for times in zip(*[[seconds(*each) for each in programs] for _ in range(ROUNDS)])]
            print(f"{name}, {os.path.getsize(capture) / 1e6:.0f} MB")
            print(f"    wc -w     {times[0]:.3f} s")
            for (words, path), time_taken in list(zip(programs, times))[1:]:
                ratio = time_taken / times[0]
                memory = peak_memory(words, path)
                print(f"    dcc {words[1]:<5} {time_taken:.3f} s, {ratio:.2f} times wc -w, {memory} KB")


main()
