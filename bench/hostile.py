#!/usr/bin/env python3
"""Times `dcc` on inputs within the limits that were made to be slow, and prints a table. The exit status is 1 if an
input takes more than MOST seconds.

    bench/hostile.py [PROGRAM]

PROGRAM is the program to measure, crates/dcc/out/dcc if it is not given (`rt run` in crates/dcc builds it). The times
are processor seconds (user and system), the fastest of ROUNDS runs.
"""
import itertools
import os
import resource
import subprocess
import sys
import tempfile

MOST = float(os.environ.get("MOST", 5))
ROUNDS = int(os.environ.get("ROUNDS", 1))
HALVES, BYTES = 16_777_216, 67_108_864
FLEET = (
    "dcc-decoders 2\n"
    + "".join(f"loco s{n}\nspeed stop f\non\nstates\npending none\ncv 1 {n}\ncv 29 2\n" for n in range(1, 65))
    + "end\n"
)


def packet(*values):
    check = 0
    for byte in values:
        check ^= byte
    return bytes(values) + bytes([check])


def line_of(frame):
    """The shortest packet that is found: ten ones, and the body, one half a word."""
    bits = [1] * 10 + [bit for byte in frame for bit in [0] + [byte >> place & 1 for place in range(7, -1, -1)]] + [1]
    return "".join("58 58 " if bit else "100 100 " for bit in bits)[:-1] + "\n"


def track(frames):
    """As many of these packets in turn as the limits let through."""
    lines = [line_of(frame) for frame in frames]
    halves = sum(line.count(" ") + 1 for line in lines)
    times = min(HALVES // halves, (BYTES - len(FLEET)) // sum(map(len, lines)))
    return "".join(lines) * times


def filled(piece, at_most=BYTES):
    return piece * (at_most // len(piece))


def bodies_everywhere(one, zero, end=" "):
    """Half-bits in which bodies begin in as many places as possible, and the finder of lost packets looks for each."""
    return filled("".join(f"{one if bit == '1' else zero}{end}" * 2 for bit in "00011111000011111"), 3 * HALVES)


def inputs():
    show, run = ["show"], ["run"]
    yield "comment lines", show, filled("# of a line\n")
    yield "one comment", show, "#" + "c" * (BYTES - 1)
    yield "empty comments", show, filled("#\n")
    yield "blank lines", show, filled("\n")
    yield "spaces", show, filled(" ")
    yield "words of one digit", show, filled("0 ", 2 * HALVES)
    yield "refused error bytes", show, track([bytes([3, 0x62, 0x60])])
    yield "refused error bytes in words", ["show", "--words"], track([bytes([3, 0x62, 0x60])])
    yield "runs of three halves", show, filled("58*3 ", 5 * (HALVES // 3))
    yield "runs of two halves", show, filled("58*2 ", 5 * (HALVES // 2))
    yield "runs of one half", show, filled("58*1 ", min(5 * HALVES, BYTES))
    yield "figures of words", ["timing"], track([packet(3, 0x62)])
    yield "figures of bodies everywhere", ["timing"], bodies_everywhere(50, 85)
    yield "bodies everywhere", ["lost"], bodies_everywhere(66, 85)
    yield "bodies everywhere in words", ["lost", "--words"], bodies_everywhere(66, 85)
    yield "bodies everywhere, with spikes", ["lost", "--spikes", "5"], bodies_everywhere(66, 85)
    yield "spikes alone", ["lost", "--spikes", "25"], filled("3 ", 2 * HALVES)
    yield "a spike in each half-bit", ["lost", "--spikes", "25"], filled("28 3 27 ", 8 * (HALVES // 3))
    yield "a capture", ["what"], track([packet(3, 0x62)])
    yield "lines for a station, the last of them wrong", ["what"], filled("idle\n", BYTES - 20) + "send 1\nidl\n"
    yield "resets to 64 locomotives", run, FLEET + track([packet(0, 0)])
    yield "all states of 64 locomotives on and off", run, FLEET + track([packet(0, 0xDD, 0x80), packet(0, 0xDD, 0)])
    yield "a state of 64 locomotives on and off", run, FLEET + track([packet(0, 0xDD, 0xFF), packet(0, 0xDD, 0x7F)])
    yield "five functions of 64 locomotives", run, FLEET + track([packet(0, 0x9F), packet(0, 0x80)])
    yield "eight functions of 64 locomotives", run, FLEET + track([packet(0, 0xDE, 0xFF), packet(0, 0xDE, 0)])
    yield "speeds of 64 locomotives", run, FLEET + track([packet(0, 0x3F, 0x05), packet(0, 0x3F, 0x85)])
    yield "writes to the last of 64 locomotives", run, FLEET + track([packet(64, 0xEC, 2, 1)])
    yield "comments among packet lines", ["encode"], filled("# of a line\n")
    yield "blank packet lines", ["encode"], filled("\n")
    yield "packet lines", ["encode"], filled("loco l10239 speed128 f 127\n")
    yield "frames", ["encode", "--hex"], filled("frame 036261\n")
    yield "frames of zeros", ["encode"], filled("frame 000000000000\n")
    yield "refused commands", ["encode", "--hex", "--station"], filled("loco s5 cv write 29 6\n")
    yield "packets without commands", ["encode", "--hex", "--station"], "send 1000\n" * 20_000
    lines = [line_of(packet(3, group, bits)) for bits in range(256) for group in (0xDE, 0xDF, 0xD8, 0xD9, 0xDA)]
    half = "".join(itertools.islice(itertools.cycle(lines), HALVES // 2 // 94))
    yield "functions that conflict, twice", ["same", "--who", "s3"], half + "---\n" + half


def seconds(words, path):
    before = resource.getrusage(resource.RUSAGE_CHILDREN)
    with open(path, "rb") as file, open(os.devnull, "wb") as out:
        subprocess.run(words, stdin=file, stdout=out, stderr=out, check=False)
    after = resource.getrusage(resource.RUSAGE_CHILDREN)
    return after.ru_utime + after.ru_stime - before.ru_utime - before.ru_stime


def main():
    program = os.path.join(os.path.dirname(os.path.abspath(__file__)), "../crates/dcc/out/dcc")
    program = os.path.abspath(sys.argv[1] if len(sys.argv) > 1 else program)
    slowest = 0
    print("| Input | Call | MB | Time |\n|---|---|---|---|")
    with tempfile.TemporaryDirectory() as room:
        path = os.path.join(room, "input")
        for name, words, text in inputs():
            with open(path, "w", encoding="ascii", newline="") as file:
                file.write(text)
            took = min(seconds([program, *words], path) for _ in range(ROUNDS))
            slowest = max(slowest, took)
            print(f"| {name} | `{' '.join(words)}` | {len(text) / 1e6:.0f} | {took:.2f} s |", flush=True)
    print(f"\nthe slowest took {slowest:.2f} s, where {MOST:g} are let through")
    return slowest > MOST


sys.exit(main())
