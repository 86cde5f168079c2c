#!/usr/bin/env python3
"""Counts the instructions of the calls of the library for C beside plain C of the same job, by valgrind's callgrind.

    bench/calls.py [--tell]

bench/calls.c makes the calls. It needs crates/dcc_c/out/libdcc_c.a (tools/c-library), a C compiler and valgrind.
bench/calls.bounds holds the most that each call may take. Status 1 if a call takes more, if both do different
things, or if a bound names no call. --tell prints a line for each call.
"""
import os
import re
import subprocess
import sys
import tempfile

BENCH = os.path.dirname(os.path.abspath(__file__))
TOP = os.path.dirname(BENCH)
CALLS = 2000
LIBRARY = os.environ.get("LIBRARY", f"{TOP}/crates/dcc_c/out/libdcc_c.a")
BOUNDS = os.environ.get("BOUNDS", f"{BENCH}/calls.bounds")
NAMES = (
    "half start halves read hears apply apply_speed apply_idle apply_functions "
    "apply_cv_write small_cv small_apply"
).split()


def bounds():
    with open(BOUNDS, encoding="utf-8") as file:
        rows = [line.split() for line in file if line.strip() and not line.startswith("#")]
    return {name: float(most) for name, most in rows}


def instructions(program, name, which):
    counted = ["valgrind", "--tool=callgrind", "--callgrind-out-file=/dev/null", program, name, which]
    ran = subprocess.run(counted, capture_output=True, text=True, check=True)
    return int(re.search(r"Collected *: *(\d+)", ran.stderr)[1])


def main():
    most = bounds()
    failed = [f"bench/calls.bounds has no call {name}" for name in most if name not in NAMES]
    failed += [f"bench/calls.bounds has no bound for {name}" for name in NAMES if name not in most]
    with tempfile.TemporaryDirectory() as room:
        program = f"{room}/calls"
        words = ["cc", "-O2", "-Wl,--gc-sections", f"-I{TOP}/include", "-o", program, f"{BENCH}/calls.c", LIBRARY]
        subprocess.run(words, check=True)
        same = subprocess.run([program, "same"], capture_output=True, text=True, check=False)
        if same.returncode:
            failed.append(f"the library and plain C: {same.stdout.strip()}")
        for name in NAMES:
            loop = instructions(program, name, "loop")
            library, plain = ((instructions(program, name, which) - loop) / CALLS for which in ("library", "plain"))
            if "--tell" in sys.argv:
                print(f"{name}: {library:.1f} instructions, plain C {plain:.1f}, at most {most.get(name, 0):g}")
            if library > most.get(name, 0):
                failed.append(f"{name}: {library:.1f} instructions, and at most {most.get(name, 0):g} are let through")
    for it in failed:
        print(it)
    print(f"{len(NAMES)} calls counted beside plain C, {len(failed)} failed")
    return 1 if failed else 0


sys.exit(main())
