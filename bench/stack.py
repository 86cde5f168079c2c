#!/usr/bin/env python3
"""Holds the stack of each call of the library for C on x86-64 to the bounds of bench/stack.bounds.

    bench/stack.py             status 1 if a call takes more, has no bound, or a bound names no call
    bench/stack.py --bounds    prints what each call takes, in the form of bench/stack.bounds

It needs crates/dcc_c/out/libdcc_c.a with dcc_c.su beside it (tools/c-library), and objdump. Frames have a fixed
size, and no function is called by a pointer, so the most that a call takes is its deepest path through the calls. A
function that calls itself counts as often as DEPTHS says, and a function that is not named there must not call itself.
A return address counts as 8 bytes. memcpy, memmove and memset are of the caller's C library and count as 0.
"""
import os
import re
import subprocess
import sys
from functools import cache

BENCH = os.path.dirname(os.path.abspath(__file__))
OUT = os.environ.get("OUT", f"{os.path.dirname(BENCH)}/crates/dcc_c/out")
BOUNDS = os.environ.get("BOUNDS", f"{BENCH}/stack.bounds")
RETURN = 8
# the most calls of a function that calls itself: a number of 16 bits has at most five digits, and one of 32 bits ten
DEPTHS = {"dcc_packet::to_line_word::put_digits": 5, "dcc_plain::text::append_digits": 10}
FUNCTION = re.compile(r"[0-9a-f]+ <(.*)>:$")
# (a call of a function of the same file can name the section of the function)
CALLED = re.compile(r": R_X86_64_(?:PLT32|PC32)\t(?:\.text\.)?(\S.*?)(?:-0x[0-9a-f]+)?$")


def frames():
    """The stack of each function itself, by its name."""
    with open(f"{OUT}/dcc_c.su", encoding="utf-8") as file:
        rows = [line.rstrip("\n").split("\t") for line in file]
    if grows := [where for where, _, kind in rows if kind != "static"]:
        sys.exit(f"stack: frames that grow: {grows}")
    return {where.split(":", 1)[1]: int(size) for where, size, _ in rows}


def calls(names):
    """The functions that each function calls or ends in."""
    told = subprocess.run(["objdump", "-dr", f"{OUT}/libdcc_c.a"], capture_output=True, text=True, check=True).stdout
    found, name = {}, ""
    lines = told.split("\n")
    for line, behind in zip(lines, [*lines[1:], ""]):
        if function := FUNCTION.match(line):
            name = function[1]
            found[name] = set()
        elif (called := CALLED.search(line)) and called[1] in names:
            found[name].add(called[1])
        elif re.search(r"\tcall\s+\*", line):
            sys.exit(f"stack: {name} calls by a pointer")
        elif re.search(r"\tcall\s", line) and line.endswith(f" <{name}>") and ": R_" not in behind:
            found[name].add(name)
    if loops := [name for name in found if name in found[name] and name not in DEPTHS]:
        sys.exit(f"stack: functions that call themselves: {loops}")
    return found


def main():
    own = frames()
    called = calls(own)

    @cache
    def most(name):
        times = DEPTHS[name] if name in called[name] else 1
        deeper = max((RETURN + most(it) for it in called[name] if it != name), default=0)
        return times * own[name] + (times - 1) * RETURN + deeper

    took = {name: most(name) for name in sorted(own) if name.startswith("dcc_") and "::" not in name}
    if "--bounds" in sys.argv:
        print("\n".join(f"{name} {size}" for name, size in took.items()))
        return 0
    with open(BOUNDS, encoding="utf-8") as file:
        bounds = {name: int(size) for name, size in (row.split() for row in file if row.strip() and row[0] != "#")}
    failed = [f"bench/stack.bounds names {name}, which is no call" for name in bounds if name not in took]
    failed += [f"bench/stack.bounds has no bound for {name}" for name in took if name not in bounds]
    failed += [
        f"{name}: {size} bytes of stack, and at most {bounds[name]} are let through"
        for name, size in took.items()
        if size > bounds.get(name, size)
    ]
    print("\n".join([*failed, f"the stack of {len(took)} calls on x86-64, {len(failed)} failed"]))
    return 1 if failed else 0


sys.exit(main())
