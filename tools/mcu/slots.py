#!/usr/bin/env python3
"""Finds places that hold a pointer by one access and a number by another.

    tools/mcu/slots.py MODULE.ll

With pointers of 32 bits, a pointer fills four of its eight bytes (narrow.py). So a value that is stored as a
pointer must not be read as a number, and a number must not be read as a pointer. A place is a place on the stack or
an argument of a function, and a number of bytes from it. The script follows values through moves of memory from one
place to another. It prints each place that is stored as one and read as the other. If there is one, the exit status
is 1.
"""
import re
import sys
from collections import defaultdict

BYTES = {"i1": 1, "i8": 1, "i16": 2, "i32": 4, "i64": 8, "i128": 16, "ptr": 8}
# what stands at which byte of a value that is stored or loaded whole
WHOLE = {"{ i8, ptr }": [("i8", 0), ("ptr", 8)], "{ ptr, i64 }": [("ptr", 0), ("i64", 8)]}
TYPE = r"(\{[^}]*\}|\w+)"
DEFINE = re.compile(r'define .*@("[^"]+"|[\w.]+)\((.*)\)')
PLACE = re.compile(r"\s*(%\S+) = alloca")
INSIDE = re.compile(r"\s*(%\S+) = getelementptr (?:inbounds nuw )?i8, ptr (%\S+), i64 (\d+)$")
STORE = re.compile(rf"\s*store {TYPE} [^,]+, ptr (%[^,]+),")
LOAD = re.compile(rf"\s*%\S+ = load {TYPE}, ptr (%[^,]+),")
MOVE = re.compile(r"\s*call void @llvm\.mem(?:move|cpy)\.\S+\(ptr (%[^,]+), ptr (%[^,]+), i64 (\d+),")


def functions(path):
    """The lines of each function, by its name, with the names of what it is given."""
    with open(path, encoding="utf-8") as file:
        for line in file:
            if begins := DEFINE.match(line):
                name, lines, given = begins[1], [], re.findall(r"%\w+", begins[2])
            elif line.startswith("}"):
                yield name, given, lines
            elif line.startswith(" "):
                lines.append(line.rstrip())


def parts(kind, place):
    """What is stored or loaded, number by number: its type and its first byte."""
    found = WHOLE.get(kind, [(kind, 0)])
    if kind.startswith("{") and kind not in WHOLE:
        found = [] if "ptr" not in kind else sys.exit(f"slots.py: a value {kind} is not known")
    return [(it, place + at) for it, at in found]


def accesses(given, lines):
    """What is stored and what is loaded at each place, by its first byte, and what is moved from one to another."""
    at, stored, loaded, moves = {it: (it, 0) for it in given}, defaultdict(set), defaultdict(set), []
    for line in lines:
        if it := PLACE.match(line):
            at[it[1]] = it[1], 0
        elif (it := INSIDE.match(line)) and it[2] in at:
            at[it[1]] = at[it[2]][0], at[it[2]][1] + int(it[3])
        elif (it := STORE.match(line)) and it[2] in at:
            stored[at[it[2]][0]].update(parts(it[1], at[it[2]][1]))
        elif (it := LOAD.match(line)) and it[2] in at:
            loaded[at[it[2]][0]].update(parts(it[1], at[it[2]][1]))
        elif (it := MOVE.match(line)) and it[1] in at and it[2] in at:
            moves.append((at[it[1]], at[it[2]], int(it[3])))
    return stored, loaded, moves


def follow(stored, moves):
    """Adds to each place what is moved there."""
    grows = True
    while grows:
        grows = False
        for (to, first), (base, begin), length in moves:
            moved = {(kind, first + at - begin) for kind, at in stored[base] if begin <= at < begin + length}
            grows |= not moved <= stored[to]
            stored[to] |= moved


def mixed(one, other):
    return (
        ("ptr" in (one[0], other[0]) and one != other)
        and one[1] < other[1] + BYTES[other[0]]
        and other[1] < one[1] + BYTES[one[0]]
    )


def main():
    places = pointers = wrong = 0
    for name, given, lines in functions(sys.argv[1]):
        stored, loaded, moves = accesses(given, lines)
        follow(stored, moves)
        for base in {**stored, **loaded}:
            places += 1
            pointers += any(kind == "ptr" for kind, _ in stored[base] | loaded[base])
            for one in stored[base]:
                for other in loaded[base]:
                    if mixed(one, other):
                        wrong += 1
                        print(
                            f"{name}: {base} is stored as {one[0]} at {one[1]}, and loaded as {other[0]} at {other[1]}"
                        )
    print(
        f"slots.py: {places} places, {pointers} with pointers, {wrong} stored as one and loaded as the other",
        file=sys.stderr,
    )
    sys.exit(wrong > 0)


if __name__ == "__main__":
    main()
