#!/usr/bin/env python3
"""Rewrites the module that the toolchain compiles for 64 bits for a target whose pointers have 32 bits.

    tools/mcu/narrow.py MODULE.ll CALLS.ll > NARROW.ll

MODULE.ll is the module that the toolchain gives to its clang. CALLS.ll is what the same clang makes of
include/dcc.h for the target: the name of the target, its layout, and how C calls the library.

In the module each object has its size in bytes, each offset is a number of bytes, and lengths and differences of
addresses have 64 bits. None of this changes. No arithmetic becomes narrower, so each proved bound stays valid. Only
addresses have 32 bits, in the first four bytes of the eight bytes of a pointer. The steps are:

1. The module gets the name and the layout of the target, and loses the attributes of x86 processors.
2. The place of a pointer keeps its eight bytes, since code that clears or moves it counts eight bytes.
3. `{ i8, ptr }` is an optional reference, which is loaded from memory as a whole. Its pointer is at byte 8, but with
   pointers of 32 bits it would be looked for at byte 4. So a number of 32 bits is added between the two. `{ ptr, i64 }`
   needs no change, since numbers of 64 bits are aligned to 8 bytes.
4. An address that is read as a number (`ptrtoaddr`) has 32 bits, and is widened to 64 bits.
5. The lengths of memory that is moved or set have 32 bits on the target, so lengths of 64 bits are cut. They are the
   lengths of objects, and no object has 2^32 bytes.
6. A result of one byte is extended as the C compiler of the target expects it. For each function, the script checks
   that C and the module agree in all other types.

The script has a rule for each kind of line that it accepts, and stops at any other line, since its meaning could depend
on the width of a pointer.
"""
import re
import sys
from collections import Counter

PLAIN = """add and ashr br call extractvalue freeze getelementptr icmp load lshr mul or phi ret sdiv select sext shl
srem store sub switch trunc udiv unreachable urem xor zext""".split()
# lines that are no instructions: labels, comments, ends, the cases of a switch, what is known of values
OTHER = re.compile(r"$|;|\}|\S+:( |$)|    i\d+ -?\d+, label %|  \]$|source_filename|attributes|!|declare|define|target")
STATIC = re.compile(r"@[\w.]+ = private unnamed_addr constant \[\d+ x i8\] ")
INSTRUCTION = re.compile(r"  (?:%\S+ = )?(\w+)")
MOVES = re.compile(
    r"(.* @llvm\.(?:memmove|memcpy|memset)\.(?:p0\.p0|p0)\.)i64(\(.*), i64 ([^,]+), (i1 (?:true|false)\))(.*)"
)
X86 = re.compile(r' "(?:probe-stack|stack-probe-size|target-cpu|target-features|tune-cpu)"="[^"]*"')
CALL = re.compile(r"(?:define|declare) (?:(?:dso_local|noundef|zeroext|signext) )*(\S+) @(dcc_\w+)\((.*)\)")


def stop(why):
    sys.exit(f"narrow.py: {why}")


def line_of(lines, head):
    return next((it for it in lines if it.startswith(head)), None) or stop(f"no line {head}")


def told(line):
    """What a line says of a call: what is answered and taken, in types. C's bool is a byte, whatever it is called."""
    answer, name, takes = CALL.match(line).groups()
    types = [it.split()[0] for it in takes.split(", ")] if takes else []
    return name, re.sub(r"\bi1\b", "i8", f"{answer} ({', '.join(types)})"), "sret(" in takes


def c_calls(lines):
    """How C calls the library: by name, the types, whether the answer is written where a pointer says, and the word
    that extends it."""
    calls = {}
    for line in lines:
        if line.startswith("declare") and CALL.match(line):
            name, types, is_written = told(line)
            calls[name] = (
                types,
                is_written,
                next((it for it in ("zeroext", "signext") if f" {it} " in line.split("@")[0]), ""),
            )
    return calls


def call_for_c(line, calls, counts):
    """The first line of a call of the library, its answer extended as C expects it."""
    name, types, _ = told(line)
    if name not in calls:
        stop(f"include/dcc.h has no {name}")
    of_c, is_written, extended = calls.pop(name)
    # (an answer that is written where a pointer says is told by that pointer on x86-64. Nobody reads it here)
    if types != of_c and not (is_written and types == of_c.replace("void", "ptr", 1)):
        stop(f"{name}: C calls {of_c}, and the module has {types}")
    if extended:
        counts["answers extended"] += 1
        line = line.replace("define ", f"define {extended} ", 1)
    return line


def narrow(line, place, counts):
    """An instruction, or a line that is none, for 32 bits: the lines that stand for it."""
    # (names of functions have braces of their own)
    bare = re.sub(r'@"[^"]*"', "@", line)
    instruction = INSTRUCTION.match(bare)
    kind = instruction[1] if instruction and not OTHER.match(bare) else ""
    if kind == "alloca":
        counts["places of a pointer"] += " alloca ptr," in bare
        return (
            [line.replace(" alloca ptr,", " alloca [8 x i8],")]
            if re.search(r" alloca (ptr|i\d+|\[\d+ x i8\]), align \d+$", bare)
            else None
        )
    if kind == "ptrtoaddr":
        counts["addresses widened"] += 1
        return [line.replace("ptrtoaddr", "ptrtoint")] if bare.endswith(" to i64") else None
    if moves := MOVES.fullmatch(line):
        front, middle, length, last, rest = moves.groups()
        if line.startswith("declare"):
            return None
        if length.isdigit():
            return [f"{front}i32{middle}, i32 {length}, {last}{rest}"]
        counts["lengths cut"] += 1
        return [
            f"  %narrow.{place} = trunc i64 {length} to i32",
            f"{front}i32{middle}, i32 %narrow.{place}, {last}{rest}",
        ]
    if line.startswith("declare void @llvm.mem"):
        return [line.replace(".i64(", ".i32(").replace(", i64, i1", ", i32, i1")]
    if "@llvm." in bare and ".p0" in bare:
        return None
    if kind == "getelementptr" and not re.search(r" getelementptr (inbounds nuw )?i8, ptr ", bare):
        return None
    if "{ i8, ptr }" in bare:
        if kind not in ("call", "extractvalue", "load", "ret") and not line.startswith("define"):
            return None
        counts["optional references"] += 1
        line = re.sub(r"(extractvalue \{ i8, ptr \} \S+), 1$", r"\1, 2", line).replace(
            "{ i8, ptr }", "{ i8, i32, ptr }"
        )
        bare = bare.replace("{ i8, ptr }", "")
    if re.search(r"[{<\[][^}>\]]*\bptr\b", bare.replace("{ ptr, i64 }", "")):
        return None
    return [line] if kind in PLAIN or OTHER.match(bare) or STATIC.match(bare) else None


def main():
    with open(sys.argv[1], encoding="utf-8") as file:
        lines = file.read().split("\n")
    with open(sys.argv[2], encoding="utf-8") as file:
        of_target = file.read().split("\n")
    layout, calls, counts, out = line_of(of_target, "target datalayout"), c_calls(of_target), Counter(), []
    if not {"p:32:32", "i64:64"} <= set(re.search(r'"(.*)"', layout)[1].split("-")):
        stop(f"this is for pointers of 32 bits and numbers of 64 that are aligned to 8 bytes, and not for {layout}")
    for place, line in enumerate(lines):
        if line.startswith("target datalayout"):
            line = layout
        elif line.startswith("target triple"):
            line = line_of(of_target, "target triple")
        elif line.startswith("attributes"):
            line = X86.sub("", line)
        elif line.startswith("define") and CALL.match(line):
            line = call_for_c(line, calls, counts)
        made = narrow(line, place, counts)
        if made is None:
            stop(f"line {place + 1} is none that is known to be alike at both widths: {line.strip()}")
        out += made
    if calls:
        stop(f"the module has no {', '.join(calls)}")
    print("\n".join(out))
    print("narrow.py: " + ", ".join(f"{it} {counts[it]}" for it in sorted(counts)), file=sys.stderr)


if __name__ == "__main__":
    main()
