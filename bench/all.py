#!/usr/bin/env python3
"""Times commands of `dcc` on each form of capture beside `wc -w` on the same file, and prints tables.

    bench/all.py [--instructions] [PROGRAM [OTHER]]

PROGRAM is the program to measure, crates/dcc/out/dcc if it is not given. OTHER is another program with the same
commands. The times are processor seconds (user and system) on one core, the median of ROUNDS rounds. In each round the
commands run in turn. A ratio is the median of the ratios of the rounds, so a machine whose speed changes from second to
second changes the ratio little. If OTHER is given, the last column is the ratio of PROGRAM to OTHER. The environment
variables HALVES, LINES and ROUNDS set the half-bits of a capture, the packet lines, and the rounds.

With --instructions the script counts instructions by callgrind of valgrind, on inputs a fortieth as long. The number of
instructions is the same in each run.

The second table compares `show` with two programs in C, which `cc -O2` compiles: plain C (bench/show_plain.c), and a
limit that uses vectors (bench/show_limit.c), if the processor has AVX2 and BMI2. They read only words of two and three
digits, so the table has the captures of such words. All three programs must write the same bytes. After the table the
script prints the ratio of `timing` to `show`, and the ratio of CR LF to LF at one half-bit a line.
"""
import itertools
import os
import re
import resource
import shutil
import statistics
import subprocess
import sys
import tempfile

COUNTS = "--instructions" in sys.argv[1:]
HALVES = int(os.environ.get("HALVES", 400_000 if COUNTS else 16_000_000))
LINES = int(os.environ.get("LINES", 5_000 if COUNTS else 200_000))
ROUNDS = int(os.environ.get("ROUNDS", 1 if COUNTS else 7))
PACKETS = ["036261", "ff00ff", "039093", "ff00ff", "8cfd71", "c3e83f7f6b", "03ec1c06f5"]
# (of the first version, which programs of before read too)
LOCO = "loco s{0}\nspeed stop f\non\npending none\ncv 1 {0}\ncv 29 2\n"
FLEET = "dcc-decoders 1\n" + LOCO.format(3) + "end\n"
LARGE_FLEET = "dcc-decoders 1\n" + "".join(LOCO.format(n) for n in range(1, 65)) + "end\n"


def halves_of(packet):
    bits = [1] * 14
    for byte in bytes.fromhex(packet):
        bits += [0] + [byte >> place & 1 for place in range(7, -1, -1)]
    return [us for bit in bits + [1] for us in ([58, 58] if bit else [100, 100])]


def runs_of(halves):
    words, at = [], 0
    while at < len(halves):
        end = at
        while end < len(halves) and halves[end] == halves[at]:
            end += 1
        words.append(f"{halves[at]}*{end - at}" if end - at > 1 else str(halves[at]))
        at = end
    return words


def write(path, line_of, head="", halves=HALVES):
    lines = [line_of(halves_of(packet)) for packet in PACKETS]
    per_turn = sum(len(halves_of(packet)) for packet in PACKETS)
    with open(path, "w", encoding="ascii", newline="") as file:
        file.write(head)
        for _ in range(halves // per_turn):
            file.writelines(lines)


def seconds(words, path):
    before = resource.getrusage(resource.RUSAGE_CHILDREN)
    with open(path, "rb") as file, open(os.devnull, "wb") as out:
        pinned = lambda: os.sched_setaffinity(0, {0})
        ran = subprocess.run(words, stdin=file, stdout=out, stderr=out, check=False, preexec_fn=pinned)
    after = resource.getrusage(resource.RUSAGE_CHILDREN)
    took = after.ru_utime + after.ru_stime - before.ru_utime - before.ru_stime
    return None if is_refused(ran) else took


def is_refused(ran):
    """Returns true if a program does not have its command, or cannot read its input."""
    return ran.returncode not in (0, 1)


def instructions(words, path):
    with open(path, "rb") as file:
        counted = ["valgrind", "--tool=callgrind", "--callgrind-out-file=/dev/null", *words]
        ran = subprocess.run(
            counted, stdin=file, stdout=subprocess.DEVNULL, stderr=subprocess.PIPE, text=True, check=False
        )
    return None if is_refused(ran) else int(re.search(r"Collected *: *(\d+)", ran.stderr)[1]) / 1e6


def built_in_c(room):
    """The programs in C that do the work of `show`, by name."""
    with open("/proc/cpuinfo", encoding="ascii") as file:
        flags = set(re.search(r"(?m)^flags\s*:(.*)$", file.read())[1].split())
    sources = {"plain C": ("show_plain", []), "limit": ("show_limit", ["-mavx2", "-mbmi2", "-mpopcnt"])}
    if not flags >= {"avx2", "bmi2"}:
        print("the limit is left out: this processor has no AVX2 or no BMI2")
        del sources["limit"]
    if not shutil.which("cc"):
        print("plain C and the limit are left out: there is no cc")
        return {}
    for name, (source, options) in sources.items():
        words = ["cc", "-O2", *options, "-o", f"{room}/{source}", f"{os.path.dirname(__file__) or '.'}/{source}.c"]
        subprocess.run(words, check=True)
    return {name: [f"{room}/{source}"] for name, (source, _) in sources.items()}


def output_of(words, path):
    with open(path, "rb") as file:
        return subprocess.run(words, stdin=file, capture_output=True, check=True).stdout


def lines_of(path):
    with open(path, "rb") as file:
        return file.read().count(b"\n")


def beside_c(program, measured, unit, at, room):
    """Prints `show` beside the programs in C, and the ratios between commands and captures."""
    programs = {"`dcc`": [program, "show"], **built_in_c(room)}
    files = {
        "one packet in each line": "halves",
        "CR LF line ends": "crlf",
        "one half-bit in each line": "one",
        "one half-bit in each line, CR LF": "one_crlf",
    }
    times = {}
    for file in files.values():
        wanted = output_of(programs["`dcc`"], at(file))
        for name, words in programs.items():
            if output_of(words, at(file)) != wanted:
                sys.exit(f"{name} writes another listing of {file}")
    for _ in range(ROUNDS):
        for file in files.values():
            for name, words in programs.items():
                times.setdefault((name, file), []).append(measured(words, at(file)))
        times.setdefault(("timing", "halves"), []).append(measured([program, "timing"], at("halves")))

    def ratio(one, other):
        return statistics.median(x / y for x, y in zip(times[one], times[other]))

    heads = ["`show`", *programs, *[f"`dcc` to {it}" for it in [*programs][1:]]]
    print("\n| " + " | ".join(heads) + " |")
    print("|---" * (2 * len(programs)) + "|")
    for told, file in files.items():
        cells = [f"{statistics.median(times[name, file]):.3f} {unit}" for name in programs]
        cells += [f"{ratio(('`dcc`', file), (name, file)):.2f}" for name in [*programs][1:]]
        print(f"| {told} | " + " | ".join(cells) + " |")
    print(f"\n`timing` to `show`: {ratio(('timing', 'halves'), ('`dcc`', 'halves')):.2f}")
    crlf = ratio(("`dcc`", "one_crlf"), ("`dcc`", "one")) * lines_of(at("one")) / lines_of(at("one_crlf"))
    print(f"`show` of one half-bit in each line, CR LF to LF: {crlf:.2f} for each half-bit")


def main():
    top = os.path.join(os.path.dirname(os.path.abspath(__file__)), "..")
    given = [it for it in sys.argv[1:] if it != "--instructions"]
    programs = [os.path.abspath(p) for p in given] or [os.path.join(top, "crates/dcc/out/dcc")]
    with tempfile.TemporaryDirectory() as room:

        def at(name):
            return os.path.join(room, name)

        spaced = lambda halves: " ".join(map(str, halves)) + "\n"
        write(at("halves"), spaced)
        write(at("crlf"), lambda halves: " ".join(map(str, halves)) + "\r\n")
        write(at("comments"), lambda halves: " ".join(map(str, halves)) + " # a packet\n")
        write(at("one"), lambda halves: "".join(f"{us}\n" for us in halves))
        # (as many as fit the limit of bytes)
        write(at("one_crlf"), lambda halves: "".join(f"{us}\r\n" for us in halves), halves=min(HALVES, 15_000_000))
        write(at("runs"), lambda halves: " ".join(runs_of(halves)) + "\n")
        # (every second packet has a preamble of eight ones)
        shortened = itertools.cycle([0, 12])
        write(at("short"), lambda halves: spaced(halves[next(shortened) :]))
        write(at("fleet"), spaced, FLEET)
        write(at("fleet_runs"), lambda halves: " ".join(runs_of(halves)) + "\n", FLEET)
        write(at("large_fleet"), spaced, LARGE_FLEET)
        for two, line_of in (("two", spaced), ("two_runs", lambda halves: " ".join(runs_of(halves)) + "\n")):
            write(at("one_track"), line_of, halves=HALVES // 2)
            with open(at("one_track"), "rb") as track:
                halves = track.read()
            with open(at(two), "wb") as file:
                file.write(halves + b"---\n" + halves)
        with open(at("lines"), "w", encoding="ascii") as file:
            file.writelines(
                ["loco s3 speed28 f 4\n", "idle\n", "loco l1000 cv write 29 6\n", "accessory 12 5 on\n"] * (LINES // 4)
            )
        rows = [
            ("show", ["show"], "halves"),
            ("show, CR LF at line ends", ["show"], "crlf"),
            ("show, a comment a line", ["show"], "comments"),
            ("show, one half a line", ["show"], "one"),
            ("show, one half a line, CR LF", ["show"], "one_crlf"),
            ("show, in runs", ["show"], "runs"),
            ("run", ["run"], "fleet"),
            ("run, in runs", ["run"], "fleet_runs"),
            ("run, of 64 locomotives", ["run"], "large_fleet"),
            ("timing", ["timing"], "halves"),
            ("lost", ["lost"], "halves"),
            ("lost, half of the packets are lost", ["lost"], "short"),
            ("lost --spikes 5", ["lost", "--spikes", "5"], "halves"),
            ("lost --spikes 5, half of the packets are lost", ["lost", "--spikes", "5"], "short"),
            ("what", ["what"], "halves"),
            ("same --who s3, two halves of it", ["same", "--who", "s3"], "two"),
            ("same --who s3, in runs", ["same", "--who", "s3"], "two_runs"),
            (f"encode --hex, {LINES:,} lines", ["encode", "--hex"], "lines"),
            (f"encode, {LINES:,} lines", ["encode"], "lines"),
            (f"encode --hex --station, {LINES:,} lines", ["encode", "--hex", "--station"], "lines"),
        ]
        measured, unit = (instructions, "million") if COUNTS else (seconds, "s")
        times = {}
        for _ in range(ROUNDS):
            for name, words, file in rows:
                times.setdefault((name, "wc -w"), []).append(measured(["wc", "-w"], at(file)))
                for program in programs:
                    times.setdefault((name, program), []).append(measured([program, *words], at(file)))

        def ratio(name, one, other):
            pairs = [*zip(times[name, one], times[name, other])]
            return None if any(None in it for it in pairs) else statistics.median(x / y for x, y in pairs)

        def told(name, one, other, form):
            """Returns a cell with a ratio, which is empty if a program has refused the command."""
            found = ratio(name, one, other)
            return "" if found is None else form.format(found)

        heads = ["`wc -w`", *[f"`{os.path.basename(p)}`" for p in programs]]
        heads += [f"`{os.path.basename(programs[0])}` to `{os.path.basename(p)}`" for p in programs[1:]]
        print("| | " + " | ".join(heads) + " |")
        print("|---|" + "---|" * len(heads))
        for name, _, _ in rows:
            cells = [f"{statistics.median(times[name, 'wc -w']):.3f} {unit}"]
            for program in programs:
                is_measured = None not in times[name, program]
                time = f"{statistics.median(times[name, program]):.3f} {unit}, " if is_measured else "refused"
                cells.append(time + told(name, program, "wc -w", "{:.2f} times"))
            cells += [told(name, programs[0], other, "{:.2f}") for other in programs[1:]]
            print(f"| {name} | " + " | ".join(cells) + " |")
        beside_c(programs[0], measured, unit, at, room)


main()
