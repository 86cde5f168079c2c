#!/usr/bin/env python3
# SPDX-License-Identifier: MIT OR Apache-2.0
"""Tests of the decoder for sigrok: its words and its framer beside the program `dcc`, and the decoder in sigrok-cli.

    python3 bindings/sigrok/test.py      after tools/prove-and-test, or with the program in DCC_PROGRAM

Without sigrok-cli the tests of the decoder are left out, and the script says so.
"""
import os
import random
import re
import shutil
import subprocess
import sys
import tempfile
import unittest

sys.dont_write_bytecode = True
HERE = os.path.dirname(os.path.abspath(__file__))
TOP = os.path.dirname(os.path.dirname(HERE))
sys.path.insert(0, f"{HERE}/decoders/dcc")
import pure  # noqa: E402
import words  # noqa: E402

PROGRAM = os.environ.get("DCC_PROGRAM", f"{TOP}/crates/dcc/out/dcc")
RATE = 8_000_000
# the files of examples/analyser/forms.txt with packets that sigrok-cli reads, and their channels. Without a name,
# sigrok-cli takes the first channel
VCD = {
    **dict.fromkeys(("sigrok", "sigrok, CR LF", "sigrok, two channels", "sigrok, ends in a level", "sigrok, 1 us"), ""),
    **dict.fromkeys(("sigrok, 100 ns", "sigrok, 10 ns", "numbers that begin with 0, in a VCD"), ""),
    **dict.fromkeys(("$attrbegin of GTKWave", "values on lines of their own", "values before the first time"), ""),
    **dict.fromkeys(("one bit as a vector", "one bit as a vector, in a capital", "a comment with times in it"), ""),
    **dict.fromkeys(("not known at the start", "a time that is none", "a VCD that goes back"), ""),
    **{"META within a file": "", "wires of several modules": "track", "a name of two words": "track[0]"},
    **{"sigrok, the second is chosen": "D1"},
}
CSV = "sigrok, csv", "sigrok, csv, a rate in kHz", "sigrok, csv, a rate in GHz", "sigrok, csv, a rate in Hz"
UNREAD = {
    "sigrok chooses a channel by its name": (
        "sigrok, chosen by number", "sigrok, chosen by id", "one wire with two names",
    ),
    "sigrok counts too many samples": ("sigrok, late", "sigrok, 1 ps", "a time of too many digits, in a VCD"),
    "sigrok does not read such files": (
        "sigrok, its rate before the file", "texts and numbers whose ids look like levels", "a repeated value",
        "a bus and other values beside it", "ids that are equal numbers", "sigrok, csv, a rate that begins with 0",
        "sigrok, csv, a name with a comma",
        "sigrok, csv, a name with a comma and a blank", "sigrok, csv:label=off, a name with a comma and a blank",
        "sigrok, csv, two channels", "sigrok, csv:label=off",
    ),
    "sigrok does not read times": (
        "sigrok, csv:time=true:dedup=true", "sigrok, csv:time=true", "sigrok, csv:label=off:time=true",
    ),
}  # fmt: skip
# a decoder on top of the decoder, which shows what it gets
STACKED = """
import sigrokdecode as srd


class Decoder(srd.Decoder):
    api_version, id, name, longname, desc, license = 3, "stacked", "Stacked", "Stacked", "Shows packets.", "mit"
    inputs, outputs, tags = ["dcc"], [], ["Debug/trace"]
    annotations = (("got", "What it gets"),)

    def reset(self):
        pass

    def start(self):
        self.out_ann = self.register(srd.OUTPUT_ANN)

    def decode(self, first, last, what):
        words = [it if isinstance(it, str) else bytes(it).hex() for it in what]
        self.put(first, last, self.out_ann, [0, ["|".join(words)]])
"""
# the least number of tests, with those that are left out
LEAST = 13


def told(command, halves):
    """The lines of a command of the program for a list of half-bits."""
    text = "\n".join(map(str, halves)) + "\n"
    ran = subprocess.run([PROGRAM, *command], input=text, capture_output=True, text=True, check=True)
    return ran.stdout.splitlines()


def halves_of(frame, preamble=14, one=58, zero=100):
    """The half-bits of a packet."""
    bits = [1] * preamble
    for byte in frame:
        bits += [0, *(byte >> at & 1 for at in range(7, -1, -1))]
    return [one if bit else zero for bit in [*bits, 1] for _ in range(2)]


def with_error_byte(given):
    total = 0
    for byte in given:
        total ^= byte
    return bytes([*given, total])


def random_frames(count, seed):
    """Frames of each kind that the toolkit knows, and others."""
    some = random.Random(seed)
    for _ in range(count):
        byte, small = some.randrange(256), some.randrange(16)
        head = some.choice(([0], [3], [112], [127], [byte], [192 + some.randrange(40), byte]))
        code = some.choice((0, 0x3F, 0xDD, 0xDE, 0xD8 + small // 2, 0xE4 + small, some.randrange(256)))
        body = [*head, code, *(some.randrange(256) for _ in range(some.randrange(4)))]
        yield with_error_byte(body[:5] if len(body) > 1 else [*body, 0])


def faulty_halves(count, seed):
    """Half-bits of packets, some of which have a short preamble, half-bits outside the limits, a wrong
    byte, or too few or too many bytes."""
    some, halves = random.Random(seed), []
    for frame in random_frames(count, seed):
        if some.random() < 0.1:
            frame = frame[:-1] + bytes([frame[-1] ^ 1 << some.randrange(8)])
        if some.random() < 0.05:
            frame = some.choice((frame[:2], frame + bytes(7 - len(frame))))
        timing = some.choice((14, 14, 16, 8, 4, 3, 2)), some.choice((58, 55, 61)), some.choice((100, 95, 400))
        own = halves_of(frame, *timing)
        if some.random() < 0.4:
            for _ in range(some.randrange(1, 4)):
                own[some.randrange(len(own))] = some.choice((30, 51, 52, 64, 65, 76, 77, 89, 90, 10000, 10001, 20000))
        if some.random() < 0.05:
            del own[some.randrange(len(own))]
        halves += own
    return halves


def shown_in(file, options, kinds, folder=f"{HERE}/decoders", decoder="dcc"):
    """The annotations that sigrok-cli shows of a file: the first sample, the last sample and the text."""
    ran = subprocess.run(
        ["sigrok-cli", "-i", file, *options, "-A", kinds, "--protocol-decoder-samplenum"],
        env={**os.environ, "SIGROKDECODE_DIR": folder},
        capture_output=True,
        text=True,
        check=True,
    )
    found = (re.match(rf"(\d+)-(\d+) {decoder}-1: (.*)", line).groups() for line in ran.stdout.splitlines())
    return [(int(first), int(last), text) for first, last, text in found]


def is_vcd(path):
    with open(path, encoding="latin-1") as file:
        return "$enddefinitions" in file.read()


class Words(unittest.TestCase):
    def test_words_and_packet_lines_are_those_of_the_program(self):
        frames = list(random_frames(4000, 1)) + [with_error_byte([0, 0x40 | bits]) for bits in range(64)]
        frames += [with_error_byte([address, code]) for address in (0, 3, 255) for code in range(256)]
        halves = [us for frame in frames for us in halves_of(frame)]
        plain, lines = told(["show", "--plain"], halves), told(["show", "--words"], halves)
        self.assertEqual(len(plain), len(frames))
        for frame, shown, line in zip(frames, plain, lines):
            self.assertEqual(words.plain(frame), shown.split(" ", 1)[1])
            self.assertEqual(pure.line(frame), line.split(" ", 1)[1])


class Framer(unittest.TestCase):
    def test_short_preambles_at_their_bounds(self):
        frame = bytes.fromhex("036261")
        body = halves_of(frame)[28:]
        # at the begin of a recording, and after a packet, whose end bit counts for the preamble
        recordings = [[58] * ones + body for ones in range(5, 24)]
        recordings += [halves_of(frame) + [58] * ones + body for ones in range(5, 24)]
        for halves in recordings:
            framer, finder = pure.Framer(), pure.Lost()
            seen = [f"{at} {it.frame.hex()}" for at, it in enumerate(map(framer.push, halves), 1) if it]
            self.assertEqual(seen, told(["show"], halves))
            lost = [str(it) for us in halves for it in finder.push(us)]
            self.assertEqual(lost, told(["lost", "--words"], halves))

    def test_packets_and_refusals_are_those_of_show(self):
        halves, framer, lines = faulty_halves(2500, 2), pure.Framer(), []
        for at, us in enumerate(halves, 1):
            seen = framer.push(us)
            if seen:
                refused = "refused " + seen.refusal if seen.refusal else ""
                lines.append(" ".join(filter(None, (str(at), refused, seen.frame.hex()))))
        self.assertEqual(lines, told(["show"], halves))
        for refusal in ("H1", "H2", "H3", "H4", "H5"):
            self.assertGreater(sum(refusal in it for it in lines), 10, refusal)

    def test_lost_packets_are_those_of_lost(self):
        halves, finder = faulty_halves(2500, 3), pure.Lost()
        lines = [str(it) for us in halves for it in finder.push(us)]
        self.assertEqual(lines, told(["lost", "--words"], halves))
        self.assertGreater(len(lines), 100)


@unittest.skipUnless(shutil.which("sigrok-cli"), "sigrok-cli is not installed")
class Sigrok(unittest.TestCase):
    def annotations(self, halves, kinds, options=(), rate=RATE, jitter=0, stacked=False):
        """Writes half-bits as a VCD file, and returns the annotations of the decoder, and the samples of the edges. If
        stacked is true, the annotations are those of the decoder STACKED on top of it."""
        some, at, level, edges, lines = random.Random(4), 1000, 0, [1000], []
        for us in halves:
            at += us * rate // 1_000_000 + some.randint(-jitter, jitter)
            edges.append(at)
        for edge in edges:
            level ^= 1
            lines.append(f"#{edge * 1_000_000_000 // rate} {level}!")
        with tempfile.TemporaryDirectory() as room:
            with open(f"{room}/track.vcd", "w", encoding="utf-8") as file:
                file.write("$timescale 1 ns $end\n$var wire 1 ! track $end\n$enddefinitions $end\n#0 0!\n")
                file.write("\n".join(lines) + "\n#" + str(edges[-1] * 1_000_000_000 // rate + 1_000_000) + " 0!\n")
            reads = ["-I", f"vcd:downsample={1_000_000_000 // rate}"]
            decoder = ":".join(["dcc", *options])
            if not stacked:
                return shown_in(f"{room}/track.vcd", [*reads, "-P", decoder], f"dcc={kinds}"), edges
            shutil.copytree(f"{HERE}/decoders/dcc", f"{room}/decoders/dcc")
            os.mkdir(f"{room}/decoders/stacked")
            for name, text in (("__init__", '"""Shows packets."""\nfrom .pd import Decoder\n'), ("pd", STACKED)):
                with open(f"{room}/decoders/stacked/{name}.py", "w", encoding="utf-8") as file:
                    file.write(text)
            options = [*reads, "-P", f"{decoder},stacked"]
            return shown_in(f"{room}/track.vcd", options, "stacked", f"{room}/decoders", "stacked"), edges

    def test_packets_stand_over_their_samples(self):
        halves = faulty_halves(120, 5)
        shown, edges = self.annotations(halves, "packet")
        wanted = [line.split(" ", 1) for line in told(["show", "--plain"], halves) if " refused " not in f" {line}"]
        self.assertEqual([(last, text) for _, last, text in shown], [(edges[int(at)], text) for at, text in wanted])
        frames = [line.split() for line in told(["show"], halves) if "refused" not in line]
        begins = [edges[int(at) - 9 * len(frame) - 2] for at, frame in frames]
        self.assertEqual([first for first, _, _ in shown], begins)

    def test_refusals_have_their_reason(self):
        halves = faulty_halves(120, 6)
        shown, edges = self.annotations(halves, "refused", ["text=hex"])
        wanted = [line.split() for line in told(["show"], halves) if " refused " in line]
        self.assertEqual([last for _, last, _ in shown], [edges[int(it[0])] for it in wanted])
        for (_, _, text), line in zip(shown, wanted):
            self.assertRegex(text, rf"^Refused{' ' + line[3] if len(line) > 3 else ''}: .* \({line[2]}\)$")
        self.assertGreater(len(shown), 10)

    def test_lost_packets_have_their_causes(self):
        halves = faulty_halves(120, 7)
        shown, edges = self.annotations(halves, "lost", ["text=packet lines"])
        wanted = [line.split(" lost ", 1) for line in told(["lost", "--words"], halves)]
        wanted = [(edges[int(at)], f"Lost {text}") for at, text in wanted]
        self.assertEqual([(last, text) for _, last, text in shown], wanted)
        self.assertGreater(len(shown), 5)

    def test_bits_and_bytes_of_a_packet(self):
        halves = [58] * 40 + halves_of(bytes.fromhex("036261"))
        shown, edges = self.annotations(halves, "bytes")
        self.assertEqual([text for _, _, text in shown], ["Address: 0x03", "Instruction: 0x62", "Error byte: 0x61"])
        begins = [40 + 28 + 2 + 18 * i for i in range(3)]
        self.assertEqual([(a, b) for a, b, _ in shown], [(edges[at], edges[at + 16]) for at in begins])
        shown, edges = self.annotations(halves, "bits")
        self.assertEqual(shown[0], (edges[0], edges[68], "Preamble: 34 ones"))
        self.assertEqual(" ".join(text for _, _, text in shown[1:]).split("Start bit")[1].split(), list("00000011"))
        self.assertEqual(shown[-1], (edges[-3], edges[-1], "End bit"))

    def test_options(self):
        halves = halves_of(bytes.fromhex("036261")) + [58] * 4
        self.assertEqual(self.annotations(halves, "packet", ["text=hex"])[0][0][2], "036261")
        self.assertEqual(self.annotations(halves, "packet", ["text=packet lines"])[0][0][2], "loco s3 speed28 f 4")
        self.assertEqual(len(self.annotations(halves, "half")[0]), len(halves))
        self.assertEqual(self.annotations(halves, "half", ["halves=no"])[0], [])
        # a spike of 3 microseconds splits a half-bit of 100 microseconds
        split = [*halves[:28], 50, 3, 47, *halves[29:]]
        self.assertEqual(self.annotations(split, "packet")[0], [])
        self.assertEqual(len(self.annotations(split, "packet", ["spikes=10"])[0]), 1)

    def test_a_decoder_on_top_gets_each_packet(self):
        halves = faulty_halves(120, 9)
        shown, edges = self.annotations(halves, "", stacked=True)
        wanted = []
        for line in told(["show"], halves) + told(["lost"], halves):
            at, *named = line.split()
            if named[0] == "lost":
                frame, what = named[1][:-1], ["LOST", named[1][:-1], line.split(": ", 1)[1]]
            elif named[0] == "refused":
                frame, what = "".join(named[2:]), ["REFUSED", named[1], "".join(named[2:])]
            else:
                frame, what = named[0], ["PACKET", named[0]]
            wanted.append((frame and edges[int(at) - 9 * len(frame) - 2], edges[int(at)], "|".join(what)))
        self.assertEqual([it[1:] for it in shown], [it[1:] for it in sorted(wanted, key=lambda it: it[1])])
        begins = {it[1:]: it[0] for it in wanted}
        for first, *rest in shown:
            self.assertIn(begins[tuple(rest)], ("", first))
        for kind in ("PACKET", "REFUSED|H1|", "REFUSED|H5|", "LOST"):
            self.assertTrue(any(it.startswith(kind) for _, _, it in shown), kind)

    def test_files_of_analysers_are_listed_as_dcc_lists_them(self):
        with tempfile.TemporaryDirectory() as room:
            subprocess.run([f"{TOP}/tools/analyser-forms", room], check=True)
            files = {}
            for it in os.listdir(room):
                if it.endswith(".name"):
                    with open(f"{room}/{it}", encoding="utf-8") as name, open(f"{room}/{it[:-5]}.packets") as packets:
                        files[name.read().strip()] = it[:-5], int(packets.read())
            # each file of sigrok, and each VCD with packets, is in one of the lists
            of_vcd = [it for it, (number, _) in files.items() if is_vcd(f"{room}/{number}.file")]
            named = {*VCD, *CSV, *(it for names in UNREAD.values() for it in names)}
            lacking = [it for it in {*of_vcd, *(it for it in files if "csv" in it)} - named if files[it][1]]
            self.assertEqual(lacking, [])
            for name in (*VCD, *CSV):
                with self.subTest(name):
                    self.check_file(room, *files[name], name)

    def check_file(self, room, number, packets, name):
        file, channel = f"{room}/{number}.file", VCD.get(name, "")
        with open(file, encoding="latin-1") as text:
            is_ns = re.search(r"timescale\s+1 ?ns", text.read(200))
        reads = f"vcd{':downsample=1000' * bool(is_ns)}" if name in VCD else "csv:column_formats=l:header=yes"
        reads += "" if name in VCD else ":samplerate=1000000"
        decoder = f"dcc{f':track={channel}' * bool(channel)}"
        ran = subprocess.run([f"{TOP}/tools/to-capture", "-c", channel, file], capture_output=True, text=True)
        halves = ran.stdout.split()
        lines = [it.split(" ", 1) for it in told(["show", "--plain"], halves)]
        shown = [text for _, _, text in shown_in(file, ["-I", reads, "-P", decoder], "dcc=packet:refused:lost")]
        # the last half-bit of the capture is after the last edge. A packet that ends with the last edge can be missing
        wanted = [text for at, text in lines if int(at) < len(halves)]
        self.assertEqual(len(lines), packets)
        self.assertGreater(len(shown), 0)
        self.assertIn(shown, (wanted, [text for at, text in lines if int(at) < len(halves) - 1]))

    def test_cutouts_and_slow_recordings(self):
        halves = halves_of(bytes.fromhex("036261")) + [28, 450] + [58] * 10
        shown, edges = self.annotations(halves, "cutout")
        self.assertEqual(shown, [(edges[-13], edges[-11], "RailCom cutout")])
        self.assertEqual(self.annotations(halves, "warning")[0], [])
        slow = self.annotations(halves, "warning", rate=250_000)[0]
        self.assertEqual([text for _, _, text in slow], ["The sample rate is below 400 kHz"])

    def test_jitter_within_the_limits_loses_nothing(self):
        halves = [us for frame in random_frames(60, 8) for us in halves_of(frame)] + [58]
        shown, _ = self.annotations(halves, "packet", ["text=hex"], jitter=RATE * 5 // 1_000_000)
        self.assertEqual([text for _, _, text in shown], [frame.hex() for frame in random_frames(60, 8)])


if __name__ == "__main__":
    if not shutil.which("sigrok-cli"):
        print("left out: the decoder in sigrok-cli, which is not installed")
    done = unittest.main(exit=False).result
    if len(sys.argv) == 1 and done.testsRun < LEAST:
        sys.exit(f"only {done.testsRun} tests ran, and the script has {LEAST} at least")
    sys.exit(not done.wasSuccessful())
