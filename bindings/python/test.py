#!/usr/bin/env python3
"""Compares the module with the program: packet by packet on lines that are written out, then on 10,000 random packets
with spoilt half-bits.

    bindings/python/test.py        needs libdcc_c.so (make), and the program of a release or of this repository, or the
                                   one that DCC_PROGRAM names
"""
import array
import base64
import collections
import copy
import ctypes
import hashlib
import io
import itertools
import os
import random
import re
import shutil
import subprocess
import sys
import sysconfig
import tarfile
import tempfile
import unittest
import unittest.mock
import zipfile

HERE = os.path.dirname(os.path.abspath(__file__))
TOP = os.path.join(HERE, "..", "..")
PLACES = [os.path.join(TOP, it) for it in ("bin/x86_64-unknown-linux-gnu/dcc", "crates/dcc/out/dcc")]
PROGRAM = os.environ.get("DCC_PROGRAM") or next((it for it in PLACES if os.path.isfile(it)), None)
if not PROGRAM:
    sys.exit("test.py: no program dcc: name one in DCC_PROGRAM")

import dcc
import dcc_analyser

IDLE, RESET = b"\xff\0\xff", bytes(3)
SPEED = bytes([0x03, 0x62, 0x61])  # loco s3 speed28 f 4


def written(words, text=""):
    return subprocess.run(words, input=text, capture_output=True, text=True, check=True).stdout


def program(*words, text):
    return written([PROGRAM, *words], text)


def told(words, text):
    """What a program of bytes writes, says and ends with."""
    done = subprocess.run(words, input=text, capture_output=True)
    return done.stdout, done.stderr, done.returncode


def rows():
    with open(os.path.join(HERE, "..", "each_register.txt"), encoding="ascii") as lines:
        return [it.rstrip("\n") for it in lines if not it.startswith("#")]


def timing_text(found):
    """The text that `dcc timing` writes for these statistics."""

    def shown(number):
        return "none" if number is None else str(number)

    def tally(name):
        it = getattr(found, name)
        mean = f"{it.sum // it.count}.{100 * (it.sum % it.count) // it.count:02}" if it.count else "none"
        yield f"{name} count {it.count}"
        yield f"{name} least {shown(it.least)}"
        yield f"{name} most {shown(it.most)}"
        yield f"{name} mean {mean}"

    lines = [f"halves {found.halves}", f"time {found.time}", f"packets {found.packets}"]
    lines += (f"refused {name} {count}" for name, count in found.refused.items())
    lines += [f"lost {found.lost}", f"preamble least {shown(found.preamble)}", f"gap most {shown(found.gap)}"]
    lines += [*tally("ones"), "ones station 55 61", "ones decoder 52 64"]
    lines += [*tally("differences"), "differences station 3", "differences decoder 6"]
    lines += [*tally("zeros"), "zeros station 95 9900", "zeros decoder 90 10000", *tally("sums"), "sums station 12000"]
    return "".join(f"{line}\n" for line in [*lines, *tally("below"), *tally("between"), *tally("above")])


def decoders():
    """The decoders of bindings/each_register.txt."""
    locos = {1: 3, 29: 2}, {17: 0xC3, 18: 0xE8, 29: 0x22}, {1: 3, 29: 0}, {}
    return [dcc.Loco(it) for it in locos] + [dcc.Board(it) for it in (12, 0, 510)]


def text_of(fleet):
    return "".join(["dcc-decoders 2\n", *(f"{it}\n" for it in fleet), "end\n"])


def run(fleet, capture):
    """The text of each decoder after the program has played a capture to it."""
    text = program("run", text=text_of(fleet) + capture)
    return re.split(r"\n(?=loco|board|end)", text)[1:-1]


def service_write(cv, value):
    """The service packet that writes a value to a CV."""
    first, place = 0x7C | (cv - 1) >> 8, (cv - 1) & 0xFF
    return bytes([first, place, value, first ^ place ^ value])


def answers(decoder, *frames):
    """Whether a decoder on both tracks acknowledges each of these frames, and the CV that changes."""
    found = [decoder.hear(it) for it in frames]
    return [(it.acknowledged, it.changed) for it in found]


def is_for(decoder, line):
    """Whether the packet of a line is for a decoder, by the line."""
    words = line.split()
    if isinstance(decoder, dcc.Board):
        signals = range(decoder.number * 4, decoder.number * 4 + 4)
        of_all = words[:3] == ["loco", "all", "reset"]
        return (
            of_all
            or words[0] == "accessory"
            and int(words[1]) in (decoder.number, 511)
            or words[0] == "signal"
            and int(words[1]) in (*signals, 2047)
        )
    if words[0] == "loco":
        return words[1] in ("all", decoder.address)
    if words[0] != "frame":
        return False
    first, second = bytes.fromhex(words[1])[:2]
    return first == 0 or decoder.address in (
        (f"s{first}",) if first < 128 else (f"l{(first - 192) * 256 + second}",) if 192 <= first < 232 else ()
    )


def wrong(frame):
    """The half-bits of the body of a frame, whose error byte may be wrong."""
    bits = [bit for byte in frame for bit in (0, *(byte >> place & 1 for place in range(7, -1, -1)))] + [1]
    return [us for bit in bits for us in ((58, 58) if bit else (100, 100))]


def spoilt(chance):
    """The words of a random capture, whose packets have spikes, odd half-bits and wrong lengths, and begin in other
    packets."""
    words = []
    for _ in range(chance.randrange(1, 5)):
        frame = [chance.randrange(256) for _ in range(chance.choice([1, 2, 2, 3, 4, 5, 6]))]
        error = 0
        for byte in frame:
            error ^= byte
        frame.append(error ^ (chance.random() < 0.2))
        faults = chance.choice([0, 0.005, 0.02])
        ones = [58] * chance.randrange(6, 40)
        if chance.random() < 0.4:  # the first byte of a packet, in which this packet begins
            ones = [58] * 20 + [100] * chance.choice([2, 2, 4, 6]) + [58] * chance.randrange(8, 18, 2)
        for us in ones + wrong(frame):
            first, spike = chance.randrange(1, us - 5), chance.randrange(0, 6)
            kinds = (
                *([first, spike, us - spike - first], [us, f"{spike}*{chance.randrange(1, 5)}"], [spike, us], [first]),
                *([us, us], [], [chance.choice([25, 26, 51, 65, 76, 77, 89, 10001, 20001])], [us, "0*200", us]),
            )
            words += map(str, chance.choice(kinds) if chance.random() < faults else [us])
    return words


def to_capture(data, *words):
    """The half-bits and the sentence of tools/to-capture."""
    out, error, _ = told([os.path.join(TOP, "tools", "to-capture"), *words], data)
    return [int(it) for it in out.split()], error.decode("latin-1").strip().removeprefix("to-capture: ")


def recorded(data, channel=None):
    """The half-bits and the sentence of the module."""
    try:
        return list(dcc_analyser.read(data, channel).halves), ""
    except dcc_analyser.Unreadable as fault:
        return list(fault.halves), str(fault)


def bytes_of(path):
    with open(path, "rb") as file:
        return file.read()


class Analysers(unittest.TestCase):
    """Files of logic analysers, beside tools/to-capture."""

    def assertAlike(self, data, channel=None):
        halves, sentence = to_capture(data, *([] if channel is None else ["-c", channel]))
        found, said = recorded(data, channel)
        self.assertEqual(said.replace(": choose another", ", and -c takes another"), sentence)
        self.assertEqual(found, halves)

    @unittest.skipUnless(os.path.isfile(os.path.join(TOP, "tools", "analyser-forms")), "the forms need the repository")
    def test_forms_of_files_are_read_as_to_capture_reads_them(self):
        with tempfile.TemporaryDirectory() as room:
            subprocess.run([os.path.join(TOP, "tools", "analyser-forms"), room], check=True)
            rows = sorted(it[:-5] for it in os.listdir(room) if it.endswith(".file"))
            self.assertGreater(len(rows), 60)
            for row in rows:
                name, file, channel = (bytes_of(os.path.join(room, row + it)) for it in (".name", ".file", ".channel"))
                # (the script refuses a session of sigrok, which the module reads)
                if not file.startswith(b"PK"):
                    with self.subTest(name.decode()):
                        self.assertAlike(file, channel.decode().rstrip("\n") or None)

    def test_examples_and_odd_files(self):
        for name in "analyser.vcd", "analyser.csv":
            path = os.path.join(TOP, "examples", name)
            halves = dcc_analyser.read(path).halves
            lines = "".join(f"{it}\n" for it in dcc.seen(halves))
            with open(os.path.join(TOP, "examples", "analyser.words"), encoding="ascii") as words:
                self.assertEqual(lines, words.read())
        head = "$timescale 1 us $end $var wire 1 ! a $end $var wire 1 % b2 $end $enddefinitions $end\n"
        rows = "#0 0! 1%\n#58 1!\n#116 0! 0%\n#174 1!\n"
        for text in (
            "", "\n \n", "58 58", "libsigrok 0.5.2\n", head, head + rows, rows, head.replace("us", "qs") + rows,
            head + "#0 0!\n#5x 1!\n", head + "#5 0!\n#4 1!\n", "$enddefinitions $end #0",
            head + "#0 b0 !\n#9 b1 !\n#20 b0 !", "Time [s],a\n0,0\n1,1\n1.07,0\n1.070058,1\n",
            "Time [s],a\n0,0,0\n", "Time [s],a\n0,0.5\n", "Time [s],a,b\n0,0,1\n",
            'Time [s],"a\n0,0\n', "\xef\xbb\xbfTime [s],a\n0,0\n", "META x\n" + head + rows, "PKxx",
            "Time,a\n0,0\n1,1\n", "Time [us],a\n0,0\n10,1\n68.6,0\n127.1,1\n185.5,0\n",
            "; Channels (2/8): D0, D1\n; Samplerate: 1 MHz\nlogic,logic\n" + "0,0\n1,0\n" * 3, "\xff\xfeT\0",
            head.replace("1 us", f"{'1' * 400} us") + rows, head.replace("1 us", f"{'1' * 5000} us") + rows,
            head + rows + "#" + "9" * 5000, f"; Channels ({'1' * 5000}/8): D0\n; Samplerate: 1 MHz\nlogic\n0\n1\n",
            "; Samplerate: 1.2.3\nlogic\n0\n1\n", "; Samplerate: . MHz\nlogic\n0\n1\n",
        ):  # fmt: skip
            data = text.encode("latin-1")
            if data.startswith(b"PK"):
                self.assertIn("no session of sigrok", recorded(data)[1])
            else:
                with self.subTest(text):
                    self.assertAlike(data)
        for unit in dcc_analyser._MICROSECONDS:
            zeros = "0" * {"fs": 9, "ps": 6, "ns": 3}.get(unit, 0)
            self.assertAlike((head.replace("us", unit) + re.sub(r"(#[0-9]+)", rf"\g<1>{zeros}", rows)).encode())
        for columns in 20, 21, 25:
            names = ",".join(f"c{it}" for it in range(columns))
            self.assertAlike(f"Time [s],{names}\n0{',0' * columns}\n".encode())
        for channel in "a", "%", "b2", "2", "x", "!", "b":
            self.assertAlike((head + rows).encode(), channel)
        self.assertEqual(dcc_analyser.read(self.track(), "b").channel, "b")
        self.assertRaises(TypeError, dcc_analyser.read, 5)
        self.assertRaises(TypeError, dcc_analyser.read, b"", 5)
        self.assertRaises(OSError, dcc_analyser.read, os.path.join(TOP, "lacking"))

    def test_a_file_has_a_limit_of_half_bits(self):
        whole = recorded(self.track(), "b")[0]
        with unittest.mock.patch.object(dcc_analyser, "MOST_HALVES", len(whole)):
            self.assertEqual(recorded(self.track(), "b"), (whole, ""))
        for most in 50, len(whole) - 1:
            with unittest.mock.patch.object(dcc_analyser, "MOST_HALVES", most):
                self.assertEqual(recorded(self.track(), "b"), (whole[:most], "U7 input too long"))

    @staticmethod
    def track(channel=2):
        """A digital CSV in which the second channel has a packet."""
        at, rows = 0, []
        for n, us in enumerate(dcc.halves(SPEED) + [58]):
            rows.append(f"{at / 1e6:.6f}," + ",".join(str(n % 2) if it == channel else "0" for it in (1, 2)))
            at += us
        return ("Time [s],a,b\n" + "\n".join(rows) + "\n").encode()

    @staticmethod
    def session(rate="2 MHz", size=1, pieces=3, probes={1: "D0", 3: "track \u00b5"}, bit=2, **other):
        """A session of sigrok in which one channel has a packet."""
        levels = []
        for n, us in enumerate([100, *dcc.halves(SPEED), 58]):
            levels += [n % 2] * (2 * us)
        sample = lambda it: bytes([(it << bit % 8) | 1 if place == bit // 8 else 0 for place in range(size)])
        samples = b"".join(map(sample, levels))
        lines = ["[global]", "sigrok version=0.5", "[device 1]", "capturefile=logic-1", f"samplerate={rate}"]
        lines += [f"unitsize={size}", *(f"probe{n}={name}" for n, name in probes.items())]
        file = io.BytesIO()
        with zipfile.ZipFile(file, "w", other.get("how", zipfile.ZIP_STORED)) as archive:
            archive.writestr("version", "2")
            archive.writestr("metadata", "\n".join(other.get("lines", lines)))
            step = -(-len(levels) // pieces) * size
            for n in range(pieces):
                piece = samples[n * step : (n + 1) * step] + other.get("rest", b"")
                archive.writestr(f"logic-1-{n + 1}", piece)
        return file.getvalue()

    def test_sessions_of_sigrok(self):
        session = self.session
        wanted = ["84 loco s3 speed28 f 4"]
        for words in {}, {"pieces": 1}, {"pieces": 12}, {"size": 2, "bit": 9, "probes": {1: "x", 10: "track \u00b5"}}:
            found = dcc_analyser.read(session(**words), "track \u00b5")
            self.assertEqual([str(it) for it in dcc.seen(found.halves)], wanted, words)
            self.assertEqual((found.channel, len(found.channels)), ("track \u00b5", 2))
        halves, sentence = recorded(session(rate="1 MHz"), "track \u00b5")
        self.assertEqual((halves[:2], "has no packet: 85 halves, of 116 to 200" in sentence), ([116, 116], True))
        for words, sentence in (
            ({"lines": []}, "no session of sigrok"),
            ({"rate": "0 Hz"}, "no rate"),
            ({"probes": {}}, "no channel"),
            ({"probes": {9: "track \u00b5"}}, "fewer bits"),
        ):
            self.assertIn(sentence, recorded(session(**words), "track \u00b5")[1])
        self.assertIn("has no two edges; the channels are D0", recorded(session())[1])
        # (ConfigParser takes a % for the begin of a name)
        found = dcc_analyser.read(session(probes={3: "duty 50%"}))
        self.assertEqual(([str(it) for it in dcc.seen(found.halves)], found.channel), (wanted, "duty 50%"))
        self.assertEqual(recorded(session(probes={0: "x", 3: "track"}))[1], "")
        # (a byte at the end of a piece that is no whole sample)
        words = {"size": 2, "pieces": 12, "bit": 2}
        halves = recorded(session(**words), "track \u00b5")[0]
        self.assertEqual((len(halves), recorded(session(**words, rest=b"\4"), "track \u00b5")[0]), (85, halves))

    def test_a_damaged_session_keeps_what_stands_before_the_damage(self):
        whole = self.session(how=zipfile.ZIP_DEFLATED)
        halves = recorded(whole, "track \u00b5")[0]
        # the places of the name of the last piece, in its local header and in the directory
        local, entry = whole.index(b"logic-1-3"), whole.rindex(b"logic-1-3") - 46
        for name, at, value in (
            ("the checksum", entry + 16, whole[entry + 16] ^ 1),
            ("an encrypted piece", entry + 8, 1),
            ("a method that is not known", entry + 10, 99),
            ("another name", local + 8, ord("4")),
            ("bytes that are not compressed", local + 9, 255),
        ):
            with self.subTest(name):
                damaged = bytearray(whole)
                damaged[at] = value
                found, said = recorded(bytes(damaged), "track \u00b5")
                self.assertIn('"logic-1-3" of this session cannot be read: ', said)
                self.assertEqual(found, halves[: len(found)])
                self.assertGreater(len(found), 50)

    def test_a_damaged_session_is_read_or_refused(self):
        whole, chance, refused = self.session(how=zipfile.ZIP_DEFLATED), random.Random(61), 0
        for _ in range(2000):
            damaged = bytearray(whole)
            for _ in range(chance.choice((1, 1, 3))):
                damaged[chance.randrange(2, len(damaged))] = chance.randrange(256)
            if not chance.randrange(20):
                del damaged[chance.randrange(2, len(damaged)) :]
            # (any other error than Unreadable ends the test)
            refused += recorded(bytes(damaged), "track \u00b5")[1] != ""
        self.assertGreater(refused, 1000)


class Wheels(unittest.TestCase):
    """The wheel, with a stub in place of the shared object."""

    FILES = (
        "LICENSE-APACHE", "LICENSE-MIT", "README.md", "backend.py", "dcc.py", "dcc_analyser.py", "pyproject.toml",
        "wheel",
    )  # fmt: skip
    EXAMPLES = "histogram.py", "show.py", "table.py"

    def wheel(self, room, library):
        """Makes a wheel with this content of the shared object. Returns the files of the wheel, and what is said."""
        for name in self.FILES:
            shutil.copy(os.path.join(HERE, name), room)
        with open(f"{room}/make", "wb") as make:
            make.write(b"#!/bin/sh\nprintf '" + library + b"' > \"$2/libdcc_c.so\"\n")
        os.chmod(f"{room}/make", 0o755)
        said = subprocess.run([f"{room}/wheel", f"{room}/made"], capture_output=True, text=True)
        if said.returncode:
            return said.returncode, said.stderr
        with zipfile.ZipFile(said.stdout.strip()) as archive:
            return {it.filename: archive.read(it) for it in archive.infolist()}, bytes_of(said.stdout.strip())

    def test_a_wheel_has_its_files_with_their_sums(self):
        with tempfile.TemporaryDirectory() as room, tempfile.TemporaryDirectory() as other:
            files, whole = self.wheel(room, b"GLIBC_2.17 GLIBC_2.2.5")
            self.assertEqual(self.wheel(other, b"GLIBC_2.17 GLIBC_2.2.5")[1], whole)
        info = next(it for it in files if it.endswith("/RECORD"))[: -len("/RECORD")]
        wanted = {"dcc/__init__.py": "dcc.py", "dcc_analyser.py": "dcc_analyser.py"}
        wanted.update((f"{info}/licenses/{it}", it) for it in ("LICENSE-MIT", "LICENSE-APACHE"))
        for path, name in wanted.items():
            self.assertEqual(files[path], bytes_of(os.path.join(HERE, name)), path)
        made = {"dcc/libdcc_c.so", "dcc/py.typed", *(f"{info}/{it}" for it in ("METADATA", "WHEEL", "RECORD"))}
        self.assertEqual(set(files), made | set(wanted))
        self.assertEqual((files["dcc/py.typed"], files["dcc/libdcc_c.so"]), (b"", b"GLIBC_2.17 GLIBC_2.2.5"))
        rows = [it.split(",") for it in files[f"{info}/RECORD"].decode().splitlines()]
        self.assertEqual(sorted(it[0] for it in rows), sorted(files))
        for path, told, size in rows:
            total = base64.urlsafe_b64encode(hashlib.sha256(files[path]).digest()).decode().rstrip("=")
            of_itself = path == f"{info}/RECORD"
            self.assertEqual((told, size), ("", "") if of_itself else (f"sha256={total}", str(len(files[path]))), path)

    def test_a_wheel_needs_no_newer_glibc(self):
        for library in b"GLIBC_2.2.5 GLIBC_2.18", b"GLIBC_2.34", b"GLIBC_3.0":
            with tempfile.TemporaryDirectory() as room:
                status, said = self.wheel(room, library)
                self.assertEqual((status, said), (1, "wheel: the shared object needs a glibc newer than 2.17\n"))
                self.assertFalse(os.path.exists(f"{room}/made"))

    def clone(self, room):
        """Makes the folder of the package, as in a clone with a small C file, and a compiler that copies this file.
        Returns the folder."""
        folder = f"{room}/bindings/python"
        for it in folder, f"{room}/c", f"{room}/include", f"{room}/other":
            os.makedirs(it)
        for it in (*self.FILES, *self.EXAMPLES):
            shutil.copy(os.path.join(HERE, it), folder)
        contents = {
            "c/dcc.c": "of the clone", "include/dcc.h": "header", "other/dcc.c": "other", "other/dcc.h": "other header",
            "cc": '#!/bin/sh\n[ "$*" = "${*#*header}" ] && while [ "$1" != -I ]; do shift; done && '
            'cat "$2/dcc.h" "$5" > "$4"\n',
        }  # fmt: skip
        for path, content in contents.items():
            with open(f"{room}/{path}", "w", encoding="ascii") as file:
                file.write(content)
        os.chmod(f"{room}/cc", 0o755)
        return folder

    def built(self, folder, call, **words):
        """Calls a function of the backend in a folder. Returns its result, or the end of its error."""
        words = {name: it for name, it in {**os.environ, "DCC_SOURCE": "", **words}.items() if it}
        text = f"import backend; print(backend.{call})"
        said = subprocess.run([sys.executable, "-c", text], cwd=folder, env=words, capture_output=True, text=True)
        return said.stderr.strip().split("\n")[-1] if said.returncode else said.stdout.strip()

    def test_pip_builds_a_wheel_of_the_one_c_file(self):
        with tempfile.TemporaryDirectory() as room:
            folder = self.clone(room)
            system = b'[build-system]\nrequires = []\nbuild-backend = "backend"\nbackend-path = ["."]\n'
            self.assertIn(system, bytes_of(f"{folder}/pyproject.toml"))
            for source, library in (None, b"headerof the clone"), (f"{room}/other/dcc.c", b"other headerother"):
                name = self.built(folder, "build_wheel('made')", CC=f"{room}/cc -Wall", DCC_SOURCE=source)
                self.assertRegex(name, r"^kogreffyn-[0-9.]+-py3-none-[a-z0-9_]+\.whl$")
                platform = re.sub("[-.]", "_", sysconfig.get_platform())
                self.assertTrue(name.endswith(f"-py3-none-{platform}.whl"), name)
                with zipfile.ZipFile(f"{folder}/made/{name}") as archive:
                    self.assertEqual(archive.read("dcc/libdcc_c.so"), library)
                    info = next(it for it in archive.namelist() if it.endswith("/WHEEL"))
                    self.assertIn(f"\nRoot-Is-Purelib: false\nTag: py3-none-{platform}\n", archive.read(info).decode())
            said = self.built(folder, "build_wheel('made')", CC="false")
            self.assertTrue(said.startswith("subprocess.CalledProcessError"), said)
            said = self.built(folder, "build_wheel('made')", PATH=f"{room}/other", CC="")
            self.assertIn("no C compiler: install one, or name it in CC", said)
            os.remove(f"{room}/c/dcc.c")
            self.assertIn("no dcc.c: name the one C file in DCC_SOURCE", self.built(folder, "build_wheel('made')"))
            said = self.built(folder, "build_wheel('made')", DCC_SOURCE="lacking.c")
            self.assertIn("no lacking.c: name the one C file in DCC_SOURCE", said)

    def test_a_source_distribution_builds_the_wheel(self):
        with tempfile.TemporaryDirectory() as room, tempfile.TemporaryDirectory() as other:
            folder = self.clone(room)
            name = self.built(folder, f"build_sdist({other!r})")
            whole = bytes_of(f"{other}/{name}")
            self.assertEqual(self.built(folder, f"build_sdist({other!r})"), name)
            self.assertEqual(bytes_of(f"{other}/{name}"), whole)
            begin = name[: -len(".tar.gz")]
            self.assertRegex(begin, r"^kogreffyn-[0-9.]+$")
            with tarfile.open(f"{other}/{name}") as archive:
                files = {it.name: it.mode for it in archive.getmembers()}
                archive.extractall(other)
            wanted = {"PKG-INFO", "dcc.c", "dcc.h", *self.FILES, *self.EXAMPLES} - {"wheel"}
            self.assertEqual(set(files), {f"{begin}/{it}" for it in wanted})
            for it in wanted - {"PKG-INFO", "dcc.c", "dcc.h"}:
                self.assertEqual(bytes_of(f"{other}/{begin}/{it}"), bytes_of(os.path.join(HERE, it)), it)
                self.assertEqual(files[f"{begin}/{it}"], 0o755 if it in self.EXAMPLES else 0o644, it)
            info = bytes_of(f"{other}/{begin}/PKG-INFO").decode()
            self.assertRegex(info, r"^Metadata-Version: 2.1\nName: kogreffyn\nVersion: [0-9.]+\n")
            self.assertNotIn("](../", info)
            wheel = self.built(f"{other}/{begin}", "build_wheel('made')", CC=f"{room}/cc")
            with zipfile.ZipFile(f"{other}/{begin}/made/{wheel}") as archive:
                self.assertEqual(archive.read("dcc/libdcc_c.so"), b"headerof the clone")


class ByHand(unittest.TestCase):
    """Packet by packet, and rows that are written out."""

    def assertRefused(self, name, call, *arguments, **words):
        with self.subTest(name), self.assertRaises(dcc.Refused) as said:
            call(*arguments, **words)
        self.assertEqual(str(said.exception), name)
        self.assertIsInstance(said.exception, ValueError)

    def test_each_register_is_as_run_writes_it(self):
        fleet, reached = decoders(), set()
        for line in rows():
            frame = dcc.frame(line)
            after = run(fleet, program("encode", text=line + "\n"))
            for it, text in zip(fleet, after):
                self.assertEqual(it.hears(frame), is_for(it, line), line)
                self.assertTrue(it.hears(frame) or str(it) == text)
                it.apply(frame)
                self.assertEqual(str(it), text, line)
            reached |= {word for text in after for word in text.splitlines()}
        for it in (
            "speed emergency r",
            "speed 14 8 f",
            "speed 28 28 r",
            "speed 126 126 f",
            "pending 03ec0609e0",
            "out 0 2 5 6 7",
            "aspect 6 6 6 6",
            "board 510",
        ):
            self.assertIn(it, reached)

    def test_properties(self):
        loco = dcc.Loco({17: 0xC3, 18: 0xE8, 29: 0x22})
        self.assertEqual((loco.address, loco.speed, loco.is_forward, loco.pending), ("l1000", "stop", True, None))
        for line in (
            "loco l1000 speed128 r 1",
            "loco l1000 functions 61 129",
            "loco l1000 state 127 on",
            "loco l1000 cv write 3 7",
        ):
            loco.apply(dcc.frame(line))
        self.assertEqual(
            (loco.speed, loco.is_forward, loco.functions, loco.states), ("emergency", False, [61, 68], [127])
        )
        self.assertEqual(
            (loco.pending, loco.cvs[16:18], len(loco.cvs)), (dcc.frame("loco l1000 cv write 3 7"), b"\xc3\xe8", 1024)
        )
        self.assertEqual((dcc.Loco({}).address, dcc.Loco({1024: 5}).cvs[1023]), (None, 5))
        self.assertEqual(dcc.Loco([5, *[0] * 1023]).cvs, dcc.Loco({1: 5}).cvs)
        board = dcc.Board(12)
        for line in "accessory 12 7 on", "accessory 12 2 on", "signal 51 9":
            board.apply(dcc.frame(line))
        self.assertEqual(
            (board.number, board.outputs, board.positions, board.aspects), (12, [2, 7], [0, 0, 0, 1], [0, 0, 0, 9])
        )

    def test_a_loco_is_programmed_and_has_its_new_address(self):
        loco, write, to_10 = dcc.TrackLoco({1: 3, 29: 2}), service_write(1, 10), dcc.frame("loco s10 speed28 r 5")
        self.assertEqual((loco.address, loco.speed, loco.is_in_service), ("s3", "stop", False))
        # (a decoder that is not in service mode hears no service packet)
        self.assertEqual(answers(loco, write, write, SPEED), [(False, None)] * 3)
        self.assertEqual((loco.speed, loco.cvs, loco.is_in_service), ((1, 28), dcc.Loco({1: 3, 29: 2}).cvs, False))
        self.assertEqual(answers(loco, RESET, RESET, RESET), [(False, None)] * 3)
        self.assertEqual((loco.speed, loco.is_in_service), ("stop", True))
        self.assertEqual(answers(loco, *[write] * 4), [(False, None), (True, 1), (True, None), (True, None)])
        self.assertEqual((loco.address, loco.cvs[0], loco.is_in_service), ("s3", 10, True))
        loco.end_service()
        self.assertEqual((loco.address, loco.is_in_service), ("s10", False))
        self.assertEqual(answers(loco, SPEED, to_10), [(False, None)] * 2)
        self.assertEqual((loco.speed, loco.is_forward), ((2, 28), False))
        loco.hear(SPEED)
        self.assertEqual((loco.speed, loco.is_forward), ((2, 28), False))
        self.assertEqual(loco.hear(RESET), dcc.Answer(acknowledged=False, changed=None))
        self.assertEqual(answers(loco, *[service_write(1024, 255)] * 2), [(False, None), (True, 1024)])
        self.assertEqual(loco.cvs[1023], 255)

    def test_a_board_is_programmed_and_has_its_new_number(self):
        board, to_all = dcc.TrackBoard({1: 12, 9: 1}), dcc.frame("accessory 511 7 on")
        to_76, to_12 = dcc.frame("accessory 76 5 on"), dcc.frame("accessory 12 0 on")
        self.assertEqual((board.number, board.outputs, board.is_in_service), (76, [], False))
        self.assertEqual(answers(board, to_12, to_76, dcc.frame("signal 305 9")), [(False, None)] * 3)
        self.assertEqual((board.outputs, board.positions, board.aspects), ([5], [0, 0, 1, 0], [0, 9, 0, 0]))
        self.assertEqual(answers(board, RESET, *[service_write(9, 0)] * 2), [(False, None)] * 2 + [(True, 9)])
        self.assertEqual((board.number, board.is_in_service, board.cvs[8]), (76, True, 0))
        self.assertEqual((board.cvs[0], len(board.cvs)), (12, 1024))
        # (a frame of the main track ends service mode)
        self.assertEqual(answers(board, to_76, to_12), [(False, None)] * 2)
        self.assertEqual((board.number, board.outputs, board.positions), (12, [0], [0, 0, 1, 0]))
        self.assertFalse(board.is_in_service)
        answers(board, RESET, *[service_write(1, 13)] * 2)
        board.end_service()
        self.assertEqual((board.number, board.is_in_service), (13, False))
        all_boards = dcc.TrackBoard({1: 63, 9: 7})
        answers(all_boards, dcc.frame("accessory 510 0 on"), to_all)
        self.assertEqual((all_boards.number, all_boards.outputs), (511, [7]))

    def test_decoders_stay_on_the_main_track(self):
        speed = bytes([0x7C, 0x3F, 0x85, 0xC6])  # on the programming track, a write of CV64
        self.assertEqual(dcc.line(speed), "loco s124 speed128 f 5")
        for decoder in dcc.TrackLoco({1: 124, 29: 2}), dcc.TrackBoard({}):
            decoder.hear(RESET)
            self.assertTrue(decoder.is_in_service)
            decoder.set_main_only(True)
            self.assertFalse(decoder.is_in_service)
            self.assertEqual(answers(decoder, RESET, speed, speed), [(False, None)] * 3)
            self.assertEqual((decoder.is_in_service, decoder.cvs[63]), (False, 0))
            if isinstance(decoder, dcc.TrackLoco):
                self.assertEqual(decoder.speed, (4, 126))
            decoder.set_main_only(False)
            self.assertEqual(answers(decoder, RESET, speed, speed), [(False, None), (False, None), (True, 64)])
            self.assertEqual((decoder.is_in_service, decoder.cvs[63]), (True, 0x85))
            for wrong in 1, 0, None, "yes":
                self.assertRaises(TypeError, decoder.set_main_only, wrong)
            self.assertTrue(decoder.is_in_service)
            decoder.set_main_only(True)
            self.assertFalse(decoder.is_in_service)

    def test_decoders_on_both_tracks_have_registers(self):
        for main_only in False, True:
            fleet = decoders()
            both = [dcc.TrackLoco(it.cvs) for it in fleet[:4]]
            both += [dcc.TrackBoard({1: it.number % 64, 9: it.number // 64}) for it in fleet[4:]]
            for it in both:
                it.set_main_only(main_only)
            for line in rows():
                frame = dcc.frame(line)
                for it, other in zip(both, fleet):
                    before = enumerate(it.cvs, 1)
                    other.apply(frame)
                    heard = answers(it, frame)
                    self.assertEqual(str(it), str(other), line)
                    changed = [cv for (cv, old), new in zip(before, it.cvs) if old != new] or [None]
                    self.assertEqual([heard], [[(False, cv)] for cv in changed], line)
            self.assertNotEqual(both[0].cvs, decoders()[0].cvs)

    def test_decoders_on_both_tracks_refuse_what_is_no_frame(self):
        for decoder in dcc.TrackLoco({1: 3, 29: 2}), dcc.TrackBoard({1: 3}):
            answers(decoder, RESET, service_write(1, 5), service_write(1, 5))
            before = bytes(decoder._decoder)
            for frame in b"", b"\1\1", bytes(7):
                self.assertRefused("L1", decoder.hear, frame)
            self.assertRefused("L2", decoder.hear, b"\1\2\4")
            self.assertRaises(TypeError, decoder.hear, "idle")
            self.assertRaises(ValueError, decoder.hear, [0, 0, 256])
            self.assertEqual((bytes(decoder._decoder), decoder.is_in_service), (before, True))
            of_its_own = copy.deepcopy(decoder)
            of_its_own.end_service()
            self.assertEqual((of_its_own.is_in_service, bytes(decoder._decoder)), (False, before))
            self.assertIn("5", str(of_its_own).split("\n")[0])
        for kind in dcc.TrackLoco, dcc.TrackBoard:
            self.assertRaises(TypeError, kind, None)
            self.assertRaises(ValueError, kind, b"\3")
            self.assertRaises(ValueError, kind, {1025: 1})
            self.assertEqual(kind([7] * 1024).cvs, bytes([7] * 1024))

    def test_decoders_on_both_tracks_are_all_zeros_before_their_first_call(self):
        for kind, name in (dcc.TrackLoco, "_decoder_new"), (dcc.TrackBoard, "_board_decoder_new"):
            with unittest.mock.patch.object(dcc, name) as call:
                decoder = kind({1: 3, 1024: 9})
            given, cvs = call.call_args[0]
            self.assertIs(given, decoder._decoder)
            self.assertEqual((bytes(given).strip(b"\0"), cvs), (b"", bytes([3, *[0] * 1022, 9])))

    def test_a_decoder_hears_what_changes_it(self):
        # (each of these packets changes a decoder that hears it, one that is new or one that was set by the lines
        # before)
        lines = [
            "loco s3 reset",
            "loco l1000 reset",
            "loco l3 reset",
            "loco s4 reset",
            "loco all reset",
            "loco s3 speed28 f 4",
            "loco l1000 speed128 f 4",
        ]
        lines += [
            "loco s100 functions 0 1",
            "loco all functions 0 1",
            "loco l1000 state 9 on",
            "loco s3 cv write 5 5",
            "loco l1000 cv write 5 5",
            "idle",
        ]
        lines += [f"accessory {board} 5 on" for board in (0, 1, 11, 12, 13, 509, 510, 511)]
        lines += [f"signal {address} 1" for address in (0, 3, 4, 47, 48, 51, 52, 2039, 2040, 2043, 2044, 2047)]
        new, old = decoders(), decoders()
        for line in rows()[:-27]:
            for it in old:
                it.apply(dcc.frame(line))
        for line in lines:
            capture = program("encode", text=line + "\n")
            after = zip(new, old, run(new, capture), run(old, capture))
            changed = [str(a) != c or str(b) != d for a, b, c, d in after]
            self.assertEqual([it.hears(dcc.frame(line)) for it in new], changed, line)

    def test_a_station_counts(self):
        station = dcc.Station(2, 4, 2)
        state = lambda: (station.waiting, station.entries)
        self.assertEqual(state(), (0, 0))
        for line in "loco s3 speed28 f 4", "loco s3 cv write 29 2":
            station.command(dcc.frame(line))
        self.assertEqual(state(), (2, 0))
        self.assertRefused("C4", station.command, dcc.frame("loco s4 reset"))
        sent = [(dcc.line(station.next()), *state()) for _ in range(6)]
        write = "loco s3 cv write 29 2"
        self.assertEqual(sent[:2], [("loco s3 speed28 f 4", 2, 1), ("loco s3 speed28 f 4", 1, 1)])
        self.assertEqual(sent[2:], [(write, 1, 0), (write, 1, 0), (write, 0, 0), ("idle", 0, 0)])
        usual = dcc.Station()
        for line in "loco s3 speed28 f 4", "loco s4 speed28 f 4":
            usual.command(dcc.frame(line))
        self.assertEqual([dcc.line(usual.next())[:7] for _ in range(4)], ["loco s3"] * 2 + ["loco s4"] * 2)
        for n in range(130):
            usual.command(dcc.frame(f"loco l{n} functions 0 16"))
            usual.next(), usual.next()
        self.assertEqual((usual.waiting, usual.entries), (0, 128))
        full = dcc.Station()
        for n in range(64):
            full.command(dcc.frame(f"loco s{n + 1} functions 0 16"))
        self.assertEqual((full.waiting, full.entries), (64, 0))
        self.assertRefused("C4", full.command, SPEED)

    def test_a_station_stops_all(self):
        station = dcc.Station(4, 4, 2)
        for line in "loco s3 cv write 29 2", "loco s3 speed28 f 20", "loco s4 speed128 r 1", "loco s5 speed128 r 9":
            station.command(dcc.frame(line))
        self.assertEqual(dcc.line(station.next()), "loco s3 cv write 29 2")
        self.assertEqual((station.stop(), station.waiting, station.entries), (2, 2, 0))
        sent = [dcc.line(station.next()) for _ in range(8)]
        self.assertEqual(sent[:5], ["loco all speed28 f 3"] * 2 + ["loco s3 cv write 29 2"] * 3)
        self.assertEqual(sent[5:], ["loco s4 speed128 r 1"] * 3)
        self.assertEqual((station.stop(), station.next(), station.stop()), (0, bytes.fromhex("007171"), 0))
        self.assertEqual([dcc.line(station.next())[:8] for _ in range(3)], ["loco all"] * 2 + ["loco s4 "])

    def test_halves_have_their_timing(self):
        words = "\n".join(rows()) + "\n"
        sent = "".join(" ".join(map(str, dcc.halves(dcc.frame(it), preamble=20))) + "\n" for it in rows())
        self.assertEqual(sent, program("encode", "--service", text=words))
        ones, zero = [55, 55], [9900, 2100]
        self.assertEqual(
            dcc.halves(IDLE, 55, 9900, 2100, 14), ones * 14 + zero + ones * 8 + zero * 9 + zero + ones * 8 + ones
        )

    def test_a_framer_takes_runs_and_long_half_bits(self):
        for text in (
            "58*28 100*14 58*4 100*4 58*4 100*6 58*2 100*6 58*4 100*8 58*4",
            "58*28 100*14 58*4 100*4 58*4 100*6 65594*2",
            "58*40 100*2 100*500",
            "58*40 100*18 58*9",
        ):
            framer = dcc.Framer()
            runs = [list(map(int, it.split("*"))) for it in text.split()]
            found = "".join(f"{it}\n" for it in (framer.push(*run) for run in runs) if it)
            self.assertEqual(found, program("show", "--words", text=text))
        for us in 65535, 65536, 70000, 65536 + 58, 2**32 + 58, 2**64 + 58, 10**30:
            framer = dcc.Framer()
            self.assertIsNone(framer.push(58, 40))
            self.assertIsNone(framer.push(100))
            self.assertEqual(str(framer.push(us)), "42 refused H1", us)
        framer = dcc.Framer()
        framer.push(58, 0xFFFFFFFF)
        framer.push(100, 18)
        found = dcc.Seen(0xFFFFFFFF + 20, "H3", b"", 0xFFFFFFFF * 58 + 18 * 100 + 2 * 58)
        self.assertEqual(framer.push(58, 9), found)

    def test_packets_and_refusals_have_their_time(self):
        text = "58*28 100*14 58*4 100*4 58*4 100*6 58*2 100*6 58*4 100*8 58*4"
        halves = list(dcc.durations(text))
        self.assertEqual([(it.at, it.us) for it in dcc.seen(halves)], [(84, 46 * 58 + 38 * 100)])
        runs, framer = [[*map(int, it.split("*"))] for it in text.split()], dcc.Framer()
        found = [it for it in (framer.push(*run) for run in [*runs, *runs[:-1], [58, 100]]) if it]
        self.assertEqual([(it.at, it.us) for it in found], [(84, 6468), (168, 2 * 6468)])
        halves = halves + [70000, 58, 58] + halves[:50] + [20] + halves
        times = [*itertools.accumulate(min(us, 65535) for us in halves)]
        wanted = [(84, 6468), (138, 0), (222, 0)]
        found = list(dcc.seen(halves))
        self.assertEqual([it.at for it in found], [it for it, _ in wanted])
        self.assertEqual([it.us for it in found], [times[it.at - 1] for it in found])
        for pieces in (halves,), (halves[:100], halves[100:]), (halves[:84], halves[84:137], halves[137:]):
            framer = dcc.Framer()
            self.assertEqual([it for piece in pieces for it in framer.push_many(piece)], found)
            framer = dcc.Framer()
            self.assertEqual([it for piece in pieces for it in framer.push_many(dcc._array(piece))], found)

    def test_a_framer_takes_arrays_as_half_bits_one_by_one(self):
        halves = [us for it in list(rows())[:6] for us in dcc.halves(dcc.frame(it))]
        framer, found = dcc.Framer(), []
        for from_, to in (0, 100), (100, 100), (100, 101), (101, len(halves)):
            found += framer.push_many(halves[from_:to])
        self.assertEqual((len(found), found), (6, list(dcc.seen(halves))))
        for us in 65535, 65536, 65536 + 58, 2**64 + 58:
            time = 40 * 58 + 100 + 65535
            self.assertEqual(dcc.Framer().push_many([58] * 40 + [100, us]), [dcc.Seen(42, "H1", b"", time)])
        framer = dcc.Framer()
        framer.push_many([58] * 40 + [100])
        for bad, kind in (["58"], TypeError), ([70, -1], ValueError), (None, TypeError):
            self.assertRaises(kind, framer.push_many, bad)
        self.assertEqual(framer.push_many(iter([70])), [dcc.Seen(42, "H1", b"", 40 * 58 + 100 + 70)])

    def test_a_table_has_the_packets_of_a_recording(self):
        def table(*words, data=b""):
            return told([os.path.join(HERE, "table.py"), *words], data)

        head = "seconds,refusal,line,frame,kind,address,forward,bits,group,state,on,cv,value,place,one,board,output,"
        head += "signal,aspect\n"
        capture = b"58*28 100*14 58*4 100*4 58*4 100*6 58*2 100*6 58*4 100*8 58*4 58*40 100 70"
        rows = "0.006468,,loco s3 speed28 f 4,036261,speed28,s3,True,4" + "," * 11 + "\n"
        rows += "0.008958,H1" + "," * 17 + "\n"
        self.assertEqual(table(data=capture), ((head + rows).encode(), b"", 0))
        out, error, status = table(os.path.join(TOP, "examples", "analyser.vcd"))
        found = [it.split(",") for it in out.decode().splitlines()]
        with open(os.path.join(TOP, "examples", "analyser.words"), encoding="ascii") as words:
            lines = [it.rstrip("\n").partition(" ")[2] for it in words]
        self.assertEqual((error, status, [it[2] for it in found]), (b"", 0, ["line", *lines]))
        self.assertEqual(len({len(it) for it in found}), 1)
        for words, data, said in (
            ((), b"58x", b"table.py: U2 line 1: bad number\n"),
            (("lacking",), b"", b"table.py: [Errno 2] No such file or directory: 'lacking'\n"),
            ((os.devnull,), b"", b"table.py: the input is empty\n"),
        ):
            self.assertEqual(table(*words, data=data), (b"", said, 1))

    def test_statistics_are_those_of_timing(self):
        packet = list(dcc.halves(SPEED))
        lost = [58] * 14 + packet[28:]
        odd = [5, 5, 70, 20000, 65535, 58, 58, 100]
        for halves in (
            [], [58] * 28, packet, packet + packet, packet + lost, lost, packet + odd + packet, odd,
            [59, 57] * 14 + [100, 110] * 20 + [58] * 2, [0], [65535] * 3,
        ):
            text = " ".join(map(str, halves))
            self.assertEqual(timing_text(dcc.timing(halves)), program("timing", text=text), text)
            self.assertEqual(dcc.timing(dcc.capture(text)), dcc.timing(halves))

    def test_a_meter_takes_half_bits_runs_and_lists(self):
        one_by_one, by_runs, at_once = dcc.Meter(), dcc.Meter(), dcc.Meter()
        runs = [(58, 28), (100, 14), (58, 4), (70000, 2), (58, 66_500), (100, 40)]
        for us, count in runs:
            by_runs.push(us, count)
            for _ in range(count):
                one_by_one.push(us)
        at_once.push_many(us for us, count in runs for _ in range(count))
        at_once.push_many([])
        found = by_runs.statistics()
        self.assertEqual(found, one_by_one.statistics())
        self.assertEqual(found, at_once.statistics())
        self.assertEqual((found.halves, found.above.most, found.preamble), (66_588, 65535, None))
        self.assertEqual((found.ones.mean, found.below.mean), (58.0, None))
        # a meter goes on after its statistics were read
        by_runs.push(5)
        self.assertEqual(by_runs.statistics().below, dcc.Tally(1, 5, 5, 5))

    def test_a_full_meter_takes_nothing(self):
        meter = dcc.Meter()
        meter.push(58, 12_000)
        meter.push(100, 345)
        with self.assertRaisesRegex(dcc.Refused, "^U7 input too long$"):
            meter.push(58, 4_294_954_951)
        # 2**32 half-bits take half a minute, so the count in the struct becomes the greatest one
        count = (12_345).to_bytes(4, sys.byteorder)
        self.assertEqual(bytes(meter._meter).count(count), 1)
        ctypes.memmove(ctypes.addressof(meter._meter) + bytes(meter._meter).index(count), b"\xff" * 4, 4)
        for push in (lambda: meter.push(58), lambda: meter.push_many([58])):
            with self.assertRaisesRegex(dcc.Refused, "^U7 input too long$"):
                push()
        meter.push_many([])
        self.assertEqual(meter.statistics().halves, 4_294_967_295)
        for wrong, error in ((-1, ValueError), ("58", TypeError), (None, TypeError), (5.5, TypeError)):
            with self.assertRaises(error):
                meter.push(wrong)
            with self.assertRaises(error):
                meter.push_many([wrong])
        with self.assertRaises(ValueError):
            meter.push(58, 0)

    def test_texts_of_captures_are_read_as_show_reads_them(self):
        good = "58*28 100*14 58*4 100*4 58*4 100*6 58*2 100*6 58*4 100*8 58*4"
        faults = "58*0|5_8|58*-3|58*|58x|*5|-58|+58|58*99999999|58*16777217|58*123456789|58*5*2|12345678901|00000000058"
        faults += "|---|\u0665\u0668|58\x0c58|58\x0b58|58\x1c5|58\x85"
        faults += "|58\u20287|58\u00a07|\0|58\0|\ufeff58|1e3|0x3a|58.0|58*٣"
        texts = [f"{good}\n# a comment\r\n\t58\n58 {it} 58\n58*0\n" for it in faults.split("|")]
        texts += [
            "",
            "#",
            "\n\n",
            "58",
            "58#58x",
            f"{good}#58",
            f"{good} # a\r58x\n{good}",
            f"\r\n{good.replace(' ', chr(13))}\r\n{good}",
            "0000000058*00000028 0*1 70000 4294967354 9999999999*3",
        ]
        texts += [f"{good} 58*20 100 {it} 58" for it in ("65594", "4294967354", "65535", "65536")]
        chosen = random.Random(5)
        for _ in range(150):
            text = list(good)
            for _ in range(1 + chosen.randrange(3)):
                text.insert(chosen.randrange(len(text) + 1), chosen.choice(" \t\r\n#*-+_05889x\x0c\0\n\n"))
            texts.append("".join(text))
        for text in texts:
            listing, fault = "", ""
            try:
                for it in dcc.seen(dcc.durations(text)):
                    listing += f"{it}\n"
            except dcc.Refused as refused:
                fault = f"dcc: {refused}\n"
            said = told([PROGRAM, "show", "--words"], text.encode())
            self.assertEqual((listing.encode(), fault.encode(), 3 if fault else 0), said, text)
            self.assertEqual(list_of(dcc.durations, text), list_of(dcc.durations, text.encode()))
        for text in texts[:8] + texts[-3:]:
            said = told([PROGRAM, "show", "--words"], text.encode())
            here = told([sys.executable, os.path.join(HERE, "show.py")], text.encode())
            self.assertEqual((here[0], here[1].replace(b"show.py", b"dcc"), here[2]), said, text)
        self.assertEqual(
            told([sys.executable, os.path.join(HERE, "histogram.py")], b"58x"),
            (b"", b"histogram.py: U2 line 1: bad number\n", 1),
        )
        said = told([sys.executable, os.path.join(HERE, "histogram.py")], f"{good} 52 90*2 70000 65535".encode())
        bars = ("52 1", 2, "half of a one, from"), ("58 46", 60, ""), ("64 0", 0, "half of a one, to")
        bars += ("90 2", 3, "half of a zero, from"), ("100 38", 50, ""), ("10000 0", 0, "half of a zero, to")
        bars += (("65535 2", 3, ""),)
        lines = [" ".join(filter(None, (count, "#" * width, limit))) for count, width, limit in bars]
        self.assertEqual([" ".join(it.split()) for it in said[0].decode().split("\n")], [*lines, "packets 1", ""])
        self.assertEqual(list(dcc.durations("65534 65535 65536 4294967354*2")), [65534] + [65535] * 4)
        self.assertEqual(list_of(dcc.durations, "58 58\udc80 58"), (1, "U2 line 1: bad number"))

    def test_texts_of_captures_have_limits(self):
        full = b"#" * (dcc.MOST_BYTES - 9) + b"\n"  # (eight bytes are left)
        for text, wanted in (
            (b"58*16777216", 16777216),
            (b"58*16777216 58", 16777216),
            (b"58*16777216 58x", 16777216),
            (b"58*16777215 58*2", 16777215),
            (full + b"58 58 58", 3),
            (full + b"58 58 58 ", 2),
            (full + b"58 58 588", 2),
            (full + b"58 58 x", 2),
            (full + b"58 58x  ", 1),
            (full + b"58 58x  9", 1),
            (full + b"58 58  x9", 2),
            (full + b"58\n 58 #9", 2),
            (full + b"58 58 58*", 2),
        ):
            count, fault = list_of(dcc.durations, text)
            said = told([PROGRAM, "show"], text)
            self.assertEqual((count, f"dcc: {fault}\n" if fault else ""), (wanted, said[1].decode()), text[-20:])

    def test_fields_of_packets_are_those_of_their_lines(self):
        on = {True: "on", False: "off"}
        rest = {
            "reset": lambda it: "",
            "speed28": lambda it: f" {'fr'[not it.forward]} {it.bits}",
            "speed128": lambda it: f" {'fr'[not it.forward]} {it.bits}",
            "functions": lambda it: f" {it.group} {it.bits}",
            "state": lambda it: f" {it.state} {on[it.on]}",
            "cv write": lambda it: f" {it.cv} {it.value}",
            "cv verify": lambda it: f" {it.cv} {it.value}",
            "cv bitwrite": lambda it: f" {it.cv} {it.place} {int(it.one)}",
            "cv bitverify": lambda it: f" {it.cv} {it.place} {int(it.one)}",
        }
        more = "loco l1000 cv bitverify 1024 7 1|loco s3 cv bitwrite 513 0 0|loco all cv verify 2 255|signal 2047 31"
        more += "|accessory 511 7 off|loco s3 state 127 on|loco s3 functions 9 15|loco l10239 speed128 r 127|idle"
        kinds = set()
        for line in [*rows(), *more.split("|"), "loco all reset"]:
            packet = dcc.read(dcc.frame(line))
            kinds.add(packet.kind)
            if packet.kind == "accessory":
                text = f"accessory {packet.board} {packet.output} {on[packet.on]}"
            elif packet.kind == "signal":
                text = f"signal {packet.signal} {packet.aspect}"
            elif packet.kind in rest:
                text = f"loco {packet.address} {packet.kind}{rest[packet.kind](packet)}"
            else:
                text = packet.kind
            said = dcc.line(dcc.frame(line))
            self.assertEqual(text, "other" if said.startswith("frame") else said)
            self.assertEqual(packet.frame(), dcc.frame(line))
        self.assertEqual(len(kinds), 13)
        other = bytes.fromhex("7c000a76")
        self.assertEqual(dcc.read(other), dcc.Packet("other", other=other))
        speed = dcc.Packet("speed28", address="s3", forward=True, bits=4)
        self.assertEqual((dcc.read(SPEED), dcc.read(SPEED).cv), (speed, None))
        self.assertRefused("L1", dcc.read, b"\1\1")
        self.assertRefused("L2", dcc.read, b"\1\2\4")

    def test_fields_of_packets_and_their_faults(self):
        for fields, code in (
            (("no kind",), "P10"),
            (("reset", "s0"), "P1"),
            (("reset", "s128"), "P1"),
            (("reset", "l10240"), "P2"),
            (("reset", "x3"), "P10"),
            (("reset", "s"), "P10"),
            (("reset", "s70000"), "P11"),
            (("speed28", "s3", True, 32), "P8"),
            (("speed128", "s3", True, 128), "P8"),
            (("functions", "s3", None, 255, 4), "P10"),
            (("functions", "s3", None, 32, 0), "P9"),
            (("state", "s3", None, None, None, 128, True), "P14"),
        ):
            self.assertRefused(code, dcc.Packet(*fields).frame)
        for packet, code in (
            (dcc.Packet("cv write", "s3", cv=1025, value=0), "P6"),
            (dcc.Packet("cv bitwrite", "s3", cv=0, place=8, one=True), "P6"),
            (dcc.Packet("cv bitverify", "s3", cv=1, place=8, one=True), "P7"),
            (dcc.Packet("accessory", board=512, output=8, on=True), "P3"),
            (dcc.Packet("accessory", board=511, output=8, on=True), "P4"),
            (dcc.Packet("signal", signal=2048, aspect=0), "P5"),
            (dcc.Packet("other", other=SPEED), "P12"),
            (dcc.Packet("other", other=b"\1\2\4"), "P12"),
            (dcc.Packet("other", other=b""), "P12"),
            (dcc.Packet("other", other=bytes.fromhex("7c000a76") + bytes(3)), "P12"),
            (dcc.Packet("other", other=bytes(260)), "P12"),
        ):
            self.assertRefused(code, packet.frame)
        # fields that the kind does not use do not matter
        self.assertEqual(dcc.Packet("idle", address=7, bits="x", other=8).frame(), dcc.frame("idle"))
        for packet, error in (
            (dcc.Packet("reset"), TypeError),
            (dcc.Packet("speed28", "s3", 1, 4), TypeError),
            (dcc.Packet("speed28", "s3", True, 4.0), TypeError),
            (dcc.Packet("speed28", "s3", True, 256), ValueError),
            (dcc.Packet("signal", signal=65536, aspect=0), ValueError),
            (dcc.Packet("accessory", board=-1, output=0, on=True), ValueError),
            (dcc.Packet("other"), TypeError),
            (dcc.Packet("other", other=[256]), ValueError),
        ):
            self.assertRaises(error, packet.frame)

    def test_service_packets_have_their_frames(self):
        for packet, bytes_ in (
            (dcc.ServicePacket("write", 1, 10), "7c000a76"),
            (dcc.ServicePacket("verify", 1024, 165), "77ffa52d"),
            (dcc.ServicePacket("bitwrite", 1024, place=5, one=True), "7bfffd79"),
            (dcc.ServicePacket("bitverify", 1024, place=5, one=False), "7bffe561"),
        ):
            self.assertEqual(packet.frame().hex(), bytes_)
            self.assertEqual(dcc.read_service(bytes.fromhex(bytes_)), packet)
        for packet, code in (
            (dcc.ServicePacket("verifies", 1, 10), "P10"),
            (dcc.ServicePacket("write", 0, 10), "P6"),
            (dcc.ServicePacket("verify", 1025, 10), "P6"),
            (dcc.ServicePacket("bitwrite", 0, place=8, one=True), "P6"),
            (dcc.ServicePacket("bitverify", 1, place=8, one=True), "P7"),
        ):
            self.assertRefused(code, packet.frame)
        for frame in SPEED, dcc.frame("idle"), bytes.fromhex("7800d8a0"):
            self.assertIsNone(dcc.read_service(frame))
        self.assertRefused("L1", dcc.read_service, b"\1\1")
        self.assertRefused("L2", dcc.read_service, b"\1\2\4")
        for packet, error in (
            (dcc.ServicePacket("write", 1), TypeError),
            (dcc.ServicePacket("write", 1, 256), ValueError),
            (dcc.ServicePacket("write", 65536, 1), ValueError),
            (dcc.ServicePacket("bitwrite", 1, place=1, one=1), TypeError),
        ):
            self.assertRaises(error, packet.frame)
        question = dcc.Writer(1, 10).question()
        self.assertEqual(dcc.question_frames(question), [bytes(3)] * 3 + [question] * 5)
        self.assertRaises(TypeError, dcc.question_frames, "7c000a76")

    def test_a_station_forgets_one_address(self):
        station = dcc.Station(4, 8, 1)
        s3, l3, later = map(dcc.frame, ("loco s3 speed28 f 4", "loco l3 speed28 f 5", "loco s3 speed28 r 6"))
        for frame in s3, l3:
            station.command(frame)
            self.assertEqual(station.next(), frame)
        station.command(later)
        for address, code in ("s0", "P1"), ("s128", "P1"), ("l10240", "P2"), ("3", "P10"), ("s99999", "P11"):
            self.assertRefused(code, station.forget, address)
        self.assertRaises(TypeError, station.forget, 3)
        for address in "all", "s4", "l4":
            station.forget(address)
            self.assertEqual((station.waiting, station.entries), (1, 2))
        station.forget("s3")
        self.assertEqual((station.waiting, station.entries), (1, 1))
        self.assertEqual([station.next() for _ in range(3)], [later, l3, later])
        station.forget("l3")
        self.assertEqual(station.entries, 1)

    def test_one_function_is_turned(self):
        loco, functions = dcc.Loco({1: 3, 29: 2}), dcc.Functions()
        self.assertEqual(functions.on, [])
        for function, on, line in (
            (0, True, "0 16"),
            (4, True, "0 24"),
            (0, False, "0 8"),
            (5, True, "5 1"),
            (12, True, "9 8"),
            (13, True, "13 1"),
            (20, True, "13 129"),
            (13, False, "13 128"),
            (28, True, "21 128"),
            (29, True, "29 1"),
            (44, True, "37 128"),
            (45, True, "45 1"),
            (53, True, "53 1"),
            (61, True, "61 1"),
            (68, True, "61 129"),
        ):
            frame = functions.turn("s3", function, on)
            self.assertEqual(dcc.line(frame), f"loco s3 functions {line}")
            loco.apply(frame)
            self.assertEqual((functions.on, functions.is_on(function)), (loco.functions, on))
        self.assertFalse(any(functions.is_on(n) for n in range(69, 256)))
        before = functions.on
        for arguments, code in (
            (("s128", 69, True), "P1"),
            (("l10240", 0, True), "P2"),
            (("a3", 0, True), "P10"),
            (("s3", 69, True), "P13"),
            (("all", 255, True), "P13"),
        ):
            self.assertRefused(code, functions.turn, *arguments)
        self.assertRaises(ValueError, functions.turn, "s3", 256, True)
        self.assertRaises(ValueError, functions.is_on, -1)
        self.assertRaises(TypeError, functions.turn, "s3", 1, 1)
        self.assertRaises(TypeError, functions.turn, 3, 1, True)
        self.assertEqual(functions.on, before)
        self.assertEqual(functions.turn("l1000", 6, True), dcc.frame("loco l1000 functions 5 3"))
        self.assertEqual(functions.turn("all", 6, False), dcc.frame("loco all functions 5 1"))

    def test_turnouts_are_those_of_show(self):
        boards, outputs = range(511), range(8)
        lines = [f"accessory {board} {output} on" for board in boards for output in outputs]
        capture = program("encode", text="\n".join(lines) + "\n")
        shown = [re.sub(r".*turnout ", "", it) for it in program("show", "--plain", text=capture).splitlines()]
        self.assertEqual([str(dcc.turnout(board, output)) for board in boards[1:] for output in outputs], shown[8:])
        numbers = [dcc.turnout(board, output, first_board=0) for board in boards for output in outputs]
        self.assertEqual(numbers, [n // 2 + 1 for n in range(4088)])
        self.assertEqual((dcc.turnout(40, 2), dcc.turnout(40, 2, 0)), (158, 162))
        for first, most in (1, 2040), (0, 2044):
            for number in range(1, most + 1):
                board, pair = dcc.turnout_pair(number, first)
                sides = [dcc.turnout(board, 2 * pair + side, first) for side in (0, 1)]
                self.assertEqual((sides, board <= 510, pair <= 3), ([number] * 2, True, True))
            for number in 0, most + 1:
                self.assertRaises(ValueError, dcc.turnout_pair, number, first)
            for board, output in (first - 1, 0), (511, 0), (first, -1), (510, 8):
                self.assertRaises(ValueError, dcc.turnout, board, output, first)
        self.assertEqual((dcc.turnout_pair(158), dcc.turnout_pair(2044, 0)), ((40, 1), (510, 3)))
        for first in -1, 2:
            self.assertRaises(ValueError, dcc.turnout, 40, 2, first)
            self.assertRaises(ValueError, dcc.turnout_pair, 158, first)
        for call, arguments in (dcc.turnout, (40.0, 2)), (dcc.turnout, (40, "2")), (dcc.turnout_pair, (None,)):
            self.assertRaises(TypeError, call, *arguments)

    def test_a_cv_is_read_as_readcv_reads_it(self):
        for cv, value in (1, 10), (29, 2), (8, 200), (1024, 255), (17, 0):
            service, reader, lines, result = dcc.Service({cv: value}), dcc.Reader(cv), [], None
            self.assertFalse(service.is_in_service)
            while result is None:
                question = reader.question()
                yes = any([service.apply(it) for it in [bytes(3)] * 3 + [question] * 5])
                self.assertTrue(service.is_in_service)
                lines.append(f"{question.hex()} {'yes' if yes else 'no'}")
                result = reader.answer(yes)
            text = "dcc-decoders 2\nloco none\nspeed stop f\non\nstates\npending none\n"
            text += (f"cv {cv} {value}\n" if value else "") + "end\n"
            said = program("readcv", "--cv", str(cv), text=text)
            self.assertEqual("\n".join([*lines, f"value {result}", ""]), said)
            self.assertEqual((result, service.cvs[cv - 1], len(service.cvs)), (value, value, 1024))
        service, write = dcc.Service({3: 5}), bytes([0x7C, 2, 9, 0x7C ^ 2 ^ 9])
        self.assertEqual([service.apply(it) for it in (bytes(3), write, write)], [False, False, True])
        self.assertEqual(service.cvs[2], 9)
        empty = dcc.Reader(8)
        self.assertEqual([empty.answer(False) for _ in range(8)], [None] * 8)
        self.assertRefused("S1", empty.answer, False)
        for cv in 0, 1025, 65535:
            self.assertRefused("P6", dcc.Reader, cv)
        self.assertRefused("L2", service.apply, b"\1\2\4")
        service._service.pending.len = 2
        self.assertRefused("P13", service.apply, bytes(3))
        empty._reader.cv = 0
        self.assertRefused("P13", empty.question)
        self.assertRefused("P13", empty.answer, True)
        self.assertRaises(TypeError, empty.answer, 1)
        self.assertRaises(TypeError, dcc.Service, None)
        self.assertRaises(ValueError, dcc.Reader, -1)

    def test_a_cv_is_written_by_two_questions(self):
        service = dcc.Service({1: 3, 8: 200})
        rows = [(1, 10, "7c000a76 yes 74000a7e yes", True), (1024, 0xA5, "7fffa525 yes 77ffa52d yes", True)]
        rows += [(8, 201, "7c07c9b2 no 7407c9ba no", False), (8, 200, "7c07c8b3 no 7407c8bb yes", True)]
        for cv, value, text, end in rows:
            writer, lines, state = dcc.Writer(cv, value), [], None
            while state is None:
                question = writer.question()
                yes = any([service.apply(it) for it in [bytes(3)] * 3 + [question] * 5])
                lines.append(f"{question.hex()} {'yes' if yes else 'no'}")
                state = writer.answer(yes)
            self.assertEqual((" ".join(lines), state), (text, end))
        self.assertEqual([service.cvs[it] for it in (0, 1, 7, 1023)], [10, 0, 200, 0xA5])
        for first in False, True:
            writer = dcc.Writer(3, 255)
            answers = [writer.answer(it) for it in (first, False, True)]
            self.assertEqual([type(it) for it in answers], [type(None), bool, bool])
            self.assertEqual(answers, [None, False, True])
        for cv in 0, 1025, 65535:
            self.assertRefused("P6", dcc.Writer, cv, 1)
        writer._writer.cv = 0
        self.assertRefused("P13", writer.question)
        self.assertRefused("P13", writer.answer, True)
        self.assertRaises(TypeError, writer.answer, 1)
        self.assertRaises(ValueError, dcc.Writer, 1, 256)
        self.assertRaises(ValueError, dcc.Writer, -1, 1)

    def test_whole_captures_are_read_as_half_bits_one_by_one(self):
        good = "58*28 100*14 58*4 100*4 58*4 100*6 58*2 100*6 58*4 100*8 58*4"
        faults = "58*0|58*-3|58*|58x|*5|+58|58*16777217|58*000000001|58*5*2|12345678901|00000000058|---|5,8|58\x0c58|\0"
        texts = [f"{good}\n# a comment 5x\r\n\t58\n58 {it} 58\n58*0\n" for it in faults.split("|")]
        texts += ["", "#", "\n\n", "58", "58#58x", f"{good}#58", "0000000058*00000028 0*1 70000 9999999999*3"]
        line = good.replace("58*28", "58 " * 28)
        texts += [f"{line} # {line}\n" * 6 + last for last in ("58", "58x", "\n\n58 # x", "#")]
        texts += ["58 " * 340 + last for last in ("58x", "57", "5 # 8\n57 58*2")] + ["#" * 1500 + "\n58 58x"]
        # comments whose end lies in the piece that follows, behind a comment that ends in the same piece
        texts += ["58 # 8\n" * 60 + "58 57" + last for last in ("", " # 5x 58 58 58 58 58 58 58 58 58 58 58 58 58")]
        texts += ["1" * 1200, "58 " * 333 + "58" * 4 + "*3 58", "65535 65536 " * 120]
        for text, piece in itertools.product(texts, (1, 7, 100, dcc._PIECE)):
            wanted = list_of(dcc.durations, text)
            with unittest.mock.patch.object(dcc, "_PIECE", piece):
                try:
                    found, said = dcc.capture(text), ""
                except dcc.Refused as refused:
                    found, said = None, str(refused)
            self.assertEqual(said, wanted[1], (piece, text[-20:]))
            if found is not None:
                self.assertEqual((found.typecode, list(found)), ("H", list(dcc.durations(text))), text[-20:])
        self.assertEqual(len(dcc.capture("58*16777216")), dcc.MOST_HALVES)
        for text in "58*16777216 58", "58*16777215 58*2", "58 " * 8 + "58*16777209":
            self.assertRefused("U7 input too long", dcc.capture, text)
        self.assertRefused("U2 line 1: bad number", dcc.capture, "58*16777216 58x")
        with unittest.mock.patch.object(dcc, "MOST_HALVES", 10):
            self.assertEqual(len(dcc.capture("58 " * 10)), 10)
            for text, piece in itertools.product(("58 " * 11, "58*6 58*5", "58*10 58"), (3, 7, dcc._PIECE)):
                with unittest.mock.patch.object(dcc, "_PIECE", piece):
                    self.assertEqual(len(dcc.capture("58*5 " * 2)), 10)
                    self.assertRefused("U7 input too long", dcc.capture, text)
        self.assertEqual(dcc.capture(b"58 57*2"), array.array("H", [58, 57, 57]))
        halves = dcc.capture(f"{good} " * 3)
        self.assertEqual(list(dcc.seen(halves)), list(dcc.seen(list(halves))))
        framer = dcc.Framer()
        self.assertEqual(framer.push_many(halves[:100]) + framer.push_many(halves[100:]), list(dcc.seen(halves)))
        full = b"#" * (dcc.MOST_BYTES - 9) + b"\n"
        self.assertRefused("U7 input too long", dcc.capture, full + b"58 58 58 ")
        self.assertEqual(len(dcc.capture(full + b"58 58 58")), 3)
        self.assertRaises(TypeError, dcc.capture, 58)

    def test_what_is_refused(self):
        for name, call, argument in (
            ("P1", dcc.frame, "loco s128 reset"),
            ("P10", dcc.frame, ""),
            ("P10", dcc.frame, "idle\0"),
            ("P10", dcc.frame, "idle\n"),
            ("P11", dcc.frame, "loco s3 speed28 f 4\n"),
            ("P10", dcc.frame, "idl\u00e9"),
            ("P10", dcc.frame, "\ud800"),
            ("P11", dcc.frame, "loco s3 speed28 f 4\udc80"),
            ("P14", dcc.frame, "loco s3 state 128 on"),
            ("P3", dcc.Board, 511),
            ("P3", dcc.Board, 65535),
            ("L1", dcc.line, b"\1\1"),
            ("L2", dcc.line, b"\1\2\4"),
            ("L1", dcc.line, bytes(7)),
            ("L2", dcc.Loco({}).apply, b"\1\2\4"),
            ("L1", dcc.Loco({}).apply, b""),
            ("L1", dcc.Loco({}).hears, b"\1"),
            ("L2", dcc.Loco({}).hears, b"\1\2\4"),
            ("L2", dcc.Board(1).apply, b"\1\2\4"),
            ("L1", dcc.Board(1).apply, b""),
            ("L1", dcc.Board(1).hears, b"\1"),
            ("L2", dcc.Board(1).hears, b"\1\2\4"),
            ("C3", dcc.Station().command, IDLE),
            ("L1", dcc.Station().command, b"\1\1"),
            ("L2", dcc.Station().command, b"\1\2\4"),
            ("L1", dcc.halves, b"\1\1"),
            ("L2", dcc.halves, b"\1\2\4"),
        ):
            self.assertRefused(name, call, argument)
        for name, words in (
            ("H6", {"one": 54}),
            ("H6", {"one": 62}),
            ("H7", {"zero_first": 94}),
            ("H7", {"zero_second": 94}),
            ("H7", {"zero_first": 9900, "zero_second": 2101}),
            ("H8", {"preamble": 41}),
            ("H8", {"preamble": 13}),
            ("H6", {"one": 54, "preamble": 1}),
        ):
            self.assertRefused(name, dcc.halves, IDLE, **words)
        for sizes in (0, 1, 1), (65, 1, 1), (1, 129, 1), (1, 0, 1), (1, 1, 9), (1, 1, 0):
            self.assertRefused("C1", dcc.Station, *sizes)
        dcc.Station(1, 1, 1), dcc.Station(64, 128, 8)

    def test_numbers_that_no_decoder_has(self):
        loco, board = dcc.Loco({1: 3}), dcc.Board(1)
        loco._loco.speed_mode = 77
        board._board.number = 511
        self.assertFalse(board.hears(SPEED))
        board._board.number = 512
        for call in loco.apply, board.apply, board.hears:
            self.assertRefused("P13", call, SPEED)
        loco._loco.address_kind = 3
        self.assertRefused("P13", loco.hears, SPEED)

    def test_arguments_are_checked(self):
        loco, station = dcc.Loco({1: 3}), dcc.Station()
        words = array.array("H", [0x03, 0x62, 0x61])
        self.assertEqual(
            [
                dcc.line(it)
                for it in (words, memoryview(words), list(words), tuple(words), bytearray(SPEED), memoryview(SPEED))
            ],
            ["loco s3 speed28 f 4"] * 6,
        )
        self.assertEqual(dcc.Loco(array.array("H", [3, *[0] * 1023])).cvs, dcc.Loco({1: 3}).cvs)
        longer = type("Longer", (bytes,), {"__len__": lambda self: 1024})
        for call in (
            lambda: dcc.Framer().push("58"),
            lambda: dcc.Framer().push(None),
            lambda: dcc.Framer().push(58.0),
            lambda: dcc.Framer().push(58, 2.0),
            lambda: dcc.Lost().push("58"),
            lambda: dcc.Lost().push(58, 2.0),
            lambda: dcc.line("036261"),
            lambda: dcc.line(3),
            lambda: dcc.line(None),
            lambda: dcc.line({3: 1}),
            lambda: dcc.line(set(SPEED)),
            lambda: dcc.line(frozenset(SPEED)),
            lambda: dcc.line(memoryview(bytes(4)).cast("B", [2, 2])),
            lambda: dcc.line([3.0, 1, 2]),
            lambda: dcc.frame(b"idle"),
            lambda: dcc.frame(None),
            lambda: dcc.halves(IDLE, one=58.0),
            lambda: dcc.halves("idle"),
            lambda: dcc.Loco("x" * 1024),
            lambda: dcc.Loco(None),
            lambda: dcc.Loco(1024),
            lambda: dcc.Loco({"a": 2}),
            lambda: dcc.Loco({1: None}),
            lambda: dcc.Loco({1.0: 2}),
            lambda: loco.apply("idle"),
            lambda: loco.hears(3),
            lambda: dcc.Board("1"),
            lambda: dcc.Board(1.5),
            lambda: dcc.Board(1).apply("idle"),
            lambda: dcc.Board(1).hears(None),
            lambda: dcc.Station("1"),
            lambda: dcc.Station(1.0, 1, 1),
            lambda: station.command("idle"),
            lambda: dcc.durations(58),
            lambda: dcc.durations(None),
            lambda: list(dcc.seen(["58"])),
        ):
            self.assertRaises(TypeError, call)
        for call in (
            lambda: dcc.Framer().push(-1),
            lambda: dcc.Framer().push(58, 0),
            lambda: dcc.Framer().push(58, 2**32),
            lambda: dcc.Lost().push(-1),
            lambda: dcc.Lost().push(58, 0),
            lambda: dcc.Lost().push(58, 2**32),
            lambda: dcc.line([300, 98, 97]),
            lambda: dcc.line(array.array("H", [0x6203, 0x61, 0])),
            lambda: dcc.line([-1, 0, 0]),
            lambda: dcc.halves(IDLE, preamble=-1),
            lambda: dcc.halves(IDLE, preamble=256 + 14),
            lambda: dcc.halves(IDLE, one=65536 + 58),
            lambda: dcc.Loco(b"\3"),
            lambda: dcc.Loco([0] * 1025),
            lambda: dcc.Loco(longer(b"\3")),
            lambda: dcc.Loco(array.array("H", [1] * 512)),
            lambda: dcc.Loco({0: 5}),
            lambda: dcc.Loco({1025: 5}),
            lambda: dcc.Loco({2000: 1}),
            lambda: dcc.Loco({1: 256}),
            lambda: dcc.Loco({1: -1}),
            lambda: dcc.Board(-1),
            lambda: dcc.Board(65536),
            lambda: dcc.Station(256 + 1),
            lambda: dcc.Station(1, 256 + 1),
            lambda: dcc.Station(1, 1, 256 + 1),
            lambda: dcc.Station(-1),
        ):
            with self.assertRaises(ValueError) as said:
                call()
            self.assertNotIsInstance(said.exception, (dcc.Refused, UnicodeError))
        for text, kind, call in (
            ("a half-bit is 0 or more, not -1", ValueError, lambda: dcc.Framer().push(-1)),
            ("a count is 1 to 4294967295, not 0", ValueError, lambda: dcc.Framer().push(58, 0)),
            ("a half-bit is an integer, not float", TypeError, lambda: dcc.Framer().push(58.0)),
            ("a byte of a frame is 0 to 255, not 300", ValueError, lambda: dcc.line([300, 98, 97])),
            ("CV1 is 0 to 255, not 256", ValueError, lambda: dcc.Loco({1: 256})),
            ("a decoder has 1024 CVs, not 1", ValueError, lambda: dcc.Loco(b"\3")),
            ("a packet line is a text, not bytes", TypeError, lambda: dcc.frame(b"idle")),
        ):
            with self.assertRaises(kind) as said:
                call()
            self.assertEqual(str(said.exception), text)

    def test_packets_with_spikes_by_hand(self):
        capture = "58*12 27 3 28 58*15 100*14 58*4 100*4 58*4 100*6 58*2 100*6 58*4 100*8 58*4"
        halves = dcc.capture(capture)
        for given in halves, list(halves), iter(halves):
            found = list(dcc.lost(given, spikes=5))
            self.assertEqual(found, [dcc.LostPacket(86, SPEED, None, None, None, 1)])
        self.assertEqual(str(found[0]), "86 lost loco s3 speed28 f 4: spikes 1")
        self.assertEqual([it.spikes for it in dcc.lost(halves, spikes=3)], [None])  # (its preamble is too short)
        self.assertEqual(list(dcc.lost([], spikes=5)), [])
        causes = dcc.ShortPreamble(12, 3), dcc.OffLimits(1, 65, 65), dcc.OffLimits(2, 85, 86), 7
        words = "preamble 12 after 3, ones 1 from 65 to 65, zeros 2 from 85 to 86, spikes 7"
        self.assertEqual(str(dcc.LostPacket(99, SPEED, *causes)), f"99 lost loco s3 speed28 f 4: {words}")
        # without spikes, a packet has no number of spikes
        (packet,) = dcc.lost([58] * 16 + dcc.halves(SPEED)[28:])
        self.assertEqual((packet.preamble, packet.spikes), (dcc.ShortPreamble(16, None), None))
        for spikes, kind in ((0, ValueError), (26, ValueError), (-1, ValueError), ("5", TypeError), (5.0, TypeError)):
            self.assertRaises(kind, dcc.lost, halves, spikes)
        for bad, kind in (([58, -1], ValueError), ([58, "58"], TypeError), (5, TypeError)):
            self.assertRaises(kind, dcc.lost, bad, 5)
        with self.assertRaises(ValueError) as said:
            dcc.lost(halves, spikes=26)
        self.assertEqual(str(said.exception), "a number of microseconds for spikes is 1 to 25, not 26")

    def test_packets_with_spikes_in_short_captures(self):
        bodies = {it: " ".join(map(str, dcc.halves(bytes.fromhex(it))[28:])) for it in ("036261", "050207")}
        body = bodies["036261"]
        captures = [
            *("58*12 3 3 58*12", "58*12 30 24 4 58*15", "66*12 27 3 28 66*2", "3 58*16", "3 3 58*16"),
            *("58*12 29 0*70001 29 58*15", "58*12 65535 3 56 58*15", "58*12 40000 4 40000 58*15"),
            f"58*20 {bodies['050207']}",  # its last four ones are before the next body
            "58*20 100*2 58*12 100*2 58*12",
        ]
        captures = [f"{it} {body}" for it in captures]
        # a packet in the packet F0 33 23 18 F8, and one at the end of the refusal 01 0F 03 62 61
        for frame in "f0332318f8", "010f036261", "f717e8bff443":
            captures.append(f"58*28 {' '.join(map(str, wrong(bytes.fromhex(frame))))}")
        captures[-1] += " 100*2 58*6 100*2 58*8 100*4 58*6"  # the packet 84 77 F3 ends here, and begins in F7 .. 43
        for count in range(184, 191):  # spikes in a packet, which is 252 to 258 half-bits behind a refusal
            captures.append(f"58*20 100 58*12 100 1*{count} {body[4:]}")
        for us in 25, 26, 27, 51, 52, 64, 65, 76, 77, 78, 89, 90, 10000, 10001, 20000, 20001:
            captures += (f"58*28 {us} {body[4:]}", f"58*12 {us} 58*9 {body}", f"58*14 {us - 5} 1 4 58 {body}")
        captures += (" ".join(spoilt(random.Random(seed))) for seed in range(400))
        listings = ""
        for seed, capture in enumerate(captures):
            limits = (1, 2, 5, 5, 5, 21, 25)[seed % 7], 5
            for limit in sorted({*limits}):
                listing = program("lost", "--spikes", str(limit), "--words", text=capture + "\n")
                found = "".join(f"{it}\n" for it in dcc.lost(dcc.capture(capture), spikes=limit))
                self.assertEqual(found, listing, f"spikes below {limit}: {capture}")
                listings += listing
        for cause in ": spikes ", ": preamble ", ", spikes 2\n", " after ", ": ones ", ": zeros ", "spikes 65535\n":
            self.assertIn(cause, listings)

    def test_threads_on_one_object(self):
        self.assertEqual(told([sys.executable, "-c", THREADS], b""), (b"ended\n", b"", 0))

    def test_plain_words_are_those_of_the_table(self):
        with open(os.path.join(TOP, "examples/plain.txt"), encoding="utf-8") as table:
            lines = [it.rstrip("\n").split(" | ") for it in table if not it.startswith("#")]
        for packet, words in lines:
            self.assertEqual(dcc.plain(bytes.fromhex(packet)), words)
        self.assertGreater(len(lines), 60)
        for packet, code in ((b"\3\3", "L1"), (bytes(16), "L1"), (b"\3\x62\x60", "L2")):
            with self.assertRaises(dcc.Refused) as said:
                dcc.plain(packet)
            self.assertEqual(str(said.exception), code)

    def test_plain_words_have_the_room_that_the_library_writes(self):
        with open(os.path.join(TOP, "include/dcc.h"), encoding="utf-8") as header:
            wanted = int(re.search(r"\bDCC_PLAIN = (\d+)", header.read())[1])
        with unittest.mock.patch.object(dcc, "_plain", return_value=0) as call:
            dcc.plain(SPEED)
        self.assertEqual(len(call.call_args[0][2]), wanted)

    def test_a_packet_line_has_the_room_that_the_library_writes(self):
        with open(os.path.join(TOP, "include/dcc.h"), encoding="utf-8") as header:
            wanted = int(re.search(r"\bDCC_LINE = (\d+)", header.read())[1])
        with unittest.mock.patch.object(dcc, "_line", return_value=0) as call:
            dcc.line(SPEED)
        self.assertEqual(len(call.call_args[0][2]), wanted)

    def test_an_array_cannot_grow_while_the_library_reads_it(self):
        packet = dcc.halves(SPEED)
        finders = {"_push_many": dcc.Framer, "_lost_push_many": dcc.Lost, "_meter_push_many": dcc.Meter}
        for call, finder in finders.items():
            halves, real, calls = array.array("H", 2 * packet), getattr(dcc, call), []

            def growing(*words):
                self.assertRaises(BufferError, halves.extend, packet)
                calls.append(words[2])
                return real(*words)

            with self.subTest(call), unittest.mock.patch.object(dcc, call, growing):
                finder().push_many(halves)
                self.assertEqual(calls[0], 2 * len(packet))
            halves.extend(packet)

    def test_the_shared_object_lies_beside_the_module(self):
        words = {name: it for name, it in os.environ.items() if name != "DCC_SO"}
        with tempfile.TemporaryDirectory() as room, tempfile.TemporaryDirectory() as elsewhere:
            shutil.copy(dcc.__file__, room)
            shutil.copy(dcc._library._name, f"{room}/libdcc_c.so")
            said = subprocess.run(
                [sys.executable, "-c", "import dcc; print(dcc.frame('idle').hex())"],
                cwd=elsewhere,
                env={**words, "PYTHONPATH": room},
                capture_output=True,
                text=True,
            )
        self.assertEqual((said.stdout, said.stderr), ("ff00ff\n", ""))

    def test_a_call_keeps_the_lock_of_the_interpreter(self):
        with open(dcc.__file__, encoding="utf-8") as source:
            names = set(re.findall(r'_call\(\s*"(\w+)"', source.read())) - {"dcc_station_waiting"}
        with tempfile.TemporaryDirectory() as room:
            with open(f"{room}/stub.c", "w", encoding="ascii") as stub:
                stub.write(
                    "int PyGILState_Check(void);\n"
                    "unsigned char dcc_station_waiting(void) { return (unsigned char)PyGILState_Check(); }\n"
                )
                stub.writelines(f"unsigned char {name}(void) {{ return 0; }}\n" for name in sorted(names))
            written([os.environ.get("CC", "cc"), "-shared", "-fPIC", "-o", f"{room}/stub.so", f"{room}/stub.c"])
            said = subprocess.run(
                [sys.executable, "-c", "import dcc; print(dcc.Station().waiting)"],
                env={**os.environ, "DCC_SO": f"{room}/stub.so", "PYTHONPATH": HERE},
                capture_output=True,
                text=True,
            )
        self.assertEqual((said.stdout, said.stderr), ("1\n", ""))


def list_of(call, text):
    """How many half-bits a capture has before its fault, and the fault."""
    counted, fault = itertools.count(), ""
    try:
        collections.deque(zip(call(text), counted), maxlen=0)
    except dcc.Refused as refused:
        fault = str(refused)
    return next(counted), fault


THREADS = f"""
import sys, threading, time
sys.path.insert(0, {HERE!r})
sys.setswitchinterval(1e-6)
import dcc
station, loco, framer = dcc.Station(64, 128, 1), dcc.Loco({{1: 3, 29: 2}}), dcc.Framer()
frames = [dcc.frame(f"loco s{{n}} functions {{g}} {{v}}") for n in range(1, 60) for g in (0, 5) for v in (0, 5, 10)]
end, odd = time.time() + 1, []
def work(at):
    while time.time() < end:
        at += 1
        try:
            if at % 2: station.command(frames[at % len(frames)])
        except dcc.Refused as fault:
            if str(fault) != "C4": odd.append(fault)
        try:
            dcc.line(station.next())
            loco.apply(frames[at % len(frames)])
            framer.push(58 if at % 50 else 100, 1 + at % 3)
        except Exception as fault:
            odd.append(fault)
threads = [threading.Thread(target=work, args=(it,)) for it in range(4)]
for it in threads: it.start()
for it in threads: it.join()
print("ended", *odd[:3])
"""


class RandomPackets(unittest.TestCase):
    """On 10,000 random packets, of which each 500th half-bit is cut or long, and each 500th bit turned."""

    @classmethod
    def setUpClass(cls):
        cls.lines = written(["awk", "-f", os.path.join(TOP, "tools/random-packets.awk")]).splitlines()
        cls.text = "\n".join(cls.lines) + "\n"
        cls.frames = [dcc.frame(it) for it in cls.lines]
        sent = [us for it in cls.frames for us in dcc.halves(it)]
        spoilt = {499: lambda us: 20, 999: lambda us: us + 65536, 700: lambda us: 158 - us, 701: lambda us: 158 - us}
        cls.halves = [spoilt.get(at % 1000, int)(us) for at, us in enumerate(sent)]
        cls.capture = "\n".join(map(str, cls.halves)) + "\n"
        cls.listing = program("show", "--words", text=cls.capture)

    def test_10_000_packets(self):
        self.assertGreater(len(self.lines), 10_000)

    def test_what_is_sent_is_what_encode_writes(self):
        sent = "".join(" ".join(map(str, dcc.halves(it))) + "\n" for it in self.frames)
        self.assertTrue(sent == program("encode", text=self.text))

    def test_what_is_seen_is_what_show_lists(self):
        listing = "".join(f"{it}\n" for it in dcc.seen(self.halves))
        self.assertTrue(listing == self.listing)
        self.assertIn("refused H5", listing)

    def faulty(self):
        """Returns what a station with faults sends for these packets: short preambles, ones of 66 microseconds, zeros
        of 85 microseconds, a preamble after a refusal, and half-bits of 20 microseconds."""
        sent = []
        for at, frame in enumerate(self.frames):
            kind = at % 7
            if kind == 4:
                sent += [58] * 20 + [100, 70]
            for place, us in list(enumerate(dcc.halves(frame)))[12 + kind if kind in (1, 4, 6) else 0 :]:
                if us == 58 and kind in (2, 6):
                    us = 66
                if us == 100 and kind == 3:
                    us = 85 + place % 5
                sent.append(20 if kind == 5 and place == 60 else us)
        return sent

    def test_what_is_lost_is_what_lost_lists(self):
        halves = self.faulty()
        wanted = program("lost", "--words", text="\n".join(map(str, halves)) + "\n")
        self.assertTrue("".join(f"{it}\n" for it in dcc.lost(halves)) == wanted)
        for cause in ": preamble 17\n", ": preamble 12 after ", ": ones ", ": zeros ", ": preamble 12, ones ":
            self.assertGreater(wanted.count(cause), 100, cause)

    def test_with_spikes_is_lost_what_lost_lists(self):
        chance, halves = random.Random(5), []
        for us in self.faulty():
            if chance.random() < 0.01:
                spike = chance.randrange(1, 7)
                first = chance.randrange(1, max(2, us - spike))
                halves += [first, spike, max(0, us - spike - first)]
            else:
                halves.append(us)
        for limit, halves in ((5, halves), (25, halves[:200_000])):
            wanted = program("lost", "--spikes", str(limit), "--words", text="\n".join(map(str, halves)) + "\n")
            self.assertTrue("".join(f"{it}\n" for it in dcc.lost(halves, limit)) == wanted, f"spikes below {limit}")
            causes = ": preamble 17\n", " after ", ": ones ", ": zeros ", ": spikes 1\n", ", spikes 1\n", "spikes 2\n"
            for cause in causes:
                self.assertGreater(wanted.count(cause), 20, f"spikes below {limit}: {cause}")

    def test_statistics_are_what_timing_writes(self):
        self.assertEqual(timing_text(dcc.timing(self.halves)), program("timing", text=" ".join(map(str, self.halves))))

    def test_in_runs_the_same_packets_are_lost(self):
        # long runs, and a packet behind them
        halves = self.faulty() + [58] * 5000 + [100] * 3000 + [58] * 16 + dcc.halves(SPEED)[28:] + [58] * 700
        finder, listing = dcc.Lost(), ""
        for us, run in itertools.groupby(halves):
            listing += "".join(f"{it}\n" for it in finder.push(us, len(list(run))))
        self.assertTrue(listing == program("lost", "--words", text="\n".join(map(str, halves)) + "\n"))
        self.assertRegex(listing, " lost loco s3 speed28 f 4: preamble 16\n$")

    def test_in_arrays_the_same_packets_are_lost(self):
        halves = array.array("H", self.faulty())
        finder, found = dcc.Lost(), []
        for from_, to in ((0, 0), (0, 999), (999, 20_000), (20_000, len(halves))):
            found += finder.push_many(halves[from_:to])
        # (assertEqual takes minutes to print how two long lists differ)
        self.assertTrue(found == list(dcc.lost(list(halves))), "a list has other lost packets")
        self.assertTrue(found == list(dcc.lost(halves)), "an array has other lost packets")
        self.assertGreater(len(found), 500)
        finder = dcc.Lost()
        for bad, kind in (([58, -1], ValueError), ([58, "58"], TypeError)):
            self.assertRaises(kind, finder.push_many, bad)
        short = iter([58] * 16 + dcc.halves(SPEED)[28:])
        self.assertEqual([it.at for it in finder.push_many(short)], [72])

    def test_a_frame_has_its_line(self):
        self.assertTrue(all(dcc.frame(dcc.line(it)) == it for it in self.frames))
        self.assertTrue(all(dcc.read(it).frame() == it for it in self.frames))

    def test_decoders_hold_what_run_writes(self):
        fleet = decoders()
        pieces = self.listing.splitlines()
        for begin in range(0, len(pieces), 100):
            lines = [it.split(" ", 1)[1] for it in pieces[begin : begin + 100] if "refused" not in it]
            after = run(fleet, program("encode", text="\n".join(lines) + "\n"))
            for line, frame in ((it, dcc.frame(it)) for it in lines):
                for it in fleet:
                    self.assertEqual(it.hears(frame), is_for(it, line))
                    it.apply(frame)
            self.assertEqual([str(it) for it in fleet], after)

    def test_a_station_sends_what_encode_sends(self):
        for queue, slots, repeats in (4, 8, 2), (64, 128, 1), (1, 1, 8), (16, 32, 3):
            station, sent, asked = dcc.Station(queue, slots, repeats), [], []
            for at, frame in enumerate(self.frames):
                asked.append(self.lines[at])
                try:
                    station.command(frame)
                except dcc.Refused as fault:
                    sent.append(f"# refused {fault}")
                count = at * 7 % 4
                asked += [f"send {count}"] * (count > 0)
                sent += [station.next().hex() for _ in range(count)]
            sizes = "--queue", str(queue), "--slots", str(slots), "--repeats", str(repeats)
            wanted = program("encode", "--hex", "--station", *sizes, text="\n".join(asked) + "\n")
            self.assertTrue("\n".join(sent) + "\n" == wanted)


if __name__ == "__main__":
    unittest.main()
