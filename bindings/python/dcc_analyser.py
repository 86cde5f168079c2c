# SPDX-License-Identifier: MIT OR Apache-2.0
"""Reads the files of logic analysers as half-bits: VCD, digital CSV, and sessions of sigrok (.sr).

    halves = dcc_analyser.read("track.vcd", channel="D0").halves
    for it in dcc.seen(halves):
        print(it)

The module reads VCD and CSV files as tools/to-capture does, with the half-bits and the sentences of this script. It is
tested, not proved.
"""
import configparser
import io
import re
import zipfile
from array import array
from typing import List, Optional, Union

MOST_HALVES = 16_777_216
LONGEST = 65535
# the most characters of a time and of the unit of a VCD file
_MOST_OF_TIME, _MOST_OF_UNIT = 100, 20


class Unreadable(ValueError):
    """A file that cannot be read to its end. `halves` has the half-bits before the error."""

    def __init__(self, sentence: str, halves: "array[int]"):
        super().__init__(sentence)
        self.halves = halves


class Recording:
    """The half-bits of one channel of a file, and the names of all its channels."""

    def __init__(self, halves: "array[int]", channels: List[str], channel: str):
        self.halves, self.channels, self.channel = halves, channels, channel


class _Fault(Exception):
    pass


def _plain(text):
    shown = re.sub(r"[^ -~]", "?", text[:41])
    return f"{shown[:40]}.." if len(text) > 40 else shown


def _quoted(text):
    return f'"{_plain(text)}"'


class _Track:
    """The channels of a file, and the half-bits of one channel. A text is one character for each byte of the file."""

    def __init__(self, channel):
        self.wanted = channel
        self.names, self.ids, self.picked, self.line = [], [], None, 0
        self.halves = array("H")
        self.levels = self.ones = self.begins = 0
        self.level = self.edge = None

    def refuse_line(self, text):
        raise _Fault(f"line {self.line}: {text}")

    def add(self, name, id_=""):
        self.names.append(name)
        self.ids.append(id_)

    def label(self, place):
        return self.names[place] + (f" ({self.ids[place]})" if self.ids[place] else "")

    def choice(self):
        if len(self.names) < 2:
            return ""
        labels = ", ".join(_plain(self.label(it)) for it in range(min(20, len(self.names))))
        more = f" and {len(self.names) - 20} more" if len(self.names) > 20 else ""
        return f"; the channels are {labels}{more}: choose another"

    def pick(self):
        """Picks the wanted channel by its name, else by its id, else by the number that its name ends in."""
        self.picked = 0
        if self.wanted is None:
            return
        numbers = [(re.search(r"[0-9]+$", it) or [""])[0] for it in self.names]
        for words in self.names, self.ids, numbers:
            fits = [place for place, word in enumerate(words) if word == self.wanted]
            # one wire of a VCD file can have several names
            wires = {self.ids[it] or f"column {it}" for it in fits}
            if len(wires) == 1:
                self.picked = fits[-1]
                return
            if wires:
                raise _Fault(f"more than one channel is called {_quoted(self.wanted)}{self.choice()}")
        only = f"; the only one is {_plain(self.label(0))}" if len(self.names) == 1 else self.choice()
        raise _Fault(f"no channel is called {_quoted(self.wanted)}{only}")

    def take(self, at, level):
        """Takes the level at a time in microseconds. Only a change of the level is an edge."""
        if self.levels and level == self.level:
            return
        if self.levels > 1:
            self.half(at - self.edge)
        self.levels += 1
        self.level, self.edge = level, at

    def half(self, time):
        """Adds a half-bit, rounded to the nearest microsecond."""
        if len(self.halves) == MOST_HALVES:
            raise _Fault("U7 input too long")
        us = int(time + 0.5) if time < LONGEST else LONGEST
        self.halves.append(us)
        if 90 <= us <= 10000 and self.ones >= 20:
            self.begins += 1
        self.ones = self.ones + 1 if 52 <= us <= 64 else 0

    def end(self):
        """Ends the file. The end of the last level is unknown, so the level gets the length of the one before it."""
        if self.picked is None:
            raise _Fault("the input ends before its first level")
        if self.halves:
            self.half(self.halves[-1])
        name = f"the channel {_quoted(self.label(self.picked))}"
        if not self.halves:
            raise _Fault(f"{name} has no two edges{self.choice()}")
        if not self.begins:
            lengths = f"{len(self.halves)} halves, of {min(self.halves)} to {max(self.halves)} microseconds"
            none = "nowhere 20 halves of ones (52 to 64) before a half of a zero (90 to 10000)"
            raise _Fault(f"{name} has no packet: {lengths}, and {none}{self.choice()}")


_MICROSECONDS = {"s": 1e6, "ms": 1e3, "us": 1, "ns": 1e-3, "ps": 1e-6, "fs": 1e-9}
_COMMANDS = {"$comment", "$date", "$enddefinitions", "$scope", "$timescale", "$upscope", "$var", "$version"}


class _Vcd:
    """Reads a VCD file (IEEE 1364) word by word."""

    def __init__(self, track):
        self.track, self.at, self.unit = track, 0, 0
        self.command = self.vector = self.id = None
        self.words, self.known = [], set()

    def row(self, row):
        for word in re.findall(r"[^ \t]+", row):
            self.word(word)

    def word(self, word):
        first = word[0]
        if self.command:
            if word == "$end":
                self.end_command()
            else:
                self.words.append(word)
        elif self.vector:
            # the id follows a value of several bits. A single bit can be written in this way too
            if word == self.id and re.match(r"[bB].*[01]$", self.vector):
                self.track.take(self.at, self.vector[-1])
            self.vector = None
        elif first in "01":
            if word[1:] == self.id:
                self.track.take(self.at, first)
        elif first == "#":
            self.time(word)
        elif first in "bBrRsS":
            self.vector = word
        elif word in _COMMANDS:
            self.command, self.words = word, []

    def end_command(self):
        if self.command == "$timescale":
            text = "".join(self.words)
            found = re.fullmatch(r"([0-9]+)([a-z]+)", text) if len(text) <= _MOST_OF_UNIT else None
            self.unit = int(found[1]) * _MICROSECONDS.get(found[2], 0) if found else 0
        if self.command == "$var" and self.words[1:2] == ["1"]:
            name, id_ = "".join(self.words[3:5]), (self.words + [""] * 3)[2]
            if (name, id_) not in self.known:
                self.known.add((name, id_))
                self.track.add(name, id_)
        if self.command == "$enddefinitions":
            self.begin()
        self.command = None

    def begin(self):
        if not self.track.names:
            raise _Fault("no $var of one bit stands before the times: there is no channel")
        self.track.pick()
        self.id = self.track.ids[self.track.picked]

    def time(self, word):
        if self.track.picked is None:
            self.begin()
        if not self.unit:
            raise _Fault("no $timescale, as $timescale 1 ns $end, stands before the times: they have no unit")
        if not re.fullmatch(r"#[0-9]+", word) or len(word) > _MOST_OF_TIME:
            self.track.refuse_line(f"{_quoted(word)} is no time")
        time = float(word[1:]) * self.unit
        if time < self.at:
            self.track.refuse_line("its time lies before that of the line above")
        self.at = time


def _unit_of(title):
    """Returns the microseconds of the unit in the title of the first column. Returns 0 if it has no unit of time."""
    text = title.lower()
    if not re.search(r"^time|seconds", text):
        return 0
    for pattern, us in (r"pico|[^a-z]ps", 1e-6), (r"nano|[^a-z]ns", 1e-3), (r"micro|[^a-z]us|[^ -~]s", 1):
        if re.search(pattern, text):
            return us
    return 1e3 if re.search(r"milli|[^a-z]ms", text) else 1e6


def _hertz(text):
    """Returns the hertz of a rate such as 24 MHz, or 0 if the text is no rate."""
    number = re.match(r" *([0-9]+(?:\.[0-9]+)?) *(?:[kMGH]|$)", text)
    unit = next((us for it, us in (("G", 1e9), ("M", 1e6), ("k", 1e3)) if it in text), 1)
    return float(number[1]) * unit if number else 0


_DATE = re.compile(r"[0-9]+-[0-9]+-[0-9]+[T ][0-9]+:[0-9]+:[0-9]+(\.[0-9]+)?(Z| ?[-+][0-9:]+)?")


class _Csv:
    """Reads a digital CSV: a time, and a column for each channel. A row is an edge of any channel, or a sample."""

    def __init__(self, track):
        self.track, self.rows, self.at, self.rate = track, 0, 0, 0
        self.told_names, self.told_channels, self.separator, self.header_columns = [], 0, None, None

    def row(self, row):
        if row[:1] in (";", "#"):
            self.comment(row)
        elif row.strip(" \t"):
            if self.separator is None:
                bare = re.sub(r'"[^"]*"', "", row)
                self.separator = ";" if ";" in bare else "\t" if "\t" in bare else ","
            fields = [it.strip(" ") for it in (self.split_quoted(row) if '"' in row else row.split(self.separator))]
            if self.track.picked is None:
                self.columns(row, fields)
            elif len(fields) == self.header_columns:
                self.values(fields)
            else:
                self.refuse_columns(len(fields))

    def comment(self, row):
        """Reads the number of channels and their names from a comment of sigrok."""
        rate = re.search(r"[Ss]ample ?rate: (.*)", row)
        if rate:
            self.rate = _hertz(rate[1])
        told = re.search(r"Channels \(([0-9]+)/[0-9]+\): *(.*)", row)
        if told:
            self.told_channels, self.told_names = float(told[1]), told[2].split(", ") if told[2] else []

    def split_quoted(self, row):
        """Splits a row with quotes. A quote at the beginning of a field opens the quoted text, and the next quote
        closes it. Two quotes in it stand for one."""
        fields, pieces = [], row.split('"')
        text, is_quoted, is_closed, i = "", False, False, 0
        while i < len(pieces):
            if i > 0 and is_quoted and pieces[i] == "" and i < len(pieces) - 1:
                text += '"'
                i += 1
            elif i > 0 and is_quoted:
                is_quoted, is_closed = False, True
            elif i > 0 and not is_closed and not text.strip(" "):
                is_quoted = True
            elif i > 0:
                text += '"'
            first, *others = [pieces[i]] if is_quoted else pieces[i].split(self.separator)
            text += first
            for part in others:
                fields.append(text)
                text, is_closed = part, False
            i += 1
        if is_quoted:
            self.track.refuse_line("a quote is not closed")
        return [*fields, text]

    def columns(self, row, fields):
        """Reads the columns from the first line. If this line is already a row, the channels are called 0, 1 .."""
        track, is_row = self.track, self.time_of(fields[0]) is not None
        self.unit = 1e6 if is_row else _unit_of(fields[0])
        self.is_timed = self.unit != 0 and not (is_row and self.rate)
        if not self.is_timed and self.rate:
            self.unit = 1e6 / self.rate
        if not self.unit or (self.is_timed and len(fields) == 1):
            none = "begins neither a VCD file nor a digital CSV with a time in its first column: export one of these"
            track.refuse_line(f"{_quoted(row)} {none}")
        if self.rate and (fields[0].lower() == "time" or (is_row and len(fields) > self.told_channels)):
            none = "tells no unit of time: let sigrok-cli write -O csv:time=true:dedup=true, without label"
            track.refuse_line(f"{_quoted(row)} {none}")
        self.header, self.header_columns = track.line, len(fields)
        titles = fields[1 if self.is_timed else 0 :]
        # a name with a comma and a blank would look like two names. In this case no name is used
        is_told = len(self.told_names) == len(titles)
        names = self.told_names if is_told else [str(it) for it in range(len(titles))]
        for place, title in enumerate(titles):
            track.add(str(place) if is_row else names[place] if title == "logic" else title)
        track.pick()
        self.column = track.picked + (1 if self.is_timed else 0)
        if is_row:
            self.values(fields)

    def refuse_columns(self, count):
        columns = f"{count} column{'' if count == 1 else 's'}"
        why = f"a name or value with {_quoted(self.separator)} in it needs quotes"
        self.track.refuse_line(f"it has {columns}, and line {self.header} has {self.header_columns}: {why}")

    def values(self, fields):
        told = self.time_of(fields[0]) if self.is_timed else self.rows
        if told is None:
            self.track.refuse_line(f"{_quoted(fields[0])} is no time")
        time = told * self.unit
        if self.rows and time < self.at:
            self.track.refuse_line("its time lies before that of the line above")
        self.rows += 1
        self.at = time
        level = fields[self.column]
        if level not in ("0", "1"):
            more = "is no level 0 or 1: export the digital channel, not its voltage"
            self.track.refuse_line(f"{_quoted(level)} {more}")
        self.track.take(time, level)

    def time_of(self, text):
        """Returns a time in the unit of its column, or None if the text is no time."""
        if len(text) > _MOST_OF_TIME:
            return None
        number = text if self.separator == "," else text.replace(",", ".", 1)
        if re.fullmatch(r"[-+]?[0-9]*\.?[0-9]+([eE][-+]?0?[0-9][0-9]?)?", number):
            return float(number)
        # a date and a time of day are the seconds since the beginning of the month
        if not _DATE.fullmatch(number):
            return None
        _, _, day, hour, minute, second = [float(it) for it in re.split(r"[-T:+Z ]", number)[:6]]
        return ((day * 24 + hour) * 60 + minute) * 60 + second


def _read_text(track, data):
    """Reads a VCD or CSV file."""
    if data.startswith((b"\xff\xfe", b"\xfe\xff")):
        raise _Fault(
            "this text is UTF-16, as PowerShell writes it behind >: let sigrok-cli write the file, by -o track.vcd"
        )
    text = (data[3:] if data.startswith(b"\xef\xbb\xbf") else data).decode("latin-1")
    file = None
    for line, row in enumerate(io.StringIO(text, newline="\n"), 1):
        track.line, row = line, row.rstrip("\n")
        row = row[:-1] if row.endswith("\r") else row
        # sigrok-cli can write META before the file
        if file is None and row.startswith("META "):
            continue
        if file is None and row.strip(" \t"):
            file = _Vcd(track) if row.lstrip(" \t").startswith("$") else _Csv(track)
        if file:
            file.row(row)
    if file is None:
        raise _Fault("the input is empty")


def _content(archive, name):
    """Returns the bytes of a file of a session."""
    try:
        return archive.read(name)
    except MemoryError:
        raise
    except Exception as error:
        # zipfile raises errors of many classes for a damaged archive
        why = _plain(str(error)) or type(error).__name__
        raise _Fault(f"{_quoted(name)} of this session cannot be read: {why}") from None


def _session(data):
    """Returns the archive of a session of sigrok, its rate, the bytes of a sample, its channels by their numbers, and
    the names of the pieces of its samples."""
    no_session = _Fault(
        "this zip archive is no session of sigrok with logic channels: export a .sal or .dsl file as VCD or CSV"
    )
    try:
        archive = zipfile.ZipFile(io.BytesIO(data))
    except MemoryError:
        raise
    except Exception:
        raise no_session from None
    if "metadata" not in archive.namelist():
        raise no_session
    metadata = configparser.ConfigParser(interpolation=None)
    text = _content(archive, "metadata").decode("utf-8", "replace")
    try:
        metadata.read_string(text)
        (device,) = (metadata[it] for it in metadata.sections() if "capturefile" in metadata[it])
        rate, size = _hertz(device["samplerate"]), int(device["unitsize"])
        probes = {int(it[5:]): device[it] for it in device if re.fullmatch(r"probe[1-9][0-9]*", it)}
        names = [it for it in archive.namelist() if re.fullmatch(re.escape(device["capturefile"]) + r"(-[0-9]+)?", it)]
        names.sort(key=lambda it: int((re.search(r"-([0-9]+)$", it) or [0, 0])[1]))
    except (KeyError, ValueError, configparser.Error):
        raise no_session from None
    if rate <= 0 or not probes or not names:
        raise _Fault("this session of sigrok has no rate, no channel or no samples")
    return archive, rate, size, probes, names


def _read_session(track, data):
    """Reads a session of sigrok or PulseView: a zip archive with the samples of all channels."""
    archive, rate, size, probes, names = _session(data)
    for number in sorted(probes):
        track.add(probes[number].encode("utf-8").decode("latin-1"))
    track.pick()
    bit = sorted(probes)[track.picked] - 1
    if bit >= 8 * size:
        raise _Fault("this session of sigrok has fewer bits in a sample than channels")
    # each sample becomes one byte, which is 0 or 1
    table = bytes(it >> bit % 8 & 1 for it in range(256))
    before = 0
    for name in names:
        content = _content(archive, name)
        samples = content[bit // 8 : len(content) - len(content) % size : size].translate(table)
        for found in re.finditer(rb"\x00+|\x01+", samples):
            track.take((before + found.start()) * 1e6 / rate, samples[found.start()])
        before += len(samples)


def read(file: Union[str, bytes], channel: Optional[str] = None) -> Recording:
    """Reads a VCD file, a digital CSV or a session of sigrok: the path of the file, or its bytes.

    The channel is the name of a channel, its id in a VCD file, or the number that its name ends in. Without it the
    first channel is read.

    Errors: Unreadable with a sentence if the file cannot be read to its end. OSError if there is no such file."""
    if isinstance(file, str):
        with open(file, "rb") as opened:
            data = opened.read()
    elif isinstance(file, (bytes, bytearray)):
        data = bytes(file)
    else:
        raise TypeError(f"a file is its path or its bytes, not {type(file).__name__}")
    if channel is not None and not isinstance(channel, str):
        raise TypeError(f"a channel is a text, not {type(channel).__name__}")
    track = _Track(None if channel is None else channel.encode("utf-8").decode("latin-1"))
    try:
        if data.startswith(b"PK"):
            _read_session(track, data)
        else:
            _read_text(track, data)
        track.end()
    except _Fault as fault:
        raise Unreadable(str(fault), track.halves) from None
    labels = [track.label(it).encode("latin-1").decode("utf-8", "replace") for it in range(len(track.names))]
    return Recording(track.halves, labels, labels[track.picked])

