# SPDX-License-Identifier: MIT OR Apache-2.0
"""The classes and functions of bindings/python/dcc.py that the decoder needs, in Python alone: PulseView brings its own
Python, which often loads no shared object. They are compared with the program `dcc` by tests, and not proved."""
from collections import namedtuple

Seen = namedtuple("Seen", "at refusal frame")
Service = namedtuple("Service", "kind cv value place one")
_FIELDS = "kind address forward bits group state on cv value place one board output signal aspect"
_Packet = namedtuple("Packet", _FIELDS)


def Packet(kind, address=None, forward=None, bits=None, **others):
    fields = dict.fromkeys(_Packet._fields)
    fields.update(others, kind=kind, address=address, forward=forward, bits=bits)
    return _Packet(**fields)


_BYTES = [bytes([n]) for n in range(256)]


class Framer:
    def __init__(self):
        self._ones, self._bits, self._first, self._byte, self._frame = 0, None, None, 1, b""

    def push(self, us):
        if self._bits is None:
            if 52 <= us <= 64:
                self._ones += 1
            else:
                if 90 <= us <= 10000 and self._ones >= 20:
                    # the first half of a start bit
                    self._bits, self._first, self._byte, self._frame = 0, 0, 1, b""
                self._ones = 0
            return None
        half = 1 if 52 <= us <= 64 else 0 if 90 <= us <= 10000 else None
        if half is None:
            return self._end("H1")
        if self._first is None:
            self._first = half
            return None
        if self._first != half:
            return self._end("H2")
        self._first = None
        if self._bits == 0:
            # a start bit, or an end bit
            if half:
                frame = self._frame
                if len(frame) < 3:
                    return self._end("H3")
                check = 0
                for byte in frame:
                    check ^= byte
                return self._end("H5" if check else None, frame)
            if len(self._frame) == 6:
                return self._end("H4")
            self._bits, self._byte = 8, 1
            return None
        self._byte = self._byte << 1 | half
        self._bits -= 1
        if not self._bits:
            self._frame += _BYTES[self._byte & 255]
        return None

    def _end(self, refusal, frame=b""):
        # the two half-bits of an end bit count as ones of the next preamble
        self._ones = 2 if refusal in (None, "H3", "H5") else 0
        self._bits, self._first = None, None
        return Seen(None, refusal, frame)

    @property
    def is_in_body(self):
        return self._bits is not None


class _LostPacket(namedtuple("_LostPacket", "at frame causes")):
    def __str__(self):
        return "%d lost %s: %s" % (self.at, line(self.frame), ", ".join(self.causes))


class Lost:
    """Finds lost packets (docs/FORMATS.md)."""

    def __init__(self):
        self._framer, self._halves, self._at, self._uses, self._start = Framer(), [], 0, [], None

    def push(self, us):
        halves = self._halves
        halves.append(us)
        self._at += 1
        if len(halves) > 512:
            del halves[:256]
        found = self._framer.push(us)
        if self._start is None and self._framer.is_in_body:
            self._start = self._at - 1
        if found:
            # an outcome uses the half-bits of its body, except those of its end bit
            ending = 2 if found.refusal in (None, "H3", "H5") else 0
            self._uses = self._uses[-7:] + [(self._start, self._at - ending, self._at, found.refusal)]
            self._start = None
            return ()
        # the end bit, and then a start bit before each byte, the last byte first
        if not 26 <= us <= 76 or len(halves) < 64 or not 26 <= halves[-2] <= 76 or self._framer.is_in_body:
            return ()
        for size in (6, 5, 4, 3):
            frame = self._frame(size)
            if frame:
                return (self._lost(frame),)
        return ()

    def _frame(self, size):
        halves, body = self._halves, 18 * size + 2
        first = len(halves) - body
        if first < 8:
            return None
        for byte in range(size):
            if not (77 <= halves[first + 18 * byte] <= 20000 and 77 <= halves[first + 18 * byte + 1] <= 20000):
                return None
        if any(not 26 <= it <= 76 for it in halves[first - 8 : first]):
            return None
        frame, check = [], 0
        for byte in range(size):
            value = 0
            for at in range(first + 18 * byte + 2, first + 18 * byte + 18, 2):
                a, b = halves[at], halves[at + 1]
                if 26 <= a <= 76 and 26 <= b <= 76:
                    value = value << 1 | 1
                elif 77 <= a <= 20000 and 77 <= b <= 20000:
                    value <<= 1
                else:
                    return None
            frame.append(value)
            check ^= value
        return None if check else bytes(frame)

    def _lost(self, frame):
        halves, body = self._halves, 18 * len(frame) + 2
        first = len(halves) - body
        ones = 0  # half-bits of ones before the body, at most 20
        while ones < 20 and first - ones - 1 >= 0 and 26 <= halves[first - ones - 1] <= 76:
            ones += 1
        place, unused, causes = self._at - body, ones, []
        for start, end, at, refusal in reversed(self._uses):
            if start < place:
                unused = max(0, min(ones, place - end))
                break
        if unused < 20:
            after = " after %d" % at if unused < ones and refusal else ""
            causes.append("preamble %d%s" % (unused, after))
        here = halves[first - ones :]
        for name, least, most, low, high in (("ones", 26, 76, 52, 64), ("zeros", 77, 20000, 90, 10000)):
            off = [it for it in here if least <= it <= most and not low <= it <= high]
            if off:
                causes.append("%s %d from %d to %d" % (name, len(off), min(off), max(off)))
        return _LostPacket(self._at, frame, causes)


_GROUPS = {0xDE: 13, 0xDF: 21, 0xD8: 29, 0xD9: 37, 0xDA: 45, 0xDB: 53, 0xDC: 61}


def read(frame):
    first, rest = frame[0], frame[1:-1]
    if first == 0xFF:
        return Packet("idle") if rest == b"\0" else Packet("other")
    if 128 <= first <= 191:
        return _accessory(first & 63, rest)
    if first >= 232:
        return Packet("other")
    if first >= 192:
        address, rest = "l%d" % ((first & 63) << 8 | rest[0]), rest[1:]
    else:
        address = "s%d" % first if first else "all"
    if not rest:
        return Packet("other")
    code = rest[0]
    if len(rest) == 1:
        if code == 0:
            return Packet("reset", address)
        if code >> 6 == 1:
            return Packet("speed28", address, bool(code & 32), 2 * (code & 15) + (code >> 4 & 1))
        if code >> 5 == 4:
            return Packet("functions", address, group=0, bits=code & 31)
        if code >> 5 == 5:
            return Packet("functions", address, group=5 if code & 16 else 9, bits=code & 15)
    elif len(rest) == 2:
        if code == 0x3F:
            return Packet("speed128", address, bool(rest[1] & 128), rest[1] & 127)
        if code in _GROUPS:
            return Packet("functions", address, group=_GROUPS[code], bits=rest[1])
        if code == 0xDD:
            return Packet("state", address, state=rest[1] & 127, on=rest[1] > 127)
    elif len(rest) == 3 and code >> 4 == 14:
        found = _access(code >> 2 & 3, (code & 3) << 8 | rest[1], rest[2])
        if found:
            return Packet("cv " + found.kind, address, **{k: v for k, v in found._asdict().items() if k != "kind"})
    return Packet("other")


def _access(kind, cv, value):
    if kind in (1, 3):
        return Service("write" if kind == 3 else "verify", cv + 1, value, None, None)
    if kind == 2 and value >> 5 == 7:
        return Service("bitwrite" if value & 16 else "bitverify", cv + 1, None, value & 7, bool(value & 8))
    return None


def _accessory(low, rest):
    high = ~rest[0] >> 4 & 7
    board = high << 6 | low
    if len(rest) == 1 and rest[0] & 128:
        return Packet("accessory", board=board, output=rest[0] & 7, on=bool(rest[0] & 8))
    if len(rest) == 2 and rest[0] & 0x89 == 1:
        return Packet("signal", signal=board << 2 | rest[0] >> 1 & 3, aspect=rest[1])
    return Packet("other")


def read_service(frame):
    if len(frame) == 4 and frame[0] >> 4 == 7:
        return _access(frame[0] >> 2 & 3, (frame[0] & 3) << 8 | frame[1], frame[2])
    return None


def line(frame):
    it = read(frame)
    if it.kind == "idle":
        return "idle"
    if it.kind == "other":
        return "frame " + "".join("%02x" % byte for byte in frame)
    if it.kind == "accessory":
        return "accessory %d %d %s" % (it.board, it.output, "on" if it.on else "off")
    if it.kind == "signal":
        return "signal %d %d" % (it.signal, it.aspect)
    head = "loco %s %s" % (it.address, it.kind)
    if it.kind == "reset":
        return head
    if it.kind in ("speed28", "speed128"):
        return "%s %s %d" % (head, "f" if it.forward else "r", it.bits)
    if it.kind == "functions":
        return "%s %d %d" % (head, it.group, it.bits)
    if it.kind == "state":
        return "%s %d %s" % (head, it.state, "on" if it.on else "off")
    if it.value is not None:
        return "%s %d %d" % (head, it.cv, it.value)
    return "%s %d %d %d" % (head, it.cv, it.place, it.one)
