# SPDX-License-Identifier: MIT OR Apache-2.0
"""Digital Command Control (DCC) for scripts: packets and lost packets in half-bits, the statistics of a track, packet
lines, frames, decoders, a command station.

    >>> import dcc
    >>> dcc.frame("loco s3 speed28 f 4").hex()
    '036261'
    >>> [str(it) for it in dcc.seen(dcc.halves(dcc.frame("loco s3 speed28 f 4")))]
    ['84 loco s3 speed28 f 4']

The library that this module calls is proved (docs/C.md): each of its functions is safe and does what its contract says.
This module is tested against the program. It needs the library as a shared object, which `bindings/python/make` makes
from the proved archive. The object is in the folder of this file, or at the path in the variable DCC_SO.

Arguments are checked before the library gets them: a wrong type is a TypeError, a number out of its range a
ValueError.
"""
import ctypes
import operator
import os
import re
import sys
from array import array
from bisect import bisect_right
from collections import namedtuple
from dataclasses import dataclass
from itertools import repeat
from typing import Dict, Iterable, Iterator, List, Optional, Sequence, Tuple, Union

_HERE = os.path.dirname(os.path.abspath(__file__))
# (a PyDLL keeps the interpreter's lock during a call, so two threads are never in calls on one object)
_library = ctypes.PyDLL(os.environ.get("DCC_SO", os.path.join(_HERE, "libdcc_c.so")))
_u8, _u16, _u32, _u64 = ctypes.c_uint8, ctypes.c_uint16, ctypes.c_uint32, ctypes.c_uint64

MOST_HALVES = 16_777_216  # in a capture, as the program reads it
MOST_BYTES = 67_108_864
_PIECE = 65_536  # the bytes of a capture that are read at once, so few that they stay in the cache


class _Frame(ctypes.Structure):
    _fields_ = [("len", _u8), ("bytes", _u8 * 6)]

    def __bytes__(self):
        return bytes(self.bytes[: self.len])


class _Framer(ctypes.Structure):
    _fields_ = [("kept", _u64 * 3)]


class _Outcome(ctypes.Structure):
    _fields_ = [("at", _u32), ("refusal", _u8), ("frame", _Frame)]


class _Lost(ctypes.Structure):
    _fields_ = [("kept", _u64 * 101)]


class _ShortPreamble(ctypes.Structure):
    _fields_ = [
        ("is_short", ctypes.c_bool), ("ones", _u8), ("after_refusal", ctypes.c_bool), ("since_refusal", _u8),
    ]


class _OffLimits(ctypes.Structure):
    _fields_ = [("count", _u32), ("least", _u16), ("most", _u16)]


class _LostPacket(ctypes.Structure):
    _fields_ = [("frame", _Frame), ("preamble", _ShortPreamble), ("ones", _OffLimits), ("zeros", _OffLimits)]


class _Meter(ctypes.Structure):
    _fields_ = [("kept", _u64 * 138)]


class _Tally(ctypes.Structure):
    _fields_ = [("count", _u64), ("sum", _u64), ("least", _u64), ("most", _u64)]


_TALLIES = "below", "ones", "between", "zeros", "above", "differences", "sums"


class _Statistics(ctypes.Structure):
    _fields_ = [
        ("time", _u64), ("gap", _u64), *((name, _Tally) for name in _TALLIES), ("packets", _u32), ("refused", _u32 * 5),
        ("halves", _u32), ("lost", _u32), ("preamble", _u16), ("has_preamble", ctypes.c_bool),
        ("has_gap", ctypes.c_bool),
    ]


class _Timing(ctypes.Structure):
    _fields_ = [("one", _u16), ("zero_first", _u16), ("zero_second", _u16), ("preamble", _u8)]


class _Sender(ctypes.Structure):
    _fields_ = [("kept", _u64 * 2)]


class _Loco(ctypes.Structure):
    _fields_ = [
        ("address_kind", _u8), ("speed_mode", _u8), ("step", _u8), ("forward", ctypes.c_bool), ("address", _u16),
        ("pending", _Frame), ("functions", _u64 * 2), ("states", _u64 * 2), ("cvs", _u8 * 1024),
    ]


class _Board(ctypes.Structure):
    _fields_ = [("number", _u16), ("outs", _u8), ("positions", ctypes.c_bool * 4), ("aspects", _u8 * 4)]


class _Station(ctypes.Structure):
    _fields_ = [("kept", _u8 * 1801)]


class _Packet(ctypes.Structure):
    _fields_ = [
        ("kind", _u8), ("to", _u8), ("address", _u16), ("forward", ctypes.c_bool), ("bits", _u8), ("group", _u8),
        ("state", _u8), ("on", ctypes.c_bool), ("cv", _u16), ("value", _u8), ("place", _u8), ("one", ctypes.c_bool),
        ("output", _u8), ("aspect", _u8),
    ]


class _Service(ctypes.Structure):
    _fields_ = [("in_service", ctypes.c_bool), ("pending", _Frame), ("cvs", _u8 * 1024)]


class _ServicePart(ctypes.Structure):
    _fields_ = [("in_service", ctypes.c_bool), ("pending", _Frame)]


class _TrackLoco(ctypes.Structure):
    _fields_ = [("loco", _Loco), ("service", _ServicePart), ("changed", ctypes.c_bool), ("main_only", ctypes.c_bool)]


class _TrackBoard(ctypes.Structure):
    _fields_ = [
        ("board", _Board), ("cvs", _u8 * 1024), ("service", _ServicePart), ("changed", ctypes.c_bool),
        ("main_only", ctypes.c_bool),
    ]


class _Answer(ctypes.Structure):
    _fields_ = [("changed", _u16), ("acknowledged", ctypes.c_bool)]


class _Reader(ctypes.Structure):
    _fields_ = [("cv", _u16), ("known", _u8), ("value", _u8)]


class _Writer(ctypes.Structure):
    _fields_ = [("cv", _u16), ("value", _u8), ("is_verifying", ctypes.c_bool)]


class _ServicePacket(ctypes.Structure):
    _fields_ = [("cv", _u16), ("kind", _u8), ("value", _u8), ("place", _u8), ("one", ctypes.c_bool)]


class _Functions(ctypes.Structure):
    _fields_ = [("on", _u64 * 2)]


_SIZES = (_Frame, 7), (_Framer, 24), (_Outcome, 12), (_Sender, 16), (_Loco, 1072), (_Board, 12), (_Station, 1801)
_SIZES += (_ServicePart, 8), (_TrackLoco, 1088), (_TrackBoard, 1046), (_Answer, 4)
_SIZES += (_Lost, 808), (_LostPacket, 28), (_Meter, 1104), (_Statistics, 280), (_Packet, 18)
_SIZES += (_Service, 1032), (_Reader, 4), (_Writer, 4), (_ServicePacket, 6), (_Functions, 16)
for _object, _size in _SIZES:
    assert ctypes.sizeof(_object) == _size, f"{_object.__name__} is not as dcc.h has it"


def _call(name, answer, *arguments):
    call = getattr(_library, name)
    call.restype, call.argtypes = answer, arguments
    return call


_at = ctypes.POINTER
_framer_new = _call("dcc_framer_new", _Framer)
_push_run = _call("dcc_push_run", _u8, _at(_Framer), _u16, _u32, _at(_Outcome))
_push_many = _call("dcc_push_many", _u8, _at(_Framer), ctypes.c_void_p, _u64, _at(_Outcome), _at(_u64))
_read = _call("dcc_read", _u8, ctypes.c_char_p, _u64, _at(_Packet))
_lost_new = _call("dcc_lost_new", None, _at(_Lost))
_lost_push_run = _call("dcc_lost_push_run", _u32, _at(_Lost), _u16, _u32, _at(_LostPacket))
_lost_push_many = _call(
    "dcc_lost_push_many", _u8, _at(_Lost), ctypes.c_void_p, _u64, _at(_LostPacket), _at(_u64)
)
_meter_new = _call("dcc_meter_new", None, _at(_Meter))
_meter_push_run = _call("dcc_meter_push_run", _u8, _at(_Meter), _u16, _u32)
_meter_push_many = _call("dcc_meter_push_many", _u8, _at(_Meter), ctypes.c_void_p, _u64)
_meter_read = _call("dcc_meter_read", None, _at(_Meter), _at(_Statistics))
_line = _call("dcc_line", _u8, ctypes.c_char_p, _u64, ctypes.c_char_p)
_plain = _call("dcc_plain", _u8, ctypes.c_char_p, _u64, ctypes.c_char_p)
_frame_of_line = _call("dcc_frame_of_line", _u8, ctypes.c_char_p, _u64, _at(_Frame))
_frame_of_packet = _call("dcc_frame_of_packet", _u8, _at(_Packet), _at(_Frame))
_sender_start = _call("dcc_sender_start", _u8, _at(_Sender), ctypes.c_char_p, _u64, _at(_Timing))
_sender_half = _call("dcc_sender_half", _u16, _at(_Sender))
_loco_new = _call("dcc_loco_new", None, _at(_Loco), ctypes.c_char_p)
_loco_apply = _call("dcc_loco_apply", _u8, _at(_Loco), ctypes.c_char_p, _u64)
_loco_hears = _call("dcc_loco_hears", _u8, _at(_Loco), ctypes.c_char_p, _u64, _at(ctypes.c_bool))
_board_new = _call("dcc_board_new", _u8, _at(_Board), _u16)
_board_apply = _call("dcc_board_apply", _u8, _at(_Board), ctypes.c_char_p, _u64)
_board_hears = _call("dcc_board_hears", _u8, _at(_Board), ctypes.c_char_p, _u64, _at(ctypes.c_bool))
_service_new = _call("dcc_service_new", None, _at(_Service), ctypes.c_char_p)
_service_apply = _call("dcc_service_apply", _u8, _at(_Service), ctypes.c_char_p, _u64, _at(ctypes.c_bool))
_decoder_new = _call("dcc_decoder_new", None, _at(_TrackLoco), ctypes.c_char_p)
_decoder_hear = _call("dcc_decoder_hear", _u8, _at(_TrackLoco), ctypes.c_char_p, _u64, _at(_Answer))
_decoder_end_service = _call("dcc_decoder_end_service", None, _at(_TrackLoco))
_decoder_set_main_only = _call("dcc_decoder_set_main_only", None, _at(_TrackLoco), ctypes.c_bool)
_board_decoder_new = _call("dcc_board_decoder_new", None, _at(_TrackBoard), ctypes.c_char_p)
_board_decoder_hear = _call("dcc_board_decoder_hear", _u8, _at(_TrackBoard), ctypes.c_char_p, _u64, _at(_Answer))
_board_decoder_end_service = _call("dcc_board_decoder_end_service", None, _at(_TrackBoard))
_board_decoder_set_main_only = _call("dcc_board_decoder_set_main_only", None, _at(_TrackBoard), ctypes.c_bool)
_reader_new = _call("dcc_reader_new", _u8, _at(_Reader), _u16)
_reader_question = _call("dcc_reader_question", _u8, _at(_Reader), _at(_Frame))
_reader_answer = _call("dcc_reader_answer", _u8, _at(_Reader), ctypes.c_bool, _at(_u8))
_writer_new = _call("dcc_writer_new", _u8, _at(_Writer), _u16, _u8)
_writer_question = _call("dcc_writer_question", _u8, _at(_Writer), _at(_Frame))
_writer_answer = _call("dcc_writer_answer", _u8, _at(_Writer), ctypes.c_bool)
_service_frame = _call("dcc_service_frame", _u8, _at(_ServicePacket), _at(_Frame))
_service_read = _call("dcc_service_read", _u8, ctypes.c_char_p, _u64, _at(_ServicePacket))
_station_new = _call("dcc_station_new", _u8, _at(_Station), _u8, _u8, _u8)
_station_command = _call("dcc_station_command", _u8, _at(_Station), ctypes.c_char_p, _u64)
_station_next = _call("dcc_station_next", None, _at(_Station), _at(_Frame))
_station_stop = _call("dcc_station_stop", _u8, _at(_Station))
_station_forget = _call("dcc_station_forget", _u8, _at(_Station), _u8, _u16)
_station_waiting = _call("dcc_station_waiting", _u8, _at(_Station))
_station_entries = _call("dcc_station_entries", _u8, _at(_Station))
_functions_turn = _call("dcc_functions_turn", _u8, _at(_Functions), _u8, _u16, _u8, ctypes.c_bool, _at(_Frame))
_functions_is_on = _call("dcc_functions_is_on", _u8, _at(_Functions), _u8)


class Refused(ValueError):
    """An error code of the library or of a capture, by its name: H6, L1, P10, C4, U2 line 3: bad number .."""


def _check(answer, letter):
    if answer:
        raise Refused(f"{letter}{answer}")


def _check_heard(answer):
    _check(answer, "P" if answer == 13 else "L")


def _number(name, number, least, most=None):
    """Returns the number as an int. Errors: TypeError if it is no integer, ValueError if it is not least to most."""
    try:
        number = operator.index(number)
    except TypeError:
        raise TypeError(f"{name} is an integer, not {type(number).__name__}") from None
    if number < least or (most is not None and number > most):
        limits = f"{least} or more" if most is None else f"{least} to {most}"
        raise ValueError(f"{name} is {limits}, not {number}")
    return number


def _bytes(name, items):
    """Returns the items as bytes. Of an array these are its items and not its memory.

    Errors: TypeError if there are no items or an item is no integer, ValueError if an item is not 0 to 255."""
    if isinstance(items, (bytes, bytearray)):
        return bytes(items)
    if isinstance(items, (str, dict, set, frozenset)):
        raise TypeError(f"{name} is bytes, not {type(items).__name__}")
    try:
        numbers = list(items)
    except (TypeError, NotImplementedError):
        raise TypeError(f"{name} is bytes, not {type(items).__name__}") from None
    return bytes(_number(f"a byte of {name}", it, 0, 255) for it in numbers)


def _frame_bytes(frame):
    return _bytes("a frame", frame)


def _encoded(name, text):
    if not isinstance(text, str):
        raise TypeError(f"{name} is a text, not {type(text).__name__}")
    return text.encode("utf-8", "surrogatepass")


def _bool(name, value):
    """Returns the truth value. Errors: TypeError if it is not True or False."""
    if not isinstance(value, bool):
        raise TypeError(f"{name} is True or False, not {type(value).__name__}")
    return value


def _address(address):
    """Returns the kind and the number of an address. Errors: Refused, P10 if the text is no address, P11 if its number
    is above 65535."""
    if not isinstance(address, str):
        raise TypeError(f"an address is a text, not {type(address).__name__}")
    if address == "all":
        return 0, 0
    if not re.fullmatch(r"[sl][0-9]{1,5}", address, re.ASCII):
        raise Refused("P10")
    if int(address[1:]) > 65535:
        raise Refused("P11")
    return " sl".index(address[0]), int(address[1:])


def _run(us, count):
    """Returns the duration and the count of a run as the library takes them. Errors: those of _number."""
    us = min(_number("a half-bit", us, 0), 65535)
    count = _number("a count", count, 1, 0xFFFFFFFF)
    return us, count


def _array(halves):
    """Returns half-bits as an array for the library. Errors: those of _number."""
    if isinstance(halves, array) and halves.typecode == "H":
        return halves
    return array("H", [min(_number("a half-bit", it, 0), 65535) for it in halves])


def _fixed(halves):
    """Returns half-bits as an array for the library, and a view of this array. Until the view is closed, no thread can
    move the array. Errors: those of _number."""
    halves = _array(halves)
    return halves, memoryview(halves)


class Seen(namedtuple("Seen", "at refusal frame us")):
    """A packet or a refusal: the number of its last half-bit, from 1; None or H1 to H5; its bytes; its time.

    A refusal H1 to H4 has no bytes. The time is from the first half-bit of the framer to the end of the last half-bit,
    in microseconds."""

    def __str__(self):
        """Returns the line that `dcc show --words` writes."""
        said = line(self.frame) if self.refusal is None else f"refused {self.refusal} {self.frame.hex()}".rstrip()
        return f"{self.at} {said}"


class Framer:
    """Finds packets in half-bits (NMRA S-9.1, S-9.2)."""

    def __init__(self):
        self._framer, self._taken, self._time = _framer_new(), 0, 0

    def push(self, us: int, count: int = 1) -> "Optional[Seen]":
        """Takes equal half-bits, of these microseconds. Returns the packet or refusal that one completes, else None.

        A half-bit above 65535 counts as 65535. The count is 1 to 4294967295."""
        us, count = _run(us, count)
        outcome, before, time = _Outcome(), self._taken, self._time
        self._taken += count
        self._time += us * count
        if not _push_run(self._framer, us, count, outcome):
            return None
        return _seen_at(before + outcome.at, time + us * outcome.at, outcome)

    def push_many(self, halves: Iterable[int]) -> "List[Seen]":
        """Takes half-bits of these microseconds, in order. Returns a list of their packets and refusals.

        A half-bit above 65535 counts as 65535. An array with the type code 'H', as `capture` returns, is taken without
        a copy. Until the call returns, an append to this array in another thread raises BufferError.

        Errors: TypeError or ValueError if an item is no half-bit. The framer then takes no item."""
        halves, view = _fixed(halves)
        found, at, outcome, taken = [], 0, _Outcome(), _u64()
        with view:
            place, count = halves.buffer_info()
            while at < count:
                is_end = _push_many(self._framer, place + 2 * at, count - at, outcome, taken)
                self._time += sum(view[at : at + taken.value])
                at += taken.value
                if is_end:
                    found.append(_seen_at(self._taken + at, self._time, outcome))
        self._taken += at
        return found


def _seen_at(at, us, outcome):
    refusal = f"H{outcome.refusal}" if outcome.refusal else None
    return Seen(at, refusal, bytes(outcome.frame), us)


def seen(halves: Iterable[int]) -> "Iterator[Seen]":
    """Returns the packets and refusals in half-bits, which are numbers of microseconds, in order."""
    framer = Framer()
    if isinstance(halves, array) and halves.typecode == "H":
        return iter(framer.push_many(halves))
    return filter(None, map(framer.push, halves))


class ShortPreamble(namedtuple("ShortPreamble", "ones after")):
    """A preamble that is too short: its number of half-bits of ones, and None or the number of the last half-bit of
    the refusal that uses the half-bit before them."""

    def __str__(self):
        return f"preamble {self.ones}" + ("" if self.after is None else f" after {self.after}")


class OffLimits(namedtuple("OffLimits", "count least most")):
    """Half-bits outside the limits of a decoder: their number, and their least and greatest duration."""

    def __str__(self):
        return f"{self.count} from {self.least} to {self.most}"


class LostPacket(namedtuple("LostPacket", "at frame preamble ones zeros spikes", defaults=(None,))):
    """A packet that a decoder does not hear: the number of its last half-bit, from 1; its bytes; its causes.

    The causes are a ShortPreamble, OffLimits of the half-bits of ones and of zeros, and the number of spikes, which
    only `lost` with its argument `spikes` counts. A cause that the packet does not have is None. Each lost packet has
    a cause."""

    def __str__(self):
        """Returns the line that `dcc lost --words` writes."""
        named = (self.preamble, ""), (self.ones, "ones "), (self.zeros, "zeros "), (self.spikes, "spikes ")
        causes = ", ".join(f"{name}{cause}" for cause, name in named if cause is not None)
        return f"{self.at} lost {line(self.frame)}: {causes}"


class Lost:
    """Finds packets that a decoder does not hear, with their causes (NMRA S-9.1, S-9.2).

    >>> finder = Lost()
    >>> capture = "58*16 100*14 58*4 100*4 58*4 100*6 58*2 100*6 58*4 100*8 58*4"
    >>> [str(it) for us in durations(capture) for it in finder.push(us)]
    ['72 lost loco s3 speed28 f 4: preamble 16']
    """

    def __init__(self):
        self._lost, self._taken = _Lost(), 0
        _lost_new(self._lost)

    def push(self, us, count=1):
        """Takes equal half-bits, of these microseconds. Returns a list of the packets that are lost in them.

        A half-bit above 65535 counts as 65535. The count is 1 to 4294967295."""
        us, left = _run(us, count)
        packet, found = _LostPacket(), []
        while left:
            taken = _lost_push_run(self._lost, us, left, packet)
            self._taken += taken or left
            if not taken:
                break
            found.append(_lost_at(self._taken, packet))
            left -= taken
        return found

    def push_many(self, halves: Iterable[int]) -> "List[LostPacket]":
        """Takes half-bits of these microseconds, in order. Returns a list of the packets that are lost in them.

        A half-bit above 65535 counts as 65535. An array with the type code 'H', as `capture` returns, is taken without
        a copy. Until the call returns, an append to this array in another thread raises BufferError.

        Errors: TypeError or ValueError if an item is no half-bit. The finder then takes no item."""
        halves, view = _fixed(halves)
        found, done, packet, taken = [], 0, _LostPacket(), _u64()
        with view:
            place, count = halves.buffer_info()
            while done < count:
                is_lost = _lost_push_many(self._lost, place + 2 * done, count - done, packet, taken)
                done += taken.value
                if is_lost:
                    found.append(_lost_at(self._taken + done, packet))
        self._taken += done
        return found


def _lost_at(at, packet):
    preamble, causes = None, [_off_limits(packet.ones), _off_limits(packet.zeros)]
    if packet.preamble.is_short:
        after = at - packet.preamble.since_refusal if packet.preamble.after_refusal else None
        preamble = ShortPreamble(packet.preamble.ones, after)
    return LostPacket(at, bytes(packet.frame), preamble, *causes)


def _off_limits(off):
    return OffLimits(off.count, off.least, off.most) if off.count else None


def lost(halves: Iterable[int], spikes: Optional[int] = None) -> "Iterator[LostPacket]":
    """Returns the packets that a decoder does not hear in half-bits, which are numbers of microseconds, in order.

    With a number `spikes`, each half-bit shorter than this number of microseconds is a spike, and the packets are those
    that `dcc lost --spikes` lists (docs/FORMATS.md). The call then reads all half-bits before it returns, and takes ten
    bytes of memory for each of them. A `Lost` has no such argument.

    >>> halves = durations("58*12 27 3 28 58*15 100*14 58*4 100*4 58*4 100*6 58*2 100*6 58*4 100*8 58*4")
    >>> [str(it) for it in lost(halves, spikes=5)]
    ['86 lost loco s3 speed28 f 4: spikes 1']

    Errors: TypeError if spikes is no integer, ValueError if it is not 1 to 25. TypeError or ValueError if an item of
    the half-bits is no half-bit, without spikes only when the iterator comes to this item."""
    if spikes is not None:
        return iter(_lost_with_spikes(halves, _number("a number of microseconds for spikes", spikes, 1, 25)))
    finder = Lost()
    if isinstance(halves, array) and halves.typecode == "H":
        return iter(finder.push_many(halves))
    return (it for us in halves for it in finder.push(us))


# For each duration, one of the same class whose bits `Lost` finds and no decoder hears: 70 for ones, 85 for zeros, and
# 0 for a duration that is neither.
_NEAREST = array("H", [0] * 26 + [70] * 51 + [85] * 19_924 + [0] * 45_535)
_END_BITS = None, "H3", "H5"  # the outcomes whose end bit can begin the next preamble
_LONGEST_BODY = 130  # the half-bits of the longest body, and the 20 half-bits of ones before it


class _Heard:
    """What a decoder hears of half-bits, which are an array: the outcomes, and its state after each half-bit."""

    def __init__(self, halves):
        self.halves, self.outcomes = halves, Framer().push_many(halves)
        self.ends = [it.at for it in self.outcomes]
        self.packets = [it.at for it in self.outcomes if it.refusal is None]

    def last_outcome(self, at):
        """Returns the last outcome in the first `at` half-bits, or None."""
        count = bisect_right(self.ends, at)
        return self.outcomes[count - 1] if count else None

    def unused(self, at):
        """Returns the number of half-bits at the end of the first `at` half-bits that no outcome uses, at most 20. If
        a body is unfinished there, returns None."""
        last, used = self.last_outcome(at), 0
        if last:
            used = last.at - 2 if last.refusal in _END_BITS else last.at
        # an unfinished body, and the ones before it, are in so many half-bits
        framer = Framer()
        framer.push_many(self.halves[max(used, at - _LONGEST_BODY) : at])
        # a half-bit of 0 microseconds is a refusal in each unfinished body
        return None if framer.push(0) else min(20, at - used)

    def has_packet(self, first, last):
        """Returns True if a packet ends with one of the half-bits of these numbers, or between them."""
        return bisect_right(self.packets, last) > bisect_right(self.packets, first - 1)


def _joined(halves, limit):
    """Returns the durations of half-bits that are joined with the spikes next to them, and the number of the last
    half-bit of each. A spike, and the half-bit directly after it, extend the last joined half-bit. If this next
    half-bit is a spike too, the half-bit after it is not joined for its sake."""
    durations, ends, total, takes_next = array("H"), array("Q"), 0, True
    for at, us in enumerate(halves):
        if us < limit:
            total, takes_next = total + us, not takes_next
        elif takes_next:
            total, takes_next = total + us, False
        else:
            durations.append(min(total, 65535))
            ends.append(at)
            total = us
    durations.append(min(total, 65535))
    ends.append(len(halves))
    return durations, ends


def _lost_with_spikes(halves, limit):
    """Returns the packets that `dcc lost --spikes` lists. Errors: those of _number."""
    halves, view = _fixed(halves)
    found = []
    with view:
        heard = _Heard(halves)
        durations, ends = _joined(halves, limit)
        for it in Lost().push_many(array("H", map(_NEAREST.__getitem__, durations))):
            # the body ends with the joined half-bit number `it.at`, and `start` joined half-bits are before it
            start, at = it.at - 18 * len(it.frame) - 2, ends[it.at - 1]
            before, last = ends[start - 1], heard.last_outcome(at)
            if heard.unused(at) is None or (last and last.at == at) or heard.has_packet(before + 1, at):
                continue
            ones = 0
            while ones < min(20, start) and 26 <= durations[start - ones - 1] <= 76:
                ones += 1
            first = start - ones
            unused, preamble, counted = heard.unused(before) or 0, None, durations[first : it.at]
            if min(ones, unused) < 20:
                is_after = unused < ones and last and last.refusal and at - last.at < 255
                preamble = ShortPreamble(min(ones, unused), last.at if is_after else None)
            spikes = 0
            for joined in range(first, it.at):
                begin = ends[joined - 1] if joined else 0
                spikes += min(65535, sum(us < limit for us in view[begin : ends[joined]]))
            off = [[us for us in counted if is_off(us)] for is_off in (_is_off_one, _is_off_zero)]
            found.append(LostPacket(at, it.frame, preamble, *map(_off_limits_of, off), spikes or None))
    return found


def _is_off_one(us):
    return 26 <= us <= 51 or 65 <= us <= 76


def _is_off_zero(us):
    return 77 <= us <= 89 or 10001 <= us <= 20000


def _off_limits_of(halves):
    return OffLimits(len(halves), min(halves), max(halves)) if halves else None


@dataclass(frozen=True)
class Tally:
    """The count, the sum, the least, the greatest and the mean of some durations in microseconds.

    Without durations the count and the sum are 0, and the other numbers are None."""

    count: int
    sum: int
    least: Optional[int]
    most: Optional[int]

    @property
    def mean(self) -> Optional[float]:
        return self.sum / self.count if self.count else None


@dataclass(frozen=True)
class Statistics:
    """The statistics of half-bits, as `dcc timing` writes them (docs/FORMATS.md). All durations are in microseconds.

    The tallies below, ones, between, zeros and above are of half-bits by their class. The tally differences has
    the difference between the two half-bits of each bit 1 of a packet, and sums has the duration of each bit 0.
    The refusals have the keys H1 to H5. The preamble is the shortest preamble of a packet that was found or lost, in
    half-bits and at most 65535, and gap is the longest time from the end of a packet to the end of the next. Each of
    them is None if there is none."""

    halves: int
    time: int
    packets: int
    refused: Dict[str, int]
    lost: int
    preamble: Optional[int]
    gap: Optional[int]
    ones: Tally
    differences: Tally
    zeros: Tally
    sums: Tally
    below: Tally
    between: Tally
    above: Tally


class Meter:
    """Computes the statistics of half-bits, which come one by one, in runs, or as a whole list.

    >>> meter = Meter()
    >>> meter.push(58, 28)
    >>> meter.push(100)
    >>> meter.statistics().zeros
    Tally(count=1, sum=100, least=100, most=100)
    """

    def __init__(self) -> None:
        self._meter = _Meter()
        _meter_new(self._meter)

    def push(self, us: int, count: int = 1) -> None:
        """Takes equal half-bits, of these microseconds.

        A half-bit above 65535 counts as 65535. The count is 1 to 4294967295.

        Errors: Refused with `U7 input too long`, and nothing is taken, if the meter would have 2**32 or more
        half-bits."""
        us, count = _run(us, count)
        if not _meter_push_run(self._meter, us, count):
            raise Refused("U7 input too long")

    def push_many(self, halves: Iterable[int]) -> None:
        """Takes half-bits of these microseconds, in order.

        A half-bit above 65535 counts as 65535. An array with the type code 'H', as `capture` returns, is taken without
        a copy. Until the call returns, an append to this array in another thread raises BufferError.

        Errors: those of `push`. The meter then takes no half-bit of the list."""
        halves, view = _fixed(halves)
        with view:
            if not _meter_push_many(self._meter, *halves.buffer_info()):
                raise Refused("U7 input too long")

    def statistics(self) -> Statistics:
        """Returns the statistics of all half-bits that the meter has taken."""
        found = _Statistics()
        _meter_read(self._meter, found)
        return Statistics(
            halves=found.halves,
            time=found.time,
            packets=found.packets,
            refused={f"H{n + 1}": count for n, count in enumerate(found.refused)},
            lost=found.lost,
            preamble=found.preamble if found.has_preamble else None,
            gap=found.gap if found.has_gap else None,
            **{name: _tally(getattr(found, name)) for name in _TALLIES},
        )


def _tally(found):
    if not found.count:
        return Tally(0, 0, None, None)
    return Tally(found.count, found.sum, found.least, found.most)


def timing(halves: Iterable[int]) -> Statistics:
    """Returns the statistics of half-bits, which are numbers of microseconds, as `dcc timing` writes them.

    >>> timing(halves(frame("idle"))).packets
    1
    """
    meter = Meter()
    meter.push_many(halves)
    return meter.statistics()


# a run, a comment, a line feed, or a word that is no run
_WORDS = re.compile(rb"([0-9]{1,10})(?:\*([0-9]{1,8}))?(?![^ \t\r\n#])|#[^\n]*|\n|[^ \t\r\n#]+")


def durations(capture: Union[str, bytes]) -> Iterator[int]:
    """Yields the half-bits of a capture, which is a text or bytes (docs/FORMATS.md).

    A capture has words of microseconds, runs as 58*28, and comments from # on.

    Errors: Refused with the text of the program, after the half-bits before the error: `U2 line 3: bad number` at a
    word that is no duration, `U7 input too long` past 16777216 half-bits or 67108864 bytes. TypeError if the capture is
    neither text nor bytes."""
    return _durations(_encoded("a capture", capture) if isinstance(capture, str) else _bytes("a capture", capture))


def _durations(text, line=1, left=None):
    left, is_cut = MOST_HALVES if left is None else left, len(text) > MOST_BYTES
    last = MOST_BYTES - 1 if is_cut else len(text)  # (a word that ends behind it is cut by the limit)
    for found in _WORDS.finditer(text, 0, MOST_BYTES):
        us, count = found.groups()
        if us is None:
            word = found.group()
            if word == b"\n":
                line += 1
                continue
            if word[:1] == b"#":
                continue
        if found.end() > last:
            break
        count = 0 if us is None else 1 if count is None else int(count)
        if not 1 <= count <= MOST_HALVES:
            raise Refused(f"U2 line {line}: bad number")
        left -= count
        if left < 0:
            raise Refused("U7 input too long")
        us = min(int(us), 65535)
        if count == 1:
            yield us
        else:
            yield from repeat(us, count)
    if is_cut:
        raise Refused("U7 input too long")


class _Known(dict):
    """The half-bits of words, as bytes of an array. Each word is computed once. A word that is no run, and a run whose
    count has more than two digits, raise KeyError."""

    def __missing__(self, word):
        us, star, count = word.partition(b"*")
        count = int(count) if star and len(count) <= 2 and count.isdigit() else 0 if star else 1
        if len(us) > 10 or not us.isdigit() or not count:
            raise KeyError(word)
        halves = min(int(us), 65535).to_bytes(2, sys.byteorder) * count
        if len(self) < 100_000:
            self[word] = halves
        return halves


_COMMENT, _BLANK = re.compile(rb"#[^\n]*"), re.compile(rb"[ \t\r\n]")


def _runs(words, known, left):
    """Yields the half-bits of each word, as bytes of an array. Errors: KeyError if a word is no run, or if its
    half-bits are more than the half-bits that are left."""
    for word in words:
        us, star, count = word.partition(b"*")
        count = int(count) if star and len(count) <= 8 and count.isdigit() else 0 if star else 1
        if not 1 <= count <= left:
            raise KeyError(word)
        left -= count
        yield known[us] * count


def _add_words(halves, words, known):
    """Appends the half-bits of words. Returns False, and appends nothing, if a word is no run."""
    try:
        found = b"".join(map(known.__getitem__, words))
    except KeyError:
        try:
            found = b"".join(_runs(words, known, MOST_HALVES - len(halves)))
        except KeyError:
            return False
    halves.frombytes(found)
    return True


def capture(text: Union[str, bytes]) -> "array[int]":
    """Returns all half-bits of a capture as an array with the type code 'H' (docs/FORMATS.md).

    Errors: those of `durations`. If there is an error, the call returns no half-bits."""
    text = _encoded("a capture", text) if isinstance(text, str) else _bytes("a capture", text)
    if len(text) > MOST_BYTES:
        return array("H", _durations(text))
    halves, known, at, line = array("H"), _Known(), 0, 1
    while at < len(text):
        # a piece ends after a blank, or at the end of its last comment
        found = _BLANK.search(text, at + _PIECE)
        end = found.end() if found else len(text)
        if text.rfind(b"#", at, end) > text.rfind(b"\n", at, end):
            end = text.find(b"\n", end - 1) + 1 or len(text)
        piece = _COMMENT.sub(b"", text[at:end])
        is_plain = not piece.translate(None, b"0123456789* \t\r\n")
        if not is_plain or not _add_words(halves, piece.split(), known) or len(halves) > MOST_HALVES:
            # (a word is no run, or there are too many half-bits)
            halves.extend(_durations(text[at:end], line, MOST_HALVES - len(halves)))
        line += piece.count(b"\n")
        at = end
    return halves


Bytes = Union[bytes, bytearray, Sequence[int]]
Cvs = Union[Bytes, Dict[int, int]]

_KINDS = (
    "idle", "reset", "speed28", "speed128", "functions", "state", "cv write", "cv verify", "cv bitwrite",
    "cv bitverify", "accessory", "signal", "other",
)  # fmt: skip


@dataclass(frozen=True)
class Packet:
    """The fields of a packet (docs/FORMATS.md). A field that the kind of the packet does not use is None.

    An address is 'all', 's3' or 'l1000'. The bits of functions have the lowest function in the lowest bit. The field
    `other` is the frame of a packet of the kind 'other'."""

    kind: str
    address: Optional[str] = None
    forward: Optional[bool] = None
    bits: Optional[int] = None
    group: Optional[int] = None
    state: Optional[int] = None
    on: Optional[bool] = None
    cv: Optional[int] = None
    value: Optional[int] = None
    place: Optional[int] = None
    one: Optional[bool] = None
    board: Optional[int] = None
    output: Optional[int] = None
    signal: Optional[int] = None
    aspect: Optional[int] = None
    other: Optional[bytes] = None

    def frame(self) -> bytes:
        """Returns the bytes of the frame of the packet. `read` returns this packet for the frame.

        >>> Packet("speed28", address="s3", forward=True, bits=4).frame().hex()
        '036261'

        Errors: Refused with the first error of the packet line with these fields: P1 to P9 or P14 if a field is out of
        its range, P10 for a kind, an address or a group that does not exist. P12 if the bytes of a packet of the kind
        'other' are no frame, or the frame of another kind. TypeError if a field that the kind uses has a wrong type,
        ValueError if its number is below 0 or does not fit into the bytes of the field. Fields that the kind does not
        use do not matter."""
        if self.kind not in _KINDS:
            raise Refused("P10")
        fields, found = _Packet(kind=_KINDS.index(self.kind)), _Frame()
        for name in _FIELDS.get(self.kind, "").split():
            value = getattr(self, name)
            if name == "address":
                fields.to, fields.address = _address(value)
            elif name in ("forward", "on", "one"):
                setattr(fields, name, _bool(f"the field {name}", value))
            elif name == "other":
                bytes_ = _frame_bytes(value)
                found.len = min(len(bytes_), 255)
                found.bytes[:] = bytes_[:6].ljust(6, b"\0")
            else:
                most = 65535 if name in ("board", "signal", "cv") else 255
                field = "address" if name in ("board", "signal") else name
                setattr(fields, field, _number(f"the field {name}", value, 0, most))
        _check(_frame_of_packet(fields, found), "P")
        return bytes(found)


# the fields of each kind of packet
_FIELDS = {
    "speed28": "address forward bits", "speed128": "address forward bits", "functions": "address bits group",
    "reset": "address", "state": "address state on", "cv write": "address cv value", "cv verify": "address cv value",
    "cv bitwrite": "address cv place one", "cv bitverify": "address cv place one", "accessory": "board output on",
    "signal": "signal aspect", "other": "other",
}  # fmt: skip


def read(frame: Bytes) -> Packet:
    """Returns the fields of the packet of a frame.

    >>> read(bytes.fromhex("036261"))
    Packet(kind='speed28', address='s3', forward=True, bits=4, group=None, state=None, on=None, cv=None, value=None, \
place=None, one=None, board=None, output=None, signal=None, aspect=None, other=None)

    Errors: L1 if the frame has not 3 to 6 bytes, L2 if its error byte is wrong."""
    found, frame = _Packet(), _frame_bytes(frame)
    _check(_read(frame, len(frame), found), "L")
    kind = _KINDS[found.kind]
    of = {
        "address": f"{' sl'[found.to]}{found.address}" if found.to else "all",
        "board": found.address,
        "signal": found.address,
        "other": frame,
    }
    names = _FIELDS.get(kind, "").split()
    return Packet(kind, **{it: of[it] if it in of else getattr(found, it) for it in names})


def line(frame: Bytes) -> str:
    """Returns the packet line of the bytes of a frame: 'loco s3 speed28 f 4'."""
    room, frame = ctypes.create_string_buffer(41), _frame_bytes(frame)
    _check(_line(frame, len(frame), room), "L")
    return room.value.decode()


def plain(packet: Bytes) -> str:
    """Returns the plain words of the bytes of a packet, as `dcc show --plain` writes them.

    >>> plain(bytes.fromhex("036261")), plain(bytes.fromhex("03120a1b"))
    ('locomotive 3: step 1 of 28, forward', 'locomotive 3: join consist 10')

    Errors: L1 if the packet has not 3 to 15 bytes, L2 if its error byte is wrong."""
    room, packet = ctypes.create_string_buffer(256), _bytes("a packet", packet)
    _check(_plain(packet, len(packet), room), "L")
    return room.value.decode()


def frame(text: str) -> bytes:
    """Returns the bytes of the frame of a packet line, the error byte last."""
    found, words = _Frame(), _encoded("a packet line", text)
    _check(_frame_of_line(words, len(words), found), "P")
    return bytes(found)


def halves(
    frame: Bytes, one: int = 58, zero_first: int = 100, zero_second: int = 100, preamble: int = 14
) -> List[int]:
    """Returns the half-bits of the bytes of a frame in this timing, in microseconds, as a list."""
    lengths = (_number("a half-bit", it, 0, 65535) for it in (one, zero_first, zero_second))
    timing = _Timing(*lengths, _number("a preamble", preamble, 0, 255))
    sender, frame = _Sender(), _frame_bytes(frame)
    answer = _sender_start(sender, frame, len(frame), timing)
    _check(answer, "H" if answer > 2 else "L")
    return list(iter(lambda: _sender_half(sender), 0))


def turnout(board: int, output: int, first_board: int = 1) -> int:
    """Returns the number of the turnout of an output. A pair of outputs drives one turnout.

    Turnouts are counted from board 1 (NMRA), or from board 0 if first_board is 0.

    >>> turnout(40, 2), turnout(40, 2, first_board=0)
    (158, 162)

    Errors: ValueError if the board is not first_board to 510, or the output is not 0 to 7. Board 511 stands for all
    boards."""
    first = _number("first_board", first_board, 0, 1)
    pairs = 4 * (_number("a board with turnouts", board, first, 510) - first)
    return pairs + _number("an output", output, 0, 7) // 2 + 1


def turnout_pair(number: int, first_board: int = 1) -> Tuple[int, int]:
    """Returns the board and the pair of a turnout, which has the outputs 2 * pair and 2 * pair + 1.

    >>> turnout_pair(158), turnout_pair(162, first_board=0)
    ((40, 1), (40, 1))

    Errors: ValueError if the number is not 1 to 2040, or not 1 to 2044 if turnouts are counted from board 0."""
    first = _number("first_board", first_board, 0, 1)
    board, pair = divmod(_number("a turnout", number, 1, 4 * (511 - first)) - 1, 4)
    return board + first, pair


def _cv_bytes(cvs):
    """Returns 1024 CVs as bytes."""
    if isinstance(cvs, dict):
        values = [0] * 1024
        for number, value in cvs.items():
            values[_number("the number of a CV", number, 1, 1024) - 1] = _number(f"CV{number}", value, 0, 255)
        cvs = values
    cvs = _bytes("the list of CVs", cvs)
    if len(cvs) != 1024:
        raise ValueError(f"a decoder has 1024 CVs, not {len(cvs)}")
    return cvs


class _LocoRegisters:
    """The registers and the CVs of a locomotive decoder."""

    @property
    def address(self) -> Optional[str]:
        """Returns its active address: 's3', 'l1000', or None."""
        kind = self._loco.address_kind
        return f"{' sl'[kind]}{self._loco.address}" if kind else None

    @property
    def speed(self) -> Union[str, Tuple[int, int]]:
        """Returns 'stop', 'emergency', or (step, number of steps: 14, 28 or 126)."""
        mode = self._loco.speed_mode
        return ("stop", "emergency")[mode] if mode < 2 else (self._loco.step, mode)

    @property
    def is_forward(self) -> bool:
        """Returns True if its direction is forward."""
        return self._loco.forward

    @property
    def functions(self) -> List[int]:
        """Returns the numbers of the functions that are on."""
        return [n for n in range(69) if self._loco.functions[n // 64] >> n % 64 & 1]

    @property
    def states(self) -> List[int]:
        """Returns the numbers of the binary states that are on."""
        return [n for n in range(128) if self._loco.states[n // 64] >> n % 64 & 1]

    @property
    def pending(self) -> Optional[bytes]:
        """Returns the frame of the CV write that takes effect if it is heard again, or None."""
        return bytes(self._loco.pending) or None

    @property
    def cvs(self) -> bytes:
        """Returns its CVs, CV1 first."""
        return bytes(self._loco.cvs)

    def __str__(self):
        """Returns its lines in a decoder text (docs/FORMATS.md)."""
        speed = self.speed if isinstance(self.speed, str) else "{1} {0}".format(*self.speed)
        lines = [f"loco {self.address or 'none'}", f"speed {speed} {'f' if self.is_forward else 'r'}"]
        lines += [" ".join(map(str, [head, *on])) for head, on in (("on", self.functions), ("states", self.states))]
        lines.append(f"pending {self.pending.hex() if self.pending else 'none'}")
        return "\n".join(lines + [f"cv {number} {value}" for number, value in enumerate(self.cvs, 1) if value])


class Loco(_LocoRegisters):
    """A locomotive decoder that is powered up with these CVs: 1024 bytes, or a dict of their numbers and values."""

    def __init__(self, cvs: Cvs):
        self._loco = _Loco()
        _loco_new(self._loco, _cv_bytes(cvs))

    def apply(self, frame: Bytes) -> None:
        """Applies the packet of these bytes. A packet for other decoders changes nothing."""
        frame = _frame_bytes(frame)
        _check_heard(_loco_apply(self._loco, frame, len(frame)))

    def hears(self, frame: Bytes) -> bool:
        """Returns True if the packet of these bytes is for this decoder."""
        heard, frame = ctypes.c_bool(), _frame_bytes(frame)
        _check_heard(_loco_hears(self._loco, frame, len(frame), heard))
        return heard.value


class _BoardRegisters:
    """The registers of an accessory decoder."""

    @property
    def number(self) -> int:
        """Returns its number, 0 to 510. Only a TrackBoard can have the number 511."""
        return self._board.number

    @property
    def outputs(self) -> List[int]:
        """Returns the numbers of the outputs that are on."""
        return [n for n in range(8) if self._board.outs >> n & 1]

    @property
    def positions(self) -> List[int]:
        """Returns the sides of its pairs of outputs, 0 or 1."""
        return [int(it) for it in self._board.positions]

    @property
    def aspects(self) -> List[int]:
        """Returns the aspects of its signals."""
        return list(self._board.aspects)

    def __str__(self):
        """Returns its lines in a decoder text (docs/FORMATS.md). A decoder text has no board 511."""
        lines = ("out", self.outputs), ("position", self.positions), ("aspect", self.aspects)
        return "\n".join([f"board {self.number}", *(" ".join(map(str, [head, *words])) for head, words in lines)])


class Board(_BoardRegisters):
    """An accessory decoder with all off, of a board of 0 to 510."""

    def __init__(self, number: int):
        self._board = _Board()
        _check(_board_new(self._board, _number("a board", number, 0, 65535)), "P")

    def apply(self, frame: Bytes) -> None:
        """Applies the packet of these bytes. A packet for other decoders changes nothing."""
        frame = _frame_bytes(frame)
        _check_heard(_board_apply(self._board, frame, len(frame)))

    def hears(self, frame: Bytes) -> bool:
        """Returns True if the packet of these bytes is for this decoder."""
        heard, frame = ctypes.c_bool(), _frame_bytes(frame)
        _check_heard(_board_hears(self._board, frame, len(frame), heard))
        return heard.value


class Service:
    """A decoder on the programming track (NMRA S-9.2.3) with these CVs: 1024 bytes, or a dict of numbers and values."""

    def __init__(self, cvs: Cvs):
        self._service = _Service()
        _service_new(self._service, _cv_bytes(cvs))

    def apply(self, frame: Bytes) -> bool:
        """Applies a frame. Returns True if the decoder acknowledges the frame."""
        acknowledged, frame = ctypes.c_bool(), _frame_bytes(frame)
        _check_heard(_service_apply(self._service, frame, len(frame), acknowledged))
        return acknowledged.value

    @property
    def is_in_service(self) -> bool:
        """Returns True if the decoder is in service mode."""
        return self._service.in_service

    @property
    def cvs(self) -> bytes:
        """Returns its CVs, CV1 first."""
        return bytes(self._service.cvs)


@dataclass(frozen=True)
class Answer:
    """The answer of a decoder to a frame.

    The field `acknowledged` is True if the decoder acknowledges the frame. The field `changed` is the number of the CV
    whose value changed, on either track, or None."""

    acknowledged: bool
    changed: Optional[int]


class _BothTracks:
    """A decoder that hears the main track and the programming track."""

    def hear(self, frame: Bytes) -> Answer:
        """Hears a frame of either track. Returns the answer of the decoder.

        The reset 00 00 00 stops the decoder and enters service mode. In service mode, service packets reach only the
        CVs. Each other frame first ends service mode as `end_service` does. The decoder then hears the frame as on the
        main track.

        Errors: L1 if the frame has not 3 to 6 bytes, L2 if its error byte is wrong. The decoder then does not change.
        """
        answer, frame = _Answer(), _frame_bytes(frame)
        _check(self._hear(self._decoder, frame, len(frame), answer), "L")
        return Answer(answer.acknowledged, answer.changed or None)

    def end_service(self) -> None:
        """Ends service mode. A program calls this function if no packet of service mode comes for 20 milliseconds.

        If a service packet changed a CV since service mode began, the decoder powers up with its CVs, and so has its
        new address."""
        self._end_service(self._decoder)

    def set_main_only(self, main_only: bool) -> None:
        """Keeps the decoder on the main track if main_only is True: then no frame enters service mode, and the decoder
        acknowledges no frame. If the decoder is in service mode, service mode ends first, as `end_service` ends it. If
        main_only is False, the decoder can hear both tracks.

        On the main track, frames for the short addresses 116 to 127 look like service packets. After a reset, two
        copies of the speed packet 7c 3f 85 c6 for address 124 write CV64 of each decoder that can enter service mode.

        Errors: TypeError if main_only is not True or False."""
        if not isinstance(main_only, bool):
            raise TypeError(f"main_only is True or False, not {type(main_only).__name__}")
        self._set_main_only(self._decoder, main_only)

    @property
    def is_in_service(self) -> bool:
        """Returns True if the decoder is in service mode."""
        return self._decoder.service.in_service


class TrackLoco(_BothTracks, _LocoRegisters):
    """A locomotive decoder on the main track and on the programming track (NMRA S-9.2.3) that is powered up with these
    CVs: 1024 bytes, or a dict of their numbers and values.

    >>> decoder = TrackLoco({1: 3, 29: 2})
    >>> write = bytes.fromhex("7c000a76")  # the service packet that writes 10 to CV1
    >>> [decoder.hear(it).acknowledged for it in (bytes(3), write, write)]
    [False, False, True]
    >>> decoder.end_service()
    >>> decoder.address
    's10'"""

    _hear, _end_service, _set_main_only = _decoder_hear, _decoder_end_service, _decoder_set_main_only

    def __init__(self, cvs: Cvs):
        self._decoder = _TrackLoco()
        _decoder_new(self._decoder, _cv_bytes(cvs))

    @property
    def _loco(self):
        return self._decoder.loco


class TrackBoard(_BothTracks, _BoardRegisters):
    """An accessory decoder on the main track and on the programming track (NMRA S-9.2.3) that is powered up with these
    CVs: 1024 bytes, or a dict of their numbers and values.

    The lower six bits of its number are in CV1, and the upper three bits in CV9. A decoder with the number 511 hears
    only the packets for all accessory decoders. No packet of the main track changes a CV. If the decoder powers up
    after service mode, its outputs are off, and its positions and aspects do not change.

    >>> TrackBoard({1: 12, 9: 1}).number
    76"""

    _hear, _end_service = _board_decoder_hear, _board_decoder_end_service
    _set_main_only = _board_decoder_set_main_only

    def __init__(self, cvs: Cvs):
        self._decoder = _TrackBoard()
        _board_decoder_new(self._decoder, _cv_bytes(cvs))

    @property
    def _board(self):
        return self._decoder.board

    @property
    def cvs(self) -> bytes:
        """Returns its CVs, CV1 first."""
        return bytes(self._decoder.cvs)


_SERVICE_KINDS = {"write": 6, "verify": 7, "bitwrite": 8, "bitverify": 9}


@dataclass(frozen=True)
class ServicePacket:
    """A packet on the programming track (NMRA S-9.2.3). The kind is 'write', 'verify', 'bitwrite' or 'bitverify'.

    The first two kinds have a value, and the others have the place and the value of a bit."""

    kind: str
    cv: int
    value: Optional[int] = None
    place: Optional[int] = None
    one: Optional[bool] = None

    def frame(self) -> bytes:
        """Returns the bytes of the frame of the packet. `read_service` returns this packet for the frame.

        >>> ServicePacket("bitwrite", 29, place=1, one=True).frame().hex()
        '781cf99d'

        Errors: Refused, P10 for another kind, P6 if the CV is not 1 to 1024, then P7 if the place is above 7. TypeError
        and ValueError as those of `Packet.frame`."""
        if self.kind not in _SERVICE_KINDS:
            raise Refused("P10")
        fields = _ServicePacket(kind=_SERVICE_KINDS[self.kind], cv=_number("a CV", self.cv, 0, 65535))
        if fields.kind < 8:
            fields.value = _number("a value", self.value, 0, 255)
        else:
            fields.place, fields.one = _number("a place", self.place, 0, 255), _bool("the field one", self.one)
        found = _Frame()
        _check(_service_frame(fields, found), "P")
        return bytes(found)


def read_service(frame: Bytes) -> Optional[ServicePacket]:
    """Returns the packet that a frame is on the programming track, or None if no service packet has this frame.

    >>> read_service(bytes.fromhex("7c000a76"))
    ServicePacket(kind='write', cv=1, value=10, place=None, one=None)

    Errors: L1 if the frame has not 3 to 6 bytes, L2 if its error byte is wrong."""
    found, frame = _ServicePacket(), _frame_bytes(frame)
    answer = _service_read(frame, len(frame), found)
    if answer == 10:
        return None
    _check(answer, "L")
    kind = next(it for it, number in _SERVICE_KINDS.items() if number == found.kind)
    if found.kind < 8:
        return ServicePacket(kind, found.cv, value=found.value)
    return ServicePacket(kind, found.cv, place=found.place, one=found.one)


def question_frames(question: Bytes) -> List[bytes]:
    """Returns the eight frames in which a station asks a question of a Reader or a Writer, or sends a service packet:
    three resets, and five copies of the question. Each has a preamble of 20 ones. The answer is yes if the decoder
    acknowledges any of the eight frames."""
    return [bytes(3)] * 3 + [_frame_bytes(question)] * 5


def _check_yes(yes):
    if not isinstance(yes, bool):
        raise TypeError(f"an answer is True or False, not {type(yes).__name__}")


class Reader:
    """The reading of a CV on a programming track by nine questions (NMRA S-9.2.3).

    >>> reader = Reader(8)
    >>> reader.question().hex()
    '7807e897'"""

    def __init__(self, cv: int):
        self._reader = _Reader()
        _check(_reader_new(self._reader, _number("a CV", cv, 0, 65535)), "P")

    def question(self) -> bytes:
        """Returns the frame of the next question. A station sends three resets, and then this frame five times."""
        found = _Frame()
        _check(_reader_question(self._reader, found), "P")
        return bytes(found)

    def answer(self, yes: bool) -> Optional[int]:
        """Takes the answer to the question: True if the decoder acknowledged it.

        Returns None if there is a further question, and the value of the CV after the ninth question.

        Errors: S1 if the decoder did not acknowledge the ninth question."""
        _check_yes(yes)
        value = _u8()
        state = _reader_answer(self._reader, yes, value)
        if state == 2:
            raise Refused("S1")
        _check(state if state > 2 else 0, "P")
        return value.value if state == 1 else None


class Writer:
    """The writing of a CV on a programming track by two questions (NMRA S-9.2.3). The first question writes a byte, and
    the second question verifies that the CV has this byte.

    >>> writer = Writer(1, 10)
    >>> writer.question().hex()
    '7c000a76'"""

    def __init__(self, cv: int, value: int):
        self._writer = _Writer()
        _check(_writer_new(self._writer, _number("a CV", cv, 0, 65535), _number("a value", value, 0, 255)), "P")

    def question(self) -> bytes:
        """Returns the frame of the next question. A station sends three resets, and then this frame five times."""
        found = _Frame()
        _check(_writer_question(self._writer, found), "P")
        return bytes(found)

    def answer(self, yes: bool) -> Optional[bool]:
        """Takes the answer to the question: True if the decoder acknowledged it.

        Returns None after the first question, whatever the answer is. After the second question, returns True if the
        decoder acknowledged it, so that the CV has the byte, and False otherwise."""
        _check_yes(yes)
        state = _writer_answer(self._writer, yes)
        _check(state if state > 2 else 0, "P")
        return None if state == 0 else state == 1


class Station:
    """A command station with at most 64 waiting commands, at most 128 entries that it refreshes, and 1 to 8 copies of
    each command."""

    def __init__(self, queue: int = 64, slots: int = 128, repeats: int = 2):
        self._station = _Station()
        _check(_station_new(self._station, *(_number("a size", it, 0, 255) for it in (queue, slots, repeats))), "C")

    def command(self, frame: Bytes) -> None:
        """Adds the command of these bytes to the queue.

        Errors: Refused, C3 if a station does not send such commands, C4 if the queue is full."""
        frame = _frame_bytes(frame)
        answer = _station_command(self._station, frame, len(frame))
        _check(answer, "L" if answer < 3 else "C")

    def stop(self) -> int:
        """Stops all locomotives. The next frames are copies of the emergency stop of all locomotives, as many as of a
        command. The directions of the locomotives stay. Removes each waiting command that sets the speed of a
        locomotive to a step, and returns the number of these commands. All other commands wait. If one of them was
        partly sent, all its copies are sent again. A stop that is called while another stop waits starts the copies
        again. A locomotive that hears a copy of the stop, and all later frames, stands until the station
        gets a command that sets a speed to a step."""
        return _station_stop(self._station)

    def next(self) -> bytes:
        """Returns the bytes of the next frame to send."""
        found = _Frame()
        _station_next(self._station, found)
        return bytes(found)

    def forget(self, address: str) -> None:
        """Removes the entries with an address, 's3' or 'l1000', for example when a locomotive leaves the track. The
        waiting commands stay. A command of which no copy was sent becomes an entry as before. A partly sent
        command becomes no entry again. No entry has the address 'all'.

        Errors: Refused, P1, P2, P10 or P11 if there is no such address."""
        _check(_station_forget(self._station, *_address(address)), "P")

    @property
    def waiting(self) -> int:
        """Returns the number of waiting commands. A stop that waits does not count."""
        return _station_waiting(self._station)

    @property
    def entries(self) -> int:
        """Returns the number of entries."""
        return _station_entries(self._station)


class Functions:
    """The functions F0 to F68 of a locomotive, all off at first (RCN-212). A packet sets all functions of a group, so a
    station that turns one function needs the states of the other functions of the group.

    >>> functions = Functions()
    >>> [line(functions.turn("s3", function, True)) for function in (5, 7)]
    ['loco s3 functions 5 1', 'loco s3 functions 5 5']
    >>> functions.on
    [5, 7]"""

    def __init__(self) -> None:
        self._functions = _Functions()

    def turn(self, address: str, function: int, on: bool) -> bytes:
        """Turns a function on or off. Returns the frame to an address, 'all', 's3' or 'l1000', that sets the group of
        the function, with the states of all functions of the group.

        A decoder that has these functions has them still after it hears the frame. With 14 speed steps, a decoder takes
        F0 from the packets of the kind 'speed28', and ignores the F0 of the group.

        Errors: Refused, P1, P2, P10 or P11 if there is no such address, then P13 if the function is above 68. The
        functions then do not change."""
        kind, number = _address(address)
        found = _Frame()
        function, on = _number("a function", function, 0, 255), _bool("the state of a function", on)
        _check(_functions_turn(self._functions, kind, number, function, on, found), "P")
        return bytes(found)

    def is_on(self, function: int) -> bool:
        """Returns True if the function is on. No function above 68 is on."""
        return _functions_is_on(self._functions, _number("a function", function, 0, 255)) == 1

    @property
    def on(self) -> List[int]:
        """Returns the numbers of the functions that are on."""
        return list(filter(self.is_on, range(69)))
