# SPDX-License-Identifier: MIT OR Apache-2.0
"""The plain words of packets, as `dcc show --plain` writes them (NMRA S-9.2.1, S-9.2.3; RCN-211 to RCN-214)."""

DAYS = "Monday Tuesday Wednesday Thursday Friday Saturday Sunday".split()


def in_hex(data):
    return "".join(" %02x" % byte for byte in data)


def functions(first, bits):
    """Returns the words of the functions from `first` on, whose bits are a list."""
    span = "F%d to F%d" % (first, first + len(bits) - 1)
    if all(bits):
        return span + " on"
    names = ["F%d" % (first + i) for i, bit in enumerate(bits) if bit]
    return (", ".join(names) + " on, the rest of " if names else "") + span + " off"


def bits_of(data):
    return [byte >> i & 1 for byte in data for i in range(8)]


def speed(bits, steps, direction):
    stops = 2 if steps == 28 else 1
    if bits < stops:
        return "stop" + direction
    if bits < 2 * stops:
        return "emergency stop" + direction
    return "step %d of %d%s" % (bits - 2 * stops + 1, steps, direction)


def cv_access(data):
    """Returns the words of an access to a CV in three bytes 1110KKVV VVVVVVVV DDDDDDDD, or None."""
    if len(data) != 3 or data[0] >> 4 != 14:
        return None
    cv = "CV%d" % ((data[0] & 3) * 256 + data[1] + 1)
    kind, last = data[0] >> 2 & 3, data[2]
    if kind == 3:
        return "%s := %d" % (cv, last)
    if kind == 1:
        return "is %s %d?" % (cv, last)
    if kind == 0 or last >> 5 != 7:
        return None
    bit = "bit %d of %s" % (last & 7, cv), last >> 3 & 1
    return ("%s := %d" if last & 16 else "is %s %d?") % bit


def usual(what, is_broadcast):
    """Returns the words of an instruction of the table of packets, or None."""
    first = what[0]
    if len(what) == 1 and first == 0:
        return "stop, everything off"
    if len(what) == 1 and first >> 6 == 1:
        bits, direction = (first & 15) * 2 + (first >> 4 & 1), ", forward" if first & 32 else ", reverse"
        if not is_broadcast:
            return speed(bits, 28, direction)
        return "nothing to do" if bits > 3 else speed(bits, 28, "" if bits & 1 else direction)
    if len(what) == 1 and first >> 5 == 4:
        return functions(0, [first >> 4 & 1, *(first >> i & 1 for i in range(4))])
    if len(what) == 1 and first >> 5 == 5:
        return functions(5 if first & 16 else 9, [first >> i & 1 for i in range(4)])
    if len(what) == 2 and first == 0x3F:
        return speed(what[1] & 127, 126, ", forward" if what[1] & 128 else ", reverse")
    groups = {0xDE: 13, 0xDF: 21, 0xD8: 29, 0xD9: 37, 0xDA: 45, 0xDB: 53, 0xDC: 61}
    if len(what) == 2 and first in groups:
        return functions(groups[first], bits_of(what[1:]))
    if len(what) == 2 and first == 0xDD:
        return state(what[1] & 127, what[1] & 128)
    return cv_access(what)


def state(number, on):
    return ("binary state %d" % number if number else "all binary states") + (" on" if on else " off")


def extended(what):
    """Returns the words of an XPOM instruction, or None."""
    kind, data = what[0] >> 2 & 3, what[4:]
    if len(what) < 4 or what[0] >> 4 != 14:
        return None
    cv = "CV%d" % (what[1] * 65536 + what[2] * 256 + what[3] + 1)
    if kind == 1 and not data:
        return "extended read of " + cv
    if kind == 3 and 1 <= len(data) <= 4:
        return "extended write of %s: %s" % (cv, ", ".join(map(str, data)))
    if kind == 2 and len(data) == 1 and data[0] >> 4 == 15:
        return "extended bit write: bit %d of %s := %d" % (data[0] & 7, cv, data[0] >> 3 & 1)
    return None


def standard(what):
    """Returns the words of an instruction of the standard that is in no row of the table of packets, or None."""
    first, n = what[0], len(what)
    if n == 1:
        return {
            1: "hard reset",
            10: "bit 5 of CV29 := 0 (short address)",
            11: "bit 5 of CV29 := 1 (long address)",
            15: "acknowledge",
        }.get(first)
    if first in (2, 3) and n <= 3:
        return "factory test" + in_hex(what)
    if first in (6, 7) and n == 2:
        return "decoder flags" + in_hex(what)
    if first in (0x12, 0x13) and n == 2 and what[1] < 128:
        joined = "join consist %d" % what[1] + (", reversed" if first & 1 else "")
        return joined if what[1] else "leave the consist"
    if first == 0x3C and 3 <= n <= 6:
        return "%s; %s" % (usual([0x3F, what[1]], False), functions(0, bits_of(what[2:])))
    if first == 0x3D and n == 3:
        return "analog output %d at %d" % (what[1], what[2])
    if first == 0x3E and n == 2:
        return "operating modes" + in_hex(what[1:])
    if first == 0xC0 and n == 3:
        return state(what[2] * 128 + what[1] % 128, what[1] & 128)
    if first in (0xF2, 0xF3) and n == 2:
        return "CV%d := %d" % (first - 0xF2 + 23, what[1])
    return extended(what)


def clock(what):
    """Returns the words of an instruction to the address 0 with a time or a date, or None."""
    if what[0] == 0xC2 and len(what) == 3:
        return "system time: %d ms" % (what[1] * 256 + what[2])
    if what[0] != 0xC1 or len(what) != 4:
        return None
    a, b, c = what[1:]
    if a >> 6 == 0 and c & 64 == 0 and a <= 59 and b % 32 <= 23:
        day = DAYS[b >> 5] + " " if b >> 5 < 7 else ""
        return "model time: %s%02d:%02d, factor %d%s" % (day, b % 32, a, c & 63, ", set" if c & 128 else "")
    if a >> 5 == 2 and a & 31 and 1 <= b >> 4 <= 12:
        return "model date: %d-%02d-%02d" % ((b & 15) * 256 + c, b >> 4, a & 31)
    return None


def accessory(body):
    """Returns the words of a packet to an accessory decoder or a signal, or None."""
    first, second, rest = body[0], body[1], body[2:]
    board = (7 - (second >> 4 & 7)) * 64 + (first & 63)
    signal = board * 4 + (second >> 1 & 3)
    signal = "all signals" if signal == 2047 else "signal %d" % signal
    everywhere = ", all boards" if board == 511 else ""
    is_signal = second >> 7 == 0 and second & 9 == 1
    if second >> 7 and not rest:
        output = second & 7
        turnout = ", turnout %d" % (4 * (board - 1) + output // 2 + 1) if 0 < board < 511 else everywhere
        return "board %d, output %d %s%s" % (board, output, "on" if second & 8 else "off", turnout)
    if is_signal and len(rest) == 1:
        return "%s: aspect %d" % (signal, rest[0])
    if second >> 7 == 0 and second & 8 and not rest:
        told = signal if second & 1 else "board %d, pair %d%s" % (board, second >> 1 & 3, everywhere)
        return told + ": nothing to do"
    access = cv_access(rest)
    if access and is_signal:
        return "%s: %s" % (signal, access)
    if access and second >> 7 and (second & 8 or second & 15 == 0):
        output = ", output %d" % (second & 7) if second & 8 else ""
        return "board %d%s%s: %s" % (board, output, everywhere, access)
    return None


def service(body):
    """Returns the words of a service packet in direct mode, or None."""
    if len(body) != 3 or body[0] >> 4 != 7:
        return None
    access = cv_access([0xE0 | body[0] & 15, *body[1:]])
    return access and "on a programming track: " + access


def plain(packet):
    """Returns the plain words of a packet of 3 to 15 bytes, whose error byte is right."""
    body = list(packet[:-1])
    first, told = body[0], None
    if body == [255, 0]:
        return "idle"
    if first < 128 or 192 <= first <= 231:
        size = 2 if first > 127 else 1
        number = (first & 63) * 256 + body[1]
        who = "all locomotives" if first == 0 else "locomotive %d" % first
        if size == 2:
            who = "locomotive %d (long)" % number
        what = body[size:]
        told = what and usual(what, first == 0)
        if told:
            return "%s: %s" % (who, told)
        told = service(body) or (first == 0 and clock(what))
        if not told and what and not (len(packet) == 3 and 112 <= first < 128):
            told = standard(what)
            told = told and "%s: %s" % (who, told)
    elif first < 192:
        told = accessory(body)
    elif first == 254:
        told = "DCC-A:" + in_hex(body[1:])
    elif first == 253:
        told = "extended:" + in_hex(body[1:])
    return told or "frame " + "".join("%02x" % byte for byte in packet)
