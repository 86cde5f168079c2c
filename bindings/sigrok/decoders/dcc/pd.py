# SPDX-License-Identifier: MIT OR Apache-2.0
"""The decoder: it shows the half-bits of a channel, and what they say, over the samples of a recording."""
import sigrokdecode as srd

try:
    from . import dcc  # the proved library, if dcc.py and libdcc_c.so are in this folder
    from .dcc import plain
except (ImportError, OSError):
    from . import pure as dcc
    from .words import plain

HALF, PREAMBLE, START, ZERO, ONE, END, ADDRESS, DATA, ERROR, PACKET, CUTOUT, REFUSED, LOST, WARNING = range(14)
REASONS = {
    "H1": "a half-bit that is neither half of a one nor of a zero",
    "H2": "a bit of two different half-bits",
    "H3": "fewer than three bytes",
    "H4": "more than six bytes",
    "H5": "wrong error byte",
}
LEAST_RATE = 400000  # below this rate packets of a station can be missed (docs/CAPTURES.md)
KEPT = 4096  # the edges that are kept


class SamplerateError(Exception):
    pass


def text_of(frame):
    return "".join("%02x" % byte for byte in frame)


class Decoder(srd.Decoder):
    api_version = 3
    id = "dcc"
    name = "DCC"
    longname = "Digital Command Control"
    desc = "Signal on the rails of a digital model railway."
    license = "mit"
    inputs = ["logic"]
    outputs = ["dcc"]
    tags = ["Embedded/industrial"]
    channels = ({"id": "track", "name": "Track", "desc": "The output of an optocoupler on the track"},)
    options = (
        {"id": "text", "desc": "Text of packets", "default": "plain", "values": ("plain", "packet lines", "hex")},
        {"id": "halves", "desc": "Show half-bits", "default": "yes", "values": ("yes", "no")},
        {"id": "spikes", "desc": "Join half-bits below (µs, 0: none)", "default": 0},
    )
    annotations = (
        ("half", "Half-bit"),
        ("preamble", "Preamble"),
        ("start", "Start bit"),
        ("zero", "Bit 0"),
        ("one", "Bit 1"),
        ("end", "End bit"),
        ("address", "Address byte"),
        ("data", "Instruction byte"),
        ("error", "Error byte"),
        ("packet", "Packet"),
        ("cutout", "RailCom cutout"),
        ("refused", "Refused packet"),
        ("lost", "Lost packet"),
        ("warning", "Warning"),
    )
    annotation_rows = (
        ("halves", "Half-bits (µs)", (HALF,)),
        ("bits", "Bits", (PREAMBLE, START, ZERO, ONE, END, CUTOUT)),
        ("bytes", "Bytes", (ADDRESS, DATA, ERROR)),
        ("packets", "Packets", (PACKET,)),
        ("faults", "Refused and lost", (REFUSED, LOST, WARNING)),
    )

    def __init__(self):
        self.reset()

    def reset(self):
        self.samplerate = None

    def start(self):
        self.out_ann = self.register(srd.OUTPUT_ANN)
        self.out_python = self.register(srd.OUTPUT_PYTHON)

    def metadata(self, key, value):
        if key == srd.SRD_CONF_SAMPLERATE:
            self.samplerate = value

    def show(self, first, last, kind, *texts):
        """Annotates the half-bits first + 1 to last."""
        base = self.base
        if first >= base:
            self.put(self.edges[first - base], self.edges[last - base], self.out_ann, [kind, list(texts)])

    def pass_on(self, first, what):
        """Gives a packet to stacked decoders."""
        if first >= self.base:
            self.put(self.edges[first - self.base], self.edges[-1], self.out_python, what)

    def text(self, frame):
        if self.options["text"] == "hex":
            return text_of(frame)
        return plain(frame) if self.options["text"] == "plain" else dcc.line(frame)

    def show_body(self, frame):
        """Annotates the preamble, the bits and the bytes of the frame whose end bit ends with the last half-bit."""
        last = self.count
        first = last - 18 * len(frame) - 2
        # the ones of the preamble are not kept: count the half-bits of ones before the body that no outcome uses
        ones, at = 0, first - self.base
        while at - ones > 0 and first - ones > self.used and 26 <= self.us_of(at - ones) <= 76:
            ones += 1
        if ones:
            self.show(first - ones, first, PREAMBLE, "Preamble: %g ones" % (ones / 2), "%g ones" % (ones / 2), "P")
        for i, byte in enumerate(frame):
            at = first + 18 * i
            self.show(at, at + 2, START, "Start bit", "Start", "S")
            for bit in range(8):
                one = byte >> 7 - bit & 1
                self.show(at + 2 * bit + 2, at + 2 * bit + 4, ONE if one else ZERO, str(one))
            kind, name = self.kind_of(frame, i)
            self.show(at + 2, at + 18, kind, "%s: 0x%02x" % (name, byte), "0x%02x" % byte, "%02x" % byte)
        self.show(last - 2, last, END, "End bit", "End", "E")
        return first

    def us_of(self, at):
        return self.us(self.edges[at] - self.edges[at - 1])

    @staticmethod
    def kind_of(frame, i):
        if i == len(frame) - 1:
            return ERROR, "Error byte"
        if i == 0 or i == 1 and 192 <= frame[0] <= 231:
            return ADDRESS, "Address"
        return DATA, "Instruction" if i == 1 or i == 2 and 192 <= frame[0] <= 231 else "Data"

    def us(self, samples):
        return (2000000 * samples + self.samplerate) // (2 * self.samplerate)

    def edges_of_track(self):
        """Yields the edges of the track, without those of spikes."""
        least = self.options["spikes"]
        edge = [{0: "e"}]
        self.wait(edge)
        yield self.samplenum
        if least <= 0:
            while True:
                self.wait(edge)
                yield self.samplenum
        # a half-bit below the limit is joined with the half-bit before it and the half-bit after it
        before, held, joins = self.samplenum, None, False
        while True:
            self.wait(edge)
            us, before = self.us(self.samplenum - before), self.samplenum
            if joins:
                held, joins = before, False
            elif held is not None and us < least:
                held, joins = before, True
            else:
                if held is not None:
                    yield held
                held = before

    def decode(self):
        if not self.samplerate:
            raise SamplerateError("Cannot decode without samplerate.")
        framer, finder = dcc.Framer(), dcc.Lost()
        push, push_lost, take = framer.push, finder.push, self.take
        edges = self.edges_of_track()
        # the edge at index i of self.edges ends half-bit self.base + i, counted from 1
        self.edges, self.base, self.count, self.used = [next(edges)], 0, 0, 0
        # half-bits of ones so far, the half-bit before the body that is open, and the last half-bit of the last packet
        self.ones, self.body, self.packet = 0, None, None
        if self.samplerate < LEAST_RATE:
            text = "The sample rate is below %d kHz" % (LEAST_RATE // 1000)
            self.put(self.edges[0], self.edges[0] + 1, self.out_ann, [WARNING, [text, "Rate"]])
        for edge in edges:
            us = take(edge)
            found, lost = push(us), push_lost(us)
            if found:
                self.show_outcome(found)
            for it in lost:
                self.show_lost(it)

    def take(self, edge):
        """Takes the edge that ends a half-bit, and returns the duration of the half-bit in microseconds."""
        before = self.edges[-1]
        us = self.us(edge - before)
        self.edges.append(edge)
        self.count += 1
        if len(self.edges) > 2 * KEPT:
            self.base += KEPT
            del self.edges[:KEPT]
        if 52 <= us <= 64:
            kind, self.ones = "1", self.ones + 1
        else:
            kind = "0" if 90 <= us <= 10000 else "?"
            if kind == "0" and self.ones >= 20 and self.body is None:
                self.body = self.count - 1
            self.ones = 0
        if self.options["halves"] == "yes":
            self.put(before, edge, self.out_ann, [HALF, ["%d µs" % us, str(us), kind]])
        # a cutout is a half-bit of 20 to 40 and a half-bit of 400 to 500 microseconds after a packet
        if self.packet == self.count - 2 and 400 <= us <= 500 and 20 <= self.us_of(len(self.edges) - 2) <= 40:
            self.show(self.count - 2, self.count, CUTOUT, "RailCom cutout", "RailCom", "RC")
        return us

    def show_outcome(self, found):
        """Shows the packet or the refusal that ends with the last half-bit."""
        if found.refusal is None:
            self.packet = self.count
            first = self.show_body(found.frame)
            text = self.text(found.frame)
            self.show(first, self.count, PACKET, text, text_of(found.frame), "P")
            self.pass_on(first, ["PACKET", found.frame])
        else:
            first = self.show_body(found.frame) if found.refusal == "H5" else self.body
            words = "Refused %s" % text_of(found.frame) if found.frame else "Refused"
            text = "%s: %s (%s)" % (words, REASONS[found.refusal], found.refusal)
            self.show(first, self.count, REFUSED, text, "Refused: " + found.refusal, found.refusal)
            self.pass_on(first, ["REFUSED", found.refusal, found.frame])
        # the two half-bits of an end bit count as ones of the next preamble
        self.ones, self.body = 2 if found.refusal in (None, "H3", "H5") else 0, None
        self.used = self.count - self.ones

    def show_lost(self, it):
        """Shows a packet that a decoder does not hear, and its causes."""
        first = self.show_body(it.frame)
        causes = str(it).rsplit(": ", 1)[1]
        text = "Lost %s: %s" % (self.text(it.frame), causes)
        self.show(first, self.count, LOST, text, "Lost: " + causes, "Lost", "L")
        self.pass_on(first, ["LOST", it.frame, causes])
