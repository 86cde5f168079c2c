#!/usr/bin/env python3
"""Draws a histogram of the durations in a capture on standard input, with the limits of NMRA S-9.1 for a decoder.

    bindings/python/histogram.py < examples/main_track.txt
"""
import sys
from collections import Counter

import dcc

LIMITS = {52: "half of a one, from", 64: "half of a one, to", 90: "half of a zero, from", 10000: "half of a zero, to"}
WIDTH = 60

try:
    halves = list(dcc.durations(sys.stdin.buffer.read()))
except dcc.Refused as fault:
    sys.exit(f"histogram.py: {fault}")
counts = Counter(min(us, 65535) for us in halves)
most = max(counts.values(), default=1)
for us in sorted({*counts, *LIMITS}):
    bar = "#" * -(-counts[us] * WIDTH // most)
    print(f"{us:6} {counts[us]:8} {bar:{WIDTH}} {LIMITS.get(us, '')}".rstrip())
found = Counter(it.refusal or "packets" for it in dcc.seen(halves))
print(", ".join(f"{name} {found[name]}" for name in sorted(found, key=lambda it: it != "packets")))
