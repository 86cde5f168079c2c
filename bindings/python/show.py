#!/usr/bin/env python3
"""`dcc show --words`: a capture on standard input, packets and refusals on standard output.

A fault of the capture ends the program with status 3, after the lines before it.
"""
import sys

import dcc

try:
    for it in dcc.seen(dcc.durations(sys.stdin.buffer.read())):
        print(it)
except dcc.Refused as fault:
    print(f"show.py: {fault}", file=sys.stderr)
    sys.exit(3)
