#!/usr/bin/env python3
"""Writes the packets of a recording as a table in CSV, for a spreadsheet or for pandas.read_csv.

    bindings/python/table.py [FILE]        FILE is of a logic analyser. Without it, a capture on standard input is read

The column seconds is the time from the first edge to the end of the packet. The others are the fields of the packet,
empty if its kind does not have them. A refusal has only its code and its bytes.
"""
import csv
import dataclasses
import sys

import dcc
import dcc_analyser

FIELDS = [it.name for it in dataclasses.fields(dcc.Packet) if it.name != "other"]


def rows(halves):
    """Yields a row for each packet and for each refusal."""
    for it in dcc.seen(halves):
        row = {"seconds": f"{it.us / 1e6:.6f}", "refusal": it.refusal, "frame": it.frame.hex()}
        if it.refusal is None:
            row.update(vars(dcc.read(it.frame)), line=dcc.line(it.frame))
        yield row


def main():
    try:
        if len(sys.argv) > 1:
            halves = dcc_analyser.read(sys.argv[1]).halves
        else:
            halves = dcc.capture(sys.stdin.buffer.read())
    except (dcc.Refused, dcc_analyser.Unreadable, OSError) as fault:
        sys.exit(f"table.py: {fault}")
    table = csv.DictWriter(
        sys.stdout, ["seconds", "refusal", "line", "frame", *FIELDS], extrasaction="ignore", lineterminator="\n"
    )
    table.writeheader()
    table.writerows(rows(halves))


main()
