#!/usr/bin/env python3
"""Writes an hour of recorded code with dropouts, for a picture of what they cost a transport that follows it.

    bench/damaged_hour.py [PROGRAM] > hour.ltci      bin/tc if none is named

90,000 frames at 25 frames a second, from 01:00:00:00 on. Every five minutes the head hears nothing for a while, from one frame up to
eleven: one long interval is there, of the ticks that were not heard.
"""
import array
import itertools
import os
import subprocess
import sys

TOP = os.path.dirname(os.path.dirname(os.path.abspath(__file__)))
HEADER = 12
FRAME = 80 * 24  # ticks
MINUTE = 60 * 25 * FRAME


def recording(program):
    """The header and the intervals of the hour as it was striped."""
    words = ["ltc-make", "25", "forward", "01:00:00:00", "90000", "24", "48000"]
    data = subprocess.run([program, *words], stdout=subprocess.PIPE, check=True).stdout
    intervals = array.array("I", data[HEADER:])
    if sys.byteorder == "little":
        intervals.byteswap()
    return data[:HEADER], intervals


def damaged(intervals):
    """The intervals, with each dropout as one long interval."""
    dropouts = [(5 * k * MINUTE, k * FRAME) for k in range(1, 12)]
    unheard = 0
    for end, interval in zip(itertools.accumulate(intervals), intervals):
        if any(at <= end < at + length for at, length in dropouts):
            unheard += interval
            continue
        if unheard:
            yield unheard
            unheard = 0
        yield interval


def main():
    program = sys.argv[1] if len(sys.argv) > 1 else os.path.join(TOP, "bin", "tc")
    header, intervals = recording(program)
    written = array.array("I", damaged(intervals))
    if sys.byteorder == "little":
        written.byteswap()
    sys.stdout.buffer.write(header + written.tobytes())


main()
