#!/usr/bin/env python3
"""How many false words the best path reads in noise at the level of the code, and what takes them away.

    bench/false_words.py [FRAMES]        600 frames if none are named

Code at 25 frames a second goes through the high-pass of a coupling capacitor, or the band of a telephone at 8,000
samples a second (brought to 48,000 before it is read), or through nothing; then white noise is added, in decibels of
the code as it was made. A row has the words that are right and those that nobody recorded: without the path, with it,
and with `firm`, `consecutive` and `counted` behind it. A word is right if its address, its user bits and its place are. It needs
sox.
"""
import array
import math
import os
import random
import subprocess
import sys
import tempfile
import wave

TOP = os.path.dirname(os.path.dirname(os.path.abspath(__file__)))
sys.path.insert(0, os.path.join(TOP, "tools"))
from tape_report.labels import number_of
from tape_tries.making import TC, code, intervals, wav

RATE, FRAMES_A_SECOND, LEAD, SIZE, FIRST = 48_000, 25, 4_801, 8_000, "10:00:00:00"
CAPACITOR, TELEPHONE, NOTHING = ("highpass", "1500"), ("sinc", "300-3400"), ()
ROWS = [("a coupling capacitor", RATE, CAPACITOR, it) for it in (-15, -10, -7, -4)]
ROWS += [("a telephone", 8_000, TELEPHONE, it) for it in (-10, -4)]
ROWS += [("no filter", RATE, NOTHING, it) for it in (-6, 0, 2)]
ASKED = ([], ["firm"], ["consecutive"], ["counted"])
WAYS = ((["follow"], []), *((["path"], asked) for asked in ASKED))


def by_sox(room, samples, rate, *filters):
    """The samples behind filters, at another rate."""
    one, two = (os.path.join(room, name) for name in ("one.wav", "two.wav"))
    wav(one, RATE, [[max(-32_768, min(32_767, round(it))) for it in samples]])
    subprocess.run(["sox", "-D", one, "-r", str(rate), two, *filters], check=True)
    if rate != RATE:
        subprocess.run(["sox", "-D", two, "-r", str(RATE), one, "rate", "-h"], check=True)
        two = one
    return array.array("h", wave.open(two).readframes(1 << 30))


def is_right(words, frames):
    """The word was recorded, at this place."""
    label, seconds = words[2], int(words[10]) / 16 / RATE
    place = round((seconds - LEAD / RATE) * FRAMES_A_SECOND - 1 - 2 / 80)
    if words[1] != "forward" or words[4] != "00000000" or ";" in label:
        return False
    return number_of("25", label) - number_of("25", FIRST) == place and 0 <= place < frames


def counted(samples, slicing, reading, frames):
    """The right words and the false ones."""
    slicer = [TC, "pcm-ltc", "25", str(RATE), "250", "16", *slicing]
    sliced = subprocess.run(slicer, input=samples.tobytes(), stdout=subprocess.PIPE, check=True).stdout
    told = subprocess.run([TC, "ltc-rough", *reading], input=sliced, stdout=subprocess.PIPE, check=True).stdout
    words = [line.split() for line in told.decode("ascii").splitlines() if line.startswith("word ")]
    right = sum(is_right(it, frames) for it in words)
    return f"{right} +{len(words) - right}" if len(words) > right else str(right)


def main():
    frames, chance = int(sys.argv[1]) if len(sys.argv) > 1 else 600, random.Random(11)
    made = code(RATE, intervals("25", FIRST, frames), LEAD, SIZE)
    asked = " | ".join(f"`path`, `{it[0]}`" for it in ASKED[1:])
    print(f"| Sound of {frames} frames | `rough` | `path` | {asked} |")
    print("|---|---|---|---|---|---|")
    with tempfile.TemporaryDirectory() as room:
        for name, rate, filters, decibels in ROWS:
            loud = SIZE * 10 ** (decibels / 20)
            noisy = [it + chance.gauss(0, loud) for it in by_sox(room, made, RATE, *filters)]
            sound = by_sox(room, noisy, rate)
            cells = [counted(sound, *way, frames) for way in WAYS]
            print(f"| {name}, noise at {decibels} dB | " + " | ".join(cells) + " |", flush=True)


if __name__ == "__main__":
    main()
