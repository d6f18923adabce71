#!/usr/bin/env python3
"""How late a line or a quarter frame comes if code is read as it is played.

    bench/live.py [PROGRAM [LONGEST]]      bin/tc and 60 if none are named
    bench/live.py --station [PROGRAM]      what the station adds (`live_display.py`)

Sound of code, a silence, and code again are written to `pcm-ltc` and to `wav-ltc` at the time at which a sound card
would give them, in blocks of 64, 256, 1,024 and 4,096 samples, with `live` behind the words and without; `ltc-fly 10`
and `ltc-mtc 2` read behind pipes. Each line and each quarter frame is timed as it comes. For each run it prints, in
milliseconds:
- words: the time from the block with the last sample of a word to its line, the median and the greatest;
- invented, gone: the greatest time from when a frame was due to its line. A frame is due half a frame after it should
  have ended;
- quarter: the same of the quarter frames, those of words and those of invented frames;
- bound: a quarter of a frame and a block, which `live` keeps for all that is invented, and 20 for the machine. The
  median of what is heard keeps these 20 alone.

The silences have 80 ms, 1 s, and LONGEST seconds. The last one is tried with one size of blocks alone.
"""
import math
import os
import statistics
import struct
import subprocess
import sys
import threading
import time

import live_display

TOP = os.path.dirname(os.path.dirname(os.path.abspath(__file__)))
RATE, SYSTEM, FINENESS, FRAMES = 48_000, 25, 16, 25
TICK_RATE = RATE * FINENESS
FRAME = TICK_RATE // SYSTEM
SLACK = 20.0
FLY, MIDI = ["ltc-fly", "10"], ["ltc-mtc", "2"]
# A file of one track of 16 bits, as long as what comes.
WAVE = struct.pack("<4sI4s4sIHHIIHH4sI", b"RIFF", 0xFFFF_FFFF, b"WAVE",
                   b"fmt ", 16, 1, 1, RATE, 2 * RATE, 2, 16, b"data", 0xFFFF_FFFF)


class Way:
    """A command that takes the sound: what comes before the samples, and the first crossing's tick in the sound if
    ticks count from there."""

    def __init__(self, words, front, first):
        self.words, self.front, self.first = words, front, first

    def told(self, live):
        return self.words + (["live"] if live else [])


WAYS = [Way(["pcm-ltc", str(SYSTEM), str(RATE), "250", str(FINENESS), "follow"], b"", FINENESS),
        Way(["wav-ltc", str(SYSTEM), "1", "250"], WAVE, 0)]


def run(program, words, data=b""):
    """What the program writes of an input."""
    return subprocess.run([program, *words], input=data, stdout=subprocess.PIPE, check=True).stdout


def code(program, label):
    """The samples of FRAMES frames of code from a label on, as bytes."""
    words = ["ltc-make", str(SYSTEM), "forward", label, str(FRAMES), str(RATE // SYSTEM // 80), str(RATE)]
    return run(program, ["ltc-pcm", "8000"], run(program, words))


class Played:
    """A slicer and what reads behind it, and when each of its bytes came."""

    def __init__(self, program, way, live, reads):
        self.way = way
        self.slicer = subprocess.Popen([program, *way.told(live)], stdin=subprocess.PIPE, stdout=subprocess.PIPE,
                                       bufsize=0)
        self.reader = subprocess.Popen([program, *reads], stdin=self.slicer.stdout, stdout=subprocess.PIPE, bufsize=0)
        self.slicer.stdout.close()
        self.came = []
        self.thread = threading.Thread(target=self.listen)
        self.thread.start()
        self.slicer.stdin.write(way.front)

    def listen(self):
        while piece := os.read(self.reader.stdout.fileno(), 65_536):
            self.came.append((time.monotonic(), piece))

    def end(self):
        self.slicer.stdin.close()
        self.thread.join()
        if self.slicer.wait() or self.reader.wait():
            sys.exit("a command failed")

    def lines(self):
        """Each line with the time at which its end came."""
        begun = b""
        for at, piece in self.came:
            *whole, begun = (begun + piece).split(b"\n")
            for line in whole:
                yield at, line.decode().split()

    def quarter_frames(self):
        """The time of each quarter frame: of its second byte; no other byte comes behind `f1`."""
        behind = False
        for at, piece in self.came:
            for byte in piece:
                if behind:
                    yield at
                behind = byte == 0xF1


def play(program, sound, block, live):
    """Plays the sound to each way at once, and gives when it began and what came."""
    played = [(Played(program, way, live, FLY), Played(program, way, live, MIDI)) for way in WAYS]
    began = time.monotonic()
    for place in range(0, len(sound), 2 * block):
        # A block is there when its last sample is.
        due = began + (place // 2 + block) / RATE
        time.sleep(max(0.0, due - time.monotonic()))
        for pair in played:
            for one in pair:
                one.slicer.stdin.write(sound[place:place + 2 * block])
    for pair in played:
        for one in pair:
            one.end()
    return began, played


def due(words, first, block):
    """When a line of `ltc-fly` is due, in seconds from the first sample."""
    tick = int(words[-1]) + first
    if words[0] != "heard":
        return (tick + FRAME // 2) / TICK_RATE
    # The crossing that ends a word is in the step to a sample, which comes with its block.
    sample = math.ceil(tick / FINENESS)
    return (sample // block + 1) * block / RATE


def delays(began, timed, first, block):
    """How late each came, in milliseconds, by the first word of its line."""
    late = {"heard": [], "invented": [], "gone": []}
    for came, words in timed:
        if words[0] in late:
            late[words[0]].append(1_000 * (came - began - due(words, first, block)))
    return late


def frames_of(program, way, live, sound):
    """The lines of the frames that `ltc-mtc` sends, from the whole sound: four quarter frames are one of these."""
    slices = run(program, way.told(live), way.front + sound)
    lines = [line.split() for line in run(program, ["ltc-fly", MIDI[1]], slices).decode().splitlines()]
    return [words for words in lines if words[0] in ("heard", "invented")]


def quarter_delays(began, quarters, frames, first, block):
    """How late each quarter frame came, in milliseconds, by the first word of its frame's line."""
    if len(quarters) != 4 * len(frames):
        sys.exit(f"{len(quarters)} quarter frames of {len(frames)} frames")
    return delays(began, [(came, frames[place // 4]) for place, came in enumerate(quarters)], first, block)


def tell(seconds, block, live, way, lines, quarters):
    """A line of a run, and whether its bound is kept."""
    bound = 1_000 * (FRAME / 4 / TICK_RATE + block / RATE) + SLACK
    most = max(lines["invented"] + lines["gone"] + quarters["invented"], default=0.0)
    heard = max(statistics.median(lines["heard"]), statistics.median(quarters["heard"]))
    kept = not live or (most <= bound and heard <= SLACK)
    print(f"{seconds:6.2f} s  {block:5} samples  {way.words[0]} {'live' if live else '-':4}  "
          f"words {statistics.median(lines['heard']):6.2f} {max(lines['heard']):6.2f}  "
          f"invented {max(lines['invented'], default=0.0):8.1f}  gone {max(lines['gone'], default=0.0):8.1f}  "
          f"quarter heard {statistics.median(quarters['heard']):6.2f} {max(quarters['heard']):6.2f} "
          f"invented {max(quarters['invented'], default=0.0):8.1f}  bound {bound:6.1f}  "
          f"{'kept' if kept else 'NOT KEPT'}", flush=True)
    return kept


def main():
    if "--station" in sys.argv[1:2]:
        sys.exit(live_display.main(sys.argv[2] if len(sys.argv) > 2 else os.path.join(TOP, "bin", "tc")))
    program = sys.argv[1] if len(sys.argv) > 1 else os.path.join(TOP, "bin", "tc")
    longest = float(sys.argv[2]) if len(sys.argv) > 2 else 60.0
    before, behind = code(program, "10:00:00:00"), code(program, "11:00:00:00")
    runs = [(seconds, block) for seconds in (0.08, 1.0) for block in (64, 256, 1_024, 4_096)] + [(longest, 1_024)]
    all_kept = True
    for seconds, block in runs:
        sound = before + bytes(2 * round(seconds * RATE)) + behind
        for live in (False, True):
            began, played = play(program, sound, block, live)
            for way, (fly, midi) in zip(WAYS, played):
                lines = delays(began, fly.lines(), way.first, block)
                frames = frames_of(program, way, live, sound)
                quarters = quarter_delays(began, list(midi.quarter_frames()), frames, way.first, block)
                all_kept &= tell(seconds, block, live, way, lines, quarters)
    sys.exit(0 if all_kept else 1)


if __name__ == "__main__":
    main()
