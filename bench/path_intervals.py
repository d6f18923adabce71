#!/usr/bin/env python3
"""Compares the intervals that `tc pcm-ltc .. path` writes of many sounds with those of a second reader.

    bench/path_intervals.py TC READER [COUNT [SEED]]

`tc` gets the words SYSTEM RATE 250 16 path, and READER is a command that reads raw 16-bit samples (`READER SYSTEM RATE < RAW
> FILE`) and writes an interval file of 16 ticks a sample. COUNT sounds (220) of 0.35 to 0.85 seconds are made at
random, each in one of 22 ways: code alone, under white or pink noise or hum, filtered, at other speeds, backward,
with dropouts, clicks and splices, behind a capacitor, in 8 bits, beside silence, and noise or a tone without code. It
writes a line a sound, and fails if one differs.
"""
import math
import random
import struct
import subprocess
import sys

RATES = (48000, 48000, 44100, 96000, 16000, 22050, 8000, 192000, 32000, 11025)
WAYS = (
    "clean", "white", "white", "pink", "hum", "lowpass", "lowpass noise", "speed", "ramp", "backward", "dropouts",
    "clicks", "splices", "capacitor", "bits8", "silence", "noise", "parts", "offset", "tone", "loud", "turn",
)


def word(system, number):
    """The bits of a word with user bits by chance."""
    frames, seconds = number % system, number // system
    fields = (frames % 10, frames // 10, seconds % 10, seconds // 10 % 6, seconds // 60 % 10, seconds // 600 % 6,
              seconds // 3600 % 24 % 10, seconds // 3600 % 24 // 10)
    bits = 0xBFFC << 64
    for place, field in enumerate(fields):
        bits |= field << 8 * place | random.getrandbits(4) << 8 * place + 4
    return [bits >> place & 1 for place in range(80)]


def edges(system, rate, total, speed):
    """Where the level changes, and to which sign, in the first `total` samples."""
    number, bits, sign, place = random.randrange(86400 * system), [], 1, 0.0
    while place < total:
        if not bits:
            bits, number = word(system, number), number + 1
        width = rate / (80 * system * speed(min(1.0, place / total)))
        yield place, sign
        if bits.pop(0):
            sign = -sign
            yield place + width / 2, sign
        sign = -sign
        place += width


def code(system, rate, level, speed):
    """Samples of code, with edges that are sharp or rise slowly."""
    total, rise = int(rate * random.uniform(0.35, 0.85)), random.choice((0, 25e-6, 60e-6))
    step = 1.0 if rise <= 0 else 1 - math.exp(-1 / (rise * rate))
    changes = [*edges(system, rate, total, speed), (math.inf, 1)]
    samples, at, now = [], 0, 0.0
    for place in range(total):
        while changes[at + 1][0] <= place:
            at += 1
        now += step * (changes[at][1] * level - now)
        samples.append(now)
    return samples


def pink(samples, size):
    """With pink noise."""
    slow, middle, quick = 0.0, 0.0, 0.0
    for sample in samples:
        white = random.gauss(0, 1)
        slow = 0.99765 * slow + white * 0.0990460
        middle = 0.96300 * middle + white * 0.2965164
        quick = 0.57000 * quick + white * 1.0526913
        yield sample + size * (slow + middle + quick + white * 0.1848) / 2


def low_pass(samples, rate, frequency):
    """What a filter of two poles lets pass below a frequency."""
    step, first, second = 1 - math.exp(-2 * math.pi * frequency / rate), 0.0, 0.0
    for sample in samples:
        first += step * (sample - first)
        second += step * (first - second)
        yield second


def high_pass(samples, rate, frequency):
    """What a coupling capacitor lets pass above a frequency."""
    keep, now, before = math.exp(-2 * math.pi * frequency / rate), 0.0, 0.0
    for sample in samples:
        now, before = keep * (now + sample - before), sample
        yield now


def damaged(samples, way):
    """With dropouts, clicks and splices, each if the way says so."""
    count = len(samples)
    for _ in range(6 if way in ("dropouts", "parts") else 0):
        first, share = random.randrange(count), random.choice((0, 0.05, 0.05))
        for place in range(first, min(count, first + random.choice((30, 300, 3000)))):
            samples[place] *= share
    for _ in range(12 if way in ("clicks", "parts") else 0):
        first, click = random.randrange(count - 8), random.choice((-32000, 32000))
        for place in range(first, first + random.randrange(1, 7)):
            samples[place] = click
    for _ in range(8 if way in ("splices", "parts") else 0):
        first = random.randrange(len(samples) - 900)
        del samples[first:first + random.randrange(1, 800)]
    return samples


def hurt(samples, way, rate, level):
    """What a way makes of samples of code."""
    count = len(samples)
    if way in ("white", "lowpass noise", "parts"):
        size = level * 10 ** (-random.choice((-3, 0, 3, 6, 9)) / 20) / 2
        samples = [sample + random.gauss(0, size) for sample in samples]
    if way.startswith("lowpass"):
        return list(low_pass(samples, rate, random.choice((1200, 2000, 4000))))
    if way == "hum":
        size, turn = level * random.choice((0.3, 0.8, 1.5)), 2 * math.pi / rate
        return [s + size * (math.sin(50 * turn * n) + math.sin(150 * turn * n) / 3) for n, s in enumerate(samples)]
    other = {
        "pink": lambda: list(pink(samples, level * random.choice((0.3, 0.6, 1.2)))),
        "backward": lambda: samples[::-1],
        "turn": lambda: samples[:count // 2] + samples[:count // 2][::-1],
        "capacitor": lambda: list(high_pass(samples, rate, random.choice((1000, 3000, 6000)))),
        "bits8": lambda: [round(sample / 256) * 256 for sample in samples],
        "silence": lambda: [0] * (count // 3) + samples[:count // 3] + random.choices((0, 1), k=count // 3),
        "noise": lambda: [random.gauss(0, level / 3) for _ in samples],
        "offset": lambda: [sample / 2 + 9000 * n / count for n, sample in enumerate(samples)],
        "tone": lambda: [level * math.sin(2 * math.pi * (200 + 3000 * n / count) * n / rate) for n in range(count)],
        "loud": lambda: [sample * 4 for sample in samples],
    }
    return other[way]() if way in other else damaged(samples, way)


def sound(number, seed):
    """The sound of this number: its system, rate, way and bytes."""
    random.seed(seed + 7919 * number)
    system, rate, way = random.choice((24, 25, 30)), random.choice(RATES), WAYS[number % len(WAYS)]
    level, speed = random.choice((30000, 20000, 16000, 8000, 3000, 1000)), lambda part: 1.0
    if way == "speed":
        fixed = random.choice((0.25, 0.3, 0.5, 0.8, 1.3, 2, 3.5, 5))
        speed = lambda part: fixed
    if way in ("ramp", "turn"):
        first, last = random.choice(((0.4, 2.5), (2.5, 0.4), (1, 1.2), (0.9, 0.3), (1, 3)))
        speed = lambda part: first + (last - first) * part
    samples = hurt(code(system, rate, level, speed), way, rate, level)
    whole = [max(-32768, min(32767, round(sample))) for sample in samples]
    return system, rate, way, struct.pack(f"<{len(whole)}h", *whole)


def main(words):
    """Compares, and says how many sounds differ."""
    if not 2 <= len(words) <= 4:
        print(__doc__.split("\n\n")[1], file=sys.stderr)
        return 2
    count, seed = int(words[2]) if words[2:] else 220, int(words[3]) if words[3:] else 11
    differ = 0
    for number in range(count):
        system, rate, way, samples = sound(number, seed)
        told = [words[0], "pcm-ltc", str(system), str(rate), "250", "16", "path"]
        ours = subprocess.run(told, input=samples, capture_output=True, check=False)
        theirs = subprocess.run([words[1], str(system), str(rate)], input=samples, capture_output=True, check=False)
        same = ours.returncode == 0 == theirs.returncode and ours.stdout == theirs.stdout
        differ += not same
        intervals = len(theirs.stdout) // 4 - 3
        print(f"{number} {system} {rate} {way}: {'equal' if same else 'DIFFERS'}, {intervals} intervals")
    print(f"{count - differ} of {count} equal")
    return 1 if differ else 0


if __name__ == "__main__":
    sys.exit(main(sys.argv[1:]))
