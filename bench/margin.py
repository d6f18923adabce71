#!/usr/bin/env python3
"""What the margin of a sound promises, compared with what is read of it.

    bench/margin.py [PROGRAM [FRAMES]]      bin/tc and 50 frames if none are named

Sound of code at 25 frames a second, 48,000 samples a second and 16 ticks a sample is made here, steady or with a wow
of half a hundredth, through a low-pass of two poles, with white noise under it. Its transitions are known. A row has
- the wow, the low-pass in Hz, the words of `pcm-ltc`, the noise in decibels below the sound;
- N, the most by which a sample differs from that of the clean sound, and W, the delay: the least one for which the
  premise of the law holds (crates/tape_sound/specs/Heard.antt, `HasMargin`), with bounds of N around the threshold;
- how many delays the shortest cell lasts;
- for each tolerance the words that are read, of those that were played, with a + if the law promises all of them.
  A + beside anything but each word, in order, and nothing else, breaks the law: that is said, and the status is 1.

The seed is printed, and a run is repeated by the environment's SEED. Run by hand, never in the gate.
"""
import itertools
import math
import os
import random
import subprocess
import sys

TOP = os.path.dirname(os.path.dirname(os.path.abspath(__file__)))
SYSTEM, RATE, FINENESS, SIZE = 25, 48_000, 16, 10_000
CELL = RATE * FINENESS // (SYSTEM * 80)  # ticks
LEAD, TAIL = 100, 100  # samples before the first transition, and behind the last
TOLERANCES = {
    "ltc-read": lambda drift, delay, cell: 16 * drift + 32 * delay < cell,
    "ltc-worn": lambda drift, delay, cell: 12 * drift + 24 * delay < cell,
    "ltc-rough": lambda drift, delay, cell: max(8 * drift + 10 * delay, 12 * drift + 9 * delay) < cell,
}


def word(number):
    """The 80 bits of the word of a label, the first one first, without user bits and flags."""
    frames, seconds, minutes, hours = number % 25, number // 25 % 60, number // 1500 % 60, number // 90_000
    bits = 0xbffc << 64
    for value, units, tens in (frames, 0, 8), (seconds, 16, 24), (minutes, 32, 40), (hours, 48, 56):
        bits |= value % 10 << units | value // 10 << tens
    return [bits >> place & 1 for place in range(80)]


def label(number):
    return "%02d:%02d:%02d:%02d" % (number // 90_000, number // 1500 % 60, number // 25 % 60, number % 25)


def tape(frames, wow):
    """The cells of a tape, as lists of intervals in ticks."""
    bits = [0, 1] + [bit for number in range(frames) for bit in word(number)]
    lengths = [round(CELL * (1 + wow * math.sin(place / 40))) for place in range(len(bits))]
    return [[length // 2, length - length // 2] if bit else [length] for bit, length in zip(bits, lengths)]


def drift(before, cell):
    return max(abs(sum(cell) - sum(before)), abs(cell[0] - cell[-1]))


def clean_sound(cells, low_pass):
    """The samples of the tape, each the mean of the step to it, and the ticks of its transitions."""
    start = LEAD * FINENESS + 7
    transitions = [start] + [start + it for it in itertools.accumulate(itertools.chain(*cells))]
    part = 1 - math.exp(-2 * math.pi * low_pass / RATE)
    samples, level, first, second, passed = [], -SIZE, -SIZE, -SIZE, 0
    for place in range(transitions[-1] // FINENESS + TAIL):
        area, tick = 0, (place - 1) * FINENESS
        while passed < len(transitions) and transitions[passed] <= place * FINENESS:
            area, tick = area + level * (transitions[passed] - tick), transitions[passed]
            level, passed = -level, passed + 1
        area += level * (place * FINENESS - tick)
        first += part * (area / FINENESS - first)
        second += part * (first - second)
        samples.append(round(second))
    return samples, transitions


def thresholds(words, samples):
    """The threshold at each sample, as the formats say."""
    least, form = int(words[0]), (words[2:] or [""])[0]
    peak = total = 0
    for sample in samples:
        size = abs(sample)
        peak = peak + -(-(size - peak) // 4) if size > peak else peak - -(-peak // 1024)
        total += size - total // 1024
        height = max(peak - total // 1024, 0)
        yield least if not form else max(least, height // (4 if form == "deep" else 2))


def turns(samples, bounds, side, first):
    """The moments at which the sound goes over, if it is on a side at a first place."""
    moments = []
    for place in range(first + 1, len(samples)):
        before, now, bound = -side * samples[place - 1], -side * samples[place], bounds[place]
        if now >= bound:
            tick = 1 if before >= bound else -(-FINENESS * (bound - before) // (now - before))
            moments.append(FINENESS * (place - 1) + tick)
            side = -side
    return moments


def least_delay(clean, at, noise, transitions):
    """The least delay for which the premise holds, from whatever tick the tape is taken to begin at; or None."""
    low, high = [it - noise for it in at], [it + noise for it in at]
    first = next((place for place, it in enumerate(clean) if abs(it) >= high[place]), None)
    if first is None or min(at) < 1:
        return None
    side = 1 if clean[first] > 0 else -1
    if any(-side * clean[place] >= low[place] for place in range(first)):
        return None
    lows, highs = turns(clean, low, side, first), turns(clean, high, side, first)
    if len(highs) != len(transitions) or len(lows) != len(transitions):
        return None
    begin = min(late - tick for late, tick in zip(lows, transitions))
    return max(late - tick for late, tick in zip(highs, transitions)) - begin


def report(program, command, words, samples):
    raw = b"".join(it.to_bytes(2, "little", signed=True) for it in samples)
    file = subprocess.run([program, "pcm-ltc", str(SYSTEM), str(RATE), *words], input=raw, stdout=subprocess.PIPE, check=True)
    read = subprocess.run([program, command], input=file.stdout, stdout=subprocess.PIPE, check=True)
    return [line.split() for line in read.stdout.decode().splitlines()]


def main():
    program = sys.argv[1] if len(sys.argv) > 1 else os.path.join(TOP, "bin", "tc")
    frames = int(sys.argv[2]) if len(sys.argv) > 2 else 50
    if not os.access(program, os.X_OK):
        sys.exit(f"no program at {program}: run ./build")
    seed = os.environ.get("SEED") or str(random.randrange(1 << 32))
    print("SEED=" + seed)
    chance = random.Random(seed)
    played = [label(number) for number in range(frames)]
    rows = promised = broken = 0
    print("| wow | low-pass | words | noise | N | W | cell / W | " + " | ".join(TOLERANCES) + " |")
    print("|---" * (7 + len(TOLERANCES)) + "|")
    for wow, low_pass in itertools.product((0, 0.005), (20_000, 6_000, 2_500)):
        cells = tape(frames, wow)
        clean, transitions = clean_sound(cells, low_pass)
        for words, decibels in itertools.product(("1000 16", "250 16 follow", "250 16 deep"), (40, 30, 22, 18, 14, 10)):
            loud = int(SIZE * 10 ** (-decibels / 20))
            samples = [max(-32_768, min(32_767, it + chance.randint(-loud, loud))) for it in clean]
            noise = max(abs(a - b) for a, b in zip(samples, clean))
            delay = least_delay(clean, list(thresholds(words.split(), samples)), noise, transitions)
            texts = []
            for command, outlasts in TOLERANCES.items():
                lines = report(program, command, words.split(), samples)
                read = [line[2] for line in lines if line[0] == "word"]
                promise = delay is not None and all(
                    outlasts(drift(before, cell), delay, sum(cell)) for before, cell in zip(cells[:1] + cells, cells))
                rows, promised = rows + 1, promised + promise
                if promise and (read != played or any(line[0] not in ("word", "end") for line in lines)):
                    broken += 1
                    print(f"the law is broken: {command}, {wow}, {low_pass}, {words}, {decibels}")
                texts.append(f"{len(read)}{' +' if promise else ''}")
            much = "-" if delay is None else f"{min(map(sum, cells)) / max(delay, 1):.0f}"
            print(f"| {wow} | {low_pass} | {words} | -{decibels} dB | {noise} | {'-' if delay is None else delay} | {much} | "
                  + " | ".join(texts) + " |")
    print(f"{rows} readings of {frames} words, {promised} promised, {broken} of these broken")
    sys.exit(1 if broken else 0)


if __name__ == "__main__":
    main()
