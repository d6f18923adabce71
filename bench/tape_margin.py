#!/usr/bin/env python3
"""How right the margin is that `tools/tape` reports, on sound whose noise is known.

    bench/tape_margin.py [PROGRAM [FRAMES]]     bin/tc and 60 frames if none are named

Sound as in bench/margin.py, as a WAV file. A row has the wow, the low-pass in Hz, the way to read it and the noise in
decibels below the sound; and then by how many decibels the same noise could be louder
- as `tools/tape` reports it, which does not know the clean sound; - if it reports nothing;
- for the premise of the law to hold, of the clean sound that was made; - if it does not hold as it is;
- for each word to be read by `wav-ltc` and `ltc-rough`.
If a word is lost at a margin that was reported, the script says so, and the status is 1. The noise itself must not pass full scale.

The seed is printed, and a run is repeated by the environment's SEED. Run by hand, never in the gate.
"""
import itertools
import os
import random
import re
import subprocess
import sys
import tempfile

sys.path.insert(0, os.path.dirname(os.path.abspath(__file__)))
sys.path.insert(0, os.path.join(os.path.dirname(os.path.dirname(os.path.abspath(__file__))), "tools"))
from margin import RATE, SIZE, SYSTEM, TOLERANCES, TOP, clean_sound, drift, label, least_delay, tape, thresholds
from tape_tries.making import wav

MOST = 30
OUTLASTS = TOLERANCES["ltc-rough"]
# The words of `wav-ltc` behind the track, those of `pcm-ltc` with the same threshold, and those of `tools/tape`.
WAYS = {"plain": (["250"], "250 16 follow", []), "deep": (["250", "1", "deep"], "250 16 deep", ["--deep"])}


def louder(clean, noise, decibels):
    times = 10 ** (decibels / 20)
    return [max(-32_768, min(32_767, round(it + times * each))) for it, each in zip(clean, noise)]


def told(path, words, there):
    """What the report says."""
    ran = subprocess.run([f"{TOP}/tools/tape", path, "--margin", *words], stdout=subprocess.PIPE, env=there, check=False)
    found = re.search(r"the noise could be some (\d+) dB louder", ran.stdout.decode())
    return int(found[1]) if found else None


def holds(clean, noise, words, transitions, cells, decibels):
    """The premise of the law, of the clean sound that was made."""
    samples = louder(clean, noise, decibels)
    most = max(abs(a - b) for a, b in zip(samples, clean))
    delay = least_delay(clean, list(thresholds(words.split(), samples)), most, transitions)
    return delay is not None and all(
        OUTLASTS(drift(before, cell), delay, sum(cell)) for before, cell in zip(cells[:1] + cells, cells)
    )


def is_read(program, path, words, played):
    with open(path, "rb") as sound:
        file = subprocess.run(
            [program, "wav-ltc", str(SYSTEM), "1", *words], stdin=sound, stdout=subprocess.PIPE, check=True
        )
    read = subprocess.run([program, "ltc-rough"], input=file.stdout, stdout=subprocess.PIPE, check=True)
    labels = [line.split()[2] for line in read.stdout.decode().splitlines() if line.startswith("word")]
    # The last word of a sound has no transition behind its end, if the tape ends there.
    return labels in (played, played[:-1])


def most_that(is_so):
    """The most decibels of those from 0 on at each of which it is so; None if it is not so at 0."""
    most = None
    for decibels in range(MOST + 1):
        if not is_so(decibels):
            break
        most = decibels
    return most


def main():
    program = os.path.abspath(sys.argv[1]) if len(sys.argv) > 1 else os.path.join(TOP, "bin", "tc")
    frames = int(sys.argv[2]) if len(sys.argv) > 2 else 60
    if not os.access(program, os.X_OK):
        sys.exit(f"no program at {program}: run ./build")
    seed = os.environ.get("SEED") or str(random.randrange(1 << 32))
    print("SEED=" + seed)
    chance, there, broken = random.Random(seed), {**os.environ, "TC": program}, 0
    played = [label(number) for number in range(frames)]
    print("| wow | low-pass | way | noise | told | law | read |\n|---|---|---|---|---|---|---|")
    with tempfile.TemporaryDirectory() as room:
        path = os.path.join(room, "sound.wav")
        for wow, low_pass in itertools.product((0, 0.005), (20_000, 6_000, 2_500)):
            cells = tape(frames, wow)
            clean, transitions = clean_sound(cells, low_pass)
            for way, decibels in itertools.product(WAYS, (40, 30, 22, 18)):
                loud = int(SIZE * 10 ** (-decibels / 20))
                noise = [chance.randint(-loud, loud) for _ in clean]
                words, same, tool = WAYS[way]
                wav(path, RATE, [louder(clean, noise, 0)])
                tells = told(path, tool, there)
                law = most_that(lambda more: holds(clean, noise, same, transitions, cells, more))

                def all_read(more):
                    wav(path, RATE, [louder(clean, noise, more)])
                    return is_read(program, path, words, played)

                read = most_that(all_read)
                broken += tells is not None and (read is None or read < tells)
                texts = ("-" if it is None else f"{it} or more" if it == MOST else str(it) for it in (tells, law, read))
                print(f"| {wow} | {low_pass} | {way} | -{decibels} dB | " + " | ".join(texts) + " |", flush=True)
    print(f"{broken} told more than was read")
    sys.exit(1 if broken else 0)


if __name__ == "__main__":
    main()
