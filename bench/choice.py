#!/usr/bin/env python3
"""What `tools/tape` chooses by itself, beside each way of reading alone, on kinds of sound that none was made for.

    bench/choice.py [--seed N] [--frames 600] [WORD ..]     all kinds, or those whose name has one of the words
    bench/choice.py --witnesses ..      by the best path alone: all words, and `firm`, `consecutive`, `counted` behind it

A row is a kind of sound: the band of a telephone at three phases, codecs of low rates, a coupling capacitor, worn tape
with wow and an automatic level, a dimmer, print-through, speech beside the code, a loud room. A cell has the words that
were read, and behind a plus sign those that nobody recorded, by their labels: of libltc's decoder, of `wav-ltc` alone, of
sums, of `deep`, of the best path (brought to 48,000 samples a second where there are fewer than 32,000), and of what
`tools/tape` chose, which is named. Except libltc's, each word has `consecutive` behind it. At the end stands how often the
choice reads at least all but half a percent of the best of the others, and how many seconds all the choices took.

The seed moves the code, the noise and the labels: what is chosen by one is looked at by another. It needs sox, ffmpeg,
numpy, a C compiler and libltc-dev.
"""
import argparse
import os
import subprocess
import sys
import tempfile
import time
import wave
from collections import Counter

try:
    import numpy as np
except ImportError:
    sys.exit("bench/choice.py: numpy is not installed (Debian: python3-numpy)")

TOP = os.path.dirname(os.path.dirname(os.path.abspath(__file__)))
sys.path.insert(0, os.path.join(TOP, "tools"))
from tape_report import labels, work
from tape_report.choice import Wanted
from tape_report.source import opened
from tape_report.spans import word_of
from tape_tries.making import TC, code, intervals, wav

RATE, SIZE, SYSTEM = 48_000, 8_000, 25
TELEPHONE = 8_000
NEAR = 0.005
CONSECUTIVE = "consecutive"
ASKED = ((), ("firm",), (CONSECUTIVE,), ("counted",))


def by_sox(room, samples, effects, rate=RATE):
    """The samples through effects, at another rate."""
    one, two = (os.path.join(room, name) for name in ("one.wav", "two.wav"))
    put(one, samples, RATE)
    subprocess.run(["sox", "-D", one, "-r", str(rate), two, *effects], check=True)
    return samples_of(two)


def by_codec(room, samples, form, kilobits):
    """The samples through a codec and back."""
    one, coded, two = (os.path.join(room, name) for name in ("one.wav", f"coded.{form}", "two.wav"))
    put(one, samples, RATE)
    for words in (["-i", one, "-b:a", f"{kilobits}k", coded], ["-i", coded, "-ar", str(RATE), "-ac", "1", two]):
        subprocess.run(["ffmpeg", "-v", "error", "-nostdin", "-y", *words], check=True)
    return samples_of(two)


def put(path, samples, rate):
    wav(path, rate, [np.clip(np.round(samples), -32_768, 32_767).astype(int).tolist()])


def samples_of(path):
    with wave.open(path) as file:
        return np.frombuffer(file.readframes(1 << 30), "<i2").astype(float)


class Maker:
    """Sounds of one seed."""

    def __init__(self, room, seed, frames):
        self.room, self.chance = room, np.random.default_rng(seed)
        self.first = int(self.chance.integers(0, 2_000_000))
        lead = 4_801 + int(self.chance.integers(0, 480))
        ticks = intervals("25", labels.label_of("25", self.first), frames)
        self.code = [np.array(code(RATE, ticks, lead + each, SIZE), float) for each in (0, 2, 4)]
        self.labels = Counter(labels.label_of("25", self.first + each) for each in range(frames))

    def noisy(self, samples, decibels):
        """With white noise, in decibels of the code as it was made."""
        return samples + self.chance.normal(0, SIZE * 10 ** (decibels / 20), len(samples))

    def wow(self, samples, part, hertz):
        """The tape runs slower and faster by a part, so many times a second."""
        at = np.arange(len(samples)) / RATE
        turn = self.chance.uniform(0, 2 * np.pi)
        moved = RATE * part / (2 * np.pi * hertz) * np.sin(2 * np.pi * hertz * at + turn)
        return np.interp(np.arange(len(samples)) + moved, np.arange(len(samples)), samples)

    def levelled(self, samples):
        """An automatic level, which follows too fast."""
        size = np.convolve(np.abs(samples), np.ones(960) / 960, "same")
        swing = 1 + 0.6 * np.sin(2 * np.pi * 0.9 * np.arange(len(samples)) / RATE)
        return samples * swing * SIZE / 2 / np.maximum(size, SIZE / 16)

    def dimmer(self, samples, loud):
        """A spike each half wave of the mains, that rings."""
        ring = np.exp(-np.arange(140) / 30) * np.sin(2 * np.pi * 5_200 / RATE * np.arange(140))
        spikes = np.zeros(len(samples))
        for number, at in enumerate(range(100, len(samples) - 140, RATE // 100)):
            spikes[at : at + 140] += (1 if number % 2 else -1) * ring
        hum = np.sin(2 * np.pi * 50 * np.arange(len(samples)) / RATE)
        return samples + SIZE * (loud * spikes + 0.4 * hum)

    def printed(self, samples, decibels):
        """The turns of the reel before and behind, quieter and duller."""
        turn, part = int(1.3 * RATE), 10 ** (decibels / 20)
        dull = np.convolve(samples, np.ones(9) / 9, "same")
        return samples + part * (np.roll(dull, turn) + np.roll(dull, -turn))

    def beside(self, samples, loud):
        """Something like speech: syllables of a buzz through two formants."""
        at = np.arange(len(samples)) / RATE
        pitch = np.cumsum(120 + 30 * np.sin(2 * np.pi * 0.7 * at)) / RATE
        buzz = 2 * (pitch % 1) - 1
        near = by_sox(self.room, SIZE * buzz, ["bandpass", "700", "200"])
        far = by_sox(self.room, SIZE * buzz, ["bandpass", "1800", "300"])
        count = int(len(samples) / RATE * 4) + 2
        syllables = np.interp(4 * at, np.arange(count), self.chance.uniform(0, 1, count) ** 2)
        speech = (near + far) * syllables
        return samples + speech * loud * SIZE / np.sqrt(np.mean(speech**2))

    def kinds(self):
        """The rows: a name, samples and their rate."""
        one, sox = self.code[0], lambda samples, *effects: by_sox(self.room, samples, effects)
        for phase, made in enumerate(self.code, 1):
            band = by_sox(self.room, made, ["sinc", "300-3400"], TELEPHONE)
            yield f"telephone, phase {phase}, noise at -10 dB", self.noisy(band, -10), TELEPHONE
        band = by_sox(self.room, one, ["sinc", "300-3400"], TELEPHONE)
        yield "telephone, noise at -6 dB", self.noisy(band, -6), TELEPHONE
        for form, kilobits in (("m4a", 24), ("m4a", 16), ("opus", 16), ("opus", 10)):
            name = "AAC" if form == "m4a" else "Opus"
            yield f"{name} at {kilobits} kb/s", by_codec(self.room, self.noisy(one, -26), form, kilobits), RATE
        for hertz, decibels in ((1_500, -6), (1_500, -4), (3_000, -17)):
            made = self.noisy(sox(one, "highpass", str(hertz)), decibels)
            yield f"capacitor, {hertz} Hz, noise at {decibels} dB", made, RATE
        worn = self.levelled(sox(self.wow(one, 0.006, 3.1), "lowpass", "1200", "lowpass", "5000"))
        yield "worn: dull, wow, level", self.noisy(worn, -22), RATE
        yield "the same, more noise", self.noisy(worn, -14), RATE
        yield "dull, 900 Hz, noise at -20 dB", self.noisy(sox(one, "lowpass", "900"), -20), RATE
        yield "dimmer", self.noisy(self.dimmer(one, 0.9), -20), RATE
        yield "dimmer, louder", self.noisy(self.dimmer(one, 1.6), -14), RATE
        yield "print-through at -12 dB", self.noisy(self.printed(one, -12), -14), RATE
        yield "speech beside at -6 dB", self.noisy(self.beside(one, 0.5), -20), RATE
        yield "speech beside at 0 dB", self.noisy(self.beside(one, 1.0), -20), RATE
        yield "noise at 0 dB", self.noisy(one, 0), RATE


def counted(said, recorded):
    """The words that were recorded, each once, and the others."""
    right = sum((Counter(said) & recorded).values())
    return right, len(said) - right


def by_tc(samples, rate, recorded, *slicing, asked=(CONSECUTIVE,)):
    data = np.clip(np.round(samples), -32_768, 32_767).astype("<i2").tobytes()
    slicer = [TC, "pcm-ltc", str(SYSTEM), str(rate), "250", "16", *slicing]
    sliced = subprocess.run(slicer, input=data, stdout=subprocess.PIPE, check=True).stdout
    told = subprocess.run([TC, "ltc-rough", *asked], input=sliced, stdout=subprocess.PIPE, check=True).stdout
    words = filter(None, map(word_of, told.decode("ascii").splitlines()))
    return counted([word.label for word in words], recorded)


def by_libltc(reader, samples, rate, recorded):
    data = np.clip(np.round(samples), -32_768, 32_767).astype("<i2").tobytes()
    words = [reader, "read", str(SYSTEM), str(rate)]
    told = subprocess.run(words, input=data, stdout=subprocess.PIPE, check=True).stdout
    return counted([line.split()[0] for line in told.decode("ascii").splitlines() if line], recorded)


def by_choice(path, recorded):
    """What the tool reads, by its own way, and how it is named; and the seconds that it took."""
    began = time.monotonic()
    with opened(path) as source, work.tape_read(source, path, Wanted(), None) as tape:
        took, mine = time.monotonic() - began, tape.choice.reading
        with open(mine.path, encoding="ascii") as lines:
            words = list(filter(None, map(word_of, lines)))
        is_right = mine.system == SYSTEM
        found = counted([word.label for word in words], recorded) if is_right else (0, len(words))
        return found, mine.front if tape.choice.is_found else "none found", took


def cell(found):
    right, false = found
    return f"{right} +{false}" if false else str(right)


def for_the_path(room, path, samples, rate):
    """The samples in the file, and those of 48,000 a second that are made of fewer."""
    put(path, samples, rate)
    if rate >= 32_000:
        return samples, rate
    whole = os.path.join(room, "whole.wav")
    subprocess.run(["sox", "-D", path, "-r", str(RATE), whole, "rate", "-h"], check=True)
    return samples_of(whole), RATE


def by_witnesses(room, samples, rate, recorded):
    """The words of the path, by what each is asked for."""
    whole, whole_rate = for_the_path(room, os.path.join(room, "tape.wav"), samples, rate)
    return [by_tc(whole, whole_rate, recorded, "path", asked=asked) for asked in ASKED]


def row(room, reader, samples, rate, recorded):
    """The ways, and the choice with its name and its seconds."""
    path = os.path.join(room, "tape.wav")
    whole, whole_rate = for_the_path(room, path, samples, rate)
    ways = [
        by_libltc(reader, samples, rate, recorded),
        by_tc(samples, rate, recorded, "follow"),
        by_tc(samples, rate, recorded, "follow", str(max(2, rate // 16_000))),
        by_tc(samples, rate, recorded, "deep"),
        by_tc(whole, whole_rate, recorded, "path"),
    ]
    return ways, *by_choice(path, recorded)


def asks_for(options, name):
    return not options.words or any(word in name for word in options.words)


def witnesses(options):
    """The table of what a word is asked for."""
    print(f"{'kind':38}" + "".join(f"{' '.join(asked) or 'path':>13}" for asked in ASKED), flush=True)
    right, false = [0] * len(ASKED), [0] * len(ASKED)
    with tempfile.TemporaryDirectory() as room:
        made = Maker(room, options.seed, options.frames)
        for name, samples, rate in made.kinds():
            if not asks_for(options, name):
                continue
            found = by_witnesses(room, samples, rate, made.labels)
            for at, (good, bad) in enumerate(found):
                right[at], false[at] = right[at] + good, false[at] + bad
            print(f"{name:38}" + "".join(f"{cell(it):>13}" for it in found), flush=True)
    print(f"{'together':38}" + "".join(f"{cell(it):>13}" for it in zip(right, false)))
    return 0


def main():
    words = argparse.ArgumentParser(description=__doc__.split("\n")[0])
    words.add_argument("--seed", type=int, default=1)
    words.add_argument("--frames", type=int, default=600)
    words.add_argument("--witnesses", action="store_true")
    words.add_argument("words", nargs="*", metavar="WORD")
    options = words.parse_args()
    if options.witnesses:
        return witnesses(options)
    heads = ("libltc", "plain", "sums", "deep", "path", "choice")
    print(f"{'kind':38}" + "".join(f"{head:>11}" for head in heads), flush=True)
    near, rows, missed, seconds, all_of = 0, 0, 0, 0.0, Counter()
    with tempfile.TemporaryDirectory() as room:
        reader = os.path.join(room, "sound")
        source = os.path.join(TOP, "bench", "sound.c")
        subprocess.run(["cc", "-O2", "-o", reader, source, "-lltc", "-lm"], check=True)
        made = Maker(room, options.seed, options.frames)
        for name, samples, rate in made.kinds():
            if not asks_for(options, name):
                continue
            ways, choice, front, took = row(room, reader, samples, rate, made.labels)
            best = max(right for right, _ in ways)
            rows, seconds = rows + 1, seconds + took
            near += choice[0] >= best * (1 - NEAR)
            missed += best >= 100 and front == "none found"
            for head, (right, false) in zip(heads, (*ways, choice)):
                all_of[head, "right"] += right
                all_of[head, "false"] += false
            print(f"{name:38}" + "".join(f"{cell(it):>11}" for it in (*ways, choice)) + f"  {front}", flush=True)
    totals = [(all_of[head, "right"], all_of[head, "false"]) for head in heads]
    print(f"{'together':38}" + "".join(f"{cell(it):>11}" for it in totals))
    print(f"the choice is within half a percent of the best of the others in {near} of {rows}, none is found where one")
    print(f"reads 100 words in {missed}; the choices took {seconds:.1f} s for {rows * options.frames / SYSTEM:.0f} s of sound")
    return 0


if __name__ == "__main__":
    sys.exit(main())
