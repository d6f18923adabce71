#!/usr/bin/env python3
"""Compares what `tc labels` answers with exact fractions, over lines at random.

    bench/labels_by_fractions.py [CASES] [--seed N] [--tc PATH]

CASES is 120,000 if it is not given, shared out over these kinds; each line is a case:

- each way of each count, by text, number and seconds, as bench/labels_by_hand.py reads them (fractions.Fraction, and
  a day that is counted label by label);
- `to` between each two counts, of which 29.97 to 25 has a fifth of all cases;
- `length` between two labels of a line: its frames, its label, and how long it lasts: so many frames over the rate,
  which is what `seconds` and `to` say of that label;
- `sum` of a text of up to a hundred lines: their frames, and the label as an hour that is counted label by label.

The status is 0 if nothing differs, 1 if something does, and 2 if it could not be tried.
"""
import argparse
import os
import random
import subprocess
import sys
from fractions import Fraction

from labels_by_hand import RATES, answer, day, nearest, number_of

TOP = os.path.dirname(os.path.dirname(os.path.abspath(__file__)))


def run(program, words, lines):
    """What the program answers to lines, a line each."""
    end = subprocess.run([program, "labels", *words], input="".join(line + "\n" for line in lines).encode(),
                         stdout=subprocess.PIPE, stderr=subprocess.PIPE)
    if end.returncode or end.stderr:
        sys.exit(f"labels {' '.join(words)}: status {end.returncode}, {end.stderr.decode().strip()}")
    return end.stdout.decode().split("\n")[:-1]


def label(base, draw):
    """A label, one time in three beside midnight or a minute."""
    texts = day(base)[0]
    if draw.random() < 1 / 3:
        edge = draw.choice([0, len(texts) // 24, len(texts) // 144, 1_800, len(texts) // 2])
        return texts[(edge + draw.randint(-3, 3)) % len(texts)]
    return draw.choice(texts)


def line_of(base, draw):
    """A line that says a label, by its text, its number or its seconds."""
    text = label(base, draw)
    form = draw.randrange(3)
    if form == 0:
        return text
    if form == 1:
        return str(day(base)[1][text])
    while True:
        said = f"{draw.randrange(86_487)}.{draw.randrange(1_000):03}"
        if nearest(Fraction(said) * RATES[base][1]) < len(day(base)[0]):
            return said


def way_of(base, draw):
    """A way with its values."""
    return draw.choice(["number", "label", "seconds", f"plus {draw.choice([1, 1_798, 4_294_967_295])}", "minus 1",
                        f"since {label(base, draw)}"])


def differing(program, base, way, lines):
    """The lines whose answer is not that of the fractions."""
    got = run(program, f"{base} {way}".split(), lines)
    wanted = [answer(base, way, line) for line in lines]
    return [f"labels {base} {way}: {line}: {mine}, and by fractions {theirs}"
            for line, mine, theirs in zip(lines, got, wanted, strict=True) if mine != theirs]


def differing_lengths(program, base, pairs):
    """The pairs of labels whose length is not that of the fractions: its frames, its label, and how long it lasts."""
    texts, numbers = day(base)
    got = run(program, f"{base} length".split(), [" ".join(pair) for pair in pairs])
    lengths = [line.split(" ")[1] for line in got]
    lasts = run(program, f"{base} seconds".split(), lengths)
    there = run(program, f"{base} to 25".split(), lengths)
    wrong = []
    for (first, second), line, seconds, shown in zip(pairs, got, lasts, there, strict=True):
        frames = (numbers[second] - numbers[first]) % len(texts)
        time = frames / RATES[base][1]
        milliseconds = nearest(1_000 * time)
        at_25 = 25 * time
        wanted = (f"{first} {texts[frames]} {frames}", f"{milliseconds // 1_000}.{milliseconds % 1_000:03}",
                  f"{day('25')[0][int(at_25) % len(day('25')[0])]} {int(1_000 * (at_25 % 1))}")
        if (line, seconds, shown) != wanted:
            wrong.append(f"labels {base} length: {first} {second}: {line}, {seconds}, {shown}; by fractions {wanted}")
    return wrong


def differing_sum(program, base, lines):
    """Whether the sum of a text is not that of the numbers that its lines say: its frames, and hour by hour its label."""
    texts = day(base)[0]
    frames = sum(number_of(base, line) for line in lines)
    hours, behind = divmod(frames, len(texts) // 24)
    got, wanted = run(program, f"{base} sum".split(), lines), [f"{frames} {hours}{texts[behind][2:]}"]
    return [] if got == wanted else [f"labels {base} sum of {lines}: {got}; by fractions {wanted}"]


def main():
    reader = argparse.ArgumentParser(usage=__doc__.split("\n")[2].strip())
    reader.add_argument("cases", nargs="?", type=int, default=120_000)
    reader.add_argument("--seed", type=int, default=1)
    reader.add_argument("--tc", default=f"{TOP}/bin/tc")
    its = reader.parse_args()
    if not os.access(its.tc, os.X_OK):
        print(f"no program at {its.tc}: run ./build", file=sys.stderr)
        return 2
    draw = random.Random(its.seed)
    fifth = max(1, its.cases // 5)
    kinds = {"29.97 to 25": 0, "another count": 0, "ways": 0, "lengths": 0, "lines of sums": 0}
    wrong = []

    def take(kind, count, differ):
        kinds[kind] += count
        wrong.extend(differ)

    for base in ("30d", "30 ntsc"):
        lines = [line_of(base, draw) for _ in range(fifth // 2)]
        take("29.97 to 25", len(lines), differing(its.tc, base, "to 25", lines))
    pairs = [(base, other) for base in RATES for other in RATES]
    for base, other in pairs:
        lines = [line_of(base, draw) for _ in range(fifth // len(pairs) + 1)]
        take("another count", len(lines), differing(its.tc, base, f"to {other}", lines))
    for base in RATES:
        for _ in range(20):
            lines = [line_of(base, draw) for _ in range(fifth // 120 + 1)]
            take("ways", len(lines), differing(its.tc, base, way_of(base, draw), lines))
        two = [(label(base, draw), label(base, draw)) for _ in range(2 * fifth // len(RATES) + 1)]
        take("lengths", len(two), differing_lengths(its.tc, base, two))
        for _ in range(fifth // 300 + 1):
            lines = [line_of(base, draw) for _ in range(draw.randrange(101))]
            take("lines of sums", len(lines), differing_sum(its.tc, base, lines))
    for line in wrong[:20]:
        print(line)
    print(", ".join(f"{count:,} of {kind}" for kind, count in kinds.items()) + f": {len(wrong)} differ")
    return 1 if wrong else 0


if __name__ == "__main__":
    sys.exit(main())
