#!/usr/bin/env python3
"""A second reading of lines that say labels, in exact fractions, and the rows that were worked by hand.

    bench/labels_by_hand.py           compares the rows with the second reading
    bench/labels_by_hand.py --day     sends each label of a day of each timebase to its seconds and back
    bench/labels_by_hand.py --cases   writes rows of crates/tc_conformance/data/cases.tsv for `labels`

A day is counted here label by label, and no closed arithmetic of drop-frame counting is used.
"""
import re
import sys
from fractions import Fraction
from functools import lru_cache

RATES = {
    "24": (24, Fraction(24)),
    "24 ntsc": (24, Fraction(24_000, 1_001)),
    "25": (25, Fraction(25)),
    "30": (30, Fraction(30)),
    "30 ntsc": (30, Fraction(30_000, 1_001)),
    "30d": (30, Fraction(30_000, 1_001)),
}


@lru_cache
def day(base):
    """The texts of the labels of a day, in order, and the number of each."""
    frames = RATES[base][0]
    mark = ";" if base == "30d" else ":"
    texts = [f"{hour:02}:{minute:02}:{second:02}{mark}{frame:02}" for hour in range(24) for minute in range(60)
             for second in range(60) for frame in range(frames)
             if not (base == "30d" and minute % 10 and second == 0 and frame < 2)]
    return texts, {text: number for number, text in enumerate(texts)}


def nearest(fraction):
    """The whole number nearest to a fraction, the greater one of two."""
    return (2 * fraction.numerator + fraction.denominator) // (2 * fraction.denominator)


def number_of(base, line):
    """The number of the label that a line says."""
    texts, numbers = day(base)
    if line in numbers:
        return numbers[line]
    if "." in line:
        return nearest(Fraction(line) * RATES[base][1])
    return int(line)


def answer(base, way, line):
    """What is answered to a line."""
    texts, numbers = day(base)
    number = number_of(base, line)
    word, _, value = way.partition(" ")
    if word == "number":
        return str(number)
    if word == "label":
        return texts[number]
    if word == "plus":
        return texts[(number + int(value)) % len(texts)]
    if word == "minus":
        return texts[(number - int(value)) % len(texts)]
    if word == "since":
        ahead = (number - numbers[value]) % len(texts)
        return f"{ahead if 2 * ahead <= len(texts) else ahead - len(texts)} {ahead}"
    begins = number / RATES[base][1]
    if word == "seconds":
        milliseconds = nearest(begins * 1_000)
        return f"{milliseconds // 1_000}.{milliseconds % 1_000:03}"
    there = begins * RATES[value][1]
    others = day(value)[0]
    return f"{others[int(there) % len(others)]} {int(there % 1 * 1_000)}"


# worked by hand: the timebase, the way, a line and its answer
ROWS = [
    ("25", "number", "01:00:00:00", "90000"),
    ("30d", "number", "00:01:00;02", "1800"),
    ("30d", "number", "23:59:59;29", "2589407"),
    ("30d", "label", "17982", "00:10:00;00"),
    ("24", "label", "2073599", "23:59:59:23"),
    ("25", "label", "3600.040", "01:00:00:01"),
    ("24", "label", "0.042", "00:00:00:01"),
    ("25", "plus 250", "23:59:59:24", "00:00:09:24"),
    ("25", "minus 1", "00:00:00:00", "23:59:59:24"),
    ("30d", "plus 1", "00:00:59;29", "00:01:00;02"),
    ("25", "since 10:00:00:00", "09:59:59:24", "-1 2159999"),
    ("25", "since 10:00:00:00", "22:00:00:00", "1080000 1080000"),
    ("24", "seconds", "00:00:00:01", "0.042"),
    ("24 ntsc", "seconds", "01:00:00:00", "3603.600"),
    ("30d", "seconds", "01:00:00;00", "3599.996"),
    ("30", "seconds", "23:59:59:29", "86399.967"),
    ("24", "to 25", "00:00:00:12", "00:00:00:12 500"),
    ("24", "to 30d", "23:59:59:23", "00:00:00;01 340"),
    ("24 ntsc", "to 30 ntsc", "10:00:00:00", "10:00:00:00 0"),
    ("25", "to 24", "23:59:59:24", "23:59:59:23 40"),
]


# ---- whole texts, for conformance

# the shapes of a label, of a number and of seconds, each as far as a line may have come
LABEL, NUMBER, SECONDS = "NN:NN:NN:NN", re.compile(r"\d{1,7}"), re.compile(r"\d{1,5}(\.\d{0,3})?")


def may_go_on(base, line):
    """Whether a line that begins so may still become one that says a label."""
    shape = LABEL[:8] + (";" if base == "30d" else ":") + "NN"
    begun = len(line) <= 11 and all(byte.isdigit() if mark == "N" else byte == mark for byte, mark in zip(line, shape))
    return not line or begun or NUMBER.fullmatch(line) or SECONDS.fullmatch(line)


def wrong_column(base, line):
    """The first column that does not fit, or None if the line says a label."""
    texts, numbers = day(base)
    if line in numbers:
        return None
    if re.fullmatch(r"\d{1,7}|\d{1,5}\.\d{3}", line):
        return 1 if number_of(base, line) >= len(texts) else None
    if len(line) == 11 and may_go_on(base, line):
        hours, minutes, seconds = (int(line[at:at + 2]) for at in (0, 3, 6))
        return 1 if hours > 23 else 4 if minutes > 59 else 7 if seconds > 59 else 10
    fitting = max(length for length in range(len(line) + 1) if may_go_on(base, line[:length]))
    return fitting + 1


def answered(base, way, text):
    """What is written of a text, and the note."""
    written, lines = "", text.split("\n")
    for number, line in enumerate(lines, 1):
        if number == len(lines) and not line:
            break
        column = wrong_column(base, line)
        if column:
            return written, f"tc: refused: line {number} column {column}"
        written += answer(base, way, line) + "\n"
    return written, None


# the timebase, the way, and a text: what is shown, and the words that do not fit
EDGES = "00:00:00{0}00\n00:00:59{0}{1}\n00:10:00{0}00\n12:00:00{0}00\n23:59:59{0}{1}\n"
WAYS = ["number", "label", "seconds", "plus 0", "plus 1", "plus 4294967295", "minus 1", "minus 4294967295"]
REFUSED = ["", "24:00:00{0}00", "00:60:00{0}00", "00:00:60{0}00", "00:00:00{0}{2}", "10:00:00{3}00",
           "1:00:00{0}00", "10:00:00{0}0", "10:00:00{0}000", " 10:00:00{0}00", "10:00:00{0}00 ", "+1", "{4}",
           "12345678", "{5}", "1.00", "1.0000", "123456.000", ".040", "1.", "1,040", "x" * 64, "0" * 64, "0" * 65, "0" * 200]


def cases():
    """The rows of whole texts."""
    for base, (frames, rate) in RATES.items():
        mark, other = (";", ":") if base == "30d" else (":", ";")
        length = len(day(base)[0])
        past = nearest((length - Fraction(1, 2)) / rate * 1_000)
        past = f"{past // 1_000}.{past % 1_000:03}"
        edges = EDGES.format(mark, frames - 1) + f"0\n{length - 1}\n0000001\n0.000\n00001.001\n3600.000\n"
        ways = WAYS + [f"since 12:00:00{mark}00", f"since 23:59:59{mark}{frames - 1}"]
        ways += [f"to {there}" for there in RATES]
        for way in ways:
            yield f"each-way-of-{base.replace(' ', '-')}", base, way, edges
        if "ntsc" in base:
            continue
        for line in REFUSED:
            bad = line.format(mark, frames - 1, frames, other, length, past)
            yield f"what-says-no-label-of-{base}", base, "number", f"0\n1.000\n{bad}\n2\n"
    yield "the-last-line", "25", "label", "1\n2"
    yield "the-last-line", "25", "label", "1\n2\n"
    yield "the-last-line", "25", "label", ""
    yield "the-last-line", "25", "label", "\n"
    yield "the-last-line", "25", "label", "1\n10:00:0"
    yield "the-last-line", "25", "label", "1\n" + "0" * 64
    yield "the-last-line", "25", "label", "1\n" + "0" * 65
    yield "a-label-that-is-dropped", "30d", "number", "00:01:00;02\n00:01:00;00\n"
    yield "a-label-that-is-dropped", "30d", "number", "00:10:00;00\n23:59:00;01\n"
    for base, way, line, _ in ROWS:
        yield "by-hand", base, way, line + "\n"


# words that name no job, and the note
WORDS = [
    ("", "count of words"), ("25", "count of words"), ("25 number x", "count of words"), ("25 plus", "count of words"),
    ("25 plus 1 2", "count of words"), ("25 since", "count of words"), ("25 to", "count of words"),
    ("25 to 30 ntsc ntsc", "count of words"), ("24 ntsc", "count of words"), ("31 plus", "count of words"),
    ("31 number", "value of word 1"), ("31 numbr", "value of word 1"), ("ntsc 24 number", "value of word 1"),
    ("25 numbr", "value of word 2"), ("25 ntsc number", "value of word 2"), ("30d ntsc number", "value of word 2"),
    ("25 numbr 1 2", "value of word 2"), ("24 ntsc numbr", "value of word 3"), ("24 ntsc ntsc", "value of word 3"),
    ("25 plus -1", "dash in word 3"), ("25 plus 4294967296", "value of word 3"), ("25 plus 1x", "value of word 3"),
    ("25 minus 01:00", "value of word 3"), ("25 since 25:00:00:00", "value of word 3"),
    ("25 since 0", "value of word 3"), ("24 ntsc since 10:00:00:24", "value of word 4"),
    ("24 ntsc plus x", "value of word 4"), ("25 to 31", "value of word 3"), ("25 to 25 ntsc", "value of word 4"),
    ("25 to 30 ntcs", "value of word 4"), ("30d to 30d ntsc", "value of word 4"), ("24 ntsc to 31", "value of word 4"),
    ("24 ntsc to 25 ntsc", "value of word 5"), ("25 number number", "count of words"),
]


def spelled(text):
    """A cell of the table."""
    return "=" + text.replace("\n", "\\n") if text else "-"


def write_cases():
    """The rows of the table."""
    counts = {}

    def row(case, words, given, status, note, written):
        counts[case] = counts.get(case, 0) + 1
        print("\t".join([f"labels/{case}-{counts[case]}", words, given, str(status), note, written, "-", "-"]))

    print("# Lines that say labels")
    for words, note in WORDS:
        row("the-first-fault-is-told", f"labels {words}".strip(), "none", 2, f"tc: usage: {note}", "-")
    for case, base, way, text in cases():
        written, note = answered(base, way, text)
        row(case, f"labels {base} {way}", spelled(text), 3 if note else 0, note or "-", spelled(written))
    carriage = "0\n10:00:00:00\r\n"
    written, note = answered("25", "number", carriage)
    row("a-carriage-return", "labels 25 number", carriage.encode().hex(), 3, note, spelled(written))


def main():
    wrong = 0
    if sys.argv[1:] == ["--cases"]:
        write_cases()
        return
    if sys.argv[1:] == ["--day"]:
        for base in RATES:
            for number, text in enumerate(day(base)[0]):
                seconds = answer(base, "seconds", text)
                if number_of(base, seconds) != number:
                    print(f"{base} {text}: {seconds} leads elsewhere")
                    wrong += 1
            print(f"{base}: {len(day(base)[0]):,} labels there and back")
    else:
        for base, way, line, expected in ROWS:
            told = answer(base, way, line)
            if told != expected:
                print(f"labels {base} {way}: {line} gives {told}, and not {expected}")
                wrong += 1
        print(f"{len(ROWS)} rows, {wrong} of them wrong")
    sys.exit(wrong > 0)


if __name__ == "__main__":
    main()
