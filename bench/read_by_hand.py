#!/usr/bin/env python3
"""Reads damaged recordings a second time, by docs/reference/formats.md alone, and compares the lines with the program's.

    bench/read_by_hand.py [COUNT [PROGRAM]]      a thousand recordings and bin/tc if none are named
    bench/read_by_hand.py --cases                writes rows of cases.tsv for `ltc-rough consecutive` and `counted`

A recording is made here: real words in cells whose length shakes, glides or jumps, with intervals dropped, doubled,
cut or moved. Each is read under the three tolerances, and under the rough one with witnesses, with words that follow
one another and with words that count. The seed is printed,
and a run is repeated by the environment's SEED. Run by hand, never in the gate.
"""
import itertools
import os
import random
import subprocess
import sys

TOP = os.path.dirname(os.path.dirname(os.path.abspath(__file__)))
SYNC = 0xbffc
SYSTEMS = {24: 24, 25: 25, 30: 30}
COMMANDS = {"ltc-read": (8, 16, (2, 5), (5, 8)), "ltc-worn": (6, 12, (3, 8), (2, 3)), "ltc-rough": None}


def pair(command, a, b):
    """Whether two neighbouring intervals are unequal."""
    low, high = min(a, b), max(a, b)
    part, whole = COMMANDS[command][2] if COMMANDS[command] else (1, 3)
    return 3 * low < 2 * high and part * high <= whole * low


def is_zero(command, cells, x):
    if command == "ltc-rough":
        return 3 * sum(cells) <= 16 * x <= 5 * sum(cells)
    return COMMANDS[command][0] * abs(x - cells[-1]) <= cells[-1]


def is_half(command, cells, x):
    if command == "ltc-rough":
        return 3 * sum(cells) <= 40 * x <= 7 * sum(cells)
    part, whole = COMMANDS[command][3]
    return 3 * cells[-1] <= 8 * x and whole * x <= part * cells[-1]


def is_one(command, cells, x, y):
    if command == "ltc-rough":
        return is_half(command, cells, x) and is_half(command, cells, y) and is_zero(command, cells, x + y)
    return is_zero(command, cells, x + y) and COMMANDS[command][1] * abs(x - y) <= x + y


def stretches(command, intervals):
    """Each stretch: its place, its cells as (bit, length), and the place where it breaks, if it does."""
    found, start = [], 0
    while start + 1 < len(intervals):
        if not pair(command, intervals[start], intervals[start + 1]):
            start += 1
            continue
        lock = start if intervals[start] > intervals[start + 1] else start + 1
        cells, latest, at, broken = [(0, intervals[lock])], [intervals[lock]] * 4, lock + 1, None
        while at < len(intervals):
            x = intervals[at]
            if is_zero(command, latest, x):
                cell, used = (0, x), 1
            elif not is_half(command, latest, x):
                broken = at
            elif at + 1 == len(intervals):
                break
            elif is_one(command, latest, x, intervals[at + 1]):
                cell, used = (1, x + intervals[at + 1]), 2
            else:
                broken = at + 1
            if broken is not None:
                break
            cells.append(cell)
            latest = latest[1:] + [cell[1]]
            at += used
        found.append((lock, cells, broken))
        if broken is None:
            break
        start = broken
    return found


def fault(system, bits):
    """The name of the first fault of the fields, or None."""
    def at(first, width):
        return bits >> first & (1 << width) - 1
    frame, second, minute, hour = (at(0, 4) + 10 * at(8, 2), at(16, 4) + 10 * at(24, 3), at(32, 4) + 10 * at(40, 3),
                                   at(48, 4) + 10 * at(56, 2))
    tests = [("frame-units", at(0, 4) > 9), ("frames", frame >= SYSTEMS[system]), ("second-units", at(16, 4) > 9),
             ("second-tens", at(24, 3) > 5), ("minute-units", at(32, 4) > 9), ("minute-tens", at(40, 3) > 5),
             ("hour-units", at(48, 4) > 9), ("hours", hour > 23),
             ("dropped-label", system == 30 and at(10, 1) and frame < 2 and second == 0 and minute % 10 != 0)]
    return next((name for name, holds in tests if holds), None)


def candidate(system, rate, way, bits, tick, length):
    name = fault(system, bits)
    if name:
        return "refused %s %s tick %d" % (way, name, tick)
    def at(first, width):
        return bits >> first & (1 << width) - 1
    label = "%d%d:%d%d:%d%d%s%d%d" % (at(56, 2), at(48, 4), at(40, 3), at(32, 4), at(24, 3), at(16, 4),
                                      ";" if system == 30 and at(10, 1) else ":", at(8, 2), at(0, 4))
    user = "".join("%x" % at(first, 4) for first in range(60, 0, -8))
    places = (10, 11, 27, 58, 43) if system == 25 else (10, 11, 43, 58, 59)
    flags = "".join(str(at(first, 1)) for first in places)
    balance = 1 if bin(bits).count("1") % 2 == 0 else 0
    speed = 1000 * rate // (SYSTEMS[system] * length)
    return "word %s %s user %s flags %s balance %d tick %d length %d speed %d" % (
        way, label, user, flags, balance, tick, length, speed)


def has_witness(bits, first, way):
    """Whether the 80 bits from a place on have 16 of another word's sync word on the side away from their own, or the
    stretch does not reach that far."""
    if way == "forward":
        return first < 16 or bits[first - 16 : first] == [SYNC >> place & 1 for place in range(16)]
    return len(bits) < first + 96 or bits[first + 80 : first + 96] == [SYNC >> 15 - place & 1 for place in range(16)]


def label_behind(label, system, steps):
    """The label that is one step on or back, around the day."""
    hours, minutes, seconds, frames = (int(part) for part in label.replace(";", ":").split(":"))
    drops = 2 if ";" in label else 0
    minute = 60 * hours + minutes
    number = (60 * minute + seconds) * SYSTEMS[system] + frames - drops * (minute - minute // 10)
    number = (number + steps) % (86400 * SYSTEMS[system] - drops * 1296)
    if drops:
        tens, rest = divmod(number, 17982)
        number += 18 * tens + (2 * ((rest - 2) // 1798) if rest > 1 else 0)
    seconds, frames = divmod(number, SYSTEMS[system])
    return "%02d:%02d:%02d%s%02d" % (seconds // 3600, seconds // 60 % 60, seconds % 60, ";" if drops else ":", frames)


def joins(first, second, system):
    """Whether one line is of a word that begins where that of another one ends, and counts on the same way."""
    one, two = (line.split() if line and line.startswith("word") else None for line in (first, second))
    if not one or not two or one[1] != two[1]:
        return False
    steps = 1 if one[1] == "forward" else -1
    return int(one[10]) + int(two[12]) == int(two[10]) and label_behind(one[2], system, steps) == two[2]


def counts_on(first, second, system):
    """Whether one line is of a word whose label and place are a frame or two behind those of another one."""
    if not first or not second or first[1] != second[1]:
        return False
    both, apart = int(first[12]) + int(second[12]), int(second[10]) - int(first[10])
    way = 1 if first[1] == "forward" else -1
    return any(
        label_behind(first[2], system, way * frames) == second[2] and abs(20 * apart - 10 * frames * both) <= 3 * both
        for frames in (1, 2)
    )


def counted(lines, system):
    """The lines, of which each word needs one that counts on with it: the word before it, or the next line."""
    words = [line.split() if line.startswith("word") else None for line in lines]
    told, before = [], None
    for line, word, behind in zip(lines, words, words[1:] + [None]):
        if word and not counts_on(before, word, system) and not counts_on(word, behind, system):
            line = "refused %s alone tick %s" % (word[1], word[10])
        told.append(line)
        before = word or before
    return told


def judged(lines, alone, system, asked):
    """The lines, of which some have no witness."""
    told = []
    for at, line in enumerate(lines):
        way = line.split()[1]
        beside = (line, lines[at + 1] if at + 1 < len(lines) else None)
        if way == "backward":
            beside = (lines[at - 1] if at else None, line)
        if at in alone and not (asked == "consecutive" and joins(*beside, system)):
            line = "refused %s alone tick %s" % (way, line.split()[10])
        told.append(line)
    return told


def report(command, system, rate, intervals, asked=None):
    lines, alone, counts = [], set(), {"word": 0, "refused": 0, "lost": 0}
    for lock, cells, broken in stretches(command, intervals):
        ticks = [sum(intervals[:lock])]
        for _, length in cells:
            ticks.append(ticks[-1] + length)
        for first in range(len(cells) - 79):
            bits = [bit for bit, _ in cells[first : first + 80]]
            tick, length = ticks[first + 80], ticks[first + 80] - ticks[first]
            for way, order in (("forward", bits), ("backward", bits[::-1])):
                number = sum(bit << place for place, bit in enumerate(order))
                if number >> 64 == SYNC:
                    line = candidate(system, rate, way, number, tick, length)
                    if asked in ("firm", "consecutive") and line.startswith("word") and not has_witness([bit for bit, _ in cells], first, way):
                        alone.add(len(lines))
                    lines.append(line)
        if broken is not None:
            lines.append("lost interval %d tick %d" % (broken, sum(intervals[: broken + 1])))
    lines = counted(lines, system) if asked == "counted" else judged(lines, alone, system, asked)
    for line in lines:
        counts[line.split()[0]] += 1
    lines.append("end intervals %d words %d refused %d lost %d ticks %d" % (
        len(intervals), counts["word"], counts["refused"], counts["lost"], sum(intervals)))
    return "".join(line + "\n" for line in lines)


def word(chance, system):
    """A word, mostly without a fault."""
    def digits(place, units, tens):
        return (units << place) | (tens << place + 8)
    frame = chance.randrange(SYSTEMS[system])
    bits = SYNC << 64 | digits(0, frame % 10, frame // 10) | digits(16, chance.randrange(10), chance.randrange(6))
    bits |= digits(32, chance.randrange(10), chance.randrange(6)) | digits(48, chance.randrange(4), chance.randrange(3))
    for first in range(4, 64, 8):
        bits |= chance.getrandbits(4) << first
    return bits if chance.random() < 0.9 else bits ^ 1 << chance.randrange(64)


def word_of(chance, system, label):
    """The word of a label, with user bits by chance."""
    bits = SYNC << 64 | sum(chance.randrange(16) << place for place in range(4, 64, 8))
    numbers = [int(part) for part in label.replace(";", ":").split(":")]
    for place, number in zip((48, 32, 16, 0), numbers):
        bits |= number % 10 << place | number // 10 << place + 8
    return bits | (1 << 10 if ";" in label else 0)


def words(chance, system):
    """Some words and how they are played: by chance, or one after another with labels that count on, now and then with a
    piece of one missing."""
    count = chance.randrange(1, 6)
    if chance.random() < 0.5:
        return [(word(chance, system), chance.random() < 0.7, 0) for _ in range(count)]
    is_forward, mark = chance.random() < 0.5, ";" if system == 30 and chance.random() < 0.5 else ":"
    label = "%02d:%02d:%02d%s%02d" % (chance.randrange(24), chance.choice([0, 9, 10, 59, chance.randrange(60)]),
                                      chance.choice([0, 59]), mark, chance.choice([2, SYSTEMS[system] - 1]))
    played = []
    for _ in range(count + 1):
        played.append((word_of(chance, system, label), is_forward, chance.choice([0, 0, chance.randrange(80)])))
        label = label_behind(label, system, 1 if is_forward else -1)
    return played


def made(chance, system):
    """The intervals of some words, whose cells shake and whose speed moves, with damage."""
    cell, shake, glide = chance.choice([16, 24, 100, 352, 5000]), chance.choice([0, 0.02, 0.05, 0.1, 0.15]), chance.uniform(-0.01, 0.01)
    intervals = []
    for bits, is_forward, missing in words(chance, system):
        for place in list(range(80) if is_forward else range(79, -1, -1))[missing:]:
            length = max(4, cell * (1 + chance.gauss(0, shake)))
            if bits >> place & 1:
                first = max(1, round(length / 2 * (1 + chance.gauss(0, shake))))
                intervals += [first, max(1, round(length) - first)]
            else:
                intervals.append(max(1, round(length)))
            cell = min(1 << 20, max(8, cell * (1 + glide)))
    for _ in range(chance.choice([0, 0, 1, 2, 5])):
        at = chance.randrange(len(intervals))
        kind = chance.randrange(4)
        if kind == 0:
            del intervals[at : at + chance.randrange(1, 100)]
        elif kind == 1:
            intervals[at:at] = [max(1, intervals[at] // 2)]
        elif kind == 2:
            intervals[at] = max(1, round(intervals[at] * chance.uniform(0.2, 4)))
        else:
            intervals[at:at] = intervals[at - 60 : at]
        intervals = intervals or [cell]
    return [max(1, min((1 << 24) - 1, int(x))) for x in intervals]


# The cases: words beside which a piece of tape is missing. A tape is its words in their order, each whole or in part.


def part_of(label, first=0, last=80, system=25):
    """The bits of a word from a place on up to another, without user bits."""
    bits = word_of(random.Random(0), system, label) & ~sum(15 << place for place in range(4, 64, 8))
    return [bits >> place & 1 for place in range(first, last)]


def intervals_of(bits):
    """Intervals of cells of 100 ticks, behind an unequal pair."""
    return [length for bit in [0, 1] + bits for length in ([50, 50] if bit else [100])]


def spelled(system, intervals):
    """An interval file of version 2, as a cell of the table has it."""
    parts = ["4c54434902%02x00000000bb80" % system]
    for length, group in itertools.groupby(intervals):
        count = len(list(group))
        parts.append("%04x*%d" % (length, count) if count > 1 else "%04x" % length)
    return " ".join(parts)


def tapes():
    """The name, the system and the intervals of each case."""
    first, second, third = ("10:00:00:%02d" % frame for frame in (3, 4, 5))
    cut = part_of("10:00:00:02", 40, 75)
    forward = cut + part_of(first)
    played = [
        ("a-word-behind-a-cut-is-followed", forward + part_of(second)),
        ("a-word-behind-a-cut-is-followed", forward + part_of(second) + part_of(third)),
        ("a-word-behind-a-cut-is-alone", forward),
        ("a-word-behind-a-cut-is-alone", forward + part_of(third)),
        ("a-word-behind-a-cut-is-alone", forward + part_of(first)),
        ("a-word-behind-a-cut-is-alone", forward + [0] + part_of(second)),
        ("a-word-behind-a-cut-is-alone", forward + part_of("10:00:00:31")),
        ("a-word-behind-a-cut-is-alone", forward + part_of(second)[::-1]),
        ("a-word-behind-a-cut-is-followed-in-part", forward + part_of(second, 0, 60)),
        ("around-the-day", part_of("23:59:59:23", 40, 75) + part_of("23:59:59:24") + part_of("00:00:00:00")),
        ("backward-before-a-cut-it-follows", (cut + part_of(first) + part_of(second))[::-1]),
        ("backward-before-a-cut-it-follows", (cut + part_of(first) + part_of(second) + part_of(third))[::-1]),
        ("backward-before-a-cut-it-is-alone", (cut + part_of(first) + part_of(third))[::-1]),
        ("backward-before-a-cut-it-is-alone", (cut + part_of(first) + [0] + part_of(second))[::-1]),
        ("backward-before-a-cut-it-is-alone", (cut + part_of(first))[::-1]),
    ]
    for name, bits in played:
        yield name, 25, intervals_of(bits)
    for label, behind in (("00:00:59;29", "00:01:00;02"), ("00:00:59;29", "00:01:00:02"), ("00:09:59;29", "00:10:00;00")):
        yield "over-dropped-labels", 30, intervals_of(
            part_of("00:00:59;28", 40, 75, 30) + part_of(label, system=30) + part_of(behind, system=30))
    broken = intervals_of(forward)
    yield "a-break-comes-first", 25, broken + [7] + intervals_of(part_of(second))
    yield "two-cuts", 25, intervals_of(forward + part_of(second) + cut + part_of(first) + part_of(second))


def pairs_apart():
    """Two words with a label some frames on, and so many cells between them: at the edges of the places that count."""
    for frames, edges in ((1, (0, 24, 25)), (2, (55, 56, 80, 104, 105)), (3, (160,))):
        for cells in edges:
            yield part_of("10:00:00:03") + [0] * cells + part_of("10:00:00:%02d" % (3 + frames))


def counted_tapes():
    """The name, the system and the intervals of each case of words that count."""
    first, second = part_of("10:00:00:03"), part_of("10:00:00:04")
    cut = part_of("10:00:00:05", 0, 40) + part_of("20:00:00:18", 40)
    pieces = first + second + cut + part_of("20:00:00:19") + part_of("20:00:00:20")
    for bits in (pieces, pieces[::-1]):
        yield "a-cut-in-phase", 25, intervals_of(bits)
    for bits in (first, first + second, first + first, second + first, first + second[::-1], (first + second)[::-1]):
        yield "two-words", 25, intervals_of(bits)
    for bits in pairs_apart():
        yield "two-words-apart", 25, intervals_of(bits)
        yield "two-words-apart", 25, intervals_of(bits[::-1])
    yield "around-the-day", 25, intervals_of(part_of("23:59:59:24") + part_of("00:00:00:00"))
    for one, two in (("00:00:59;29", "00:01:00;02"), ("00:00:59;28", "00:01:00;02"), ("00:00:59;29", "00:01:00:02")):
        yield "over-dropped-labels", 30, intervals_of(part_of(one, system=30) + part_of(two, system=30))
    broken = intervals_of(first) + [7] + intervals_of(second)
    yield "a-break-comes-between", 25, broken
    yield "a-break-comes-between", 25, broken + [7] + intervals_of(part_of("10:00:00:05"))


def cases():
    """The rows for cases.tsv."""
    for asked, given in (("consecutive", tapes()), ("counted", counted_tapes())):
        counts = {}
        for name, system, intervals in given:
            counts[name] = counts.get(name, 0) + 1
            told = report("ltc-rough", system, 48000, intervals, asked).replace("\n", "\\n")
            yield "\t".join(("%s/%s-%d" % (asked, name, counts[name]), "ltc-rough " + asked, spelled(system, intervals), "0",
                             "-", "=" + told, "-", "-"))


def main():
    if sys.argv[1:] == ["--cases"]:
        print("# A word beside which a piece of tape is missing, and the one that follows it")
        for row in cases():
            print(row)
        return 0
    count = int(sys.argv[1]) if len(sys.argv) > 1 else 1000
    program = sys.argv[2] if len(sys.argv) > 2 else os.path.join(TOP, "bin", "tc")
    seed = int(os.environ.get("SEED", random.randrange(1 << 32)))
    print("seed", seed)
    readings = [(command, None) for command in COMMANDS] + [("ltc-rough", asked) for asked in ("firm", "consecutive", "counted")]
    chance, totals, wrong = random.Random(seed), dict.fromkeys(readings, 0), 0
    for number in range(count):
        system = chance.choice([24, 25, 30])
        intervals = made(chance, system)
        head = b"LTCI\x01" + bytes([system]) + b"\0\0" + (48000).to_bytes(4, "big")
        data = head + b"".join(x.to_bytes(4, "big") for x in intervals)
        for command, asked in readings:
            words = [program, command] + [asked] * bool(asked)
            told = subprocess.run(words, input=data, stdout=subprocess.PIPE, check=False).stdout.decode()
            wanted = report(command, system, 48000, intervals, asked)
            totals[command, asked] += wanted.count("word ")
            if told != wanted:
                wrong += 1
                with open("/tmp/tc-by-hand-%d-%s.ltci" % (number, command), "wb") as kept:
                    kept.write(data)
    print("recordings %d, words %s, reports that differ %d" % (
        count, ", ".join("%s %d" % (" ".join(filter(None, it[0])), it[1]) for it in totals.items()), wrong))
    return 1 if wrong else 0


if __name__ == "__main__":
    sys.exit(main())
