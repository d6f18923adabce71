#!/usr/bin/env python3
"""Rows of crates/tc_conformance/data/cases.tsv at the edges of each rule, and of words and lines that other software wrote.

    bench/edges_by_hand.py      writes the rows

What a row says was worked by hand, or is known from other software, and stands beside its input here. The inputs are spelled
from the tables of docs/reference/formats.md, and the rest of each report is that of the second readings beside this file, which
share no code with the program. Where a hand and a second reading say different things, no row is written.
"""
import sys
from itertools import groupby

import chase_by_hand
import labels_by_hand
import luma_by_hand
import read_by_hand
import spans_by_hand
import wave_by_hand

SYNC = 0xbffc
MOST = 16_777_215
FAR = 5_000
RATES = {"24": 24, "25": 25, "30": 30, "30d": 30}
counts = {}


def row(name, words, given, output, status=0, note="-"):
    counts[name] = counts.get(name, 0) + 1
    print("\t".join([f"{name}-{counts[name]}", words, given, str(status), note, output, "-", "-"]))


def text(written):
    return "=" + written.replace("\n", "\\n") if written else "-"


def told(written, *hand):
    """A report, if it has the lines that a hand worked, and none of these is missing."""
    lines = written.splitlines()
    for line in hand:
        if not any(one.startswith(line) for one in lines):
            sys.exit(f"no line {line!r} in\n{written}")
    return text(written)


def numbers(values, width):
    """Numbers in hexadecimal, equal neighbours with how many they are."""
    parts = []
    for value, same in groupby(values):
        count = len(list(same))
        parts.append(f"{value:0{width}x}" + (f"*{count}" if count > 1 else ""))
    return " ".join(parts)


# ---- recordings

def header(system, rate=48_000, version=1):
    return f"4c544349{version:02x}{system:02x}0000{rate:08x}"


def file_of(system, intervals, rate=48_000):
    """An interval file, in version 2 if it is long."""
    if len(intervals) < 40:
        return f"{header(system, rate)} {numbers(intervals, 8)}"
    parts = []
    for is_long, same in groupby(intervals, lambda ticks: ticks > 65_535):
        parts.append(" ".join(f"0000{ticks:08x}" for ticks in same) if is_long else numbers(list(same), 4))
    return f"{header(system, rate, 2)} {' '.join(parts)}"


def word(system, label, user=0, flags="00000", balanced=True):
    """The 80 bits of a word, by the table of SMPTE 12M."""
    hours, minutes, seconds, frames = (int(part) for part in label.replace(";", ":").split(":"))
    bits = SYNC << 64
    for first, value in ((0, frames), (16, seconds), (32, minutes), (48, hours)):
        bits |= value % 10 << first | value // 10 << first + 8
    for group in range(8):
        bits |= (user >> 4 * group & 15) << 8 * group + 4
    if ";" in label:
        flags = "1" + flags[1:]
    for place, flag in zip((10, 11, 27, 58, 43) if system == 25 else (10, 11, 43, 58, 59), flags):
        bits |= int(flag) << place
    if bin(bits).count("1") % 2 == balanced:
        bits |= 1 << (59 if system == 25 else 27)
    return bits


def digits(values, flags="00000", system=30):
    """The bits of eight digits, tens of hours first, whatever they are."""
    bits = SYNC << 64
    for first, value in zip((56, 48, 40, 32, 24, 16, 8, 0), values):
        bits |= value << first
    for place, flag in zip((10, 11, 27, 58, 43) if system == 25 else (10, 11, 43, 58, 59), flags):
        bits |= int(flag) << place
    return bits


def played(bits, way="forward", cell=24):
    """The intervals of the 80 cells of a word."""
    places = range(80) if way == "forward" else range(79, -1, -1)
    return [ticks for place in places for ticks in ((cell // 2, cell - cell // 2) if bits >> place & 1 else (cell,))]


def lead(cell=24):
    """The cells of the bits 0 and 1, by which a reader locks."""
    return [cell, cell // 2, cell - cell // 2]


def read(system, intervals, command="ltc-read"):
    return read_by_hand.report(command, system, 48_000, intervals)


def flown(system, intervals, limit):
    return spans_by_hand.flown(read(system, intervals), limit, system)


def spans(system, intervals, limit):
    return spans_by_hand.wanted(bytes.fromhex(header(system)), flown(system, intervals, limit))


def reading(name, command, system, intervals, *hand):
    row(name, command, file_of(system, intervals), told(read(system, intervals, command), *hand))


# ---- the edges of the tolerances: where a stretch breaks, if it does. What comes last belongs to no cell

def lost(intervals, at):
    """The line of the break at an interval, or that of the end without one."""
    if at is None:
        return f"end intervals {len(intervals)} words 0 refused 0 lost 0 "
    return f"lost interval {at} tick {sum(intervals[:at + 1])}"


def edge(name, command, intervals, at):
    intervals = [*intervals, FAR]
    reading(f"edges/{name}", command, 25, intervals, lost(intervals, at))


def pairs():
    """An equal pair and a wild one begin nothing, so nothing breaks behind them; an unequal one begins a stretch."""
    for a, b, is_step in ((24, 16, 0), (24, 15, 1), (15, 24, 1), (25, 10, 1), (100, 39, 0), (MOST, 1, 0)):
        edge("neighbours-that-are-a-pair", "ltc-read", [a, b], 2 if is_step else None)
    edge("neighbours-of-a-worn-tape", "ltc-worn", [24, 9], 2)
    edge("neighbours-of-a-worn-tape", "ltc-read", [24, 9], None)
    for a, b, is_step in ((99, 33, 1), (100, 33, 0), (99, 66, 0)):
        edge("neighbours-of-a-rough-tape", "ltc-rough", [a, b], 2 if is_step else None)


def cells():
    """Behind a first cell of 24 ticks: a zero has another one behind it, and a half nothing."""
    first = [15, 24]
    for x, is_zero, is_half in ((21, 1, 0), (20, 0, 0), (27, 1, 0), (28, 0, 0), (15, 0, 1), (16, 0, 0), (9, 0, 1), (8, 0, 0)):
        edge("a-zero-or-a-half", "ltc-read", [*first, x, x] if is_zero else [*first, x], 4 if is_zero else 3 if is_half else 2)
    edge("a-zero-or-a-half", "ltc-read", [130, 200, 130], 2)
    edge("a-zero-or-a-half", "ltc-read", [*first, 72], 2)
    for c, x, y, is_one in ((24, 12, 12, 1), (24, 13, 12, 1), (24, 13, 11, 0), (32, 17, 15, 1), (64, 34, 30, 1), (64, 35, 29, 0),
                            (24, 14, 14, 0), (24, 10, 10, 0), (24, 12, 24, 0), (30, 16, 14, 0)):
        edge("two-halves", "ltc-read", [c * 5 // 8, c, x, y], 4 if is_one else 3)
    edge("the-length-of-the-last-cell", "ltc-read", [*first, 12, 13, 28, 28], 6)
    edge("the-length-of-the-last-cell", "ltc-worn", [*first, 26, 30, 30], 5)
    edge("the-length-of-the-last-cell", "ltc-worn", [*first, 26, 31], 3)
    for x, is_worn, is_normal in ((16, 3, 2), (28, 4, 2)):
        more = [x, x] if x == 28 else [x]
        edge("cells-of-a-worn-tape", "ltc-worn", [*first, *more], is_worn)
        edge("cells-of-a-worn-tape", "ltc-read", [*first, *more], is_normal)
    edge("cells-of-a-worn-tape", "ltc-worn", [*first, 13, 11], 4)
    edge("cells-of-a-worn-tape", "ltc-read", [*first, 13, 11], 3)


def rough_cells():
    """Behind a first cell of 100 ticks, which counts four times."""
    first = [60, 100]
    for x, is_zero, is_half in ((74, 0, 0), (75, 1, 0), (125, 1, 0), (126, 0, 0), (29, 0, 0), (30, 0, 1), (70, 0, 1), (71, 0, 0)):
        edge("a-rough-zero-or-half", "ltc-rough", [*first, x, x] if is_zero else [*first, x], 4 if is_zero else 3 if is_half else 2)
    for x, y, is_one in ((70, 55, 1), (70, 56, 0), (45, 30, 1), (46, 29, 0), (44, 30, 0)):
        edge("two-rough-halves", "ltc-rough", [*first, x, y], 4 if is_one else 3)
    # the sums of the latest four: 425, 445, 475, 485, 451, and five sixteenths of each
    for more, most in (([125], 132), ([125, 120], 139), ([125, 120, 130], 148), ([125, 120, 130, 110], 151),
                       ([125, 120, 130, 110, 91], 140)):
        edge("the-sum-of-the-latest-four", "ltc-rough", [*first, *more, most], 3 + len(more))
        edge("the-sum-of-the-latest-four", "ltc-rough", [*first, *more, most + 1], 2 + len(more))
    for last, at in ((74, 7), (75, None)):
        given = [100, 100, 50, 50, 100, 50, 50, last]
        reading("edges/the-sum-of-the-latest-four", "ltc-rough", 25, given, lost(given, at))


def greatest_cells():
    """Ones that grow up to the greatest cell, two intervals of the greatest length, behind which such an interval is a half."""
    grown, cell = [10_485_760, MOST], MOST
    while cell < 2 * MOST:
        half = min(MOST, (cell + cell // 8) // 2)
        grown, cell = [*grown, half, half], 2 * half
    edge("the-greatest-cells", "ltc-read", [*grown, MOST], len(grown) + 1)
    edge("the-greatest-cells", "ltc-read", [*grown, MOST, MOST], len(grown) + 2)


# ---- words

# libltc 1.3.2 encoded these, and the words of a label of zeros and of one hour are worked from the table
WORDS = {
    24: [("22:59:58:21", 0, "00000", 1, 0xbffc_0202_0509_0508_0201), ("22:59:58:23", 0, "00000", 1, 0xbffc_0202_0509_0d08_0203)],
    25: [("09:59:55:01", 0x2a5f19c3, "01010", 1, 0xbffc_24a9_55f9_1595_c831),
         ("09:59:55:03", 0x2a5f19c3, "01010", 1, 0xbffc_2ca9_55f9_1595_c833),
         ("17:17:17:17", 0xdeadbeef, "00000", 1, 0xbffc_d9e7_a1d7_b1e7_e1f7),
         ("00:00:00:00", 0, "00000", 1, 0xbffc_0800_0000_0000_0000)],
    30: [("10:00:01:29", 0x89abcdef, "00000", 1, 0xbffc_8190_a0b0_c0d1_e2f9),
         ("00:00:55;01", 0, "10000", 1, 0xbffc_0000_0000_0d05_0401), ("00:01:05;01", 0, "10000", 1, 0xbffc_0000_0001_0005_0401),
         ("00:00:00:00", 0, "00000", 1, 0xbffc_0000_0000_0800_0000), ("00:00:00:00", 0, "00000", 0, 0xbffc_0000_0000_0000_0000),
         ("01:00:00;00", 0, "10000", 1, 0xbffc_0001_0000_0800_0400)],
}

# the fault, and the digits of hours, minutes, seconds and frames, with all later faults behind the first; in a word the tens
# of hours have two bits
FAULTS = [
    (30, None, "00000", (2, 3, 5, 9, 5, 9, 2, 9)), (30, "frame-units", "00000", (3, 15, 7, 15, 7, 15, 3, 10)),
    (24, None, "00000", (0, 0, 0, 0, 0, 0, 2, 3)), (24, "frames", "00000", (3, 15, 7, 15, 7, 15, 2, 4)),
    (25, None, "00000", (0, 0, 0, 0, 0, 0, 2, 4)), (25, "frames", "00000", (3, 15, 7, 15, 7, 15, 2, 5)),
    (30, "frames", "00000", (3, 15, 7, 15, 7, 15, 3, 0)), (30, "second-units", "00000", (3, 15, 7, 15, 7, 10, 2, 9)),
    (30, "second-tens", "00000", (3, 15, 7, 15, 6, 9, 2, 9)), (30, "minute-units", "00000", (3, 15, 7, 10, 5, 9, 2, 9)),
    (30, "minute-tens", "00000", (3, 15, 6, 9, 5, 9, 2, 9)), (30, "hour-units", "00000", (3, 10, 5, 9, 5, 9, 2, 9)),
    (30, "hours", "00000", (2, 4, 5, 9, 5, 9, 2, 9)), (30, "dropped-label", "10000", (2, 3, 5, 9, 0, 0, 0, 1)),
    (30, None, "10000", (2, 3, 5, 9, 0, 0, 0, 2)), (30, None, "10000", (2, 3, 5, 0, 0, 0, 0, 0)),
    (30, "dropped-label", "10000", (0, 0, 0, 1, 0, 0, 0, 0)), (30, None, "00000", (0, 0, 0, 1, 0, 0, 0, 0)),
    (25, None, "10000", (0, 0, 0, 1, 0, 0, 0, 0)),
]

ONE_HOUR = 0xbffc_0001_0000_0000_0000


def words():
    for system, rows in WORDS.items():
        hand, tape = [], lead()
        for label, user, flags, balance, bits in rows:
            if word(system, label, user, flags, balance) != bits:
                sys.exit(f"{label} at {system} is not {bits:x}")
            tape += played(bits)
            hand.append(f"word forward {label} user {user:08x} flags {flags} balance {balance} ")
        reading("reading/words-of-other-encoders", "ltc-read", system, tape, *hand)
    for system, fault, flags, values in FAULTS:
        mark = ";" if flags[0] == "1" and system == 30 else ":"
        pairs = [f"{values[at]}{values[at + 1]}" for at in (0, 2, 4, 6)]
        hand = f"refused forward {fault} tick 1968" if fault else f"word forward {':'.join(pairs[:3])}{mark}{pairs[3]} "
        reading("reading/each-fault-at-its-edge", "ltc-read", system, lead() + played(digits(values, flags, system)), hand)
    both = lead() + played(0xbffc_0000_0000_0000_3ffd)
    reading("reading/a-window-that-ends-both-ways", "ltc-read", 25, both, "refused forward frame-units tick 1968",
            "refused backward frame-units tick 1968")
    for way in ("forward", "backward"):
        reading("reading/a-word-is-read-one-way", "ltc-read", 25, lead() + played(ONE_HOUR, way),
                f"word {way} 01:00:00:00 user 00000000 flags 00000 balance 1 tick 1968 length 1920 ", "end intervals 97 words 1 ")
    # the zero is the lock; then the word from its end, whose bits are ones in the sync word and at the hour
    behind = [24, 12, 12, 24, *[12] * 24, *[24] * 17, 12, 12, *[24] * 47, 24, 5]
    reading("reading/a-word-behind-one-zero", "ltc-read", 25, behind, "word backward 01:00:00:00 user 00000000 flags 00000 "
            "balance 1 tick 1944 length 1920 ", "lost interval 95 tick 1949")


# ---- recordings that are made

def made():
    """The cells of a shape that reach their last length: behind the first three no bit of the word is a one, but for its balance
    and its sync word."""
    for words, cells in (("25 48000", (25, 12, 13, 25)), ("805 48000 800 3", (805, 401, 401, 800)),
                         ("800 48000 805 3", (800, 401, 402, 805)), ("25 48000 25 3", (25, 12, 13, 25))):
        last = int(words.split()[2]) if len(words.split()) > 2 else 25
        intervals = [*cells[:3], *played(word(25, "00:00:00:00"), cell=last)]
        row("made/cells-that-reach-their-last-length", f"ltc-make 25 forward 00:00:00:00 1 {words}", "none",
            f"{header(25)} {numbers(intervals, 8)}")
    bits = [0, 1, *(word(25, "00:00:00:00") >> place & 1 for place in range(80))]
    grown = [ticks for place, bit in enumerate(bits) for ticks in ([8 + place] * 2 if bit else [16 + 2 * place])]
    row("made/a-shape-at-its-edges", "ltc-make 25 forward 00:00:00:00 1 16 48000 8388607 2", "none",
        f"{header(25)} {numbers(grown, 8)}")
    for words, fault in (("15 48000 16 0", 5), ("16 48000 8388608 0", 7), ("800 48000 400 51", 8), ("400 48000 800 51", 8)):
        row("made/a-shape-past-its-edge", f"ltc-make 25 forward 00:00:00:00 1 {words}", "none", "-", 2,
            f"tc: usage: value of word {fault}")
    for cell, first in ((17, (17, 8, 9)), (8_388_607, (8_388_607, 4_194_303, 4_194_304))):
        row("jam/the-first-two-cells", f"ltc-jam 0 {cell} 48000", header(25), f"{header(25)} {numbers(first, 8)}")
    for count, system, label, bits in (("25", 25, "00:00:00:00", 0xbffc0800000000000000), ("30", 30, "00:00:00:00", 0xbffc0000000008000000),
                                       ("30d", 30, "01:00:00;00", 0xbffc0001000008000400)):
        for way in ("forward", "backward"):
            row("jam/a-frame-is-its-word-in-its-direction", "ltc-jam 0 17 48000", f"tc ltc-make {count} {way} {label} 1 24 48000",
                f"{header(system)} {numbers(lead(17) + played(bits, way, 17), 8)}")


# ---- the frames of a flywheel

def flight(name, system, intervals, limit, *hand):
    row(f"frames/{name}", f"ltc-fly {limit}", file_of(system, intervals), told(flown(system, intervals, limit), *hand))


# a word and the one that follows it, over what drop-frame counting drops, and over midnight
NEXT = (("30d", "forward", "00:00:59;29", "00:01:00;02"), ("30d", "backward", "00:01:00;02", "00:00:59;29"),
        ("30d", "backward", "00:10:00;00", "00:09:59;29"), ("25", "forward", "23:59:59:24", "00:00:00:00"),
        ("24", "backward", "00:00:00:00", "23:59:59:23"), ("30", "backward", "10:20:30:00", "10:20:29:29"))


def frames():
    hour, third = word(25, "01:00:00:00"), word(25, "01:00:00:03")
    for gap, joined, tick in ((4_752, 0, 8_688), (4_751, 1, 8_687)):
        flight("more-are-due-than-the-limit", 25, lead() + played(hour) + [gap] + lead() + played(third), 2,
               "invented forward 01:00:00:01 step 1 tick 3888", "invented forward 01:00:00:02 step 2 tick 5808",
               *["gone tick 7728"] * (not joined), f"heard forward 01:00:00:03 joined {joined} tick {tick}")
    # a word of 641 ticks that ends at tick 657: its frames are due 961 and a half behind it, and each 641 later
    odd = lead(8) + played(word(30, "00:00:00:00"), cell=8)
    odd[-3] += 1
    for silence, invented in ((961, 0), (962, 1), (1_602, 1), (1_603, 2), (2_243, 2), (2_244, 3)):
        last = [f"invented forward 00:00:00:0{invented} step {invented} tick {657 + 641 * invented}"] * (invented > 0)
        flight("a-frame-is-due-between-two-ticks", 30, odd + [silence], 255, *last,
               f"end intervals {len(odd) + 1} heard 1 invented {invented} gone 0 ")
    for silence, gone in ((2_879, 0), (2_880, 1)):
        flight("the-least-limit", 25, lead() + played(hour) + [silence], 0, *["gone tick 3888"] * gone,
               f"end intervals 98 heard 1 invented 0 gone {gone} ")
    for count, way, label, following in NEXT:
        system = RATES[count]
        flight("invented-labels-over-an-edge", system, lead() + played(word(system, label), way) + [2_880], 1,
               f"invented {way} {following} step 1 tick 3888")
        row("frames/the-next-word-joins", "ltc-fly 0", f"tc ltc-make {count} {way} {label} 2 24 48000",
            told(flown(system, lead() + played(word(system, label), way) + played(word(system, following), way), 0),
                 f"heard {way} {label} joined 0 tick 1968", f"heard {way} {following} joined 1 tick 3888"))
    for label, way, joined in (("00:00:00:11", "forward", 1), ("00:00:00:11", "backward", 0), ("00:00:00;11", "forward", 0),
                               ("00:00:00:12", "forward", 0), ("00:00:00:09", "forward", 0)):
        flight("what-does-not-join", 30, lead() + played(word(30, "00:00:00:10")) + played(word(30, label), way), 3,
               "heard forward 00:00:00:10 joined 0 tick 1968", f"heard {way} {label} joined {joined} tick 3888")


# ---- gaps

GAPS = (
    (25, "01:00:00:00", "forward", "01:00:00:01", "forward", "step 1"), (25, "01:00:00:00", "forward", "01:00:00:00", "forward", "step 0"),
    (25, "01:00:00:05", "forward", "01:00:00:03", "forward", "step -2"), (25, "23:59:59:24", "forward", "00:00:00:01", "forward", "step 2"),
    (25, "00:00:00:01", "backward", "23:59:59:24", "backward", "step 2"),
    (25, "01:00:00:03", "backward", "01:00:00:05", "backward", "step -2"),
    (25, "01:00:00:03", "backward", "01:00:00:03", "backward", "step 0"),
    (25, "01:00:00:00", "forward", "13:00:00:00", "forward", "step 1080000"),
    (25, "01:00:00:00", "backward", "13:00:00:00", "backward", "step -1080000"),
    (25, "01:00:00:00", "forward", "13:00:00:01", "forward", "step -1079999"),
    (30, "00:00:59;29", "forward", "00:01:00;02", "forward", "step 1"), (30, "00:00:59:29", "forward", "00:01:00:02", "forward", "step 3"),
    (24, "01:00:00:00", "forward", "01:00:00:01", "backward", "turn"), (24, "01:00:00:00", "backward", "00:59:59:23", "forward", "turn"),
    (30, "01:00:00:00", "forward", "01:00:00;01", "forward", "count"), (30, "01:00:00:00", "forward", "01:00:00;01", "backward", "count"),
)


def gaps():
    """A silence of three words, in which the code is gone, so the words on both sides are spans of their own."""
    for system, last, before, following, behind, how in GAPS:
        tape = lead() + played(word(system, last), before) + [5_760] + lead() + played(word(system, following), behind)
        row("spans/labels-on-both-sides-of-a-gap", "ltc-spans 0", file_of(system, tape),
            told(spans(system, tape, 0), f"gap ticks 7728 {how}", f"span {before} {last} {last} heard 1 bridged 0 tick 1968 1968 speed 0",
                 f"span {behind} {following} {following} heard 1 bridged 0 tick 9696 9696 speed 0"))
    first, second, fifth = (word(25, f"01:00:00:0{frame}") for frame in (0, 1, 4))
    begun = lead() + played(first) + played(second)
    for tape, last, heard, bridged in ((begun + [4_800], "01:00:00:01", 2, 0),
                                       (begun + [3_792] + lead() + played(fifth) + [2_880], "01:00:00:04", 3, 2)):
        row("spans/a-dropout-is-bridged-by-the-frame-behind-it", "ltc-spans 2", file_of(25, tape),
            told(spans(25, tape, 2), f"span forward 01:00:00:00 {last} heard {heard} bridged {bridged} "))
    for silence, ticks in ((1_872, 3_840), (6_000, 7_968)):
        tape = lead() + played(first) + [silence] + lead() + played(word(25, "01:00:00:03"))
        row("spans/a-gap-whether-the-code-was-gone-or-not", "ltc-spans 1", file_of(25, tape),
            told(spans(25, tape, 1), "span forward 01:00:00:00 01:00:00:00 heard 1 bridged 0 ", f"gap ticks {ticks} step 3"))


# ---- sound

def samples(values):
    return numbers([int.from_bytes(value.to_bytes(2, "little", signed=True), "big") for value in values], 4)


def sliced(name, words, values, rate, intervals):
    row(f"sound/{name}", f"pcm-ltc 25 {words}", samples(values), f"{header(25, rate)} {numbers(intervals, 8)}".strip())


def wave(body, tracks=1, rate=8_000, block=2, bits=16, code=1):
    """A RIFF file of these fields, whose size counts nothing."""
    fields = (tracks.to_bytes(2, "little") + rate.to_bytes(4, "little") + (rate * block % 2**32).to_bytes(4, "little")
              + block.to_bytes(2, "little") + bits.to_bytes(2, "little"))
    return (b"RIFF\0\0\0\0WAVEfmt \x10\0\0\0" + code.to_bytes(2, "little") + fields + b"data" + len(body).to_bytes(4, "little")
            + body)


def bytes_of(values):
    return b"".join(value.to_bytes(2, "little", signed=True) for value in values)


def waved(name, words, data, hand=None, fault=None):
    """A sound file, and the intervals of `wave_by_hand`, which have to be these."""
    system, track, least = (int(value) for value in words.split()[:3])
    try:
        rate, values, refused = wave_by_hand.read_wave(data, track, 1)
    except wave_by_hand.Refused as error:
        rate, values, refused = None, [], error
    note = "-" if refused is None else f"tc: refused: {refused.args[0]} at byte {refused.args[1]}"
    output = "-"
    if rate is not None:
        found = list(wave_by_hand.found_intervals(words.split()[3:], system, least, rate, values, refused is None))
        if hand is not None and found != hand:
            sys.exit(f"{name}: {found}, and not {hand}")
        output = f"{header(system, 16 * rate)} {numbers(found, 8)}".strip()
    if fault is not None and note != f"tc: refused: {fault}":
        sys.exit(f"{name}: {note}, and not {fault}")
    row(f"sound-files/{name}", f"wav-ltc {words}", data.hex(), output, 3 if refused else 0, note)


# eight samples of 8 bits, by `sox -n -r 8000 -c 1 -b 8 out.wav synth 0.001 sine 1000`
SOX_EIGHT = (b"RIFF\x2c\x00\x00\x00WAVEfmt\x20\x10\x00\x00\x00\x01\x00\x01\x00\x40\x1f\x00\x00\x40\x1f\x00\x00\x01\x00\x08\x00data"
             b"\x08\x00\x00\x00\x86\xbe\xda\xbf\x80A\x26A")

# four blocks of two tracks of 24 bits, by `sox -n -r 8000 -c 2 -b 24 -t wav - synth 0.0005 sine 1000 sine 500`
SOX_STEREO = (b"RIFF\x60\x00\x00\x00WAVEfmt\x20\x28\x00\x00\x00\xfe\xff\x02\x00\x40\x1f\x00\x00\x80\xbb\x00\x00\x06\x00\x18\x00\x16"
              b"\x00\x18\x00\x03\x00\x00\x00\x01\x00\x00\x00\x00\x00\x10\x00\x80\x00\x00\xaa\x008\x9bqfact\x04\x00\x00\x00\x04\x00"
              b"\x00\x00data\x18\x00\x00\x00\xe6\x05\x087\x27\x02h\x08\x3e\xf9M\x24\x2a\x98\x5bbK\x3c\xe1\x0a\x3eU\xaaZ")

# eight samples of 16 bits in a file that ffmpeg could not seek in, and the same by `-rf64 always`
FFMPEG_STREAM = (b"RIFF\xff\xff\xff\xffWAVEfmt\x20\x10\x00\x00\x00\x01\x00\x01\x00\x40\x1f\x00\x00\x80\x3e\x00\x00\x02\x00\x10\x00LIST"
                 b"\x1a\x00\x00\x00INFOISFT\x0e\x00\x00\x00Lavf59.27.100\x00data\xff\xff\xff\xff\x00\x00P\x0b\xff\x0fP\x0b\x00\x00"
                 b"\xb0\xf4\x01\xf0\xb0\xf4")
FFMPEG_LONG = (b"RF64\xff\xff\xff\xffWAVEds64\x1c\x00\x00\x00z\x00\x00\x00\x00\x00\x00\x00\x10\x00\x00\x00\x00\x00\x00\x00\x08\x00\x00"
               b"\x00\x00\x00\x00\x00\x00\x00\x00\x00fmt\x20\x10\x00\x00\x00\x01\x00\x01\x00\x40\x1f\x00\x00\x80\x3e\x00\x00\x02\x00"
               b"\x10\x00LIST\x1a\x00\x00\x00INFOISFT\x0e\x00\x00\x00Lavf59.27.100\x00data\xff\xff\xff\xff\x00\x00P\x0b\xff\x0fP"
               b"\x0b\x00\x00\xb0\xf4\x01\xf0\xb0\xf4")


def sound():
    sliced("samples-at-the-threshold", "48000 1000", [1_000], 48_000, [])
    sliced("samples-at-the-threshold", "48000 1000", [999, 1_000, -999, -1_000, -999, 999, 1_000, -32_768], 48_000, [3, 1])
    # of 16 ticks a sample, the crossings are after 12, after all of them, and after 8; five and a third of them are 6, and
    # ten and two thirds 11; and the greatest threshold, between the two ends of what a sample can be
    sliced("crossings-on-the-line-between-samples", "48000 1000 16", [-2_000, 2_000, -1_000, 3_000], 768_000, [20, 8])
    sliced("crossings-on-the-line-between-samples", "48000 1000 16", [-2_000, 0, 3_000, -3_000], 768_000, [21])
    sliced("crossings-on-the-line-between-samples", "1562500 32767 64", [-32_768, 32_767, -32_768, 0], 100_000_000, [64])
    three = [-900] * 3 + [900] * 3
    waved("sums-from-the-first-sample", "25 1 100 3", wave(bytes_of(three + [-900] * 3 + [900])), [62, 49])
    waved("sums-from-the-first-sample", "25 1 1 1 deep", wave(bytes_of(three)), [42])
    # pieces of 32 ticks and of 16, at 200 samples a second and 100
    waved("pieces-as-they-pass", "25 1 1 1 deep live", wave(bytes_of(three), rate=200), [32, 10, 32])
    waved("pieces-as-they-pass", "25 1 1 1 deep live", wave(bytes_of([0] * 5), rate=200), [32, 32])
    waved("pieces-as-they-pass", "25 1 1 1 deep live", wave(bytes_of([0] * 5), rate=100), [16] * 4)
    row("sound/no-piece-before-a-crossing", "pcm-ltc 25 100 1 16 deep live", samples([0] * 5), header(25, 1_600))
    # a threshold of one tells the sign of each sample
    for track, data in ((1, SOX_EIGHT), (1, SOX_STEREO), (2, SOX_STEREO), (1, FFMPEG_STREAM), (1, FFMPEG_LONG)):
        waved("short-files-of-other-programs", f"25 {track} 1", data)
    odd = (b"RIFF\0\0\0\0WAVEJUNK\3\0\0\0fmt\0" + wave(b"4\x12\xff\xff\1")[12:] + b"\0data\2\0\0\0\1\1")
    waved("chunks-of-odd-lengths", "25 1 1", odd)
    open_long = (b"BW64\0\0\0\0WAVEds64\x10\0\0\0" + bytes(16) + wave(b"", 2, 48_000, 8, 32)[12:36] + b"data\xff\xff\xff\xff"
                 + b"\1\2\3\4\5\6\7\x88\1\2\3\x84\5\6\7\x08")
    for track in (1, 2):
        waved("samples-of-32-bits-without-a-length", f"25 {track} 1", open_long)
    waved("a-field-past-its-edge", "25 2 1000", wave(b"", 2, 48_000, 0, 0), fault="format at byte 34")
    waved("a-field-past-its-edge", "25 2 1000", wave(b"", 0, 48_000, 0, 16), fault="format at byte 22")
    head = b"RIFF\0\0\0\0WAVE"
    for data, fault in ((head + b"LIST\3\0\0\0abc", "truncated at byte 23"), (head + b"data\0\0\0\0", "format at byte 12"),
                        (b"RF64\0\0\0\0WAVEdata\xfe\xff\xff\xff", "format at byte 12"),
                        (head + b"ds64\1\0\0\0\0\0data\0\0\0\0", "format at byte 22")):
        waved("the-place-of-a-fault", "25 1 1000", data, fault=fault)


# ---- lines of vertical interval code

def line_file(system, length, fields):
    """A line file of fields, each of lines that are lists of runs."""
    parts = [f"5649544c01{system:02x}0000{length:08x}"]
    for lines in fields:
        parts.append(f"{len(lines):02x}")
        for runs in lines:
            parts.append(f"{len(runs):02x} {numbers(runs, 4)}")
    return " ".join(parts)


def runs_of(bits, length=460):
    """The runs of a line up to its last high one. Cell i begins at i times the length by 115, rounded down."""
    places = [place for place in range(91) if place == 0 or (bits >> place & 1) != (bits >> place - 1 & 1)]
    return [behind * length // 115 - place * length // 115 for place, behind in zip(places, places[1:])]


def said(system, length, lines, reasons, name):
    """A field a line, and the reasons that they say nothing, or the words that they say."""
    written = ""
    for field, reason in enumerate(reasons):
        written += f"field {field} {reason}\n"
    agreed = sum(reason.startswith("word") for reason in reasons)
    written += f"end fields {len(reasons)} agreed {agreed} conflict 0 nothing {len(reasons) - agreed}\n"
    row(f"vitc/{name}", "vitc-read", line_file(system, length, [[line] for line in lines]), text(written))


# what ffmpeg 5.1.9 (`readvitc`) read of the address, and what was put in of the rest, by the table of SMPTE 12M: the system, the
# label, the user bits, the flags, the field mark and the 90 bits
LINES = (
    (25, "09:00:00:04", 0, "00000", 0, 0x351_0042_5004_0100_4010_0411),
    (25, "21:59:59:17", 0xffff_ffff, "00000", 0, 0x07d_f27c_5f57_e5f5_7e5f_17dd),
    (25, "21:59:59:21", 0x3c7d_749b, "01001", 1, 0x3b1_3a70_57d7_6575_5259_a6c5),
    (25, "22:00:00:01", 0xa215_4033, "10011", 1, 0x021_ae48_9185_4140_4013_44c5),
    (25, "22:00:00:07", 0x3278_391b, "11110", 0, 0x1b9_3648_9706_0138_6411_c6dd),
    (30, "23:59:59:19", 0, "00000", 1, 0x0cd_0240_d054_250d_4250_1425),
    (30, "17:29:44:05", 0x6b3d_95ca, "00000", 0, 0x2d1_616d_d327_6594_551c_0695),
    (30, "10:29:00;02", 0, "10000", 0, 0x04d_0140_1024_2500_4010_4409),
    (30, "10:29:00;02", 0, "10000", 1, 0x045_0140_1024_2508_4010_4409),
)

# bits with one thing wrong at 30, and the first fault of each
WRONG = (
    (0x101_0040_1004_0100_4010_0001, "sync-pair 1"), (0x301_0040_1004_0100_4010_0401, "check 1"),
    (0x129_0040_1004_0100_4010_0429, "frame-units"), (0x32d_616d_d327_6794_54dc_2689, "sync-pair 4"),
    (0x225_616d_d327_649c_54dc_2689, "sync-pair 4"), (0x3a5_61ed_d327_659c_54dc_2689, "sync-pair 7"),
    (0x329_616d_d327_6594_545c_268d, "check 7"), (0x361_616d_d327_659c_54dc_268d, "check 6"),
    (0x321_616d_d327_659c_74dc_2689, "check 2"), (0x2f5_616d_d327_6594_551c_06b1, "frame-units"),
    (0x2f9_616d_d327_659c_551c_3685, "frames"), (0x119_616d_d327_6594_56dc_069d, "second-units"),
    (0x1d1_616d_d327_659f_551c_069d, "second-tens"), (0x2fd_616d_d327_7d94_551c_06a1, "minute-units"),
    (0x2ad_616d_d367_659c_551c_06a1, "minute-tens"), (0x1a1_616e_9327_6594_551c_06a5, "hour-units"),
    (0x129_626d_1327_659c_551c_06a5, "hours"), (0x3b1_616d_d337_4590_541c_4681, "dropped-label"),
)


def lines():
    for system in (25, 30):
        rows = [row for row in LINES if row[0] == system]
        said(system, 1_840, [runs_of(bits, 1_840) for *_, bits in rows],
             [f"word {label} user {user:08x} flags {flags} mark {mark}" for _, label, user, flags, mark, _ in rows],
             "words-that-other-software-read")
    said(30, 460, [runs_of(bits) for bits, _ in WRONG], [f"nothing {reason}" for _, reason in WRONG], "lines-with-one-thing-wrong")


# ---- messages

# an address with the four bits of each of its pieces, piece 0 first, as mido 1.2.10 reads them out of messages that it made: four
# addresses two frames apart, over midnight, a minute, an hour, and minutes that drop labels
PIECES = {
    ("24", "forward"): (("23:59:59:20", "41b3b371"), ("23:59:59:22", "61b3b371"), ("00:00:00:00", "00000000"), ("00:00:00:02", "20000000")),
    ("25", "forward"): (("11:29:59:22", "61b3d1b2"), ("11:29:59:24", "81b3d1b2"), ("11:30:00:01", "1000e1b2"), ("11:30:00:03", "3000e1b2")),
    ("30d", "forward"): (("16:44:59;26", "a1b3c205"), ("16:44:59;28", "c1b3c205"), ("16:45:00;02", "2000d205"), ("16:45:00;04", "4000d205")),
    ("30", "forward"): (("19:39:59:27", "b1b37237"), ("19:39:59:29", "d1b37237"), ("19:40:00:01", "10008237"), ("19:40:00:03", "30008237")),
    ("24", "backward"): (("15:08:00:02", "200080f0"), ("15:08:00:00", "000080f0"), ("15:07:59:22", "61b370f0"), ("15:07:59:20", "41b370f0")),
    ("25", "backward"): (("00:00:00:03", "30000002"), ("00:00:00:01", "10000002"), ("23:59:59:24", "81b3b373"), ("23:59:59:22", "61b3b373")),
    ("30d", "backward"): (("20:20:00;02", "20004145"), ("20:20:00;00", "00004145"), ("20:19:59;28", "c1b33145"), ("20:19:59;26", "a1b33145")),
    ("30", "backward"): (("17:00:00:02", "20000017"), ("17:00:00:00", "00000017"), ("16:59:59:28", "c1b3b307"), ("16:59:59:26", "a1b3b307")),
}

# the first bytes of the address in a full message, by the table of MIDI 1.0
FULL = {("24", "forward"): "173b3b14", ("25", "forward"): "2b1d3b16", ("30d", "forward"): "502c3b1a", ("30", "forward"): "73273b1b",
        ("24", "backward"): "0f080003", ("25", "backward"): "20000004", ("30d", "backward"): "54140003", ("30", "backward"): "71000003"}


def messages():
    """Two frames carry an address: forward it and the one after it, backward the one after it and it."""
    for (count, way), addresses in PIECES.items():
        order = range(8) if way == "forward" else range(7, -1, -1)
        written = f"f07f7f0101{FULL[count, way]}f7" + "".join(
            f"f1{piece:x}{bits[piece]}" for _, bits in addresses for piece in order)
        first = addresses[0][0]
        if way == "backward":
            first = labels_by_hand.answer(count, "plus 1", first)
        row("midi/two-frames-carry-an-address", "ltc-mtc 0", f"tc ltc-make {count} {way} {first} 8 24 48000", written)
    label, following = word(30, "01:37:52:16"), word(30, "01:37:52:17")
    turn = lead() + played(label) + played(following) + played(following, "backward") + played(label, "backward")
    row("midi/a-run-begins-at-a-turn", "ltc-mtc 0", file_of(30, turn),
        "f07f7f010161253410f7f100f111f124f133 f145f152f161f176 f07f7f010161253411f7f176f161f152f145 f133f124f111f100")


# ---- labels

def labels():
    for words, answer in (
            ("number 24 00:00:00:00", 0), ("number 24 23:59:59:23", 2_073_599), ("number 25 23:59:59:24", 2_159_999),
            ("number 30 23:59:59:29", 2_591_999), ("number 30d 00:00:00;00", 0), ("label 24 2073599", "23:59:59:23"),
            ("label 25 2159999", "23:59:59:24"), ("label 30d 0", "00:00:00;00"), ("label 30d 17982", "00:10:00;00"),
            ("label 30d 107892", "01:00:00;00"), ("label 30d 2589407", "23:59:59;29")):
        row("words/numbers-and-labels-at-their-edges", words, "none", f"={answer}\\n")
    for words in ("label 24 2073600", "label 25 2160000", "label 30 2592000", "label 30d 2589408"):
        row("words/a-number-past-the-day", words, "none", "-", 2, "tc: usage: value of word 2")
    for base, way, given, answer in (
            ("30d", "plus 1", "00:00:59;29\n00:09:59;29\n", "00:01:00;02\n00:10:00;00\n"),
            ("30d", "minus 1", "00:01:00;02\n", "00:00:59;29\n"), ("25", "minus 1", "00:00:00:00\n", "23:59:59:24\n"),
            ("24", "plus 1", "23:59:59:23\n", "00:00:00:00\n"),
            ("25", "since 00:00:00:00", "23:59:59:24\n12:00:00:00\n12:00:00:01\n00:00:00:00\n",
             "-1 2159999\n1080000 1080000\n-1079999 1080001\n0 0\n"),
            ("25", "since 12:00:00:00", "00:00:00:00\n", "1080000 1080000\n")):
        if labels_by_hand.answered(base, way, given) != (answer, None):
            sys.exit(f"labels {base} {way}: {given!r} gives another answer than {answer!r}")
        row("labels/over-an-edge", f"labels {base} {way}", text(given), text(answer))
    # the first and the last label of each hour, and with drop-frame counting of each minute in the first and the last one
    for base in RATES:
        texts = labels_by_hand.day(base)[0]

        def part(at):
            label = texts[at % len(texts)]
            return label[:5] if base == "30d" and label[:2] in ("00", "23") else label[:2]

        places = [at for at in range(len(texts)) if part(at) != part(at + 1) or part(at) != part(at - 1)]
        both = ["".join(f"{it}\n" for it in them) for them in ([texts[at] for at in places], places)]
        for way, given, answer in (("number", *both), ("label", *both[::-1])):
            row(f"labels/first-and-last-labels-of-{base}", f"labels {base} {way}", text(given), text(answer))


def many_words():
    """Lines of more words than a command has, which want no memory, whatever their number."""
    long = "0123456789" * 4
    for number, other in ((3, long), (4, "x"), (5, "x"), (8, "x"), (9, "x"), (16, "x"), (17, long), (32, "x"), (33, "x"), (64, "x"),
                          (65, "x"), (100, "x"), (128, "x"), (129, "x"), (200, "x"), (256, "x"), (257, "x"), (302, long)):
        row("words/many-words-want-no-memory", " ".join(["version", *[other] * (number - 1)]), "none", "-", 2,
            "tc: usage: count of words")


# ---- steps of a chase

P, W = "play", "wait"
UP, DOWN = 80, -80

# the count, the label at which it begins, how the master moves, and for each row what comes in it (the command, the number to
# locate, the number that the master reads, the slip) and what comes of it (state, error, order, loss, and the position)
TRACES = (
    ("a-slip-of-sixty", "25", 0, UP, ((P, None, 0, 0, "locked", 0, 80, "", 80), ("", None, 1, 60, "locked", 0, 80, "", 220),
     ("", None, 2, 0, "pulling", -60, 20, "window", 240), ("", None, 3, 0, "locked", 0, 80, "", 320),
     ("", None, None, 0, "pulling", 0, 0, "no-code", 320))),
    ("the-slip-alone-is-left", "25", 0, UP, ((P, None, 0, -40, "locked", 0, 80, "", 40), ("", None, 1, 8, "locked", 40, 104, "", 152),
     ("", None, 2, 8, "locked", 8, 88, "", 248), ("", None, 3, 8, "locked", -8, 72, "", 328), ("", None, 4, 8, "locked", -8, 72, "", 408))),
    ("the-slip-alone-is-left", "25", 100, DOWN, ((P, None, 100, 9, "locked", 0, -80, "", 7929), ("", None, 99, 9, "locked", -9, -89, "", 7849),
     ("", None, 98, 9, "locked", -9, -89, "", 7769))),
    ("the-slip-alone-is-left", "25", 0, UP, ((P, None, 0, 33, "locked", 0, 80, "", 113), ("", None, 1, 33, "locked", -33, 56, "", 202),
     ("", None, 2, 0, "pulling", -42, 38, "window", 240))),
    ("masters-over-midnight", "25", 2_159_999, UP, ((P, None, 2_159_999, 3, "locked", 0, 80, "", 3), ("", None, 0, -8, "locked", -3, 77, "", 72),
     ("", None, 1, 0, "locked", 8, 88, "", 160))),
    ("masters-over-midnight", "30d", 1, DOWN, ((P, None, 1, -5, "locked", 0, -80, "", 207_152_635), ("", None, 0, 0, "locked", 5, -75, "", 207_152_560),
     ("", None, 2_589_407, 8, "locked", 0, -80, "", 207_152_488), ("", None, 2_589_406, 0, "locked", -8, -88, "", 207_152_400))),
    ("half-a-frame", "24", 0, UP, (("", None, None, 40, "waiting", 0, 0, "", 40), (P, None, 1, -25, "locked", 40, 104, "", 119),
     ("", None, 2, 0, "pulling", 41, 121, "window", 240), ("", None, 3, 0, "locked", 0, 80, "", 320))),
    ("masters-that-jump", "25", 0, UP, ((P, None, 0, 0, "locked", 0, 80, "", 80), ("", None, 1000, 0, "pulling", 79_920, 1360, "window", 1440),
     ("", None, 1001, 0, "pulling", 78_640, 1360, "", 2800))),
    ("masters-that-jump", "25", 0, UP, ((P, None, 1_080_000, 0, "pulling", 86_400_000, 1360, "", 1360),)),
    ("masters-that-jump", "25", 0, DOWN, ((P, None, 1_080_001, 0, "pulling", -86_399_920, -1360, "", 172_798_640),)),
    ("a-frame-gone", "25", 90_000, UP, ((P, None, 90_000, 0, "locked", 0, 80, "", 7_200_080), ("", None, None, 0, "pulling", 0, 0, "no-code", 7_200_080),
     ("", None, 90_002, 0, "pulling", 80, 160, "", 7_200_240), ("", None, 90_003, 0, "locked", 0, 80, "", 7_200_320))),
    ("a-label-is-located", "25", 0, UP, (("locate", 25, None, 0, "locating", 2000, 2000, "", 2000), ("", None, None, 0, "waiting", 0, 0, "", 2000))),
    ("a-label-is-located", "25", 0, DOWN, (("locate", 100, 7, 0, "locating", 8000, 2560, "", 2560), ("", None, 6, 0, "locating", 5440, 2560, "", 5120),
     ("", None, 5, 0, "locating", 2880, 2560, "", 7680), ("", None, 4, -40, "locating", 320, 320, "", 7960), ("", None, 3, 0, "waiting", 40, 0, "", 7960))),
    ("a-label-is-located", "25", 25, UP, (("locate", 25, None, 0, "waiting", 0, 0, "", 2000),)),
    ("commands-in-each-state", "30", 0, UP, (("", None, 0, 5, "waiting", 0, 0, "", 5), (W, None, 0, 0, "waiting", 0, 0, "", 5),
     ("locate", 10, 0, 0, "locating", 795, 795, "", 800), (P, None, None, 0, "pulling", 0, 0, "", 800), (P, None, None, 0, "pulling", 0, 0, "", 800),
     (P, None, 10, 0, "locked", 0, 80, "", 880), (P, None, 11, 0, "locked", 0, 80, "", 960), (P, None, None, 0, "pulling", 0, 0, "no-code", 960),
     (W, None, 12, 0, "waiting", 0, 0, "", 960), (P, None, 12, 0, "locked", 0, 80, "", 1040), (W, None, None, 0, "waiting", 0, 0, "", 1040),
     (P, None, 13, 0, "locked", 0, 80, "", 1120), ("locate", 0, 14, 0, "locating", -1120, -1120, "", 0), (W, None, 15, 0, "waiting", 0, 0, "", 0),
     ("locate", 2, None, 0, "locating", 160, 160, "", 160), ("locate", 3, None, 0, "locating", 80, 80, "", 240), ("", None, None, 0, "waiting", 0, 0, "", 240))),
    # positions after a move, up to the greatest slip, on the shortest and the longest day
    ("positions-after-a-move", "24", 2_073_599, UP, (("", None, None, 79, "waiting", 0, 0, "", 165_887_999),
     ("", None, None, 1_000_000, "waiting", 0, 0, "", 999_999), ("", None, None, 1_000_000, "waiting", 0, 0, "", 1_999_999))),
    ("positions-after-a-move", "30", 0, UP, (("", None, None, -1_000_000, "waiting", 0, 0, "", 206_360_000),
     ("", None, None, -1_000_000, "waiting", 0, 0, "", 205_360_000))),
    ("positions-after-a-move", "30d", 2_589_407, UP, (("", None, None, 79, "waiting", 0, 0, "", 207_152_639), ("", None, None, 1, "waiting", 0, 0, "", 0))),
    ("positions-after-a-move", "25", 0, UP, (("", None, None, -1, "waiting", 0, 0, "", 172_799_999), ("", None, None, 1, "waiting", 0, 0, "", 0),
     ("", None, None, 5, "waiting", 0, 0, "", 5), ("", None, None, -88, "waiting", 0, 0, "", 172_799_917))),
)


def traces():
    for name, count, start, motion, rows in TRACES:
        texts = labels_by_hand.day(count)[0]
        chase = chase_by_hand.Chase(80 * len(texts), 80 * start)
        script, written, losses = "", "", 0
        for number, (command, target, master, slip, *hand) in enumerate(rows, 1):
            given = (command, target, None if master is None else (master, motion), slip)
            state, error, order, loss = chase.step(*given)
            if [state, error, order, loss, chase.position] != [*hand[:3], hand[3] or "none", hand[4]]:
                sys.exit(f"{name}, row {number}: {state} {error} {order} {loss} {chase.position}, and not {hand}")
            losses += loss != "none"
            script += chase_by_hand.fields_of(texts, given) + "\n"
            written += (f"step {number} {state} error {error} order {order} loss {loss} at "
                        f"{texts[chase.position // 80]}+{chase.position % 80:02}\n")
        written += f"end steps {len(rows)} losses {losses}\n"
        row(f"chase/{name}", f"chase {count} {texts[start]}", text(script), text(written))
    row("chase/rows-of-a-script", "chase 30d 00:00:00;00", text("play,,00:00:00;00,forward,-40\nlocate,00:01:00;02,,,\n\n"
        "wait,,23:59:59;29,backward,1000000"), text("step 1 locked error 0 order 80 loss none at 00:00:00;00+40\n"
        "step 2 locating error 143960 order 2560 loss none at 00:00:01;02+40\n"
        "step 3 waiting error 0 order 0 loss none at 00:06:58;04+40\nend steps 3 losses 0\n"))


# ---- rows of pixels

# in each ten bits a 1 and a 0, and behind them a byte: 05, a3, 0f, c6, 31, 9e, 00, ff and 72 in hexadecimal
PIXELS = 0x1c9_ff40_19e4_c5c6_43da_3415


def pixels():
    bits = [PIXELS >> place & 1 for place in range(90)]
    wherever = b"".join(luma_by_hand.drawn(bits, 384, begin) for begin in (1, 2, 3, 4, 9, 14, 19, 24))
    levels = [luma_by_hand.drawn(bits, 384, 8, dark=dark, light=light)
              for dark, light in ((200, 212), (0, 255), (50, 58), (50, 57), (50, 50))]
    two = luma_by_hand.drawn(bits, 384, 8) + luma_by_hand.drawn(bits, 384, 9, dark=90, light=130)
    line = luma_by_hand.field_bytes([bits])
    for name, words, fields, hand in (("a-row-wherever-it-begins", "25 384 1 0 1", wherever, line * 8),
                                      ("eight-levels-are-enough", "25 384 1 0 1", b"".join(levels), line * 3 + b"\0\0"),
                                      ("two-rows-as-one", "25 384 2 0 2", two, luma_by_hand.field_bytes([bits] * 3))):
        found = luma_by_hand.line_file(*(int(value) for value in words.split()), fields)
        if found[12:] != hand:
            sys.exit(f"pixels/{name}: another line file")
        row(f"pixels/{name}", f"luma-vitc {words}", luma_by_hand.spelled(fields), found.hex())


def main():
    print("# At the edges of each rule, and of other software")
    for part in (pairs, cells, rough_cells, greatest_cells, words, made, frames, gaps, sound, lines, messages, labels, many_words, traces,
                 pixels):
        part()


if __name__ == "__main__":
    main()
