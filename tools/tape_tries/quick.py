"""What is quick gives the same as what is slow: words whose witness is seen without asking `tc`, and peaks."""
import io
import os
import random
import struct
import subprocess

from tape_report import levels
from tape_report.spans import Reading
from tape_report.witnesses import have_witnesses

from . import running
from .making import TC, code, intervals, wav
from .running import TAPE, has, run, tape

LABELS = ("00:00:59", "23:59:59", "09:59:59", "10:00:00", "00:59:59")


def told(words, data):
    ran = subprocess.run([TC, *words], input=data, stdout=subprocess.PIPE, stderr=subprocess.DEVNULL, check=False)
    return ran.stdout


def damaged(chance, parts):
    """Intervals of which some are lost, made longer or shorter, or are too many."""
    for _ in range(chance.randrange(1, 6) if chance.random() < 0.5 else 0):
        at = chance.randrange(len(parts))
        parts[at : at + chance.randrange(1, 3)] = chance.choice(
            ([], [parts[at] // 2 or 1], [parts[at] // 2 or 1] * 2, [parts[at], 1], [parts[at], 40_000])
        )
    return parts


def spliced(chance):
    """An interval file of one to three pieces of code, each with its own count, direction, ends and faults."""
    whole, head = [], b""
    for _ in range(chance.randrange(1, 4)):
        count = chance.choice(("24", "25", "30", "30d"))
        label = f"{chance.choice(LABELS)}{';' if count == '30d' else ':'}{chance.choice((5, 10, 20, 22)):02}"
        cell, direction = chance.choice(("320", "400", "333")), chance.choice(("forward", "backward"))
        made = told(["ltc-make", count, direction, label, str(chance.randrange(1, 40)), cell, "768000"], b"")
        head, parts = made[:12], list(struct.unpack(f">{(len(made) - 12) // 4}I", made[12:]))
        begin = chance.choice((0, 0, chance.randrange(200)))
        whole += damaged(chance, parts[begin : len(parts) - chance.choice((0, 0, chance.randrange(1, 200)))] or [320])
        whole += chance.choice(([], [], [10], [5_000], [768_000]))
    return head + struct.pack(f">{len(whole)}I", *whole)


def try_witnesses_seen(room):
    """Where each word is seen to have its witness, `tc` says the same with a witness asked for and without."""
    path, seen, unseen = os.path.join(room, "words"), 0, 0
    for seed in range(400 if running.is_long else 80):
        made = spliced(random.Random(seed))
        for system in (24, 25, 30):
            data = made[:5] + bytes([system]) + made[6:]
            free = told(["ltc-rough"], data)
            with open(path, "wb") as file:
                file.write(free)
            if not have_witnesses(Reading(1, system, 48_000, "plain", path=path)):
                unseen += 1
                continue
            seen += 1
            assert free == told(["ltc-rough", "consecutive"], data), f"seed {seed}, system {system}: other words"
            spans = [told(["ltc-spans", "2", "rough", *asked], data) for asked in ([], ["consecutive"])]
            assert spans[0] == spans[1], f"seed {seed}, system {system}: other spans"
    assert seen > 60 and unseen > 20, (seen, unseen)
    return f"{seen} seen, {unseen} not"


def made_of(label, frames):
    return told(["ltc-make", "25", "forward", label, str(frames), "384", "768000"], b"")


def try_word_alone(room):
    """A word whose witness is not seen is not taken for one that has it."""
    path = os.path.join(room, "words")
    apart = made_of("01:00:00:00", 1) + made_of("07:00:00:00", 1)[12:]
    for data, wanted in ((apart, False), (made_of("01:00:00:00", 3), True)):
        with open(path, "wb") as file:
            file.write(told(["ltc-rough"], data))
        with open(path, encoding="ascii") as lines:
            assert "word forward" in lines.read()
        assert have_witnesses(Reading(1, 25, 48_000, "plain", path=path)) == wanted, wanted


def starts_of(room, samples):
    """The report of a tape, and how `tc` was started for it."""
    log, program = os.path.join(room, "log"), os.path.join(room, "tc")
    with open(program, "w", encoding="ascii") as file:
        file.write(f"#!/bin/sh\necho \"$@\" >> '{log}'\nexec '{os.path.abspath(TC)}' \"$@\"\n")
    os.chmod(program, 0o755)
    path = wav(os.path.join(room, "a.wav"), 48_000, [samples])
    ended, out, notes = run(TAPE, path, env={**os.environ, "TC": program})
    assert ended == 0, notes
    with open(log, encoding="ascii") as file:
        starts = sorted(file.read().splitlines())
    os.unlink(log)
    return out, starts


def try_starts_of_a_good_tape(room):
    """A good tape is sliced once and read once as each system, with no witness asked for, which takes five times as
    long; one with a word alone is read again, and the word is not heard.
    """
    good = intervals("25", "10:00:00:00", 60)
    out, starts = starts_of(room, code(48_000, good))
    has(out, "heard         60 frames")
    assert starts == ["ltc-rough"] * 3 + ["ltc-spans 2 rough"] * 3 + ["wav-ltc 25 1 250"], starts
    # Behind a word that is cut stands one of another place: before it is no sync word, and no word follows.
    out, starts = starts_of(room, code(48_000, [*good[:-50], *intervals("25", "05:00:00:00", 1)]))
    has(out, "heard         59 frames", "10:00:00:00 to 10:00:02:08")
    assert "05:00" not in out and "ltc-rough consecutive" in starts, f"{out}{starts}"
    has(tape(os.path.join(room, "a.wav"), "--all-words")[0], "05:00:00:00")


def slow_level(data, bits, tracks, track):
    """Peak and crossings, a sample after another."""
    block, first, width = bits // 8 * tracks, bits // 8 * (track - 1), bits // 8
    blocks = [data[at + first : at + first + width] for at in range(0, len(data) - block + 1, block)]
    values = [256 * (it[0] - 128) if bits == 8 else int.from_bytes(it[-2:], "little", signed=True) for it in blocks]
    sides = [value < 0 for value in values]
    return max(map(abs, values), default=0), sum(one != other for one, other in zip(sides, sides[1:]))


def try_peaks(room):
    """The level of any samples is what a loop over them finds."""
    chance = random.Random(1)
    for number in range(1_000):
        bits, tracks, many = chance.choice((8, 16, 24, 32)), chance.choice((1, 2, 5)), chance.randrange(300)
        values = chance.choice((range(256), (0, 255, 128, 127, 1), (0, 0, 0, 3), (255, 255, 254)))
        data = bytes(chance.choice(values) for _ in range(bits // 8 * tracks * many + chance.randrange(3)))
        track = chance.randrange(tracks) + 1
        blocks = len(data) // (bits // 8 * tracks)
        found = levels.level_in(io.BytesIO(data), bits, tracks, track, max(1, blocks), 10_000)
        wanted = slow_level(data, bits, tracks, track)
        assert (found.peak, round(found.crossings)) == wanted, (number, bits, tracks, found, wanted)
