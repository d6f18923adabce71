#!/usr/bin/env python3
"""A second reading of `ltc-spans`: makes the spans from the lines of `ltc-fly`, and compares.

    bench/spans_by_hand.py [PROGRAM [DAMAGED [FOLDER...]]]      bin/tc, 1000 and examples/ if none are named
    bench/spans_by_hand.py --words FILE.ltci REPORT LIMIT       prints the lines wanted of the words in a report of `ltc-read`

Each recording (.ltci) of the folders is read in both versions, with several limits and both tolerances; and so are DAMAGED
others, made of them at random: intervals are dropped, lengthened, shortened and put in, and pieces of one recording
are put behind those of another. It shares no code with the program but `ltc-fly`, whose lines it takes as they are; with
`--words` it makes the frames by itself, by the rule in docs/reference/formats.md. The seed is 1, or the environment's SEED.
"""
import os
import random
import struct
import subprocess
import sys

TOP = os.path.dirname(os.path.dirname(os.path.abspath(__file__)))


def run(program, words, data):
    """What the program writes of an input, and its status."""
    done = subprocess.run([program, *words], input=data, stdout=subprocess.PIPE, stderr=subprocess.DEVNULL, check=False)
    return done.stdout.decode(), done.returncode


# ---- labels

def is_dropped(minutes, seconds, frames):
    """Drop-frame counting drops frames 0 and 1 of second 0, but not of each tenth minute."""
    return minutes % 10 != 0 and seconds == 0 and frames < 2


DAYS = {}


def day_of(rate, drop):
    """The labels of a day in order, each with its number."""
    if (rate, drop) not in DAYS:
        labels = [(h, m, s, f) for h in range(24) for m in range(60) for s in range(60) for f in range(rate)
                  if not (drop and is_dropped(m, s, f))]
        DAYS[rate, drop] = {label: number for number, label in enumerate(labels)}
    return DAYS[rate, drop]


def steps_between(last, following, rate, direction):
    """How many labels lie from one to the other as the tape runs: the least number, half a day forward."""
    day = day_of(rate, ";" in last)
    place = [day[tuple(int(part) for part in label.replace(";", ":").split(":"))] for label in (last, following)]
    ahead = (place[1] - place[0]) % len(day)
    way = ahead if 2 * ahead <= len(day) else ahead - len(day)
    return way if direction == "forward" else -way


# ---- spans

class Span:
    """The frames from one that does not join to the one before the next break, as the lines of `ltc-fly` say them."""

    def __init__(self, words):
        self.direction = words[1]
        self.frames = [words]

    def heard(self):
        return [frame for frame in self.frames if frame[0] == "heard"]

    def bridged(self):
        last = max(place for place, frame in enumerate(self.frames) if frame[0] == "heard")
        return sum(frame[0] == "invented" for frame in self.frames[:last])

    def line(self, tick_rate, rate):
        heard, bridged = self.heard(), self.bridged()
        first, last = int(heard[0][-1]), int(heard[-1][-1])
        gone = len(heard) + bridged - 1
        speed = 0 if gone == 0 or last == first else 1000 * tick_rate * gone // (rate * (last - first))
        return (f"span {self.direction} {heard[0][2]} {heard[-1][2]} heard {len(heard)} bridged {bridged} "
                f"tick {first} {last} speed {speed}")


def gap_line(before, after, rate):
    """The line between two spans."""
    last, following = before.heard()[-1], after.heard()[0]
    ticks = int(following[-1]) - int(last[-1])
    if (";" in last[2]) != (";" in following[2]):
        how = "count"
    elif before.direction != after.direction:
        how = "turn"
    else:
        how = f"step {steps_between(last[2], following[2], rate, after.direction)}"
    return f"gap ticks {ticks} {how}"


def spans_of(flight):
    """The spans of the lines of `ltc-fly`, and whether the last one goes on to the end of the lines."""
    spans, is_open = [], False
    for line in flight:
        words = line.split()
        if words[0] == "gone":
            is_open = False
        elif words[0] == "invented":
            if is_open:
                spans[-1].frames.append(words)
        elif words[words.index("joined") + 1] == "1" and is_open:
            spans[-1].frames.append(words)
        elif words[words.index("joined") + 1] == "0":
            spans.append(Span(words))
            is_open = True
    return spans, is_open


def wanted(data, flight):
    """The lines of `ltc-spans`, from the header of the file and the lines of `ltc-fly`."""
    rate, tick_rate = data[5], int.from_bytes(data[8:12], "big")
    lines = flight.splitlines()
    is_whole = bool(lines) and lines[-1].startswith("end ")
    spans, is_open = spans_of(lines[:-1] if is_whole else lines)
    written = []
    for place, span in enumerate(spans):
        if place:
            written.append(gap_line(spans[place - 1], span, rate))
        if is_whole or not is_open or span is not spans[-1]:
            written.append(span.line(tick_rate, rate))
    if is_whole:
        end = lines[-1].split()
        heard, bridged = sum(len(span.heard()) for span in spans), sum(span.bridged() for span in spans)
        written.append(f"end intervals {end[2]} spans {len(spans)} heard {heard} bridged {bridged} ticks {end[-1]}")
    return "".join(line + "\n" for line in written)


# ---- frames, from the words of a report

def moved(label, steps, rate):
    """The label `steps` labels further, or back."""
    day = day_of(rate, ";" in label)
    number = (day[tuple(int(part) for part in label.replace(";", ":").split(":"))] + steps) % len(day)
    if (rate, ";" in label) not in LISTS:
        LISTS[rate, ";" in label] = list(day)
    hours, minutes, seconds, frames = LISTS[rate, ";" in label][number]
    return f"{hours:02}:{minutes:02}:{seconds:02}{';' if ';' in label else ':'}{frames:02}"


LISTS = {}


def flown(report, limit, rate):
    """The lines of `ltc-fly`, from those of `ltc-read`."""
    lines, before = [], None
    total = int(report.splitlines()[-1].split()[-1])
    words = [line.split() for line in report.splitlines() if line.startswith("word ")]
    for direction, label, tick, length in [(w[1], w[2], int(w[w.index("tick") + 1]), int(w[w.index("length") + 1])) for w in words] + [
            (None, None, total, 0)]:
        steps, is_gone = 0, False
        if before:
            way, last, ended, lasted = before
            sign = 1 if way == "forward" else -1
            while 2 * (tick - ended) >= (2 * steps + 3) * lasted and not is_gone:
                steps += 1
                is_gone = steps > limit
                lines.append(f"gone tick {ended + steps * lasted}" if is_gone else
                             f"invented {way} {moved(last, sign * steps, rate)} step {steps} tick {ended + steps * lasted}")
        if label:
            joins = before and not is_gone and way == direction and moved(last, sign * (steps + 1), rate) == label
            lines.append(f"heard {direction} {label} joined {int(bool(joins))} tick {tick}")
            before = direction, label, tick, length
    kinds = [line.split()[0] for line in lines]
    intervals = report.splitlines()[-1].split()[2]
    lines.append(f"end intervals {intervals} heard {kinds.count('heard')} invented {kinds.count('invented')} gone {kinds.count('gone')} ticks {total}")
    return "".join(line + "\n" for line in lines)


# ---- recordings

def intervals_of(data):
    """The intervals of a file of version 1 or 2."""
    if data[4] == 1:
        return list(struct.unpack(f">{(len(data) - 12) // 4}I", data[12:]))
    found, at = [], 12
    while at < len(data):
        ticks = int.from_bytes(data[at:at + 2], "big")
        at += 2
        if ticks == 0:
            ticks = int.from_bytes(data[at:at + 4], "big")
            at += 4
        found.append(ticks)
    return found


def file_of(header, intervals):
    """A file of version 1."""
    return header[:4] + b"\x01" + header[5:12] + struct.pack(f">{len(intervals)}I", *intervals)


def damaged(one, other, chance):
    """Intervals with some places hurt, and now and then a piece of another recording, or a piece backward."""
    intervals = list(one)
    for _ in range(chance.choice([1, 2, 3, 8, 20])):
        at = chance.randrange(len(intervals))
        size = chance.choice([1, 1, 2, 40, 160, 400])
        way = chance.randrange(7)
        if way == 0:
            del intervals[at:at + size]
        elif way == 1:
            intervals[at:at] = [chance.randint(1, 2000) for _ in range(size)]
        elif way == 2:
            intervals[at:at + size] = [max(1, ticks + chance.randint(-3, 3)) for ticks in intervals[at:at + size]]
        elif way == 3:
            intervals[at:at + size] = [chance.randint(10_000, 16_777_215)]
        elif way == 4:
            intervals[at:at] = intervals[at:at + size]
        elif way == 5:
            start = chance.randrange(len(other))
            intervals[at:at] = other[start:start + chance.choice([400, 1500, 4000])]
        else:
            end = at + chance.choice([400, 1500, 4000])
            intervals[at:end] = reversed(intervals[at:end])
        intervals = intervals or [1]
    return intervals


def compare(program, data, words, name):
    """Both readings of one input: how many spans it has."""
    flight, status = run(program, ["ltc-fly", *words], data)
    told, other = run(program, ["ltc-spans", *words], data)
    want = wanted(data, flight)
    if told != want or status != other:
        sys.exit(f"{name}, ltc-spans {' '.join(words)}: status {other} for {status}\nwanted:\n{want}\nwritten:\n{told}")
    return sum(line.startswith("span ") for line in want.splitlines()), want


def recordings_in(folders):
    """The recordings of the folders, by their names."""
    for folder in folders:
        for name in sorted(os.listdir(folder)):
            if name.endswith(".ltci"):
                with open(os.path.join(folder, name), "rb") as data:
                    yield name, data.read()


def main():
    words = sys.argv[1:]
    if words and words[0] == "--words":
        with open(words[1], "rb") as data, open(words[2], encoding="ascii") as report:
            header = data.read(12)
            print(wanted(header, flown(report.read(), int(words[3]), header[5])), end="")
        return
    program = words[0] if words else os.path.join(TOP, "bin", "tc")
    count = int(words[1]) if len(words) > 1 else 1000
    files = list(recordings_in(words[2:] or [os.path.join(TOP, "examples")]))
    chance = random.Random(int(os.environ.get("SEED", "1")))
    runs, spans, kinds = 0, 0, {}
    for name, data in files:
        for version in ("1", "2"):
            read = subprocess.run([program, "ltc-convert", version], input=data, stdout=subprocess.PIPE, check=True).stdout
            for limit in ("0", "1", "2", "7", "255"):
                for tolerance in ([], ["worn"]):
                    spans += compare(program, read, [limit, *tolerance], f"{name} in version {version}")[0]
                    runs += 1
    print(f"{len(files)} recordings: {runs} runs, {spans} spans, equal")
    runs, spans = 0, 0
    lists = [(data, intervals_of(data)) for _, data in files]
    for number in range(count):
        header, one = chance.choice(lists)
        data = file_of(header, damaged(one, chance.choice(lists)[1], chance))
        if chance.randrange(8) == 0:
            data = data[:chance.randrange(12, len(data))]
        for words in ([chance.choice(["0", "1", "2", "255"])], [chance.choice(["0", "2", "10"]), "worn"]):
            found, lines = compare(program, data, words, f"damaged {number}")
            spans += found
            runs += 1
            for line in lines.splitlines():
                kind = line.split()[0] if not line.startswith("gap") else " ".join(["gap", line.split()[3]])
                kinds[kind] = kinds.get(kind, 0) + 1
    print(f"{count} damaged: {runs} runs, {spans} spans, equal; lines: {dict(sorted(kinds.items()))}")


if __name__ == "__main__":
    main()
