"""Tapes, flywheels and MIDI Time Code by the library's functions, set beside what the program writes."""
import struct
import subprocess

from library_tries.midi import damaged, mtc_line

COUNTS = ("24", "25", "30", "30d")
REPORTS = ("ltc-read", "ltc-worn", "ltc-rough")
ASKED = ((), ("firm",), ("consecutive",), ("counted",))
HEARD, FRAME, LABEL = struct.Struct("<6I2Q"), struct.Struct("<10IQ"), struct.Struct("<8IQ")
WAYS = ("forward", "backward")
KINDS = ("heard", "invented", "gone")


class Differs(Exception):
    """What is not as it is to be."""


def run(words, given):
    """What a command wrote, and its status."""
    ended = subprocess.run(words, input=given, stdout=subprocess.PIPE, stderr=subprocess.PIPE, check=False)
    return ended.stdout, ended.returncode


def tape(chance, intervals):
    """A count, and the intervals of a tape: code, or code with holes, turned words, hiss and numbers at random."""
    count = chance.choice(COUNTS)
    ticks = []
    for _ in range(chance.randrange(1, 4)):
        hours, minutes, seconds = chance.randrange(24), chance.randrange(60), chance.randrange(60)
        label = f"{hours:02}:{minutes:02}:{seconds:02}{';' if count == '30d' else ':'}10"
        ticks += intervals(count, label, chance.randrange(2, 30), chance.choice(WAYS))
        if chance.random() < 0.3:
            ticks += [chance.randrange(1, 5_000) for _ in range(chance.randrange(200))]
    if chance.random() < 0.5:
        hiss = chance.choice((0.02, 0.05, 0.2))
        ticks = [max(1, round(x * (1 + chance.uniform(-hiss, hiss)))) for x in ticks]
    for _ in range(chance.randrange(4)):
        hole = chance.randrange(len(ticks))
        ticks[hole : hole + chance.randrange(1, 400)] = [chance.choice((1, 3_000_000, 16_777_215))]
    return count, ticks


def file_of(program, count, ticks):
    """An interval file: the header that the program makes, and these intervals."""
    label = f"01:00:00{';' if count == '30d' else ':'}00"
    made = run([program, "ltc-make", count, "forward", label, "1", "1500", "9600000"], b"")[0]
    return made[:12] + struct.pack(f">{len(ticks)}I", *ticks)


def report_of(program, words, made):
    """The lines of a report, and its last one."""
    lines = run([program, *words], made)[0].decode().splitlines()
    return [line.split(" speed ")[0] for line in lines[:-1]], lines[-1]


def first_difference(told, found, wanted):
    if found == wanted:
        return
    pairs = enumerate(zip(found, wanted))
    first = next((n for n, (one, other) in pairs if one != other), min(len(found), len(wanted)))
    raise Differs(f"{told}: line {first} is {found[first : first + 2]} for {wanted[first : first + 2]}")


def frame_line(numbers):
    """The line of a frame in the program's report."""
    kind, direction, joined, step, count, hours, minutes, seconds, frames, zero, tick = numbers
    if zero != 0 or (kind != 1 and joined != 0) or (kind != 2 and step != 0):
        raise Differs(f"a frame with a number that says nothing of it: {numbers}")
    if kind == 3:
        if (direction, count, hours, minutes, seconds, frames) != (0,) * 6:
            raise Differs(f"the end of invention has a label: {numbers}")
        return f"gone tick {tick}"
    label = f"{hours:02}:{minutes:02}:{seconds:02}{';' if count == 3 else ':'}{frames:02}"
    more = f"joined {joined}" if kind == 1 else f"step {step}"
    return f"{KINDS[kind - 1]} {WAYS[direction]} {label} {more} tick {tick}"


def heard_in(count, lines):
    """The words of a report, as they are told to a flywheel."""
    told = b""
    for line in lines:
        if line.startswith("word "):
            parts = line.split()
            label = [int(part) for part in parts[2].replace(";", ":").split(":")]
            number = 3 if ";" in parts[2] else COUNTS.index(count.rstrip("d"))
            tick, length = (int(parts[parts.index(name) + 1]) for name in ("tick", "length"))
            told += HEARD.pack(number, *label, WAYS.index(parts[1]), tick, length)
    return told


def try_tape(program, programs, chance, intervals, lines_of):
    """One tape, in pieces and with rooms of several sizes: how many events and how many frames there were."""
    reads, turns, midi = programs
    count, ticks = tape(chance, intervals)
    made, system = file_of(program, count, ticks), count.rstrip("d")
    tolerance = chance.randrange(3)
    firm = chance.choice((0, 0, 1, 2, 3)) if tolerance == 2 else 0
    words = [REPORTS[tolerance], *ASKED[firm]]
    least = 4 if firm == 2 else 3
    wanted, _ = report_of(program, words, made)
    raw = struct.pack(f"={len(ticks)}I", *ticks)
    for piece, room in ((1, least), (7, least + 1), (1_024, chance.randrange(least, 9)), (1_000_000, 1_000)):
        how = [chance.choice(reads), system, str(tolerance), str(firm), str(piece), str(room)]
        how += ["moved"] if chance.random() < 0.5 else []
        found, status = run(how, raw)
        told = f"{' '.join(words)} of {count} in pieces of {piece} with room for {room}"
        if status != 0:
            raise Differs(f"{told}: status {status}")
        first_difference(told, lines_of(found), wanted)
    for room in map(str, range(least)):
        found, status = run([reads[0], system, str(tolerance), str(firm), "1024", room], raw)
        if status != 0 or found:
            raise Differs(f"room for {room}: status {status}, or something was taken")
    for wrong in (0, 16_777_216, 4_294_967_295):
        place = chance.randrange(len(ticks))
        bad = struct.pack(f"={place + 2}I", *ticks[:place], wrong, 1_000)
        front = report_of(program, words, file_of(program, count, ticks[:place]))[0]
        found, status = run([chance.choice(reads), system, str(tolerance), str(firm), "1024", "9"], bad)
        if status != 4:
            raise Differs(f"an interval of {wrong}: status {status}")
        first_difference(f"before an interval of {wrong}", lines_of(found), front)
    return len(wanted), try_wheel(program, turns, midi, chance, count, made)


def try_wheel(program, turns, midi, chance, count, made):
    """The frames of a tape, and their MIDI Time Code: how many frames there were."""
    limit, tolerance = chance.choice((0, 1, 2, 7, 254, 255)), chance.choice(("", "worn", "rough"))
    words = ["ltc-fly", str(limit)] + ([tolerance] if tolerance else [])
    read = REPORTS[("", "worn", "rough").index(tolerance)]
    lines, end = report_of(program, [read], made)
    wanted, _ = report_of(program, words, made)
    last, told = end.split()[-1], heard_in(count, lines)
    for room in ("1", "2", "300"):
        how = [chance.choice(turns), words[1], room, last] + (["moved"] if chance.random() < 0.5 else [])
        found, status = run(how, told)
        if status != 0:
            raise Differs(f"{' '.join(words)} with room for {room}: status {status}")
        frames = [frame_line(frame) for frame in FRAME.iter_unpack(found)]
        first_difference(f"{' '.join(words)} with room for {room}", frames, wanted)
    raw = found
    found, status = run([turns[0], words[1], "0", last], told)
    if status != 0 or found:
        raise Differs("a flywheel with no room gives a frame")
    sent = run([program, "ltc-mtc", *words[1:]], made)[0]
    try_sent(program, midi, chance, raw, sent)
    return len(wanted)


def try_sent(program, midi, chance, frames, sent):
    """The MIDI Time Code of frames, and what is read of it, clean and damaged."""
    for room in ("18", "64"):
        how = [chance.choice(midi), "write", room] + (["moved"] if chance.random() < 0.5 else [])
        if run(how, frames) != (sent, 0):
            raise Differs(f"MIDI Time Code with room for {room} is not the program's")
    if run([midi[0], "write", "17"], frames) != (b"", 0):
        raise Differs("with room for 17 bytes something is written")
    for bytes_read in (sent, damaged(chance, sent)):
        wanted = report_of(program, ["mtc-read"], bytes_read)[0]
        for piece, room in ((1, 1), (7, 2), (1_024, 5), (1_000_000, 1_000)):
            how = [chance.choice(midi), "read", str(piece), str(room)] + (["moved"] if chance.random() < 0.5 else [])
            found, status = run(how, bytes_read)
            if status != 0:
                raise Differs(f"mtc-read in pieces of {piece}: status {status}")
            labels = [mtc_line(label) for label in LABEL.iter_unpack(found)]
            first_difference(f"mtc-read in pieces of {piece}", labels, wanted)
        if run([midi[0], "read", "1024", "0"], bytes_read) != (b"", 0):
            raise Differs("with no room a label is read")


def try_edges(programs):
    """Settings, limits, words and frames at their edges: how many."""
    reads, turns, midi = programs
    good = [25, 0, 0]
    taken = ((0, 24), (0, 25), (0, 30), (1, 0), (1, 2), (2, 0), (2, 1), (2, 2), (2, 3))
    refused = ((0, 0), (0, 23), (0, 29), (1, 3), (2, 4), *((place, 4_294_967_295) for place in range(3)))
    for status, places in ((0, taken), (2, refused)):
        for place, number in places:
            words = [str(number if at == place else each) for at, each in enumerate(good)]
            if run([reads[0], *words, "16", "3"], b"")[1] != status:
                raise Differs(f"a tape's settings {' '.join(words)} are not answered by {status}")
    limits = ((0, 0), (255, 0), (256, 2), (4_294_967_295, 2))
    for limit, status in limits:
        if run([turns[0], str(limit), "4", "0"], b"")[1] != status:
            raise Differs(f"a limit of {limit} is not answered by {status}")
    word = [1, 10, 0, 0, 24, 0, 5_000, 1_920]
    for place, number in ((0, 4), (1, 24), (2, 60), (3, 60), (4, 25), (5, 2), (6, 1 << 60), (7, 0), (7, 1 << 32)):
        bad = [number if at == place else each for at, each in enumerate(word)]
        for numbers, status in ((word, 0), (bad, 4)):
            if run([turns[0], "2", "4", "9000"], HEARD.pack(*numbers))[1] != status:
                raise Differs(f"a word {numbers} is not answered by {status}")
    falls = HEARD.pack(*word) + HEARD.pack(*word[:6], 4_999, 1_920)
    if run([turns[0], "2", "4", "9000"], falls)[1] != 4 or run([turns[0], "2", "4", "4999"], HEARD.pack(*word))[1] != 4:
        raise Differs("a tick before the latest one is taken")
    for tick, status in (((1 << 60) - 1, 0), (1 << 60, 4)):
        if run([turns[0], "2", "4", str(tick)], b"")[1] != status:
            raise Differs(f"the tick {tick} is not answered by {status}")
    return len(taken) + len(refused) + len(limits) + 13 + try_frames(midi)


def try_frames(midi):
    """Frames in numbers that mean one, and each of these numbers changed into one that means none: how many."""
    heard, invented, gone = [1, 1, 1, 0], [2, 0, 0, 3], [3, 0, 0, 0]
    label, none, tick = [3, 10, 11, 0, 2], [0] * 5, 1 << 63
    frames = [[*heard, *label, 0, tick], [*invented, *label, 0, tick], [*gone, *none, 0, tick]]
    wrong = [(0, 0), (0, 4), (0, 256), (1, 2), (2, 2), (3, 1), (4, 4), (5, 24), (6, 60), (7, 60), (8, 30), (9, 1)]
    tries = [(frames[0], place, number) for place, number in (*wrong, (8, 1), (4, 1 << 31))]
    tries += [(frames[1], 2, 1), (frames[1], 0, 1), *((frames[2], place, 1) for place in range(1, 10))]
    for frame, place, number in tries:
        bad = [number if at == place else each for at, each in enumerate(frame)]
        for numbers, status in ((frame, 0), (bad, 4)):
            if run([midi[0], "write", "18"], FRAME.pack(*numbers))[1] != status:
                raise Differs(f"a frame {numbers} is not answered by {status}")
    return len(tries)


def try_tapes(count, program, programs, chance, intervals, lines_of):
    """Tapes at random: how many events and how many frames there were."""
    both = [try_tape(program, programs, chance, intervals, lines_of) for _ in range(count)]
    return sum(events for events, _ in both), sum(frames for _, frames in both)
