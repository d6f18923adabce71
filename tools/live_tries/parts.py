"""The parts of the station that need no program."""
import io
import os
import random
import struct
import sys

from tape_tries.making import TOP

sys.path.insert(0, os.path.join(TOP, "tools"))
from live_station import digits, screen, shown
from live_station.code import Code
from live_station.form import Form, wave_header
from live_station.lines import Gone, Heard, Invented, Word, line_of
from live_station.reader import asked
from live_station.screen import Style
from live_station.system import System
from tape_report.faults import NoSound

FRAME = 16 * 1920


def word(label, tick, direction="forward"):
    return Word(direction, label, "deadbeef", tick, FRAME)


def told(code, *lines):
    return [(it.kind, it.label, it.text) for line in lines for it in code.take(line)]


def try_lines(_room):
    """The lines of the program are known, and others are passed over."""
    text = "word forward 10:00:00:01 user deadbeef flags 00000 balance 1 tick 30720 length 30720 speed 1000"
    assert line_of(text) == word("10:00:00:01", 30_720)
    assert line_of("heard backward 10:00:00;05 joined 0 tick 7") == Heard("backward", "10:00:00;05", False, 7)
    assert line_of("invented forward 10:00:00:05 step 2 tick 9") == Invented("forward", "10:00:00:05", 2, 9)
    assert line_of("gone tick 12") == Gone(12)
    assert line_of("lost interval 3 tick 9") is None and line_of("") is None


def try_what_happened(_room):
    """A drop-out that is bridged and one that is not, a jump, a turn and another count are reported as such."""
    code = Code(48_000)
    code.begin(25)
    code.length = FRAME
    first = told(code, Heard("forward", "10:00:00:00", False, FRAME))
    assert first == [("code", "10:00:00:00", "forward, 25 frames a second")], first
    made = [Invented("forward", f"10:00:00:0{step}", step, (1 + step) * FRAME) for step in (1, 2)]
    assert told(code, *made) == [] and (code.state, code.invented) == ("invented", 2)
    bridged = told(code, Heard("forward", "10:00:00:03", True, 4 * FRAME))
    assert bridged == [("drop-out", "10:00:00:03", "2 frames, bridged")], bridged
    assert told(code, Gone(9 * FRAME)) == [("gone", "10:00:00:03", "no frame invented")]
    back = told(code, Heard("forward", "10:00:00:13", False, 14 * FRAME))
    assert back == [("drop-out", "10:00:00:13", "9 frames missing, 0.360 s without code")], back
    jump = told(code, Heard("forward", "11:00:00:00", False, 15 * FRAME))
    assert jump == [("jump", "11:00:00:00", "from 10:00:00:13, at once")], jump
    turn = told(code, Heard("backward", "10:59:59:24", False, 16 * FRAME))
    assert turn == [("turn", "10:59:59:24", "now backward, at once")], turn
    day = Code(48_000, length=FRAME)
    day.begin(25)
    over = told(day, Heard("forward", "23:59:59:24", False, 1), Heard("forward", "00:00:00:10", False, 1 + 11 * FRAME))
    assert over[1] == ("drop-out", "00:00:00:10", "10 frames missing, 0.400 s without code"), over
    day.begin(30)
    other = told(day, Heard("forward", "10:00:00:00", False, 1), Heard("forward", "10:00:00;01", False, 1 + FRAME))
    assert other[1][0] == "count", other


def try_system(_room):
    """The last frame of a second says how many a second has, forward and backward; two that differ change it."""
    for last, wanted in ((23, 24), (24, 25), (29, 30)):
        there = System(None)
        assert not there.take(word(f"10:00:09:{last - 1}", 0))
        assert not there.take(word(f"10:00:09:{last}", FRAME)) and there.take(word("10:00:10:00", 2 * FRAME))
        assert there.found == wanted
    there = System(None)
    there.take(word("10:01:00;02", 0, "backward"))
    assert there.take(word("10:00:59;29", FRAME, "backward")) and there.found == 30
    # A second of it apart, or with a gap between them, two words say nothing.
    there = System(None)
    there.take(word("10:00:09:24", 0))
    assert not there.take(word("10:00:10:00", 3 * FRAME)) and there.found is None
    there = System(25)
    for second in (10, 11):
        there.take(word(f"10:00:{second}:29", 0))
        assert not there.take(word(f"10:00:{second + 1}:00", FRAME))
    assert there.found == 25 and there.doubt == 30


def try_every_size(_room):
    """At any size there are no more lines and columns than the terminal has."""
    it = shown.Shown(source="card hw:0", label="10:00:00:00", state="heard", level=-12.5, mark=-9.0, hint="x" * 300)
    for columns in (1, 5, 11, 20, 36, 37, 39, 60, 79, 80, 81, 132, 200, 400):
        for lines in (1, 2, 5, 10, 11, 12, 13, 24, 50, 100):
            for is_plain in (False, True):
                drawn = screen.rows(it, Style(columns, lines, is_plain, has_colour=False), shown.Moment())
                assert len(drawn) <= lines, (columns, lines, drawn)
                assert all(len(row) <= columns for row in drawn), (columns, lines, drawn)
                assert not is_plain or all(row.isascii() for row in drawn), drawn
    assert digits.scale_for(78, 13) == 2 and digits.scale_for(198, 39) == 5 and digits.scale_for(36, 30) == 0
    assert len(digits.big("00:00:00:00", 2)) == 5 and len(digits.big("00:00:00:00", 1)) == 3


def try_headers_by_chance(_room):
    """Headers of sound with bytes changed by chance are read or refused, and nothing else."""
    chance, counts = random.Random(61), {True: 0, False: 0}
    good = Form(48_000, 2, 24).header()
    for _ in range(3_000):
        text = bytearray(good[:36] + b"junk" + struct.pack("<I", chance.choice((0, 3, 400))) + bytes(4) + good[36:])
        for _ in range(chance.choice((1, 2, 8))):
            text[chance.randrange(4, len(text))] = chance.choice((0, 1, 2, 127, 255, chance.randrange(256)))
        del text[chance.randrange(len(text) // 2, 3 * len(text)) :]
        try:
            form, _ = wave_header(io.BytesIO(text[4:]))
            assert form.block > 0 and 0 < form.rate <= 6_250_000 and form.tracks <= 64, form
            counts[True] += 1
        except NoSound:
            counts[False] += 1
    return f"{counts[True]} read, {counts[False]} refused"


def try_requests(_room):
    """What is no GET of a path is refused."""
    assert asked(b"GET /events?x=1 HTTP/1.1\r\n\r\n") == (200, "/events")
    assert asked(b"HEAD / HTTP/1.1\r\n\r\n")[0] == 405 and asked(b"POST / HTTP/1.0\r\n\r\n")[0] == 405
    for wrong in (b"", b"GET /\r\n\r\n", b"GET / HTTP/2\r\n\r\n", b"\x16\x03\x01", b"GET  / HTTP/1.1\r\n\r\n"):
        assert asked(wrong)[0] == 400, wrong
