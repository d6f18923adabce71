"""What is on the screen at moments of a tape, and when there is none."""
import os
import re
import signal
import subprocess
import time

from tape_tries.running import has

from .stage import LIVE, PYTHON, none_left, on_terminal, quiet_tone, read_of, runs, silence, tape, words

BIG_ZERO = "\u2588\u2588\u2588\u2588\u2588\u2588"


def moments(room):
    """Silence; code with three frames missing; silence; the same code backward; sound that is no code."""
    parts = [silence(2.5), words("25", "10:00:00:00", 75), silence(0.12), words("25", "10:00:03:03", 50), silence(2.5)]
    parts += [words("25", "10:00:05:02", 50, "backward"), quiet_tone(3)]
    return tape(room, *parts)


def try_moments(room):
    """No code, heard, bridged, gone, turn, and sound that is no code, on the screen and in the log."""
    log = os.path.join(room, "log")
    there = on_terminal("--file", moments(room), "--log", log)
    first = there.until(r"no code: silence on track 1\. Is the tape running, and the cable in\?")
    has(first, "NO CODE", "--:--:--:--".replace("--:--:--:--", "track 1"), "level -96.0 dB")
    heard = there.until(r"HEARD +forward +speed 1\.000 +user 00000000 +25 frames")
    has(heard, BIG_ZERO, "system   10:00:01:00 25 frames a second, by the labels")
    there.until(r"drop-out 10:00:03:03 3 frames, bridged")
    gone = there.until(r"the code is gone: silence on track 1")
    has(gone, "GONE 1 s", "gone     10:00:05:02 after 5 frames invented")
    turned = there.until(r"HEARD +backward +speed 1.000")
    assert re.search(r"turn     10:00:05:0\d now backward, after 2\.\d+ s without code", turned), turned
    there.until(r"the code is gone on track 1, level -\d+ dB: is it time code\?")
    assert there.all() == 0
    steps = {step for _, text in there.screens for step in re.findall(r"INVENTED (\d)", text)}
    assert {"1", "2", "3", "5"} <= steps, f"invented: {steps}"
    kinds = [line.split()[1] for line in read_of(log).splitlines()]
    assert kinds == ["begins", "system", "code", "drop-out", "gone", "turn", "gone", "ends"], kinds
    none_left(there.mark)


def try_speed_in_words(room):
    """A speed is written as a part of play speed, 1.007 and not 1007, on the screen and in the lines."""
    path = tape(room, words("25", "10:00:00:00", 100, rate=25 * 1.007))
    there = on_terminal("--file", path, "--system", "25")
    text = there.until(r"HEARD +forward +speed \d")
    assert re.search(r"speed 1\.00[678] ", text) and "speed 1007" not in text, text
    there.send(signal.SIGINT)
    assert there.end() == 130
    _, out, _ = runs("--file", path, "--system", "25")
    told = set(re.findall(r"heard forward speed (\S+)", out))
    assert told and told <= {"1.006", "1.007", "1.008"}, told


def try_redrawn(room):
    """The screen is redrawn 25 times a second at most, and nothing is written beside it."""
    there = on_terminal("--file", tape(room, words("25", "10:00:00:00", 75)))
    assert there.all() == 0
    assert not there.grid.has_left, there.grid.text()
    seconds = [at for at, _ in there.screens]
    draws = sum(later - before > 0.01 for before, later in zip(seconds, seconds[1:]))
    assert draws <= 25 * (seconds[-1] - seconds[0]) + 5, f"{draws} in {seconds[-1] - seconds[0]:.1f} s"
    assert re.fullmatch(r"\d+ frames heard, 0 invented, gone 0 times\r\n", there.grid.behind), there.grid.behind
    assert b"\x1b[?25h" in there.data[-200:], "no cursor"
    return f"{draws / (seconds[-1] - seconds[0]):.0f} times a second"


def try_sizes(room):
    """Right at 80 by 24 and at 200 by 50, plain digits if there is little room or with --plain; and at a change."""
    path = tape(room, words("25", "10:00:00:00", 250))
    for columns, lines, high in ((80, 24, 5), (200, 50, 13), (50, 14, 3), (36, 24, 0)):
        there = on_terminal("--file", path, "--system", "25", columns=columns, lines=lines)
        text = there.until(r"HEARD")
        digits = [row for row in text.splitlines() if re.fullmatch(r"[ \u2580\u2584\u2588]+", row) and row.strip()]
        assert len(digits) == high, f"{len(digits)} lines of digits for {high} at {columns} by {lines}\n{text}"
        assert high or re.search(r"10:00:0\d:\d\d", text), text
        if columns == 80:
            there.resize(200, 50)
            there.until(r"\u2588{15}")
        there.send(signal.SIGINT)
        assert there.end() == 130 and not there.grid.has_left
    there = on_terminal("--file", path, "--plain")
    text = there.until(r"10:00:0\d:\d\d[\s\S]*HEARD")
    assert text.isascii(), text
    there.send(signal.SIGTERM)
    assert there.end() == 143


def try_plain_lines(room):
    """If standard output is no terminal there are plain lines; none with --quiet; a reader that leaves ends it."""
    path = tape(room, words("25", "10:00:00:00", 60), silence(0.5), words("25", "11:00:00:00", 30))
    ended, out, notes = runs("--file", path)
    assert ended == 0 and not notes and "\x1b" not in out, out + notes
    has(out, "10:00:01:00 25 frames a second, by the labels", "heard forward speed 1.000 user 00000000 level -11.2 dB")
    clock, told = r"\d\d:\d\d:\d\d\.\d{3}", r"from 10:00:02:0\d, after 0\.\d+ s without code"
    assert re.search(rf"{clock}  jump     11:00:00:0\d {told}", out), out
    ended, out, notes = runs("--file", path, "--pace", "4", "--quiet")
    assert (ended, out, notes) == (0, "", "")
    both = subprocess.run(f"'{PYTHON}' '{LIVE}' --file '{path}' | head -n 1; echo ${{PIPESTATUS[0]}}", shell=True,
                          executable="/bin/bash", capture_output=True, check=False)
    assert both.stdout.split()[-1] == b"141" and not both.stderr, both


def try_stopped_terminal(room):
    """A terminal that is stopped (ctrl-S) holds neither the log nor the end up."""
    log = os.path.join(room, "log")
    path = tape(room, words("25", "10:00:00:00", 50), silence(0.5), words("25", "11:00:00:00", 50), silence(5))
    there = on_terminal("--file", path, "--log", log)
    there.until(r"HEARD")
    there.type(b"\x13")
    time.sleep(4)
    has(read_of(log), " jump 11:00:00:0")
    began = time.monotonic()
    there.send(signal.SIGINT)
    assert there.end() == 130 and time.monotonic() - began < 3
    none_left(there.mark)


def try_closed_terminal(room):
    """A terminal that is closed ends it, and all that it started."""
    log = os.path.join(room, "log")
    there = on_terminal("--file", tape(room, words("25", "10:00:00:00", 250)), "--log", log)
    there.until(r"HEARD")
    there.close()
    none_left(there.mark)
    assert os.waitstatus_to_exitcode(os.waitpid(there.pid, 0)[1]) in (129, 141)
    assert read_of(log).splitlines()[-1].split()[1] == "ends", read_of(log)
