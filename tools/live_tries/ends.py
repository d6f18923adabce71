"""Ends: whatever ends it, nothing that it started is left; and what ends of its own is begun again."""
import os
import random
import signal
import time

from tape_tries.running import has

from .stage import Runs, free_port, marked, none_left, on_terminal, read_of, tape, wait_for, words
from .ways import Listener

NUMBERS = (signal.SIGKILL, signal.SIGTERM, signal.SIGINT, signal.SIGHUP, signal.SIGQUIT)
TIMES = 25


def try_kill_at_random(room):
    """Ended by chance in its first second and later, by each signal in turn, it leaves nothing behind."""
    # Longer than it is waited for.
    path, fifo = tape(room, words("25", "10:00:00:00", 1000)), os.path.join(room, "midi")
    os.mkfifo(fifo)
    listener = Listener(fifo)
    chance, most, slowest = random.Random(61), 0, 0.0
    for turn in range(TIMES):
        number = NUMBERS[turn % len(NUMBERS)]
        more = ("--midi", fifo, "--page", str(free_port()), "--log", os.path.join(room, "log"))
        run = Runs("--file", path, "--system", "25", "--quiet", *more)
        if turn % 2:
            wait_for(lambda: len(marked(run.mark)) >= 6, 30, "all its processes")
        time.sleep(chance.random())
        most = max(most, len(marked(run.mark)))
        run.process.send_signal(number)
        began = time.monotonic()
        run.process.communicate(timeout=30)
        slowest, ended = max(slowest, time.monotonic() - began), run.process.returncode
        # In its first moments, while Python begins, a signal ends it as it ends any program.
        assert ended in (128 + number, -number), f"{number!r} ended it with {ended}"
        none_left(run.mark)
    listener.leave()
    assert most >= 6, f"{most} processes at most"
    return f"{TIMES} times, of up to {most} processes, within {slowest:.1f} s"


def try_kill_of_its_parts(room):
    """A process of the pipe that is killed is begun again, and the display and MIDI go on."""
    fifo, log = os.path.join(room, "midi"), os.path.join(room, "log")
    os.mkfifo(fifo)
    listener = Listener(fifo)
    path = tape(room, words("25", "10:00:00:00", 500))
    there = on_terminal("--file", path, "--system", "25", "--midi", fifo, "--log", log, columns=120)
    there.until(r"HEARD")
    for part in ("ltc-fly", "ltc-rough", "wav-ltc", "ltc-mtc"):
        wait_for(lambda: there.look(0.05) and len(marked(there.mark)) >= 6, what="all parts")
        killed = [pid for pid, told in marked(there.mark).items() if part in told]
        os.kill(killed[0], signal.SIGKILL)
        there.look(1.5)
        there.until(r"HEARD")
    came = len(listener.bytes())
    there.look(1.0)
    assert len(listener.bytes()) > came, "no more MIDI"
    there.send(signal.SIGINT)
    assert there.end() == 130
    listener.leave()
    none_left(there.mark)
    has(read_of(log), "tc ended with signal KILL; it is begun again")


def try_stopped_part(room):
    """A process of the pipe that is stopped is given up, and the pipe begun again."""
    there = on_terminal("--file", tape(room, words("25", "10:00:00:00", 600)), "--system", "25")
    there.until(r"HEARD")
    stopped = next(pid for pid, told in marked(there.mark).items() if "wav-ltc" in told)
    os.kill(stopped, signal.SIGSTOP)
    there.until(r"tc takes no more; it is begun again", 15)
    there.until(r"HEARD")
    there.send(signal.SIGINT)
    assert there.end() == 130
    none_left(there.mark)
