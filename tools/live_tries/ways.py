"""The ways out of the station beside the screen: MIDI and the log."""
import contextlib
import os
import pty
import re
import signal
import subprocess
import threading
import time
import tty

from tape_tries.making import TC
from tape_tries.running import has

from .stage import Runs, none_left, on_terminal, read_of, runs, silence, tape, wait_for, words


class Listener:
    """One who reads a FIFO, until it has to end, and what came with its time."""

    def __init__(self, path):
        self.came = []
        self.handle = os.open(path, os.O_RDONLY | os.O_NONBLOCK)
        self.is_over = False
        self.thread = threading.Thread(target=self.work, daemon=True)
        self.thread.start()

    def work(self):
        while not self.is_over:
            with contextlib.suppress(BlockingIOError):
                piece = os.read(self.handle, 4096)
                if piece:
                    self.came.append((time.monotonic(), piece))
                    continue
            time.sleep(0.002)
        os.close(self.handle)

    def bytes(self):
        return b"".join(piece for _, piece in self.came)

    def leave(self):
        self.is_over = True
        self.thread.join()
        return self.bytes()


def try_midi(room):
    """What comes out is what the pipe gives of the same sound, byte for byte."""
    path = tape(room, words("25", "10:00:00:00", 75), silence(0.1), words("25", "10:00:03:03", 25), silence(1.0))
    fifo = os.path.join(room, "midi")
    os.mkfifo(fifo)
    listener = Listener(fifo)
    log = os.path.join(room, "log")
    ended, out, _ = runs("--file", path, "--system", "25", "--midi", fifo, "--log", log)
    came = listener.leave()
    assert [line.split()[1] for line in read_of(log).splitlines()][:2] == ["begins", "midi"], read_of(log)
    with open(path, "rb") as sound:
        slicing = [TC, "wav-ltc", "25", "1", "250", "live"]
        sliced = subprocess.run(slicing, stdin=sound, stdout=subprocess.PIPE, check=True).stdout
    sending = [TC, "ltc-mtc", "5", "rough"]
    wanted = subprocess.run(sending, input=sliced, stdout=subprocess.PIPE, check=True).stdout
    assert ended == 0 and came == wanted, f"{len(came)} bytes for {len(wanted)}"
    has(out, f"sending to {fifo}")
    return f"{len(came)} bytes"


def try_midi_device(room):
    """A device that is no FIFO, here a terminal, gets the same; when its other end is closed, that is reported."""
    outer, inner = pty.openpty()
    tty.setraw(inner)
    name = os.ttyname(inner)
    os.close(inner)
    there = on_terminal("--file", tape(room, words("25", "10:00:00:00", 250)), "--system", "25", "--midi", name)
    there.until(rf"MIDI: sending to {name}")
    came = b""
    while len(came) < 200:
        came += os.read(outer, 4096)
        there.look(0.05)
    assert came[:4] == b"\xf0\x7f\x7f\x01" and came[10:11] == b"\xf1", came[:20]
    os.close(outer)
    has(there.until(rf"MIDI: {name} is gone; it is tried each second"), "HEARD")
    there.send(signal.SIGINT)
    assert there.end() == 130


def try_midi_port_that_vanishes(room):
    """It is reported and tried again, it begins with a full message, and the display goes on."""
    fifo = os.path.join(room, "midi")
    there = on_terminal("--file", tape(room, words("25", "10:00:00:00", 300)), "--system", "25", "--midi", fifo)
    there.until(r"MIDI: \S*midi: no such file or directory; it is tried each second")
    os.mkfifo(fifo)
    there.until(r"MIDI: \S*midi: has no reader")
    listener = Listener(fifo)
    there.until(r"MIDI: sending to")
    wait_for(lambda: there.look(0.05) and len(listener.bytes()) > 100)
    assert listener.leave()[:2] == b"\xf0\x7f"
    lost = there.until(r"MIDI: \S*midi (is gone|took no more)")
    has(lost, "HEARD")
    listener = Listener(fifo)
    there.until(r"MIDI: sending to")
    wait_for(lambda: there.look(0.05) and len(listener.bytes()) > 100)
    there.send(signal.SIGINT)
    assert there.end() == 130 and listener.leave()[:2] == b"\xf0\x7f"
    none_left(there.mark)


def try_midi_reader_that_stalls(room):
    """A FIFO that is full is reported, and the display goes on."""
    fifo = os.path.join(room, "midi")
    os.mkfifo(fifo)
    stalled = os.open(fifo, os.O_RDONLY | os.O_NONBLOCK)
    filling = os.open(fifo, os.O_WRONLY | os.O_NONBLOCK)
    with contextlib.suppress(BlockingIOError):
        while True:
            os.write(filling, bytes(4096))
    there = on_terminal("--file", tape(room, words("25", "10:00:00:00", 200)), "--system", "25", "--midi", fifo)
    text = there.until(r"midi took no more; it is tried each second")
    has(text, "HEARD")
    # It is reported once, however often it is tried.
    there.look(3)
    assert there.grid.text().count("took no more") == 2, there.grid.text()
    there.send(signal.SIGINT)
    assert there.end() == 130
    os.close(stalled)
    os.close(filling)


def try_no_port(room):
    """A file is no port, and is left as it is."""
    path, file = tape(room, words("25", "10:00:00:00", 30)), os.path.join(room, "song.mid")
    with open(file, "wb") as out:
        out.write(b"a song")
    ended, _, notes = runs("--file", path, "--midi", file)
    assert ended == 3 and read_of(file) == "a song", notes
    has(notes, "live: ", "song.mid: it is neither a MIDI device nor a FIFO, and is left as it is\n")
    ended, _, notes = runs("--file", path, "--midi", room)
    assert ended == 3, notes


def try_log(room):
    """Each run appends to the log. What is no log is left as it is."""
    path, log = tape(room, words("25", "10:00:00:00", 40)), os.path.join(room, "log")
    for _ in range(2):
        assert runs("--file", path, "--pace", "4", "--log", log)[0] == 0
    lines = read_of(log).splitlines()
    assert [line.split()[1] for line in lines] == 2 * ["begins", "system", "code", "ends"], lines
    assert all(line[4] == "-" and line[10] == "T" and line[23] in "+-" for line in lines), lines
    with open(path, "rb") as file:
        before = file.read()
    for other in (path, room, "/dev/null", os.path.join(room, "none", "log")):
        ended, _, notes = runs("--file", path, "--log", other)
        assert ended == 3 and re.search("left as it is|it is a folder|no such file", notes), notes
    with open(path, "rb") as file:
        assert file.read() == before, "the tape was harmed"


def try_log_on_a_full_disk(room):
    """A log that can't be written is reported, and the station goes on."""
    log = os.path.join(room, "log")
    run = Runs("--file", tape(room, words("25", "10:00:00:00", 60)), "--log", log,
               preexec_fn=lambda: limit_files(100))
    ended, out, _ = run.end()
    assert ended == 0 and os.path.getsize(log) <= 100, out
    has(out, "log", "file too large")


def limit_files(size):
    """No file of the process grows beyond this."""
    import resource

    signal.signal(signal.SIGXFSZ, signal.SIG_IGN)
    resource.setrlimit(resource.RLIMIT_FSIZE, (size, size))


def try_log_of_a_bad_day(room):
    """Of many events in a minute the first are logged, and how many more there were."""
    parts = [part for number in range(60) for part in (words("25", f"{number % 24:02}:00:00:00", 5), silence(0.3))]
    log = os.path.join(room, "log")
    ended, _, _ = runs("--file", tape(room, *parts), "--system", "25", "--pace", "8", "--log", log)
    lines = read_of(log).splitlines()
    assert ended == 0 and len(lines) <= 66 and lines[-1].split()[1] == "ends", "\n".join(lines)
    assert any("more events" in line for line in lines), "\n".join(lines)
    return f"{len(lines)} lines"


