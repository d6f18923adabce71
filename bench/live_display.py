"""How much later than a line of the pipe the station shows it: on the terminal, at the page, and to MIDI.

`bench/live.py --station [PROGRAM]` runs this. Ten seconds of code go in blocks, as a card would give them, to `wav-ltc`
with `ltc-fly` and with `ltc-mtc` behind it, and to `tools/live` at the same moments. Printed a run, in milliseconds,
the median and the greatest: how long after its line in the pipe a label was on a terminal of plain digits, and came
to a reader of the page; how long after those of the pipe the station's quarter frames came; and, beside that, how long
after them those of a second pipe, which is the noise of the machine. Beside that reader there are none, and then 50.
"""
import fcntl
import os
import pty
import re
import socket
import statistics
import struct
import subprocess
import sys
import tempfile
import termios
import threading
import time

TOP = os.path.dirname(os.path.dirname(os.path.abspath(__file__)))
RATE, SYSTEM, SECONDS = 48_000, 25, 10
SLICER = ["wav-ltc", str(SYSTEM), "1", "250", "live"]
FLY, MIDI = ["ltc-fly", "5", "rough"], ["ltc-mtc", "5", "rough"]
# What is allowed at the page and on the terminal, and to MIDI beside the noise of the machine.
PAGE_BOUND, MIDI_BOUND = 50.0, 5.0


class Heard(threading.Thread):
    """All that comes of a descriptor, each piece with its time."""

    def __init__(self, handle):
        super().__init__(daemon=True)
        self.handle, self.came = handle, []
        self.start()

    def run(self):
        try:
            while piece := os.read(self.handle, 65_536):
                self.came.append((time.monotonic(), piece))
        except OSError:
            return

    def labels(self, pattern):
        """When each label came first. A line may come in pieces."""
        first, rest = {}, b""
        for at, piece in self.came:
            rest += piece
            for found in re.finditer(pattern, rest):
                first.setdefault(found[1].decode(), at)
            rest = rest[-400:]
        return first

    def quarter_frames(self):
        """The time of each quarter frame."""
        is_behind, times = False, []
        for at, piece in self.came:
            for byte in piece:
                if is_behind:
                    times.append(at)
                is_behind = byte == 0xF1
        return times


class Pipe:
    """The pipe without the station."""

    def __init__(self, program, reads, header):
        self.slicer = subprocess.Popen([program, *SLICER], stdin=subprocess.PIPE, stdout=subprocess.PIPE, bufsize=0)
        self.reader = subprocess.Popen([program, *reads], stdin=self.slicer.stdout, stdout=subprocess.PIPE, bufsize=0)
        self.slicer.stdout.close()
        self.heard = Heard(self.reader.stdout.fileno())
        self.put = self.slicer.stdin.write
        self.put(header)

    def end(self):
        self.slicer.stdin.close()
        self.heard.join()
        self.slicer.wait()
        self.reader.wait()


class Station:
    """The station with a terminal of plain digits, a page and a port."""

    def __init__(self, program, room, readers):
        fifo = os.path.join(room, "midi")
        os.mkfifo(fifo)
        self.midi = Heard(os.open(fifo, os.O_RDWR))
        with socket.socket() as free:
            free.bind(("127.0.0.1", 0))
            port = free.getsockname()[1]
        outer, inner = pty.openpty()
        fcntl.ioctl(inner, termios.TIOCSWINSZ, struct.pack("HHHH", 24, 80, 0, 0))
        words = [sys.executable, os.path.join(TOP, "tools", "live"), "-", "--plain", "--system", str(SYSTEM)]
        words += ["--midi", fifo, "--page", str(port), "--log", os.path.join(room, "log")]
        there = {**os.environ, "TC": os.path.abspath(program), "TERM": "xterm", "LC_ALL": "C.UTF-8"}
        self.process = subprocess.Popen(words, stdin=subprocess.PIPE, stdout=inner, env=there, bufsize=0,
                                        start_new_session=True)
        os.close(inner)
        self.screen = Heard(outer)
        self.put = self.process.stdin.write
        self.put(bytes(2 * 480))
        self.readers = [Heard(follow(port)) for _ in range(readers + 1)]

    def end(self):
        self.process.stdin.close()
        self.process.wait()
        time.sleep(0.2)


def follow(port):
    """A reader of the page, once the page is there."""
    end = time.monotonic() + 10
    while True:
        try:
            there = socket.create_connection(("127.0.0.1", port))
            break
        except OSError:
            if time.monotonic() > end:
                sys.exit("no page")
            time.sleep(0.05)
    there.sendall(b"GET /events HTTP/1.1\r\n\r\n")
    return there.detach()


def sound_of(program):
    def run(words, data=b""):
        return subprocess.run([program, *words], input=data, stdout=subprocess.PIPE, check=True).stdout

    words = ["ltc-make", str(SYSTEM), "forward", "10:00:00:00", str(SYSTEM * SECONDS)]
    return run(["ltc-pcm", "8000"], run([*words, str(RATE // SYSTEM // 80), str(RATE)]))


def later(times, before):
    """How much later each came, in milliseconds."""
    return [1_000 * (times[key] - before[key]) for key in before if key in times]


def play(takers, sound, block):
    began = time.monotonic()
    for place in range(0, len(sound), 2 * block):
        time.sleep(max(0.0, began + (place // 2 + block) / RATE - time.monotonic()))
        for turn, put in enumerate(takers):
            # None of them is always the first.
            takers[(turn + place // (2 * block)) % len(takers)](sound[place : place + 2 * block])


def measure(program, sound, block, readers, header):
    """The delays of a run: at the terminal, at the page, to MIDI, of a second pipe; and how many frames there were."""
    with tempfile.TemporaryDirectory() as room:
        station = Station(program, room, readers)
        fly, midi, second = (Pipe(program, reads, header) for reads in (FLY, MIDI, MIDI))
        time.sleep(0.5)
        play([fly.put, midi.put, second.put, station.put], sound, block)
        for each in (fly, midi, second, station):
            each.end()
    lines = fly.heard.labels(rb"heard forward (\S+) ")
    page = station.readers[0].labels(rb'"label":"([0-9:]+)"')
    # Of a frame that came before the next one was drawn, there is a picture; 25 of them a second are drawn at most.
    screen = station.screen.labels(rb"(\d\d:\d\d:\d\d:\d\d)")
    quarters = [dict(enumerate(each.quarter_frames())) for each in (midi.heard, station.midi, second.heard)]
    if len({len(each) for each in quarters}) > 1:
        sys.exit(f"quarter frames: {[len(each) for each in quarters]}")
    late = [later(screen, lines), later(page, lines), *(later(each, quarters[0]) for each in quarters[1:])]
    return late, len(lines)


def told(name, late, frames):
    return f"{name} {statistics.median(late):6.2f} {max(late):6.2f} ({len(late)} of {frames})"


def main(program):
    """Prints the runs; 1 if a bound is not kept."""
    sys.path.insert(0, os.path.join(TOP, "tools"))
    from live_station.form import Form

    sound, are_kept = sound_of(program), True
    for block in (64, 480, 1_024):
        for readers in (0, 50):
            late, frames = measure(program, sound, block, readers, Form(RATE, 1).header())
            screen, page, midi, second = late
            is_kept = max(page) < PAGE_BOUND and abs(statistics.median(midi)) < MIDI_BOUND
            are_kept &= is_kept
            print(f"{block:5} samples, {readers:2} more readers:  {told('terminal', screen, frames)}  "
                  f"{told('page', page, frames)}  {told('quarter frames', midi, 4 * frames)}  "
                  f"{told('of a second pipe', second, 4 * frames)}  "
                  f"{'kept' if is_kept else 'NOT KEPT'}", flush=True)
    return 0 if are_kept else 1
