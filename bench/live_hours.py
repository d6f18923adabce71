#!/usr/bin/env python3
"""Hours of code through the station of a dubbing suite: whether its memory, threads and descriptors stay the same.

    bench/live_hours.py [HOURS [PACE [RATE]]]      8, 8 and 48000 if none are named

The code goes to `tools/live -` in blocks, PACE times as fast as it would be played, with a drop-out of three frames
each 20 seconds, a silence of two each minute, and a jump each ten, when the same tape begins again. The station draws
on a pseudo terminal, sends MIDI into a FIFO, writes a log, and serves its page: to three readers that stay, and to one
that comes and goes. Each half minute it prints a line on the station: the hours of code that it read, resident memory in
KiB, threads, descriptors, processes, and the resident memory of all that it started. At the end: how the second half of
the lines differs from the first; the frames that were heard, invented and gone; the bytes of the log and of MIDI.
"""
import contextlib
import fcntl
import os
import pty
import re
import signal
import socket
import statistics
import struct
import subprocess
import sys
import tempfile
import termios
import threading
import time

TOP = os.path.dirname(os.path.dirname(os.path.abspath(__file__)))
TC = os.environ.get("TC", os.path.join(TOP, "bin", "tc"))
MINUTES, TOLD_SECONDS, BLOCK = 10, 30.0, 480


def run(words, data=b""):
    return subprocess.run([TC, *words], input=data, stdout=subprocess.PIPE, check=True).stdout


def minute(number, rate):
    """The samples of a minute of code, with its drop-outs, and of the silence behind it."""
    words = ["ltc-make", "25", "forward", f"10:{number:02}:00:00", "1500", str(rate // 2000), str(rate)]
    sound = bytearray(run(["ltc-pcm", "9000"], run(words)))
    for second in (20, 40):
        at, size = 2 * rate * second, 2 * 3 * rate // 25
        sound[at : at + size] = bytes(size)
    return bytes(sound) + bytes(2 * 2 * rate)


class Drain(threading.Thread):
    """Reads a descriptor to its end, and counts."""

    def __init__(self, handle):
        super().__init__(daemon=True)
        self.handle, self.count = handle, 0
        self.start()

    def run(self):
        with contextlib.suppress(OSError):
            while piece := os.read(self.handle, 65_536):
                self.count += len(piece)


def follow(port):
    there = socket.create_connection(("127.0.0.1", port))
    there.sendall(b"GET /events HTTP/1.1\r\n\r\n")
    return there


def visit(port, is_over):
    """A reader that comes and goes."""
    while not is_over.wait(1.0):
        with contextlib.suppress(OSError), follow(port) as there:
            there.recv(65_536)


def resident(pid):
    with open(f"/proc/{pid}/status", encoding="ascii") as file:
        return int(re.search(r"VmRSS:\s*(\d+)", file.read())[1])


def children(pid):
    found = []
    with open(f"/proc/{pid}/task/{pid}/children", encoding="ascii") as file:
        for child in file.read().split():
            with contextlib.suppress(OSError, TypeError):
                found.append(resident(child))
    return found


def row_of(pid, hours):
    """Hours of code, KiB, threads, descriptors, processes, KiB of these."""
    below = children(pid)
    tasks, handles = len(os.listdir(f"/proc/{pid}/task")), len(os.listdir(f"/proc/{pid}/fd"))
    return [round(hours, 3), resident(pid), tasks, handles, len(below), sum(below)]


class Station:
    """The station, with all that it has."""

    def __init__(self, room, rate):
        self.fifo, self.log = os.path.join(room, "midi"), os.path.join(room, "log")
        os.mkfifo(self.fifo)
        # With a writer of its own it has no end before the station writes.
        self.midi = Drain(os.open(self.fifo, os.O_RDWR))
        with socket.socket() as free:
            free.bind(("127.0.0.1", 0))
            self.port = free.getsockname()[1]
        outer, inner = pty.openpty()
        fcntl.ioctl(inner, termios.TIOCSWINSZ, struct.pack("HHHH", 50, 200, 0, 0))
        words = [sys.executable, os.path.join(TOP, "tools", "live"), "-", "--rate", str(rate), "--system", "25"]
        words += ["--midi", self.fifo, "--page", str(self.port), "--log", self.log]
        there = {**os.environ, "TC": os.path.abspath(TC), "TERM": "xterm", "LC_ALL": "C.UTF-8"}
        self.process = subprocess.Popen(words, stdin=subprocess.PIPE, stdout=inner, env=there, start_new_session=True)
        os.close(inner)
        self.screen = Drain(outer)


def play(station, sound, rate, pace, hours, tell):
    """Plays the sound over and over; falls behind if the machine is slow, and never catches up faster."""
    began, played, size, next_told = time.monotonic(), 0, 2 * BLOCK, time.monotonic()
    total, late = round(hours * 3600 * rate), 0.0
    while played < total:
        at = 2 * played % len(sound)
        piece = sound[at : at + size]
        station.process.stdin.write(piece)
        played += len(piece) // 2
        now = time.monotonic()
        wait = began + played / rate / pace - now
        if wait > 0:
            time.sleep(wait)
        elif wait < -1:
            late, began = late - wait, began - wait
        if now >= next_told:
            next_told += TOLD_SECONDS
            tell(played / rate / 3600)
    return time.monotonic() - began, late


def main():
    hours, pace = (float(sys.argv[at]) if len(sys.argv) > at else 8.0 for at in (1, 2))
    rate = int(sys.argv[3]) if len(sys.argv) > 3 else 48_000
    sound = b"".join(minute(number, rate) for number in range(MINUTES))
    rows = []
    with tempfile.TemporaryDirectory() as room:
        station = Station(room, rate)
        time.sleep(1)
        readers = [Drain(follow(station.port).detach()) for _ in range(3)]
        is_over = threading.Event()
        threading.Thread(target=visit, args=(station.port, is_over), daemon=True).start()

        def tell(at):
            rows.append(row_of(station.process.pid, at))
            print(time.strftime("%H:%M:%S"), *rows[-1], flush=True)

        print("clock hours resident threads descriptors processes resident-of-these", flush=True)
        seconds, late = play(station, sound, rate, pace, hours, tell)
        is_over.set()
        station.process.send_signal(signal.SIGINT)
        status = station.process.wait()
        with open(station.log, encoding="utf-8") as file:
            log = file.read()
        print(f"status {status}, {seconds:.0f} s, of which the machine was late {late:.0f} s")
        print(f"log {len(log)} bytes, {log.splitlines()[-1]}")
        counts = [station.midi.count, *(it.count for it in readers), station.screen.count]
        print("bytes to MIDI {}, to readers of the page {} {} {}, on the screen {}".format(*counts))
    half = len(rows) // 2
    for name, at in (("resident", 1), ("threads", 2), ("descriptors", 3), ("processes", 4), ("resident of these", 5)):
        first, second = ([row[at] for row in part] for part in (rows[1:half], rows[half:]))
        if first and second:
            early, late = statistics.median(first), statistics.median(second)
            print(f"{name}: median {early:.0f}, then {late:.0f}; at most {max(first + second)}")


if __name__ == "__main__":
    main()
