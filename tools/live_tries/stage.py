"""What the tries of the station share: sound to be read, the station, and what is left of it."""
import contextlib
import os
import secrets
import signal
import socket
import struct
import subprocess
import sys
import time

from tape_tries.making import TC, TOP, code, intervals, tone, wav

from .terminal import Terminal

LIVE = os.path.join(TOP, "tools", "live")
RATE = 48_000
PYTHON = sys.executable
MARK = "TC_LIVE_TRY"
SCREEN = {"TERM": "xterm", "LC_ALL": "C.UTF-8", "NO_COLOR": ""}


def words(count, label, frames, direction="forward", rate=None):
    """The samples of `count` frames."""
    return code(RATE, intervals(count, label, frames, direction, rate))


def silence(seconds):
    return [0] * round(RATE * seconds)


def quiet_tone(seconds):
    """Sound that is no code."""
    return tone(round(RATE * seconds), RATE)


def tape(room, *parts, name="tape.wav", tracks=1):
    """A file of these parts, on its last track."""
    samples = [sample for part in parts for sample in part]
    return wav(os.path.join(room, name), RATE, [[0] * len(samples)] * (tracks - 1) + [samples])


def raw(samples):
    return struct.pack(f"<{len(samples)}h", *samples)


def environment(mark, more=None):
    return {**os.environ, "TC": os.path.abspath(TC), MARK: mark, **(more or {})}


def marked(mark):
    """The processes that have the mark: the station's and all that it started."""
    found = {}
    for name in os.listdir("/proc"):
        if name.isdigit():
            with contextlib.suppress(OSError):
                with open(f"/proc/{name}/environ", "rb") as file:
                    if f"{MARK}={mark}".encode() not in file.read().split(b"\0"):
                        continue
                with open(f"/proc/{name}/stat", encoding="ascii", errors="replace") as file:
                    state = file.read().rsplit(")", 1)[1].split()[0]
                with open(f"/proc/{name}/cmdline", "rb") as file:
                    told = file.read().replace(b"\0", b" ").decode("utf-8", "replace")
                if state != "Z":
                    found[int(name)] = told
    return found


def none_left(mark, seconds=3.0):
    """Nothing of the station is left."""
    end = time.monotonic() + seconds
    while left := marked(mark):
        assert time.monotonic() < end, f"left: {left}"
        time.sleep(0.02)


class Runs:
    """A station without a terminal."""

    def __init__(self, *options, more=None, **others):
        self.mark = secrets.token_hex(8)
        others.setdefault("stdin", subprocess.DEVNULL)
        others.setdefault("stdout", subprocess.PIPE)
        self.process = subprocess.Popen(
            [PYTHON, LIVE, *options], stderr=subprocess.PIPE, env=environment(self.mark, more), **others
        )

    def end(self, number=None, seconds=60.0):
        """Its status, output and notes. Nothing of it is left."""
        if number is not None:
            self.process.send_signal(number)
        try:
            out, notes = self.process.communicate(timeout=seconds)
        except subprocess.TimeoutExpired:
            self.process.send_signal(signal.SIGKILL)
            raise AssertionError(f"it did not end within {seconds} s") from None
        none_left(self.mark)
        notes = notes.decode("utf-8", "replace")
        assert "Traceback" not in notes, notes
        return self.process.returncode, (out or b"").decode("utf-8", "replace"), notes


def runs(*options, seconds=60.0, **others):
    """A station that ends by itself."""
    return Runs(*options, **others).end(seconds=seconds)


def on_terminal(*options, columns=80, lines=24, more=None):
    mark = secrets.token_hex(8)
    there = Terminal([PYTHON, LIVE, *options], columns, lines, environment(mark, {**SCREEN, **(more or {})}))
    there.mark = mark
    return there


def free_port():
    with socket.socket() as free:
        free.bind(("127.0.0.1", 0))
        return free.getsockname()[1]


def wait_for(is_so, seconds=10.0, what="it"):
    end = time.monotonic() + seconds
    while not (value := is_so()):
        assert time.monotonic() < end, f"{what} did not come within {seconds} s"
        time.sleep(0.02)
    return value


def read_of(path):
    with open(path, encoding="utf-8") as file:
        return file.read()
