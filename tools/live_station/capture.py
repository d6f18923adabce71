"""Where the samples come from: a card, a port of JACK, a file at its own pace, or standard input.

Each is a descriptor from which bytes come, and their form. A card and JACK are programs of their own; a file is played
into a pipe by a thread, so that a slow disk delays nobody.
"""
import contextlib
import os
import shutil
import stat
import subprocess
import threading
import time
from collections.abc import Iterator
from typing import IO

from tape_report.faults import NoProgram, NoSound
from tape_report.names import shown
from tape_report.sound import Input, sound_of
from tape_report.source import Source, identity

from . import children
from .form import WAVES, Form, wave_header, whole

# Of a card: how long a block is and how much it keeps while nobody reads, in microseconds.
BLOCK_TIME, KEPT_TIME = 10_000, 500_000
# Of a file: how many samples a block has.
FILE_BLOCK = 512
PIECE = 8_192
ANSWER_SECONDS = 5
# How often JACK is asked for its ports.
PORT_SECONDS = 1.0
STANDARD_INPUT = "-"


class Capture:
    """Samples as they come. `notes` is a descriptor of what a program complains of, `is_lasting` whether it is opened
    again when it ends.
    """

    def __init__(self, name: str, form: Form, descriptor: int, is_lasting: bool = False) -> None:
        self.name, self.form, self.descriptor, self.is_lasting = name, form, descriptor, is_lasting
        self.notes: int | None = None
        self.rest = b""
        self.left: int | None = None
        # How many seconds lie between blocks, if these are long.
        self.apart = 0.0
        os.set_blocking(descriptor, False)

    def read(self) -> bytes | None:
        """Whole samples of all tracks that have come; nothing at the end; None if no whole sample has come."""
        if self.left == 0:
            return b""
        try:
            piece = os.read(self.descriptor, PIECE if self.left is None else min(PIECE, self.left))
        except BlockingIOError:
            return None
        except OSError:
            return b""
        if not piece:
            return b""
        if self.left is not None:
            self.left -= len(piece)
        data = self.rest + piece
        size = len(data) // self.form.block * self.form.block
        self.rest = data[size:]
        return data[:size] or None

    def fault(self) -> str:
        """Why its samples are none, though some may come; empty if they are."""
        return ""

    def close(self) -> str:
        """Ends it, and says how it ended."""
        return "the input ended"


class Recorder(Capture):
    """A program that writes the samples of a card or of JACK as they come."""

    def __init__(self, name: str, form: Form, words: list[str]) -> None:
        if shutil.which(words[0]) is None:
            package = {"arecord": "alsa-utils", "jack-stdout": "jack-stdio"}[words[0]]
            raise NoProgram(f"{words[0]} is not installed (Debian: {package})")
        self.program = words[0]
        self.process = children.started(words)
        assert self.process.stdout is not None and self.process.stderr is not None
        super().__init__(name, form, self.process.stdout.fileno(), is_lasting=True)
        self.notes = self.process.stderr.fileno()
        os.set_blocking(self.notes, False)

    def close(self) -> str:
        return f"{self.program} ended with {children.how(children.ended(self.process))}"


class JackRecorder(Recorder):
    """A port of JACK. A program that listens to a port which is gone gets silence: so it is looked for."""

    def __init__(self, port: str, form: Form) -> None:
        super().__init__(f"JACK {shown(port)}", form, ["jack-stdout", "-q", port])
        self.port, self.is_gone, self.is_over = port, False, threading.Event()
        self.thread = threading.Thread(target=self.watch, name="JACK's ports", daemon=True)
        self.thread.start()

    def watch(self) -> None:
        while not self.is_gone and not self.is_over.wait(PORT_SECONDS):
            self.is_gone = jack_has(self.port) is False

    def fault(self) -> str:
        return "there is no such port any more" if self.is_gone else ""

    def close(self) -> str:
        self.is_over.set()
        return super().close()


class Streamed(Capture):
    """Standard input, of which a first part was read."""

    def __init__(self, form: Form, stream: IO[bytes], left: int | None, begun: bytes) -> None:
        super().__init__("standard input", form, stream.fileno())
        self.stream, self.left, self.rest = stream, left, begun


class Played(Capture):
    """A file at its own pace, or at a multiple of it."""

    def __init__(
        self, name: str, form: Form, source: Input, left: int | None, pace: float, begun: bytes = b""
    ) -> None:
        reading, writing = os.pipe()
        super().__init__(name, form, reading)
        self.rest, self.apart = begun, FILE_BLOCK / form.rate / pace
        words = (source, writing, form, left, pace)
        self.thread = threading.Thread(target=play, args=words, name="player", daemon=True)
        self.thread.start()

    def close(self) -> str:
        os.close(self.descriptor)
        self.thread.join(children.PATIENCE)
        return "the file ended"


def play(source: Input, writing: int, form: Form, left: int | None, pace: float) -> None:
    """Writes each block when its last sample is due."""
    began, number = time.monotonic(), 0
    seconds = FILE_BLOCK / form.rate / pace
    try:
        while left is None or left > 0:
            size = FILE_BLOCK * form.block
            data = source.output.read(size if left is None else min(size, left))
            if not data:
                return
            left = None if left is None else left - len(data)
            number += 1
            time.sleep(max(0.0, began + number * seconds - time.monotonic()))
            os.write(writing, data)
    except (OSError, ValueError):
        return
    finally:
        with contextlib.suppress(OSError):
            os.close(writing)
        source.close()


def card(name: str, rate: int, tracks: int) -> Capture:
    """A card of ALSA."""
    words = ["arecord", "-q", "-D", name, "-t", "raw", "-f", "S16_LE", "-r", str(rate), "-c", str(tracks)]
    times = ["-F", str(BLOCK_TIME), "-B", str(KEPT_TIME)]
    return Recorder(f"card {shown(name)}", Form(rate, tracks), [*words, *times])


def jack(port: str, rate: int | None) -> Capture:
    """A port of JACK."""
    # Nobody who listens starts a server.
    os.environ.setdefault("JACK_NO_START_SERVER", "1")
    form = Form(rate or jack_rate(), 1)
    if jack_has(port) is False:
        raise NoSound(f"JACK {shown(port)}: there is no such port; jack_lsp lists those that are there")
    return JackRecorder(port, form)


def jack_has(port: str) -> bool | None:
    """Whether the JACK server has a port of this name; None if it does not answer, or nobody is there to ask it."""
    if shutil.which("jack_lsp") is None:
        return None
    asking = children.started(["jack_lsp"], stderr=children.NOTHING)
    try:
        told, _ = asking.communicate(timeout=ANSWER_SECONDS)
    except (subprocess.TimeoutExpired, ValueError, OSError):
        told = b""
    if children.ended(asking) != 0 or not told:
        return None
    return os.fsencode(port) in told.split(b"\n")


def jack_rate() -> int:
    """The samples a second of the JACK server that runs."""
    if shutil.which("jack_samplerate") is None:
        raise NoProgram("jack_samplerate is not installed (Debian: jackd2), so --rate has to say the rate")
    with contextlib.suppress(subprocess.TimeoutExpired):
        asked = subprocess.run(["jack_samplerate"], capture_output=True, timeout=ANSWER_SECONDS, check=False)
        for line in asked.stdout.decode("ascii", "replace").splitlines():
            if line.strip().isdigit():
                return int(line)
    raise NoSound("no JACK server runs")


def file(name: str, track: int, pace: float) -> tuple[Capture, int]:
    """A sound or video file, and the number of the track in what is played of it."""
    try:
        mode = os.stat(name).st_mode
    except OSError as fault:
        raise NoSound(f"{shown(name)}: {(fault.strerror or 'it can not be read').lower()}") from fault
    if stat.S_ISDIR(mode):
        raise NoSound(f"{shown(name)}: it is a folder")
    if not stat.S_ISREG(mode):
        raise NoSound(f"{shown(name)}: it is no file; give it to standard input")
    with told_of(name):
        sound = sound_of(Source(name, name, identity(name)))
        stream, number = sound.place_of(track)
        source = sound.open(stream)
        letters = whole(source.output, 4)
        if letters not in WAVES:
            raise NoSound("it is no WAV file")
        form, left = wave_header(source.output)
    return Played(f"file {shown(os.path.basename(name))}", form, source, left, pace), number


@contextlib.contextmanager
def told_of(name: str) -> Iterator[None]:
    """What is wrong with a file is reported with its name."""
    try:
        yield
    except NoSound as fault:
        raise NoSound(f"{shown(name)}: {fault}") from fault


def standard_input(rate: int, tracks: int) -> Capture:
    """Standard input: a WAV file as it comes, or raw samples of 16 bits."""
    if os.isatty(0):
        raise NoSound("standard input is a terminal; --card, --file or --jack says where the sound comes from")
    stream: IO[bytes] = os.fdopen(os.dup(0), "rb", buffering=0)
    with told_of("standard input"):
        try:
            letters = whole(stream, 4)
            form, left = wave_header(stream) if letters in WAVES else (Form(rate, tracks), None)
        except OSError as fault:
            raise NoSound((fault.strerror or "it can't be read").lower()) from fault
    begun = b"" if letters in WAVES else letters
    if stat.S_ISREG(os.fstat(0).st_mode):
        # A file has no pace of its own.
        return Played("standard input", form, Input(file=stream), left, 1.0, begun)
    return Streamed(form, stream, left, begun)
