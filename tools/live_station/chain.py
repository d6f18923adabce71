"""The pipe of `tc` that reads a track: the slicer, and behind it a reader of words and one of frames.

The intervals come here, and go to both readers. Only a byte of their header says the system, so the frames can be read
as those of another system than the one that the slicer was given.
"""
import os
import struct
from collections.abc import Callable
from dataclasses import dataclass

from tape_report.programs import program
from tape_report.spans import FINENESS

from . import children
from .feed import Feed
from .form import Form
from .lines import Line, Lines, line_of
from .loop import Loop

# An interval file of version 1: its header, and the bytes of an interval.
HEADER, INTERVAL = 12, 4
TOLERANCE = "rough"
PIECE = 8_192
# The seconds after which a process that takes nothing is given up.
PATIENCE = 5.0


@dataclass(frozen=True)
class Slicing:
    """How a track is sliced: the least height of code, how many samples a sum has, and a lower threshold."""

    threshold: int
    smooth: int
    is_deep: bool

    def words(self, system: int, track: int) -> list[str]:
        """The slicer of a track."""
        words = [program(), "wav-ltc", str(system), str(track), str(self.threshold), str(self.smooth)]
        return [*words, *(["deep"] if self.is_deep else []), "live"]


def header_of(form: Form, system: int) -> bytes:
    """The header of the intervals of a track."""
    return b"LTCI" + struct.pack(">BBHI", 1, system, 0, FINENESS * form.rate)


class Reader:
    """A command of `tc` that reads intervals, and writes its lines."""

    def __init__(self, loop: Loop, words: list[str], header: bytes, tell: Callable[[Line], None]) -> None:
        self.loop, self.tell = loop, tell
        self.process = children.started([program(), *words], stdin=children.PIPE, stderr=children.NOTHING)
        assert self.process.stdin is not None and self.process.stdout is not None
        self.feed, self.lines = Feed(loop, self.process.stdin), Lines(self.process.stdout.fileno())
        loop.watch(self.lines.descriptor, self.come)
        self.feed.put(header)

    def come(self) -> None:
        for text in self.lines.come():
            line = line_of(text)
            if line is not None:
                self.tell(line)
        if self.lines.is_ended:
            self.loop.forget(self.lines.descriptor)

    def close(self) -> None:
        self.loop.forget(self.lines.descriptor)
        self.feed.close()
        children.ended(self.process)


class Chain:
    """The processes that read one track, as long as one capture lasts."""

    def __init__(self, loop: Loop, form: Form, slicer: list[str], system: int, tell: Callable[[Line], None]) -> None:
        self.loop, self.form, self.tell = loop, form, tell
        self.slicer = children.started(slicer, stdin=children.PIPE, stderr=children.NOTHING)
        assert self.slicer.stdin is not None and self.slicer.stdout is not None
        self.intervals = self.slicer.stdout.fileno()
        os.set_blocking(self.intervals, False)
        self.feed = Feed(loop, self.slicer.stdin)
        # What came of the slicer up to the last whole interval; and whether that was all.
        self.passed, self.rest, self.is_sliced = 0, b"", False
        self.words = Reader(loop, ["ltc-" + TOLERANCE], header_of(form, system), tell)
        self.frames: Reader | None = None
        loop.watch(self.intervals, self.come)
        self.feed.put(form.header())

    def read_frames(self, system: int, limit: int) -> None:
        """Reads the frames as those of a system, from here on."""
        if self.frames is not None:
            self.frames.close()
        words = ["ltc-fly", str(limit), TOLERANCE]
        self.frames = Reader(self.loop, words, header_of(self.form, system), self.tell)

    def readers(self) -> list[Reader]:
        return [self.words, *([self.frames] if self.frames else [])]

    def come(self) -> None:
        """Intervals of the slicer go to the readers."""
        try:
            piece = os.read(self.intervals, PIECE)
        except BlockingIOError:
            return
        if not piece:
            self.loop.forget(self.intervals)
            self.is_sliced = True
            for reader in self.readers():
                reader.feed.end()
            return
        data = self.rest + piece
        size = len(data) // INTERVAL * INTERVAL
        data, self.rest = data[:size], data[size:]
        skipped = max(0, HEADER - self.passed)
        self.passed += size
        for reader in self.readers():
            reader.feed.put(data[skipped:])

    @property
    def is_done(self) -> bool:
        """All that was given to it was read, and its lines have come."""
        return self.is_sliced and all(reader.lines.is_ended for reader in self.readers())

    def fault(self) -> str:
        """Why it has to be begun anew; empty if it need not."""
        if not self.feed.is_ending:
            for process in (self.slicer, *(reader.process for reader in self.readers())):
                if process.poll() is not None:
                    return f"tc ended with {children.how(process.returncode)}"
        feeds = [self.feed, *(reader.feed for reader in self.readers())]
        return "tc takes no more" if any(feed.is_stuck(PATIENCE) for feed in feeds) else ""

    def close(self) -> None:
        self.loop.forget(self.intervals)
        self.feed.close()
        for reader in self.readers():
            reader.close()
        children.ended(self.slicer)
