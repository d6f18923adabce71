"""Bytes for a process, which is never waited for."""
import contextlib
import os
import time
from typing import IO

from .loop import Loop

# More than this is not sent to one who does not take it.
MOST_KEPT = 1 << 18


class Feed:
    """The way to the standard input of a process. What it does not take yet is kept."""

    def __init__(self, loop: Loop, stream: IO[bytes]) -> None:
        self.loop, self.stream = loop, stream
        self.kept = bytearray()
        self.moved = time.monotonic()
        self.is_broken = False
        self.is_ending = False
        os.set_blocking(stream.fileno(), False)

    def put(self, data: bytes) -> None:
        if self.is_broken:
            return
        if not self.kept:
            self.moved = time.monotonic()
        self.kept += data
        self.push()

    def push(self) -> None:
        """Writes what is taken now."""
        while self.kept and not self.is_broken:
            try:
                count = os.write(self.stream.fileno(), self.kept)
            except BlockingIOError:
                break
            except OSError:
                self.is_broken = True
                break
            del self.kept[:count]
            self.moved = time.monotonic()
        if self.kept and not self.is_broken:
            self.loop.pushing.add(self.push)
        else:
            self.loop.pushing.discard(self.push)
        if self.is_ending and not self.kept:
            self.close()

    @property
    def is_full(self) -> bool:
        return len(self.kept) > MOST_KEPT and not self.is_broken

    def is_stuck(self, patience: float) -> bool:
        """It has taken nothing for `patience` seconds."""
        return self.is_broken and not self.is_ending or bool(self.kept) and time.monotonic() - self.moved > patience

    def end(self) -> None:
        """Closes it behind what is kept."""
        self.is_ending = True
        self.push()

    def close(self) -> None:
        self.is_broken = self.is_ending = True
        self.kept.clear()
        self.loop.pushing.discard(self.push)
        with contextlib.suppress(OSError):
            self.stream.close()
