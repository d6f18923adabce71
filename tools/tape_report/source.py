"""A file as it was named, as one that can be read again and again: what comes by a pipe is kept in a file without a
name.
"""
import contextlib
import os
import shutil
import stat
import tempfile
from collections.abc import Iterator
from typing import IO

from .faults import NoSound, NotThere
from .records import dataclass

STANDARD_INPUT = "-"
# A file by its device and inode.
Identity = tuple[int, int]


@dataclass(frozen=True)
class Source:
    """The name that was typed, the path by which it is read, and the file behind both."""

    name: str
    path: str
    tape: Identity


def identity(path: str | int) -> Identity:
    """The file behind a name or a descriptor, whatever links lead to it."""
    there = os.stat(path)
    return there.st_dev, there.st_ino


def path_of(file: IO[bytes]) -> str:
    """A path to an open file, for this process and those that it starts."""
    return f"/proc/{os.getpid()}/fd/{file.fileno()}"


@contextlib.contextmanager
def opened(name: str) -> Iterator[Source]:
    """The file of this name, or the standard input, as long as the block lasts."""
    try:
        mode = os.fstat(0).st_mode if name == STANDARD_INPUT else os.stat(name).st_mode
    except OSError as fault:
        raise NotThere((fault.strerror or "it can't be read").lower()) from fault
    if stat.S_ISDIR(mode):
        raise NoSound("it is a folder")
    if stat.S_ISREG(mode) and name != STANDARD_INPUT:
        yield Source(name, name, identity(name))
        return
    with tempfile.TemporaryFile() as kept:
        try:
            with os.fdopen(os.dup(0), "rb") if name == STANDARD_INPUT else open(name, "rb") as file:
                tape = identity(file.fileno())
                shutil.copyfileobj(file, kept, 1 << 20)
        except OSError as fault:
            raise NoSound((fault.strerror or "it can't be read").lower()) from fault
        kept.flush()
        yield Source(name, path_of(kept), tape)
