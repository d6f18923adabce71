"""Files that are written: nothing that exists is harmed, and what has its name is whole.

A file is written under a name of its own beside its target, made so that no file had it before, and gets the target's
name when it is whole. As long as its run lives it is locked; what a dead run left is taken away by the next run that
writes the same target.
"""
import contextlib
import errno
import fcntl
import os
import re
import shutil
import stat
import tempfile
import zlib
from collections.abc import Iterable, Iterator
from typing import IO

from .endings import held_back
from .faults import NoTarget
from .names import shown
from .records import dataclass
from .source import Identity, identity

PIECE = 1 << 20
# What a filesystem without hard links answers.
NO_LINKS = (errno.EPERM, errno.ENOTSUP, errno.ENOSYS, errno.EMLINK)


@dataclass
class Part:
    """A file while it is written: to write into, and by name for a program that writes it."""

    file: IO[bytes]
    name: str | None


def refuse(path: str, force: bool, tapes: Iterable[Identity] = ()) -> None:
    """Raises if a file of this name must not be written: a tape itself and a folder never, and what exists by
    force alone.
    """
    if not os.path.lexists(path):
        if not os.path.isdir(os.path.dirname(path) or "."):
            raise NoTarget(f"{shown(path)}: its folder is not there")
        return
    try:
        behind = os.stat(path)
    except OSError:
        behind = os.lstat(path)
    if (behind.st_dev, behind.st_ino) in set(tapes):
        raise NoTarget(f"{shown(path)}: it is the tape itself")
    if stat.S_ISDIR(behind.st_mode):
        raise NoTarget(f"{shown(path)}: it is a folder")
    if not force:
        raise NoTarget(f"{shown(path)}: {what_is(behind.st_mode)}; it is left as it is without --force")


def what_is(mode: int) -> str:
    if stat.S_ISREG(mode) or stat.S_ISLNK(mode):
        return "it exists"
    return "it is a fifo" if stat.S_ISFIFO(mode) else "it is a device"


def is_special(path: str) -> bool:
    """A device or a fifo, which is written into and never replaced."""
    return os.path.exists(path) and not os.path.isfile(path)


def refuse_all(paths: Iterable[str | None], force: bool, tapes: Iterable[Identity]) -> None:
    """The same of all files that a run is to write, of which no two may be one."""
    places = [path for path in paths if path is not None]
    for path in places:
        refuse(path, force, tapes)
    if len({os.path.realpath(path) for path in places}) < len(places):
        raise NoTarget("two of the files to write have one name")


@contextlib.contextmanager
def written(path: str, force: bool = False, tapes: Iterable[Identity] = ()) -> Iterator[Part]:
    """A file to write, which gets the name when the block ends well, and is gone when it does not."""
    tapes = tuple(tapes)
    refuse(path, force, tapes)
    if is_special(path):
        with tempfile.TemporaryFile() as file:
            yield Part(file, None)
            file.seek(0)
            with open(path, "wb") as out:
                shutil.copyfileobj(file, out, PIECE)
        return
    take_away(path, tapes)
    made: tuple[IO[bytes], str] | None = None
    try:
        # A signal between the making and the keeping of the name would leave the file.
        with held_back():
            made = new_part(path)
        file, name = made
        yield Part(file, name)
        file.flush()
        refuse(path, force, tapes)
        give_name(name, path, force)
    finally:
        if made is not None:
            with contextlib.suppress(FileNotFoundError):
                os.unlink(made[1])
            with contextlib.suppress(OSError):
                made[0].close()


def write_text(path: str, text: str, force: bool = False, tapes: Iterable[Identity] = ()) -> None:
    with written(path, force, tapes) as part:
        part.file.write(text.encode("utf-8", "backslashreplace"))


def beginning_of(path: str) -> str:
    """How the names of half-written files of this target begin. The target's own name may be as long as a name can
    be.
    """
    return f".tc-part-{zlib.crc32(os.fsencode(os.path.basename(path))):08x}-"


def new_part(path: str) -> tuple[IO[bytes], str]:
    """A new file beside the target, locked as long as it is open, and its name."""
    folder = os.path.dirname(path) or "."
    while True:
        name = os.path.join(folder, beginning_of(path) + os.urandom(8).hex())
        handle = os.open(name, os.O_RDWR | os.O_CREAT | os.O_EXCL | os.O_CLOEXEC, 0o666)
        with contextlib.suppress(OSError):
            fcntl.flock(handle, fcntl.LOCK_EX)
        # Another run may have taken it for a dead one's before the lock.
        if os.fstat(handle).st_nlink:
            return os.fdopen(handle, "w+b"), name
        os.close(handle)


def take_away(path: str, tapes: Iterable[Identity] = ()) -> None:
    """Removes what dead runs left of this target. What another run still writes is locked, and stays."""
    folder = os.path.dirname(path) or "."
    mine = re.compile(re.escape(beginning_of(path)) + "[0-9a-f]{16}")
    for name in os.listdir(folder):
        if mine.fullmatch(name):
            take_one_away(os.path.join(folder, name), set(tapes))


def take_one_away(part: str, tapes: set[Identity]) -> None:
    with contextlib.suppress(OSError):
        handle = os.open(part, os.O_RDONLY | os.O_NOFOLLOW | os.O_CLOEXEC | os.O_NONBLOCK)
        try:
            fcntl.flock(handle, fcntl.LOCK_EX | fcntl.LOCK_NB)
            there = os.fstat(handle)
            if stat.S_ISREG(there.st_mode) and identity(part) == identity(handle) and identity(handle) not in tapes:
                os.unlink(part)
        finally:
            os.close(handle)


def give_name(part: str, path: str, force: bool) -> None:
    """The name, to a file that is whole. What has it meanwhile is replaced by force alone."""
    if force:
        os.replace(part, path)
        return
    try:
        os.link(part, path, follow_symlinks=False)
    except FileExistsError:
        raise NoTarget(f"{shown(path)}: it exists; it is left as it is without --force") from None
    except OSError as fault:
        if fault.errno not in NO_LINKS:
            raise
        claim_name(part, path)


def claim_name(part: str, path: str) -> None:
    """The same without hard links: an empty file that none had before claims the name."""
    os.close(os.open(path, os.O_WRONLY | os.O_CREAT | os.O_EXCL | os.O_CLOEXEC))
    try:
        os.replace(part, path)
    except OSError:
        os.unlink(path)
        raise
