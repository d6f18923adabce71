"""One run at a time in an output, and who it is. The system ends the lock with its run, however that ends."""
import contextlib
import fcntl
import os
import re
import socket
import time
from collections.abc import Iterator

from .faults import NoTarget
from .names import shown

KEPT = 500
OWN = re.compile(r"(a run|part \d+/\d+), process \d+ on .*")


def who(what: str) -> str:
    """This run, for another one that finds it at work."""
    return f"{what}, process {os.getpid()} on {socket.gethostname()}, since {time.strftime('%Y-%m-%d %H:%M:%S')}"


def is_own(path: str) -> bool:
    """The file is the lock of a run, or empty, and nothing else."""
    with open(path, "rb") as file:
        text = file.read(KEPT + 1).decode("utf-8", "replace").strip()
    return not text or OWN.fullmatch(text) is not None


@contextlib.contextmanager
def held(path: str, what: str, is_shared: bool) -> Iterator[None]:
    """The lock of an output, as long as the block lasts. The parts of an array share it."""
    handle = os.open(path, os.O_RDWR | os.O_CREAT | os.O_CLOEXEC | os.O_NOFOLLOW, 0o666)
    try:
        try:
            fcntl.flock(handle, (fcntl.LOCK_SH if is_shared else fcntl.LOCK_EX) | fcntl.LOCK_NB)
        except BlockingIOError:
            holder = " ".join(os.pread(handle, KEPT, 0).decode("utf-8", "replace").split())
            raise NoTarget(f"{shown(os.path.dirname(path))}: {holder or 'another run'} works there") from None
        except OSError:
            # A filesystem without locks.
            pass
        os.ftruncate(handle, 0)
        os.pwrite(handle, (who(what) + "\n").encode("utf-8", "backslashreplace"), 0)
        yield
        if not is_shared:
            os.ftruncate(handle, 0)
    finally:
        os.close(handle)
