"""The processes that the station starts: each ends with it, however it ends."""
import contextlib
import ctypes
import os
import signal
import subprocess
from collections.abc import Callable, Sequence

# Of prctl: the signal that a process gets when the thread that started it ends.
PR_SET_PDEATHSIG = 1
LIBC = ctypes.CDLL(None)
# How long a process may take to end by itself, in seconds.
PATIENCE = 0.5
NOTHING = subprocess.DEVNULL
PIPE = subprocess.PIPE


def bound_to(parent: int) -> Callable[[], None]:
    """What a new process does before its program begins: it is to die with its parent, also by `kill -9` of that."""

    def bind() -> None:
        LIBC.prctl(PR_SET_PDEATHSIG, signal.SIGKILL)
        if os.getppid() != parent:
            os._exit(127)

    return bind


def started(words: Sequence[str], stdin: int = NOTHING, stdout: int = PIPE, stderr: int = PIPE) -> subprocess.Popen:
    """A process of its own session, so that ctrl-C comes to the station alone. Only the main thread may call this: a
    process dies with the thread that started it.
    """
    return subprocess.Popen(
        words,
        stdin=stdin,
        stdout=stdout,
        stderr=stderr,
        bufsize=0,
        start_new_session=True,
        preexec_fn=bound_to(os.getpid()),
    )


def ended(process: subprocess.Popen) -> int:
    """Ends a process that has not ended by itself, and gives its status."""
    for stream in (process.stdin, process.stdout, process.stderr):
        if stream is not None:
            with contextlib.suppress(OSError):
                stream.close()
    for end in (process.terminate, process.kill):
        if process.poll() is not None:
            break
        end()
        with contextlib.suppress(subprocess.TimeoutExpired):
            process.wait(PATIENCE)
    return process.wait()


def how(status: int) -> str:
    """How a process ended, in words."""
    if status >= 0:
        return f"status {status}"
    with contextlib.suppress(ValueError):
        return f"signal {signal.Signals(-status).name[3:]}"
    return f"signal {-status}"
