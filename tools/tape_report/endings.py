"""How the tools end: a line and a status in place of a traceback, and nothing left by a signal that can be caught."""
import contextlib
import io
import os
import signal
import sys
from collections.abc import Callable, Iterator, Sequence
from types import FrameType

FOUND, NONE_FOUND, WRONG_WORDS, FAILED = 0, 1, 2, 3
# A shell adds this to the number of a signal.
BY_SIGNAL = 128
CAUGHT = (
    signal.SIGTERM,
    signal.SIGHUP,
    signal.SIGINT,
    signal.SIGQUIT,
    signal.SIGUSR1,
    signal.SIGUSR2,
    signal.SIGALRM,
)
# The status of a signal that came. If it comes in the middle of a callback of Python's, the exception is lost.
told: list[int] = []


def end_by(number: int, _frame: FrameType | None) -> None:
    """Ends in order, so that half-written files are taken away."""
    for caught in CAUGHT:
        signal.signal(caught, signal.SIG_IGN)
    told.append(BY_SIGNAL + number)
    end_if_told()


def end_if_told() -> None:
    """Ends if a signal came."""
    if told:
        raise SystemExit(told[0])


@contextlib.contextmanager
def held_back() -> Iterator[None]:
    """Signals that come within the block come at its end."""
    before = signal.pthread_sigmask(signal.SIG_BLOCK, CAUGHT)
    try:
        yield
    finally:
        signal.pthread_sigmask(signal.SIG_SETMASK, before)


def fill_standard() -> None:
    """Opens those of the first three descriptors that are closed, so that no file gets their numbers. What is written
    to a standard output that was closed fails as a write to a closed descriptor does.
    """
    for number in (0, 1, 2):
        try:
            os.fstat(number)
        except OSError:
            # The lowest number that is free is this one.
            os.set_inheritable(os.open(os.devnull, os.O_RDONLY if number < 2 else os.O_WRONLY), True)
    if sys.stdout is None:
        sys.stdout = open(1, "w", closefd=False)
    if sys.stderr is None:
        sys.stderr = open(2, "w", closefd=False)
    if sys.stdin is None:
        sys.stdin = open(0, closefd=False)


def leave_output() -> None:
    """What is left to be written goes nowhere."""
    nowhere = os.open(os.devnull, os.O_WRONLY)
    for stream in (sys.stdout, sys.stderr):
        try:
            stream.flush()
        except (OSError, ValueError):
            os.dup2(nowhere, stream.fileno())


def run(main: Callable[[Sequence[str]], int]) -> int:
    """Runs a tool on the words of its call."""
    fill_standard()
    for caught in CAUGHT:
        signal.signal(caught, end_by)
    for stream in (sys.stdout, sys.stderr):
        if isinstance(stream, io.TextIOWrapper):
            stream.reconfigure(encoding="utf-8", errors="backslashreplace")
    try:
        status = main(sys.argv[1:])
        sys.stdout.flush()
        return told[0] if told else status
    except BrokenPipeError:
        # Who read the output went away.
        return BY_SIGNAL + signal.SIGPIPE
    except OSError as fault:
        say(fault.strerror.lower() if fault.strerror else str(fault))
        return FAILED
    finally:
        leave_output()


def say(text: str) -> None:
    """A line on standard error, under the name that was typed. If it can't be written, there is nobody to be told."""
    with contextlib.suppress(OSError):
        print(f"{os.path.basename(sys.argv[0])}: {text}", file=sys.stderr, flush=True)
