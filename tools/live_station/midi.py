"""MIDI Time Code to a port: a pipe of `tc` of its own, whose last command writes into the port itself.

So nothing that is shown or served holds it up. A port that takes nothing ends that command, since it is opened so
that no write waits; it is reported, and tried again.
"""
import contextlib
import os
import select
import stat
import time
from collections.abc import Callable

from tape_report.faults import NoTarget
from tape_report.names import shown
from tape_report.programs import program

from . import children
from .chain import TOLERANCE
from .feed import Feed
from .form import Form
from .loop import Loop

# How often a port that is not there is tried, and how long a process may take nothing, in seconds. A port that failed
# is there again when it has taken what came for the third of these times.
AGAIN, PATIENCE, SURE = 1.0, 2.0, 2.0


def refuse(path: str) -> None:
    """Raises if a file of this name exists that is no port: it would be harmed."""
    with contextlib.suppress(FileNotFoundError):
        refuse_mode(path, os.stat(path).st_mode)


def refuse_mode(path: str, mode: int) -> None:
    if not stat.S_ISCHR(mode) and not stat.S_ISFIFO(mode):
        raise NoTarget(f"{shown(path)}: it is neither a MIDI device nor a FIFO, and is left as it is")


class Midi:
    """A port, and what is sent to it while it is there."""

    def __init__(self, loop: Loop, path: str, limit: int, tell: Callable[[str], None]) -> None:
        refuse(path)
        self.loop, self.path, self.limit, self.tell = loop, path, limit, tell
        self.slicer: list[str] | None = None
        self.form: Form | None = None
        self.port: int | None = None
        self.feed: Feed | None = None
        self.processes: list = []
        self.next, self.opened, self.has_failed = 0.0, 0.0, False
        self.state = "waiting for code"

    def begin(self, form: Form, slicer: list[str]) -> None:
        """Sends what is sliced so, from the next block on."""
        self.close()
        self.form, self.slicer, self.next = form, slicer, 0.0
        self.tick()

    def tick(self) -> None:
        """Looks after the port."""
        if self.slicer is None:
            return
        if self.port is None and time.monotonic() >= self.next:
            self.open()
        elif self.port is not None:
            fault = self.fault(self.port)
            if fault:
                self.lose(fault)
            elif self.has_failed and time.monotonic() >= self.opened + SURE:
                self.has_failed = False
                self.say(f"sending to {shown(self.path)}")

    def fault(self, port: int) -> str:
        """Why nothing can be sent; empty if it can."""
        poll = select.poll()
        poll.register(port, 0)
        if poll.poll(0):
            return "is gone"
        if any(process.poll() is not None for process in self.processes):
            return "took no more"
        return "takes nothing" if self.feed and self.feed.is_stuck(PATIENCE) else ""

    def lose(self, fault: str) -> None:
        self.close()
        self.has_failed = True
        self.say(f"{shown(self.path)} {fault}; it is tried each second")

    def say(self, text: str) -> None:
        """Shows a state that is new."""
        if text != self.state:
            self.state = text
            self.tell(text)

    def open(self) -> None:
        """Opens the port, and starts the pipe into it."""
        self.next = time.monotonic() + AGAIN
        try:
            self.port = os.open(self.path, os.O_WRONLY | os.O_NONBLOCK | os.O_NOCTTY | os.O_CLOEXEC)
            refuse_mode(self.path, os.fstat(self.port).st_mode)
        except (OSError, NoTarget) as fault:
            self.close()
            reason = (fault.strerror or "").lower() if isinstance(fault, OSError) else "is no port"
            # A FIFO that nobody reads.
            reason = "has no reader" if reason == "no such device or address" else reason
            self.say(f"{shown(self.path)}: {reason}; it is tried each second")
            return
        self.start()
        self.opened = time.monotonic()
        if not self.has_failed:
            self.say(f"sending to {shown(self.path)}")

    def start(self) -> None:
        assert self.slicer is not None and self.form is not None and self.port is not None
        slicer = children.started(self.slicer, stdin=children.PIPE, stderr=children.NOTHING)
        assert slicer.stdin is not None and slicer.stdout is not None
        words = [program(), "ltc-mtc", str(self.limit), TOLERANCE]
        sender = children.started(words, slicer.stdout.fileno(), self.port, children.NOTHING)
        slicer.stdout.close()
        self.processes = [slicer, sender]
        self.feed = Feed(self.loop, slicer.stdin)
        self.feed.put(self.form.header())

    def put(self, data: bytes) -> None:
        if self.feed is not None:
            self.feed.put(data)

    @property
    def is_full(self) -> bool:
        return self.feed is not None and self.feed.is_full

    def pause(self) -> None:
        """No sound comes until it begins again."""
        self.close()
        self.slicer = None

    def close(self) -> None:
        if self.feed is not None:
            self.feed.close()
        self.feed = None
        for process in self.processes:
            children.ended(process)
        self.processes = []
        if self.port is not None:
            os.close(self.port)
        self.port = None
