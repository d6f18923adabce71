"""The log: a line an event, appended and synced by a thread of its own, since a disk may be slow."""
import os
import queue
import stat
import threading
from collections.abc import Callable

from tape_report.faults import NoTarget
from tape_report.names import shown

from . import events
from .events import Event

# The word by which the first line of a log is known.
MARK = b" begins "
# How many lines are written in a minute at most; what is more is counted.
LINES_A_MINUTE = 30
MOST_WAITING = 1_000
END_SECONDS = 2.0


def opened(path: str) -> int:
    """The log, at its end. A file that is no log is left as it is."""
    if os.path.isdir(path):
        raise NoTarget(f"{shown(path)}: it is a folder")
    try:
        handle = os.open(path, os.O_RDWR | os.O_APPEND | os.O_CREAT | os.O_NONBLOCK | os.O_CLOEXEC | os.O_NOCTTY, 0o666)
    except OSError as fault:
        raise NoTarget(f"{shown(path)}: {(fault.strerror or 'it can not be written').lower()}") from fault
    there = os.fstat(handle)
    if not stat.S_ISREG(there.st_mode):
        os.close(handle)
        raise NoTarget(f"{shown(path)}: it is no file, and is left as it is")
    first = os.pread(handle, 4096, 0).split(b"\n")[0]
    if there.st_size and MARK not in first:
        os.close(handle)
        raise NoTarget(f"{shown(path)}: it is no log of this tool, and is left as it is")
    return handle


class Log:
    """A log that is written. What can't be written is reported once, and tried again with the next event."""

    def __init__(self, path: str, tell: Callable[[str], None]) -> None:
        self.path, self.tell = path, tell
        self.handle = opened(path)
        self.waiting: queue.Queue[Event | None] = queue.Queue(MOST_WAITING)
        self.minute, self.lines, self.more = 0, 0, 0
        self.is_failing = False
        self.thread = threading.Thread(target=self.work, name="log", daemon=True)
        self.thread.start()

    def put(self, event: Event) -> None:
        """Never waits: if the disk does not answer, the newest are left out."""
        try:
            self.waiting.put_nowait(event)
        except queue.Full:
            self.more += 1

    def work(self) -> None:
        while True:
            event = self.waiting.get()
            if event is None:
                return
            records = self.records_of(event)
            if records:
                self.write(records)

    def records_of(self, event: Event) -> str:
        """What is written of an event: of many in a minute their number."""
        minute = int(event.at) // 60
        told = ""
        if self.more and (minute != self.minute or event.kind == events.ENDS):
            told = Event(event.at, events.LOG, "", f"{self.more} more events in this minute").record()
            self.more = 0
        if minute != self.minute:
            self.minute, self.lines = minute, 0
        self.lines += 1
        # A card that is lost among much else is logged all the same.
        most = LINES_A_MINUTE * (2 if event.kind == events.CARD else 1)
        if self.lines > most and event.kind not in (events.BEGINS, events.ENDS):
            self.more += 1
            return told
        return told + event.record()

    def write(self, text: str) -> None:
        try:
            data = text.encode("utf-8", "backslashreplace")
            while data:
                data = data[os.write(self.handle, data) :]
            os.fsync(self.handle)
            self.is_failing = False
        except OSError as fault:
            if not self.is_failing:
                self.is_failing = True
                self.tell(f"{shown(self.path)}: {(fault.strerror or 'it can not be written').lower()}")

    def close(self) -> None:
        """Writes what waits, for a short while."""
        try:
            self.waiting.put(None, timeout=END_SECONDS)
        except queue.Full:
            return
        self.thread.join(END_SECONDS)
        if not self.thread.is_alive():
            os.close(self.handle)
