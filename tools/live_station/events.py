"""What happened, with the time of day: a line of the display, of the page and of the log."""
import time
from dataclasses import dataclass

BEGINS, ENDS = "begins", "ends"
CODE, DROPOUT, JUMP, TURN, COUNT, GONE = "code", "drop-out", "jump", "turn", "count", "gone"
SYSTEM, CARD, SAMPLES, READING = "system", "card", "samples", "reading"
MIDI, PAGE, LOG, NOTE = "midi", "page", "log", "note"


@dataclass(frozen=True)
class Happening:
    """What happened, at which label, and what is to be said of it."""

    kind: str
    label: str = ""
    text: str = ""
    # When it happened, in seconds of the machine's clock, if that is not now.
    at: float | None = None


@dataclass(frozen=True)
class Event:
    """A happening and its moment, in seconds of the machine's clock."""

    at: float
    kind: str
    label: str
    text: str

    @property
    def clock(self) -> str:
        """The time of day, local, to the thousandth."""
        return time.strftime("%H:%M:%S", time.localtime(self.at)) + f".{int(self.at * 1000) % 1000:03}"

    @property
    def stamp(self) -> str:
        """Day and time with the distance from universal time, as ISO 8601 has it."""
        there = time.localtime(self.at)
        zone = time.strftime("%z", there)
        return f"{time.strftime('%Y-%m-%d', there)}T{self.clock}{zone[:3]}:{zone[3:]}"

    def line(self) -> str:
        """A line of the display."""
        return f"{self.clock}  {self.kind:8} {self.label:11} {self.text}".rstrip()

    def record(self) -> str:
        """A line of the log."""
        return f"{self.stamp} {self.kind} {self.label or '-'} {self.text}".rstrip() + "\n"
