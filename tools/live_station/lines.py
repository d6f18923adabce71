"""The lines that `tc` prints, as they come."""
import os
from collections.abc import Iterator
from dataclasses import dataclass

PIECE = 8_192


@dataclass(frozen=True)
class Word:
    """A line `word` of `ltc-rough`."""

    direction: str
    label: str
    user: str
    tick: int
    length: int

    @property
    def frames(self) -> int:
        return int(self.label[9:])

    @property
    def seconds(self) -> int:
        return int(self.label[6:8])


@dataclass(frozen=True)
class Heard:
    """A line `heard` of `ltc-fly`."""

    direction: str
    label: str
    joined: bool
    tick: int


@dataclass(frozen=True)
class Invented:
    """A line `invented` of `ltc-fly`: the place of the frame behind the last one that was heard."""

    direction: str
    label: str
    step: int
    tick: int


@dataclass(frozen=True)
class Gone:
    """A line `gone` of `ltc-fly`."""

    tick: int


@dataclass(frozen=True)
class Refused:
    """A line `refused` of `ltc-rough`."""

    name: str


Line = Word | Heard | Invented | Gone | Refused


def line_of(text: str) -> Line | None:
    """What a line says; nothing if it is of no use here."""
    match text.split():
        case ["word", direction, label, "user", user, "flags", _, "balance", _, "tick", tick, "length", length, *_]:
            return Word(direction, label, user, int(tick), int(length))
        case ["heard", direction, label, "joined", joined, "tick", tick]:
            return Heard(direction, label, joined == "1", int(tick))
        case ["invented", direction, label, "step", step, "tick", tick]:
            return Invented(direction, label, int(step), int(tick))
        case ["gone", "tick", tick]:
            return Gone(int(tick))
        case ["refused", _, name, *_]:
            return Refused(name)
    return None


class Lines:
    """The lines of a descriptor."""

    def __init__(self, descriptor: int) -> None:
        self.descriptor, self.begun = descriptor, b""
        self.is_ended = False
        os.set_blocking(descriptor, False)

    def come(self) -> Iterator[str]:
        """The lines that are whole by now."""
        try:
            piece = os.read(self.descriptor, PIECE)
        except BlockingIOError:
            return
        except OSError:
            piece = b""
        self.is_ended = not piece
        *texts, self.begun = (self.begun + piece).split(b"\n")
        # No line is longer; a program that writes no newline fills no memory.
        self.begun = self.begun[-PIECE:]
        for text in texts:
            yield text.decode("utf-8", "replace")
