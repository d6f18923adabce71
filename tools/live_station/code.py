"""What is known of the code now, from the lines of `tc`, and what happened to it."""
import time
from collections.abc import Iterator
from dataclasses import dataclass
from fractions import Fraction

from tape_report.labels import LABELS_A_DAY, number_of
from tape_report.spans import FINENESS

from .events import CODE, COUNT, DROPOUT, GONE, JUMP, TURN, Happening
from .lines import Gone, Heard, Invented, Line, Refused, Word

NONE, HEARD, INVENTED, LOST = "none", "heard", "invented", "gone"
FORWARD = "forward"


def count_of(label: str, system: int) -> str:
    """The count of a label."""
    return f"{system}d" if ";" in label else str(system)


def steps_between(count: str, direction: str, first: str, last: str) -> int:
    """How many labels lie from the one to the other as the tape runs, the shorter way round the day."""
    day = LABELS_A_DAY[count]
    way = 1 if direction == FORWARD else -1
    steps = way * (number_of(count, last) - number_of(count, first)) % day
    return steps - day if steps > day // 2 else steps


@dataclass
class Code:
    """The code of a track, at a rate. A tick is the sixteenth of a sample."""

    rate: int
    system: int | None = None
    state: str = NONE
    label: str = ""
    direction: str = ""
    # How many frames in a row were invented.
    invented: int = 0
    # Of the last word: its length in ticks, and its user bits.
    length: int = 0
    user: str = ""
    last: Heard | None = None
    # The label of the first word, and the moment at which it came, until a frame is heard.
    first: tuple[str, float] | None = None
    words: int = 0
    refused: int = 0
    # How many frames were heard and invented, and how often the code was gone.
    heard: int = 0
    made: int = 0
    gone: int = 0

    def counted(self) -> str:
        return f"{frames(self.heard)} heard, {self.made} invented, gone {self.gone} times"

    @property
    def speed(self) -> int:
        """Of the last word, in thousandths of nominal; 0 if it is not known."""
        if not self.length or not self.system:
            return 0
        return 1000 * FINENESS * self.rate // (self.system * self.length)

    def seconds(self, ticks: int) -> float:
        return ticks / (FINENESS * self.rate)

    def begin(self, system: int | None) -> None:
        """The frames are read anew, as those of a system."""
        self.system, self.last, self.invented = system, None, 0
        if system is None:
            self.first = None

    def take(self, line: Line) -> Iterator[Happening]:
        """What a line says, and what happened by it."""
        if isinstance(line, Word):
            self.take_word(line)
        elif isinstance(line, Refused):
            self.refused += 1
        elif isinstance(line, Heard):
            yield from self.take_heard(line)
        elif isinstance(line, Invented):
            self.state, self.label, self.invented = INVENTED, line.label, line.step
            self.made += 1
        elif isinstance(line, Gone):
            yield Happening(GONE, self.last.label if self.last else "", self.after_invented())
            self.state, self.invented = LOST, 0
            self.gone += 1

    def lose(self) -> None:
        """No samples come: whatever was heard is gone."""
        if self.state in (HEARD, INVENTED):
            self.state, self.invented = LOST, 0

    def after_invented(self) -> str:
        return f"after {frames(self.invented)} invented" if self.invented else "no frame invented"

    def take_word(self, word: Word) -> None:
        self.words += 1
        self.length, self.user = word.length, word.user
        if self.last is None and self.first is None:
            self.first = (word.label, time.time())
        if self.system is None:
            # Until the system is known no frame is given, but the words are.
            self.state, self.label, self.direction = HEARD, word.label, word.direction

    def take_heard(self, heard: Heard) -> Iterator[Happening]:
        before, was = self.last, self.state
        if before is None:
            label, at = self.first or (heard.label, None)
            yield Happening(CODE, label, f"{heard.direction}, {self.system} frames a second", at)
            self.first = None
        elif heard.joined:
            if self.invented:
                yield Happening(DROPOUT, heard.label, f"{frames(self.invented)}, bridged")
        else:
            yield self.told(before, heard, was == LOST)
        self.state, self.label, self.direction = HEARD, heard.label, heard.direction
        self.invented, self.last = 0, heard
        self.heard += 1

    def told(self, before: Heard, heard: Heard, was_gone: bool) -> Happening:
        """What lies between two words of which the second does not join the first."""
        system = self.system or 0
        count = count_of(heard.label, system)
        silence = max(0.0, self.seconds(heard.tick - before.tick - self.length))
        after = f"after {silence:.3f} s without code" if was_gone else "at once"
        if heard.direction != before.direction:
            return Happening(TURN, heard.label, f"now {heard.direction}, {after}")
        if count != count_of(before.label, system):
            return Happening(COUNT, heard.label, f"now {count}, from {before.label}, {after}")
        steps = steps_between(count, heard.direction, before.label, heard.label)
        passed = Fraction(heard.tick - before.tick, self.length or 1)
        if steps > 0 and abs(steps - passed) <= 1 + passed / 200:
            return Happening(DROPOUT, heard.label, f"{frames(steps - 1)} missing, {silence:.3f} s without code")
        return Happening(JUMP, heard.label, f"from {before.label}, {after}")


def frames(count: int) -> str:
    return f"{count} frame" if count == 1 else f"{count} frames"
