"""What `tc` says of a track: the spans of its labels, the gaps between them, and its words."""
import itertools
from collections.abc import Iterable
from fractions import Fraction
from typing import NamedTuple

from .front_ends import FINENESS, PLAIN, FrontEnd
from .records import dataclass, field

# Ticks a sample in the recordings of `wav-ltc`.


@dataclass(frozen=True)
class Span:
    """A line of `ltc-spans`: labels that go on, from a first heard frame to a last one, and the ticks at which these
    end.
    """

    direction: str
    first: str
    last: str
    heard: int
    bridged: int
    begin: int
    end: int
    speed: int
    # What lies between the span before and this one: ticks, and `count`, `turn` or `step K`.
    gap: int | None = None
    relation: str | None = None

    @property
    def is_drop(self) -> bool:
        return ";" in self.first

    @property
    def frames(self) -> int:
        return self.heard + self.bridged

    @property
    def frame(self) -> Fraction | None:
        """The mean length of a frame in ticks, as the tape plays it. One frame alone has none."""
        return Fraction(self.end - self.begin, self.frames - 1) if self.frames > 1 else None


class Word(NamedTuple):
    """A line `word` of `ltc-rough`, and the tick at which the word ends."""

    direction: str
    label: str
    user: str
    flags: str
    tick: int
    speed: int


@dataclass
class Reading:
    """A track read as a system, by a front end."""

    track: int
    system: int
    rate: int
    front: str
    sums: int = 1
    is_filtered: bool = False
    spans: list[Span] = field(default_factory=list)
    intervals: int = 0
    ticks: int = 0
    words: int = 0
    refused: int = 0
    lost: int = 0
    # The file of the lines of its words, and what `tc` or the decoder noted.
    path: str = ""
    note: str = ""
    # The front end itself.
    made: FrontEnd = PLAIN
    # The samples a second of the file; ticks are those of `rate`, to which its sound may have been brought.
    file_rate: int = 0
    # The file of the intervals of a path, or of their beginning.
    sliced: str = ""
    # By how many ticks a filter moved its words.
    moved: float = 0.0
    # How many intervals a frame of it has, once that is known.
    of_a_frame: float | None = None

    @property
    def heard(self) -> int:
        return sum(span.heard for span in self.spans)

    @property
    def bridged(self) -> int:
        return sum(span.bridged for span in self.spans)

    @property
    def frame(self) -> Fraction | None:
        """The mean length of a frame in ticks, over all spans of more than one."""
        steps = sum(span.frames - 1 for span in self.spans)
        return Fraction(sum(span.end - span.begin for span in self.spans), steps) if steps else None

    @property
    def speed(self) -> float:
        """The mean speed in thousandths, over the frames of all spans."""
        frames = sum(span.frames for span in self.spans)
        return sum(span.speed * span.frames for span in self.spans) / frames if frames else 0.0

    def merit(self) -> tuple[float, ...]:
        """More frames, of which one counts against a span more: under a wrong system labels break off each second, and
        a false word or two may be heard more; then fewer refused words, fewer spans, and a speed near the nominal one.
        """
        return self.heard - len(self.spans), self.heard, -self.refused, -len(self.spans), -abs(self.speed - 1000)

    def seconds_at(self, tick: int) -> float:
        """When a tick of this reading was, from the first sample on."""
        return (tick - self.moved) / FINENESS / self.rate

    def seconds_of(self, ticks: int) -> float:
        return ticks / FINENESS / self.rate


def spans_in(lines: Iterable[str]) -> tuple[list[Span], int]:
    """The spans of the lines of `ltc-spans`, and the ticks of the whole."""
    spans: list[Span] = []
    gap: int | None = None
    relation: str | None = None
    ticks = 0
    for line in lines:
        words = line.split()
        if words[0] == "span":
            _, direction, first, last, _, heard, _, bridged, _, begin, end, _, speed = words
            place, counted = (int(begin), int(end)), (int(heard), int(bridged))
            spans.append(Span(direction, first, last, *counted, *place, int(speed), gap, relation))
            gap, relation = None, None
        elif words[0] == "gap":
            gap, relation = int(words[2]), " ".join(words[3:])
        elif words[0] == "end":
            ticks = int(words[-1])
    return spans, ticks


def word_of(line: str) -> Word | None:
    """The word of a line, if it is one."""
    parts = line.split()
    if not parts or parts[0] != "word":
        return None
    return Word(parts[1], parts[2], parts[4], parts[6], int(parts[10]), int(parts[14]))


def some_words_in(path: str, each: int) -> Iterable[Word]:
    """Each `each`-th word of a report."""
    with open(path, encoding="ascii") as lines:
        of_words = (line for line in lines if line.startswith("word "))
        yield from filter(None, map(word_of, itertools.islice(of_words, 0, None, each)))


def words_in(path: str) -> Iterable[Word]:
    """The words of a report, one after another."""
    with open(path, encoding="ascii") as lines:
        yield from filter(None, map(word_of, lines))
