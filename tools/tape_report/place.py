"""Where a file lies in the day: one number, the whole samples since midnight of its first sample, with all that makes
it doubtful. The report's label, its count and both kinds of stamp come from this number."""
import itertools
from fractions import Fraction

from .breaks import goes_on
from .choice import Choice
from .front_ends import FINENESS
from .labels import FRAMES, LABELS_A_DAY, label_of, number_of
from .rates import Rated, rated
from .records import dataclass
from .spans import Reading, Span, Word, words_in

# How many seconds of code that goes on fix the first label.
SECONDS_OF_CODE = 2
# By how much, at most, code at play speed differs from nominal.
PLAY_SPEED = Fraction(1, 100)


@dataclass(frozen=True)
class Place:
    """The first sample of a file, and why it is not sure; with no doubt it is."""

    count: str
    rate: Fraction
    samples_a_second: int
    # Samples since midnight, at the file's rate.
    reference: int
    doubts: tuple[str, ...]

    @property
    def number(self) -> int:
        """The nearest label, by its number; at the end of the day it is the first of the next."""
        return round(self.reference * self.rate / self.samples_a_second)

    @property
    def label(self) -> str:
        return label_of(self.count, self.number)

    @property
    def rest(self) -> int:
        """How many samples behind the beginning of that label the first sample lies; before it, if negative."""
        return self.reference - round(self.number * self.samples_a_second / self.rate)

    def label_at(self, seconds: Fraction, times: int) -> str:
        """The label `seconds` after the first sample, in pictures of which a frame has `times`."""
        at = Fraction(self.reference, self.samples_a_second) + seconds
        number, picture = divmod(round(at * self.rate * times), times)
        label = label_of(self.count, number)
        return f"{label[:-2]}{int(label[-2:]) * times + picture:02}"


def count_of(span: Span, system: int) -> str:
    """The count of a span's labels."""
    return "30d" if span.is_drop else str(system)


def first_words(reading: Reading, count: str) -> list[tuple[int, int]]:
    """The words of the first span's first two seconds: how many frames each lies behind the first, and its tick."""
    span = reading.spans[0]
    # Slow code needs more time for as many labels.
    most = SECONDS_OF_CODE * FRAMES[count]
    begin = number_of(count, span.first)
    later = itertools.dropwhile(lambda word: word.tick < span.begin, words_in(reading.path))
    heard = itertools.takewhile(lambda word: word.tick <= span.end, later)
    steps = ((steps_from(begin, count, word), word.tick) for word in heard)
    return list(itertools.takewhile(lambda it: it[0] <= most, steps))


def steps_from(begin: int, count: str, word: Word) -> int:
    return (number_of(count, word.label) - begin) % LABELS_A_DAY[count]


def begin_of(reading: Reading, count: str, rate: Fraction) -> tuple[Fraction, Fraction]:
    """The tick at which the word of the first label begins, and the length of a frame there, in ticks.

    The begin is the median of what the words of two seconds say, so that a transition that noise moved does not count.
    """
    words = first_words(reading, count)
    length = FINENESS * reading.rate / rate
    if len(words) > 1 and words[-1][0] > 0:
        length = Fraction(words[-1][1] - words[0][1], words[-1][0] - words[0][0])
    ends = [tick - steps * length for steps, tick in words] or [Fraction(reading.spans[0].begin)]
    return sorted(ends)[len(ends) // 2] - length - Fraction(reading.moved), length


def frames_that_go_on(reading: Reading) -> int:
    """How many frames are heard from the first label on until a break."""
    heard, frame = reading.spans[0].heard, reading.spans[0].frame or reading.frame
    for span in reading.spans[1:]:
        if not goes_on(span, frame):
            break
        heard += span.heard
    return heard


def doubts_of(choice: Choice, given: Fraction | None, how: Rated, length: Fraction) -> list[str]:
    """Why the first sample is not sure."""
    mine, doubts = choice.reading, []
    if not choice.is_sure and given is None:
        doubts.append(choice.sureness.removeprefix("not sure: "))
    if how.doubt:
        doubts.append(how.doubt)
    frames = frames_that_go_on(mine)
    if frames < SECONDS_OF_CODE * mine.system:
        doubts.append(
            f"the first label stands on {frames} frame{'s' * (frames != 1)} that go on, less than two seconds"
        )
    speed = FINENESS * mine.rate / length / how.rate
    if abs(speed - 1) > PLAY_SPEED and given is None:
        doubts.append(f"the code is at speed {float(speed):.3f} where it begins: say --rate to take it as it is")
    if mine.is_filtered:
        doubts.append("a filter moves the code by some samples")
    return doubts


def place_of(choice: Choice, given: Fraction | None = None) -> Place | None:
    """The place of the first sample. None if the tape does not run forward as its code begins."""
    mine = choice.reading
    if not mine.spans or mine.spans[0].direction != "forward":
        return None
    span = mine.spans[0]
    count = count_of(span, mine.system)
    how = rated(mine, span, given)
    rate = how.rate
    begin, length = begin_of(mine, count, rate)
    # Sums of samples come half their number late.
    before = begin / FINENESS - Fraction(mine.sums - 1, 2)
    samples = mine.file_rate or mine.rate
    before *= Fraction(samples, mine.rate)
    day = LABELS_A_DAY[count] * samples / rate
    reference = round((number_of(count, span.first) * samples / rate - before) % day)
    doubts = doubts_of(choice, given, how, length)
    return Place(count, rate, samples, reference if reference < day else 0, tuple(doubts))
