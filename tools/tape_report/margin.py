"""How much louder the noise of a tape could be: the premise of docs/design/truth.md, "From sound to words", tried on
the sound as it was read.

What a tape would sound like without noise nobody knows. Here it is taken for what the same code sounds like on
average, and what is left is the noise. It is made louder, a decibel after another, for as long as the premise holds.
"""
import bisect
from collections.abc import Sequence

from .clean import CLOCK, Clean, clean_of
from .crossings import crossings_of, sums_of, thresholds_of, turns_of
from .front_ends import FINENESS, FrontEnd
from .levels import samples_of
from .records import dataclass
from .sound import Sound
from .spans import Reading

# Two places are looked at, each of WORDS words: where the code begins, since the threshold still has to find its level
# there, and further on, after WORDS_BEFORE words in which it finds it.
WORDS, WORDS_BEFORE = 14, 3
# In these seconds before the code the threshold finds the level of what comes there.
SECONDS_BEFORE = 0.2
# A tape of fewer words is not judged.
LEAST_WORDS = 25
HALVES = 160
# No more decibels are tried.
MOST_DECIBELS = 30
# The transitions of the last half cells of a piece may be found behind its end.
HALVES_BEHIND = 4


def is_asked(sound: Sound, reading: Reading) -> bool:
    """Every word of the tape was read, as far as can be known: the labels go on from the first to the last, and none
    was refused. And the sound is that of the file."""
    spans = reading.spans
    is_whole = len(spans) == 1 and spans[0].bridged == 0 and reading.refused == 0
    is_sliced = not sound.is_decoded and not reading.is_filtered and not reading.made.is_path
    return is_whole and spans[0].heard >= LEAST_WORDS and is_sliced


def margin_of(sound: Sound, reading: Reading) -> int | None:
    """By how many decibels the noise could be louder, rounded down; None if that is not known."""
    if not is_asked(sound, reading):
        return None
    half = float(reading.frame or 0) / FINENESS / HALVES
    found = []
    for piece in pieces_of(reading):
        samples = sums_of(samples_of(sound, reading.track, piece.first, piece.count), reading.sums)
        found.append(margin_in(samples, reading.made, half, piece.before))
    return None if None in found else min(it for it in found if it is not None)


@dataclass(frozen=True)
class Piece:
    """`count` samples from a first one on, of which `before` come before those that are judged."""

    first: int
    count: int
    before: int


def pieces_of(reading: Reading) -> list[Piece]:
    """What is looked at: the first words, and words in the middle of the others."""
    span, frame = reading.spans[0], float(reading.frame or 1) / FINENESS
    code = max(0, int(span.begin / FINENESS - frame))
    before = min(code, int(SECONDS_BEFORE * reading.rate))
    many = int(WORDS * frame)
    middle = int((span.end - span.begin) / FINENESS / 2 - many / 2)
    known = int(WORDS_BEFORE * frame)
    return [Piece(code - before, before + many, before), Piece(code + middle, known + many, known)]


def margin_in(samples: Sequence[int], front: FrontEnd, half: float, before: int) -> int | None:
    """The margin of a piece of sound with half cells of `half` samples, from the sample `before` on."""
    moments = [moment for moment in crossings_of(samples, thresholds_of(samples, front)) if moment >= before]
    clean = clean_of(samples, moments, half)
    if clean is None:
        return None
    there = samples[clean.first : clean.first + len(clean.samples)]
    noise = [sample - mean for sample, mean in zip(there, clean.samples)]
    low, high = -1, MOST_DECIBELS
    while low < high:
        middle = (low + high + 1) // 2
        if holds(samples[: clean.first], clean, noise, front, 10 ** (middle / 20)):
            low = middle
        else:
            high = middle - 1
    return low if low >= 0 else None


def loudest(clean: Clean, noise: Sequence[float]) -> float:
    """How loud the noise is at most, in that half of the samples in which the clean sound moves least."""
    slow = sorted(map(abs, clean.rises))[len(clean.rises) // 2]
    return max(abs(each) for each, rise in zip(noise, clean.rises) if abs(rise) <= slow)


def holds(before: Sequence[int], clean: Clean, noise: Sequence[float], front: FrontEnd, times: float) -> bool:
    """The premise holds for the clean sound with the noise `times` times as loud."""
    louder = [mean + times * each for mean, each in zip(clean.samples, noise)]
    at = thresholds_of([*before, *louder], front)[len(before) :]
    delay = delay_of(clean, at, times * loudest(clean, noise))
    if delay is None:
        return False
    cell, drift = 2 * FINENESS * min(clean.halves), drift_of(clean)
    return max(8 * drift + 10 * delay, 12 * drift + 9 * delay) < cell


def delay_of(clean: Clean, at: Sequence[int], loud: float) -> float | None:
    """The least delay within which the clean sound goes over, from the low bounds to the high ones, at each transition,
    in ticks; None if it does not, or goes over elsewhere."""
    lows, highs = [bound - loud for bound in at], [bound + loud for bound in at]
    first = next((place for place, each in enumerate(clean.samples) if abs(each) >= highs[place]), None)
    if first is None:
        return None
    side = 1 if clean.samples[first] > 0 else -1
    behind = bisect.bisect(clean.transitions, clean.first + first)
    begins = turns_of(clean.samples, lows, side, first)
    ends = turns_of(clean.samples, highs, side, first)
    transitions = [moment - clean.first for moment in clean.transitions[behind:-HALVES_BEHIND]]
    if min(len(begins), len(ends)) < len(transitions):
        return None
    soonest = min(begin - moment for begin, moment in zip(begins, transitions))
    latest = max(end - moment for end, moment in zip(ends, transitions))
    return FINENESS * (latest - soonest)


def drift_of(clean: Clean) -> float:
    """By how many ticks a cell differs from the one before, at most: a tick, and what the clock of the tape drifts."""
    cells = CLOCK / 2
    drifts = (abs(after - before) / cells for before, after in zip(clean.halves, clean.halves[1:]))
    return 1 + 2 * FINENESS * max(drifts, default=0.0)
