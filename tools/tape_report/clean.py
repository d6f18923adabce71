"""What the code of a piece of sound sounds like without noise: at each place the mean of all samples that lie so
between transitions of the same kind."""
import math
from collections import defaultdict
from collections.abc import Sequence

from .records import dataclass

# How many places a half cell is shared out into. A line is drawn through the samples of a place that has at least LEAST
# of them; if more than the part RARE of all samples is in places with fewer, nothing is known.
PLACES, LEAST, RARE = 32, 8, 0.1
# A line says nothing of a sample that is more deviations than these away from the mean place of the others.
ASIDE = 2
# The clock of the tape is worked out for CLOCK half cells at a time, from these and AROUND more on both sides.
CLOCK, AROUND = 16, 24
# Of fewer crossings there is no mean.
LEAST_CROSSINGS = 1000


@dataclass
class Mean:
    """The straight line through samples, each at its place in a half cell."""

    count: int = 0
    places: float = 0.0
    squares: float = 0.0
    heights: float = 0.0
    products: float = 0.0

    def take(self, place: float, height: float) -> None:
        self.count += 1
        self.places += place
        self.squares += place * place
        self.heights += height
        self.products += place * height

    def line(self) -> tuple[float, float]:
        """Its height at place 0, and by how much it rises over a half cell."""
        spread = self.count * self.squares - self.places * self.places
        rise = (self.count * self.products - self.places * self.heights) / spread if spread > 1e-6 else 0.0
        return (self.heights - rise * self.places) / self.count, rise


    def tells(self, place: float) -> bool:
        """Whether the line gives the height at a place."""
        mean = self.places / self.count
        deviation = math.sqrt(max(0.0, self.squares / self.count - mean * mean))
        return self.count >= LEAST and abs(place - mean) <= ASIDE * deviation + 1e-3


@dataclass(frozen=True)
class Clean:
    """Samples from a first one on, without noise; by how much each rises to the next one; and the moments of the
    transitions, which are as regular as the tape runs."""

    first: int
    samples: list[float]
    rises: list[float]
    transitions: list[float]
    # The lengths of half cells, one after another, in samples.
    halves: list[float]


def counts_of(moments: Sequence[float], half: float) -> list[int] | None:
    """How many half cells each distance has, 1 or 2; None if one has neither."""
    counts = [round((after - before) / half) for before, after in zip(moments, moments[1:])]
    return counts if all(1 <= count <= 2 for count in counts) else None


def clock_of(moments: Sequence[float], counts: Sequence[int]) -> tuple[list[float], list[float]]:
    """The moments of all half cells by straight lines through the crossings, and the lengths of half cells."""
    places = [0]
    for count in counts:
        places.append(places[-1] + count)
    ends, halves, low, high = [], [], 0, 0
    for begin in range(0, places[-1], CLOCK):
        while places[low] < begin - AROUND:
            low += 1
        while high < len(places) and places[high] <= begin + CLOCK + AROUND:
            high += 1
        near = Mean()
        for at in range(low, high):
            near.take(places[at] - begin, moments[at] - moments[low])
        zero, rise = near.line()
        halves.append(rise)
        ends += [moments[low] + zero + rise * step for step in range(min(CLOCK, places[-1] - begin))]
    return ends, halves


def sides_of(counts: Sequence[int]) -> list[int]:
    """The side of each half cell, 0 or 1."""
    sides, side = [], 0
    for count in counts:
        sides += [side] * count
        side = 1 - side
    return sides


def clean_of(samples: Sequence[int], moments: Sequence[float], half: float) -> Clean | None:
    """The clean sound between the first crossings and the last; None if these are not those of code."""
    counts = counts_of(moments, half)
    if counts is None or len(moments) < LEAST_CROSSINGS:
        return None
    ends, halves = clock_of(moments, counts)
    sides = sides_of(counts)
    kinds = [
        sides[number - 2] << 3 | sides[number - 1] << 2 | sides[number] << 1 | sides[number + 1]
        for number in range(2, len(sides) - 1)
    ]
    rows = []
    for number, kind in enumerate(kinds, 2):
        begin, length = ends[number], ends[number + 1] - ends[number]
        for place in range(int(begin) + 1, int(ends[number + 1]) + 1):
            at = (place - begin) / length
            rows.append((kind * PLACES + min(PLACES - 1, int(PLACES * at)), at, samples[place]))
    means: dict[int, Mean] = defaultdict(Mean)
    for key, at, height in rows:
        means[key].take(at, height)
    if sum(mean.count for mean in means.values() if mean.count < LEAST) > RARE * len(rows):
        return None
    lines = {key: mean.line() for key, mean in means.items()}
    first = int(ends[2]) + 1
    clean = [
        lines[key][0] + lines[key][1] * at if means[key].tells(at) else height for key, at, height in rows
    ]
    rises = [lines[key][1] / half for key, _, _ in rows]
    changes = [number for number in range(3, len(kinds) + 2) if sides[number] != sides[number - 1]]
    return Clean(first, clean, rises, [ends[number] for number in changes], halves)
