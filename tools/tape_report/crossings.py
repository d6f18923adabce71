"""Where sound crosses its threshold, as `tc wav-ltc` slices it."""
import itertools
from collections.abc import Sequence

from .front_ends import FrontEnd


def sums_of(samples: Sequence[int], count: int) -> list[int]:
    """The sums of the latest `count` samples, at each sample."""
    if count == 1:
        return list(samples)
    totals = list(itertools.accumulate(samples, initial=0))
    return [totals[place + 1] - totals[max(0, place + 1 - count)] for place in range(len(samples))]


def thresholds_of(samples: Sequence[float], front: FrontEnd) -> list[int]:
    """The threshold at each sample: half of the height of the peak above the mean size, or a quarter of it."""
    part = 4 if front.is_deep else 2
    least = front.threshold
    peak = total = 0
    found = []
    for sample in samples:
        size = int(abs(sample))
        peak -= (peak - size) // 4 if size > peak else (peak + 1023) // 1024
        total += size - total // 1024
        height = (peak - total // 1024) // part
        found.append(height if height > least else least)
    return found


def turns_of(samples: Sequence[float], bounds: Sequence[float], side: int, first: int) -> list[float]:
    """The moments, in samples, at which a sound that is on a side goes over wherever it reaches the other one at
    the bound there. A bound may lie below zero."""
    moments = []
    for place in range(first + 1, len(samples)):
        now, bound = -side * samples[place], bounds[place]
        if now >= bound:
            before = -side * samples[place - 1]
            moments.append(place - 1 + ((bound - before) / (now - before) if before < bound else 0.0))
            side = -side
    return moments


def crossings_of(samples: Sequence[float], at: Sequence[float]) -> list[float]:
    """The moments of the crossings, from the first place on at which the sound is on a side."""
    for place, (sample, bound) in enumerate(zip(samples, at)):
        if abs(sample) >= bound:
            return turns_of(samples, at, 1 if sample > 0 else -1, place)
    return []
