"""The path twice: a filter that makes of a sound the square wave that the best path took it for.

The filter is fitted by least squares to the cells that a first path decided, so that it evens out what a telephone, a
worn head or a capacitor did to them. It looks as far forward as back, and so moves no edge; what the fit itself moves is
measured by the words of both ways. It needs numpy (Debian: python3-numpy).
"""
import contextlib
import os
import statistics
import threading
from collections.abc import Iterator
from typing import IO, TYPE_CHECKING, Any

from .front_ends import FINENESS, FrontEnd
from .records import replace
from .sound import Sound
from .spans import Reading, words_in
from .track import opened_for, track_samples

if TYPE_CHECKING:
    import numpy as np

# The filter has so many taps on either side at 48,000 samples a second, and as many milliseconds at other rates.
TAPS, RATE_OF_TAPS = 48, 48_000
# A stretch of the path with fewer intervals is no code; an interval of more than so many times the common one is a gap.
LEAST_INTERVALS, LONGEST_TIMES = 60, 3
# A break of the path is an interval of a tick.
BREAK = 1
HEADER = 12
# What the fit adds to the power of the sound, so that it makes nothing loud of what is not there.
RIDGE = 1e-4
# How loud the code comes out, of 32,768.
LOUD = 7_000
BLOCK = 1 << 16
WIDTH = 2


def front_of(sound: Sound, reading: Reading) -> FrontEnd | None:
    """The front end that is the path through the filter fitted to this reading by the path; None without numpy, or where
    there is too little code.
    """
    try:
        import numpy
    except ImportError:
        return None
    taps = fitted(numpy, sound, reading)
    return None if taps is None else replace(reading.made, name=f"{reading.made.name} twice", taps=taps)


def taps_beside(rate: int) -> int:
    """How many taps there are on either side of the middle one."""
    return max(8, round(TAPS * rate / RATE_OF_TAPS))


class Square:
    """The square wave of the cells that a path decided: a side at each sample, 0 where it decided none."""

    def __init__(self, numpy: Any, path: str) -> None:
        self.np = numpy
        with open(path, "rb") as file:
            file.seek(HEADER)
            data = file.read()
        lengths = numpy.frombuffer(data[: len(data) // 4 * 4], ">u4").astype(numpy.int64)
        self.ends = numpy.cumsum(lengths)
        self.stretch = numpy.cumsum(lengths == BREAK)
        of_stretch = numpy.bincount(self.stretch) if len(lengths) else numpy.zeros(1, numpy.int64)
        common = numpy.median(lengths) if len(lengths) else 0
        is_code = (of_stretch[self.stretch] >= LEAST_INTERVALS) & (lengths <= LONGEST_TIMES * common)
        self.sides = numpy.where(numpy.arange(len(lengths)) % 2 == 0, 1.0, -1.0) * is_code

    @property
    def samples(self) -> int:
        """Behind so many samples there is none."""
        return int(self.ends[-1]) // FINENESS if len(self.ends) else 0

    def at(self, first: int, samples: "np.ndarray") -> "np.ndarray":
        """The sides at these samples, each stretch with the sign that agrees with the sound."""
        numpy = self.np
        middles = FINENESS * (first + numpy.arange(len(samples))) + FINENESS // 2
        at = numpy.minimum(numpy.searchsorted(self.ends, middles), len(self.ends) - 1)
        sides = self.sides[at]
        stretch = self.stretch[at] - self.stretch[at[0]]
        agrees = numpy.bincount(stretch, weights=sides * samples)
        return sides * numpy.where(agrees < 0, -1.0, 1.0)[stretch] * (middles >= 0)


def fitted(numpy: Any, sound: Sound, reading: Reading) -> tuple[float, ...] | None:
    """The taps: of the sample so many places ahead first, and of the one as many behind last."""
    square, many = Square(numpy, reading.sliced), taps_beside(reading.rate)
    power, both, count = numpy.zeros(2 * many + 1), numpy.zeros(2 * many + 1), 0
    place = -many
    for block in blocks(numpy, sound, reading, many):
        if place >= square.samples:
            break
        inner = block[many:-many]
        sides = square.at(place, inner)
        there = inner * (sides != 0)
        power += correlated(numpy, there, there, 2 * many + 1)
        both += correlated(numpy, sides, block, 2 * many + 1)
        count += int(numpy.count_nonzero(sides))
        place += len(inner)
    if count < LEAST_INTERVALS * FINENESS or power[0] == 0:
        return None
    apart = numpy.abs(numpy.arange(2 * many + 1)[:, None] - numpy.arange(2 * many + 1)[None, :])
    matrix = power[apart]
    taps = numpy.linalg.solve(matrix + RIDGE * power[0] * numpy.eye(2 * many + 1), both[::-1])
    energy = float(taps @ matrix @ taps) / count
    return tuple((taps * (LOUD / energy**0.5)).tolist()) if energy > 0 else None


def correlated(numpy: Any, one: "np.ndarray", other: "np.ndarray", many: int) -> "np.ndarray":
    """The sums of `one` with `other` moved forward by 0, 1 and so on samples."""
    size = 1 << (len(one) + len(other)).bit_length()
    both = numpy.conj(numpy.fft.rfft(one, size)) * numpy.fft.rfft(other, size)
    return numpy.fft.irfft(both, size)[:many]


def blocks(numpy: Any, sound: Sound, reading: Reading, many: int) -> Iterator["np.ndarray"]:
    """The samples of the track as the path had them, in blocks with `many` samples of their neighbours on either side."""
    source = opened_for(sound, reading.track, reading.made)
    try:
        with track_samples(sound, source, reading.track) as samples:
            yield from overlapping(numpy, samples, many)
    finally:
        source.close()


def overlapping(numpy: Any, samples: IO[bytes], many: int) -> Iterator["np.ndarray"]:
    """Blocks of samples with their neighbours; before the first one and behind the last there are zeros."""
    behind = numpy.zeros(2 * many)
    while data := samples.read(WIDTH * BLOCK):
        block = numpy.concatenate([behind, numpy.frombuffer(data[: len(data) // WIDTH * WIDTH], "<i2")])
        if len(block) > 2 * many:
            yield block
        behind = block[-2 * many :]
    last = numpy.concatenate([behind, numpy.zeros(many)])
    if len(last) > 2 * many:
        yield last


def filtered(samples: IO[bytes], taps: tuple[float, ...]) -> IO[bytes]:
    """A pipe with the samples behind the filter, as many as there are before it."""
    reading, writing = os.pipe()
    threading.Thread(target=fill, args=(samples, taps, writing), daemon=True).start()
    return os.fdopen(reading, "rb")


def fill(samples: IO[bytes], taps: tuple[float, ...], writing: int) -> None:
    import numpy

    many = len(taps) // 2
    size = 1 << (BLOCK + 2 * len(taps)).bit_length()
    answer = numpy.fft.rfft(numpy.array(taps), size)
    # The first block looks back on as many zeros too many.
    left_out = many
    with contextlib.suppress(BrokenPipeError, ValueError, OSError), samples, os.fdopen(writing, "wb") as out:
        for block in overlapping(numpy, samples, many):
            behind = numpy.fft.irfft(numpy.fft.rfft(block, size) * answer, size)[2 * many : len(block)]
            skipped, left_out = left_out, max(0, left_out - len(behind))
            behind = behind[skipped:]
            out.write(numpy.clip(numpy.round(behind), -32_768, 32_767).astype("<i2").tobytes())


def moved(before: Reading, behind: Reading) -> float:
    """By how many ticks the words of the second reading lie behind the same ones of the first, by their median."""
    first = {(word.label, word.user): word.tick for word in words_in(before.path)}
    apart = [word.tick - first[key] for word in words_in(behind.path) if (key := (word.label, word.user)) in first]
    return statistics.median(apart) if apart else 0.0
