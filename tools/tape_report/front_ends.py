"""The ways in which a track is made into intervals: a row each. A track of which the first misses frames is tried by
the best path, and what neither hears by the others.
"""
import shutil

from .records import dataclass, replace

THRESHOLD = 250
LOW_THRESHOLD, LOWEST_THRESHOLD = 50, 20
# A sum has a sample for each 16,000 of the rate: at 48,000 three.
RATE_OF_A_SUM = 16_000
MOST_SUMS = 16
# Hum and its harmonics lie below, code above; of code at half of play speed the second leaves more.
HIGH_PASS_HERTZ = (400, 300)
# The ticks of a sample, with every front end.
FINENESS = 16
# The least samples a second for the best path, for any system. With fewer than ENOUGH it hears more when the sound is
# brought to MORE.
PATH_RATE, ENOUGH, MORE = 4_200, 32_000, 48_000


@dataclass(frozen=True)
class FrontEnd:
    """The words of `wav-ltc`, and a filter before it; or the best path, of `pcm-ltc`."""

    name: str
    threshold: int = THRESHOLD
    sums: int = 1
    is_deep: bool = False
    high_pass: int | None = None
    is_path: bool = False
    # The samples a second that it is brought to; those of the file without.
    resampled: int | None = None
    # The filter before the path, if it has one.
    taps: tuple[float, ...] = ()

    def at(self, rate: int) -> "FrontEnd":
        """The same, for sound of this rate."""
        if not self.is_path or rate >= ENOUGH or shutil.which("ffmpeg") is None:
            return self
        return replace(self, resampled=MORE)

    def words(self) -> list[str]:
        """What follows the track, or the rate."""
        if self.is_path:
            return [str(self.threshold), str(FINENESS), "path"]
        more = [str(self.sums), "deep"] if self.is_deep else [str(self.sums)] if self.sums > 1 else []
        return [str(self.threshold), *more]

    @property
    def filters(self) -> tuple[str, ...]:
        """The filter, as words of ffmpeg."""
        if self.resampled is not None:
            return ("-af", f"aresample={self.resampled}")
        return () if self.high_pass is None else ("-af", f"highpass=f={self.high_pass}")

    @property
    def can_run(self) -> bool:
        return self.high_pass is None or shutil.which("ffmpeg") is not None


PLAIN = FrontEnd("plain")
QUIET = FrontEnd(f"threshold {LOWEST_THRESHOLD}", threshold=LOWEST_THRESHOLD)
# It is slow, and hears what can be heard.
BEST_PATH = FrontEnd("best path", is_path=True)


def others(rate: int) -> list[FrontEnd]:
    """What is tried if neither the plain front end nor the path hears code, at this rate. A further one is one row
    more.
    """
    sums = max(2, min(MOST_SUMS, rate // RATE_OF_A_SUM))
    table = [
        FrontEnd(f"sums of {sums}", sums=sums),
        FrontEnd("deep", is_deep=True),
        FrontEnd(f"deep, sums of {sums}", sums=sums, is_deep=True),
        FrontEnd(f"threshold {LOW_THRESHOLD}", threshold=LOW_THRESHOLD),
        *(FrontEnd(f"high-pass at {hertz} Hz", high_pass=hertz) for hertz in HIGH_PASS_HERTZ),
        *(FrontEnd(f"high-pass at {hertz} Hz, sums of {sums}", sums=sums, high_pass=hertz) for hertz in HIGH_PASS_HERTZ),
    ]
    return [front for front in table if front.can_run]
