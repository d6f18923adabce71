"""The level of a track: its peak now, and the greatest of the last seconds."""
import math
from collections import deque

from tape_report.levels import words_of

from .form import Form

# How long a peak is shown, and its mark, in seconds of sound.
NOW, MARK = 0.3, 3.0
FULL = 32_768
# A sample of this size or more was clipped.
CLIPPED = 32_767
# The lowest level that is shown.
FLOOR = -96.0


def decibels(peak: int) -> float:
    return max(FLOOR, round(20 * math.log10(peak / FULL), 1) + 0.0) if peak else FLOOR


def peak_of(data: bytes, form: Form, track: int) -> int:
    """The greatest distance from zero of the samples of a track, of 32,768."""
    words = words_of(data, form.bits, form.tracks, track)
    return max(max(words), -min(words)) if words else 0


class Meter:
    """The level of one track as its samples come."""

    def __init__(self, form: Form, track: int) -> None:
        self.form, self.track = form, track
        self.place = 0
        # Peaks with the places at which their blocks end, in seconds; each lower than those before it.
        self.peaks: deque[tuple[float, int]] = deque()

    def take(self, data: bytes) -> None:
        peak = peak_of(data, self.form, self.track)
        self.place += len(data) // self.form.block
        seconds = self.place / self.form.rate
        while self.peaks and self.peaks[-1][1] <= peak:
            self.peaks.pop()
        self.peaks.append((seconds, peak))
        while self.peaks[0][0] < seconds - MARK:
            self.peaks.popleft()

    def now(self) -> float:
        """The peak of the last moment, in decibels."""
        since = self.place / self.form.rate - NOW
        return decibels(next((peak for seconds, peak in self.peaks if seconds >= since), 0))

    def mark(self) -> float:
        """The greatest peak of the last seconds."""
        return decibels(self.peaks[0][1] if self.peaks else 0)

    def is_clipped(self) -> bool:
        return bool(self.peaks) and self.peaks[0][1] >= CLIPPED


def levels_of(data: bytes, form: Form) -> list[float]:
    """The levels of all tracks, from the first on."""
    return [decibels(peak_of(data, form, track)) for track in range(1, form.tracks + 1)]
