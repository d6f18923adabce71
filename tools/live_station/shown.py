"""What is shown: one value that nobody changes, which the station replaces and others read."""
import time
from dataclasses import dataclass

from .events import Event

# What the station itself adds to the states of the code.
WAITING, NO_SAMPLES, CARD_LOST, ENDED = "waiting", "no samples", "card lost", "ended"
# How many speeds are kept a second, and for how many seconds.
HISTORY_RATE, HISTORY_SECONDS = 2, 300


@dataclass(frozen=True)
class Moment:
    """A moment, by the machine's clock and by one that nobody sets."""

    clock: float = 0.0
    steady: float = 0.0


def now() -> Moment:
    return Moment(time.time(), time.monotonic())


@dataclass(frozen=True)
class Shown:
    """The display at a moment."""

    source: str = ""
    track: int = 1
    rate: int = 0
    system: int | None = None
    state: str = WAITING
    label: str = ""
    direction: str = ""
    invented: int = 0
    # When the state began, and when the label was heard or invented, in seconds of a clock that nobody sets.
    since: float = 0.0
    labelled: float | None = None
    # In thousandths of nominal.
    speed: int = 0
    user: str = ""
    # In decibels.
    level: float | None = None
    mark: float | None = None
    is_clipped: bool = False
    hint: str = ""
    midi: str = ""
    page: str = ""
    log: str = ""
    events: tuple[Event, ...] = ()
    # The speeds of the last minutes, negative if the tape ran backward, None if nothing was heard; and how many
    # there ever were.
    history: tuple[int | None, ...] = ()
    kept: int = 0

    def age(self, moment: Moment) -> float | None:
        """How old the label is, in seconds."""
        return None if self.labelled is None else max(0.0, moment.steady - self.labelled)
