"""The frame rate of a span's labels, and by what it is known."""
from fractions import Fraction

from .front_ends import FINENESS
from .labels import NTSC, RATES, name_of
from .records import dataclass
from .spans import Reading, Span

# The rates of which a system has two differ by 1/1001; a speed as near to one of them shows which.
NEAR = Fraction(3, 10_000)
# By what a rate is known: its labels have no other, the speed of the tape shows it, the user said it; or by nothing.
LABELS, SPEED, TOLD, UNDECIDED = "labels", "speed", "told", "undecided"


@dataclass(frozen=True)
class Rated:
    """A rate, the nearer one of two if it is undecided, and why it is."""

    rate: Fraction
    by: str
    doubt: str = ""

    @property
    def name(self) -> str:
        """The rate as a report has it."""
        whole = Fraction(round(self.rate))
        return f"{name_of(whole)} or {name_of(whole * NTSC)}" if self.by == UNDECIDED else name_of(self.rate)

    @property
    def cell(self) -> str:
        """The rate as a table has it: nothing, if it is undecided."""
        return "" if self.by == UNDECIDED else name_of(self.rate)


def played_rate(reading: Reading, span: Span) -> Fraction | None:
    """Frames a second as the tape plays a span."""
    return FINENESS * reading.rate / span.frame if span.frame else None


def rated(reading: Reading, span: Span, given: Fraction | None) -> Rated:
    """The true frame rate of a span's labels."""
    whole = Fraction(reading.system)
    if given is not None:
        return Rated(given, TOLD)
    if span.is_drop:
        return Rated(whole * NTSC, LABELS)
    if whole == 25:
        return Rated(whole, LABELS)
    names, played = f"{name_of(whole)} or {name_of(whole * NTSC)}", played_rate(reading, span)
    if played is None:
        return Rated(whole, UNDECIDED, f"one frame does not tell {names.replace(' or ', ' from ')}: say --rate")
    # Of the whole rate and that of 1000/1001 the nearer.
    nearest = whole if abs(played - whole) < abs(played - whole * NTSC) else whole * NTSC
    if abs(played / nearest - 1) <= NEAR:
        return Rated(nearest, SPEED)
    return Rated(nearest, UNDECIDED, f"{float(played):.3f} frames a second may be {names}: say --rate")


def rate_given(name: str | None) -> Fraction | None:
    return RATES[name] if name else None
