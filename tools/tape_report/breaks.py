"""What lies between the spans of a reading: code that is missing, labels that jump, turns, and changes of the
count.
"""
from fractions import Fraction

from .labels import LABELS_A_DAY, number_of
from .records import dataclass, replace
from .spans import Reading, Span

# Labels go on in time if they are as many as frames fit into the gap, to one, and to what a tape's speed may
# drift.
ONE_FRAME, DRIFT = 1, Fraction(1, 250)
# Between words that follow one another there is one frame: with more, some are missing.
MISSING = 1.5


@dataclass
class Breaks:
    dropouts: int = 0
    jumps: int = 0
    turns: int = 0
    counts: int = 0

    def told(self) -> str:
        return f"drop-outs {self.dropouts}, jumps {self.jumps}, turns {self.turns}, changes of count {self.counts}"


def steps_of(span: Span) -> int | None:
    """How many labels lie from the span before to this one, if they can be counted."""
    if span.relation is None or not span.relation.startswith("step"):
        return None
    return int(span.relation.split()[1])


def fits(gap: int | None, steps: int | None, frame: Fraction | None) -> bool:
    """As many labels as frames fit into the gap."""
    if gap is None or steps is None or frame is None or steps <= 0:
        return False
    return abs(gap / frame - steps) < ONE_FRAME + DRIFT * steps


def goes_on(span: Span, frame: Fraction | None) -> bool:
    """The labels of a span follow, in time, from the span before it."""
    return fits(span.gap, steps_of(span), frame)


def without_misread(spans: list[Span], system: int, frame: Fraction | None) -> list[Span]:
    """The spans without single frames whose label fits neither neighbour, while these two fit each other."""
    kept: list[Span] = []
    for span in spans:
        if len(kept) > 1 and kept[-1].frames == 1 and not goes_on(kept[-1], frame):
            joined = joined_to(kept[-2], kept[-1], span, system)
            if goes_on(joined, frame):
                kept.pop()
                span = joined
        kept.append(span)
    return kept


def joined_to(before: Span, lone: Span, span: Span, system: int) -> Span:
    """A span as it relates to the one before a single frame, if both run the same way in the same count."""
    if (before.direction, before.is_drop) != (span.direction, span.is_drop) or lone.gap is None or span.gap is None:
        return span
    count = "30d" if span.is_drop else str(system)
    way = -1 if span.direction == "backward" else 1
    steps = way * (number_of(count, span.first) - number_of(count, before.last)) % LABELS_A_DAY[count]
    return replace(span, gap=lone.gap + span.gap, relation=f"step {steps}")


DROPOUT, JUMP, TURN, COUNT = "drop-out", "jump", "turn", "count"


def kind_of(before: Span, span: Span, whole: Fraction | None) -> str:
    """What lies between two spans; nothing if they only follow each other. If neither span has a length of its own, the
    frame is that of the whole reading.
    """
    frame = before.frame or span.frame or whole
    if span.relation in (TURN, COUNT):
        return span.relation
    if not goes_on(span, frame):
        return JUMP
    return DROPOUT if frame and span.gap and span.gap > MISSING * frame else ""


def kinds_of(reading: Reading) -> list[str]:
    """What lies before each span of a reading. A frame that was misread has nothing before it or behind."""
    kept = without_misread(reading.spans, reading.system, reading.frame)
    kinds = {span.begin: kind_of(before, span, reading.frame) for before, span in zip(kept, kept[1:])}
    return [kinds.get(span.begin, "") for span in reading.spans]


def breaks_of(reading: Reading) -> Breaks:
    """The breaks of a reading."""
    kinds = kinds_of(reading)
    return Breaks(*(kinds.count(kind) for kind in (DROPOUT, JUMP, TURN, COUNT)))
