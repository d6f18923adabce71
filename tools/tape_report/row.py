"""What a table says of a tape: a row of the archive's table, and the JSON object of a tape."""
import json
from fractions import Fraction
from typing import Any

from . import codes
from .breaks import breaks_of
from .choice import Choice
from .place import Place, count_of
from .rates import UNDECIDED, Rated, rated
from .records import asdict, dataclass, field, replace
from .sound import Sound
from .spans import Reading, Span

# The version of the JSON objects: it grows if a field changes its meaning or goes.
JSON_VERSION = 1
CODE, NONE, FAILED, MISSING = "code", "none", "failed", "missing"
STATES = {CODE: "with code", NONE: "without", FAILED: "failed", MISSING: "not read"}


@dataclass
class Row:
    """What the table says of a tape. If a field is not known it is empty."""

    file: str
    status: str = MISSING
    track: int | None = None
    system: int | None = None
    # Frames a second, by name, and whether labels are dropped.
    rate: str = ""
    drop: str = ""
    # The length of the sound.
    seconds: float | None = None
    # Whether the system is sure, and the front end that was taken.
    sure: str = ""
    front_end: str = ""
    spans: int = 0
    first: str = ""
    last: str = ""
    heard: int = 0
    bridged: int = 0
    dropouts: int = 0
    jumps: int = 0
    turns: int = 0
    counts: int = 0
    # The label of the first sample, its samples since midnight, and whether a stamp may be made of it.
    start: str = ""
    reference: int | None = None
    stamp: str = ""
    note: str = ""
    # What the rows of the picture say, where they were looked at.
    vitc: str = ""
    # By what the rate is known: labels, speed, told; or undecided, and then the rate is empty.
    rate_by: str = ""
    # The codes of other tracks, if they are not that of the chosen one.
    other_codes: str = ""

    def cells(self) -> list[object]:
        return ["" if value is None else value for value in asdict(self).values()]


COLUMNS = list(Row.__annotations__)


@dataclass
class Told:
    """A row with what goes with it: the spans of the tape, and those of its other tracks."""

    row: Row
    rate_of_samples: int = 0
    spans: list[dict[str, Any]] = field(default_factory=list)
    tracks: list[dict[str, Any]] = field(default_factory=list)
    # What the rows of the picture say; nothing where they were not looked at.
    picture: dict[str, Any] = field(default_factory=dict)

    def as_json(self) -> str:
        """One line."""
        object_of = {"version": JSON_VERSION, **asdict(self.row), "rate_of_samples": self.rate_of_samples}
        picture = {"picture": self.picture} if self.picture else {}
        return json.dumps({**object_of, "spans": self.spans, "tracks": self.tracks, **picture}, sort_keys=False)


def row_of(name: str, sound: Sound, choice: Choice, place: Place | None, given: Fraction | None) -> Row:
    """The row of a tape that was read."""
    mine = choice.reading
    row = Row(name, NONE, seconds=None if sound.seconds is None else round(sound.seconds, 3))
    row.note = mine.note
    if not choice.is_found:
        return row
    row.status, row.track, row.system = CODE, mine.track, mine.system if choice.has_system else None
    how = rate_known(choice, mine.spans[0], given)
    row.rate, row.rate_by, row.drop = how.cell, how.by, yes(mine.spans[0].is_drop)
    row.other_codes = codes.cell(choice)
    row.sure, row.front_end = yes(choice.is_sure), mine.front
    row.spans, row.first, row.last = len(mine.spans), mine.spans[0].first, mine.spans[-1].last
    row.heard, row.bridged = mine.heard, mine.bridged
    breaks = breaks_of(mine)
    row.dropouts, row.jumps, row.turns, row.counts = breaks.dropouts, breaks.jumps, breaks.turns, breaks.counts
    row.stamp = "no: the tape runs backward where its code begins"
    if place is not None:
        if how.by != UNDECIDED:
            row.start, row.reference = place.label, place.reference
        row.stamp = "no: " + "; ".join(place.doubts) if place.doubts else "yes"
    return row


def yes(is_so: bool) -> str:
    return "yes" if is_so else "no"


def rate_known(choice: Choice, span: Span, given: Fraction | None) -> Rated:
    """The rate of a span, which is undecided as long as another system fits as well."""
    how = rated(choice.reading, span, given)
    return how if choice.is_sure or given is not None else replace(how, by=UNDECIDED, doubt=choice.sureness)


def told_of(name: str, sound: Sound, choice: Choice, place: Place | None, given: Fraction | None) -> Told:
    row = row_of(name, sound, choice, place, given)
    tracks = [
        {"track": it.track, "system": it.system, "heard": it.heard, "front_end": it.front, "spans": spans_of(it)}
        for it in choice.best_of_tracks
    ]
    spans = spans_of(choice.reading)
    for span, said in zip(choice.reading.spans, spans):
        how = rate_known(choice, span, given)
        said |= {"rate": how.cell, "rate_by": how.by}
    return Told(row, sound.streams[0].rate, spans, tracks)


def spans_of(reading: Reading) -> list[dict[str, Any]]:
    return [
        {
            "direction": span.direction,
            "count": count_of(span, reading.system),
            "first": span.first,
            "last": span.last,
            "heard": span.heard,
            "bridged": span.bridged,
            "begins": round(reading.seconds_at(span.begin), 4),
            "ends": round(reading.seconds_at(span.end), 4),
            "speed": span.speed / 1000,
            "relation": span.relation,
        }
        for span in reading.spans
    ]
