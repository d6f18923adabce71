"""The tracks that have a code of their own."""
from collections.abc import Iterator

from .choice import Choice
from .labels import number_of
from .place import count_of
from .spans import Reading


def own_codes(choice: Choice) -> Iterator[Reading]:
    """The readings of the other tracks that say other labels than the chosen one."""
    for it in choice.best_of_tracks:
        if it.track != choice.reading.track and has_own_code(it, choice.reading):
            yield it


def has_own_code(other: Reading, mine: Reading) -> bool:
    """Another track's labels are not those of the chosen one at the same time."""
    if other.heard < other.system:
        return False
    spans = other.spans[0], mine.spans[0]
    if other.system != mine.system or len({(span.is_drop, span.direction) for span in spans}) > 1:
        return True
    return abs(label_at_begin(other) - label_at_begin(mine)) > 1


def label_at_begin(reading: Reading) -> float:
    """The number of the label where the sound begins, if its code had gone on before its first span."""
    span = reading.spans[0]
    way = -1 if span.direction == "backward" else 1
    frame = span.frame or reading.frame or 1
    return number_of(count_of(span, reading.system), span.first) - way * float(span.begin / frame)


def doubt_of(choice: Choice) -> str:
    """Why it is not sure which track is meant; empty if it is."""
    others = [str(it.track) for it in own_codes(choice)]
    if not others:
        return ""
    are = f"track {others[0]} has" if len(others) == 1 else f"tracks {', '.join(others)} have"
    return f"{are} a code of {'its' if len(others) == 1 else 'their'} own: say --track"


def told(reading: Reading) -> str:
    """A code, in a cell."""
    first, last = reading.spans[0].first, reading.spans[-1].last
    return f"track {reading.track}: {first} to {last}, {reading.system} frames a second, heard {reading.heard}"


def cell(choice: Choice) -> str:
    """The codes of the other tracks, in a cell of a table."""
    return "; ".join(told(it) for it in own_codes(choice))
