"""What is to be read of a tape, and how, from what the words of a call said. A job of an archive needs no more of
them.
"""
from fractions import Fraction
from typing import Any

from . import front_ends
from .choice import Wanted
from .front_ends import FrontEnd
from .labels import system_of
from .rates import rate_given


def wanted_of(reading: dict[str, Any]) -> tuple[Wanted, Fraction | None]:
    """What is to be read of a tape, and the frames a second that were given."""
    given = rate_given(reading["rate"])
    system = reading["system"] if given is None else system_of(given)
    return Wanted(reading["track"], system, reading["limit"], front_end(reading), reading["all_words"]), given


def front_end(reading: dict[str, Any]) -> FrontEnd | None:
    """The front end that is given, if one is."""
    threshold, smooth, is_deep = reading["threshold"], reading["smooth"], reading["deep"]
    if reading["path"]:
        return FrontEnd("best path", threshold or front_ends.THRESHOLD, is_path=True)
    if threshold is None and smooth is None and not is_deep:
        return None
    return FrontEnd("given", threshold or front_ends.THRESHOLD, smooth or 1, is_deep)
