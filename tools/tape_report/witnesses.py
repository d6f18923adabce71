"""Whether each word of a reading has its witness, as far as its lines show: then `tc` tells the same words whether one
is asked for or not.

A word has one if another's sync word stands beside it, on the side away from its own: before a word that is played
forward, whose sync word comes last, and behind one that is played backward; or if the word that follows it on the tape
joins it and counts on. Of an event that is no word, and of a word whose neighbour lies apart, nothing is concluded.
"""
from typing import NamedTuple

from .labels import label_of, number_of
from .spans import Reading

FORWARD, BACKWARD = "forward", "backward"
DROP = "30d"


class Event(NamedTuple):
    """A word, or one that was refused: its label, empty of the latter, and the ticks at which it begins and ends."""

    direction: str
    label: str
    begin: int
    end: int


def event_of(line: str) -> Event | None:
    """The event of a line, if it has a sync word."""
    parts = line.split()
    if parts[0] == "word":
        end = int(parts[10])
        return Event(parts[1], parts[2], end - int(parts[12]), end)
    # Where it begins the line does not say.
    return Event(parts[1], "", -1, int(parts[4])) if parts[0] == "refused" else None


def counts_on(system: int, before: Event, behind: Event) -> bool:
    """The label of the second is the next one, in the direction of both."""
    first, second = (before.label, behind.label) if before.direction == FORWARD else (behind.label, before.label)
    count = DROP if ";" in first else str(system)
    number = number_of(count, first)
    return label_of(count, number) == first and label_of(count, number + 1) == second


def touch(before: Event | None, behind: Event | None) -> bool:
    """The second is a word that begins where the first ends, in the same direction."""
    if before is None or behind is None or not behind.label:
        return False
    return behind.begin == before.end and behind.direction == before.direction


def join(system: int, before: Event | None, behind: Event | None) -> bool:
    """Both are words, they touch, and they count on."""
    if before is None or behind is None or not touch(before, behind):
        return False
    return bool(before.label) and counts_on(system, before, behind)


def has_witness(system: int, before: Event | None, word: Event, behind: Event | None) -> bool:
    """A word between the events beside it."""
    if word.direction == FORWARD:
        return touch(before, word) or join(system, word, behind)
    return touch(word, behind) or join(system, before, word)


def have_witnesses(reading: Reading) -> bool:
    """All words of a reading have theirs."""
    before: Event | None = None
    word: Event | None = None
    with open(reading.path, encoding="ascii") as lines:
        for line in lines:
            behind = event_of(line)
            if word is not None and word.label and not has_witness(reading.system, before, word, behind):
                return False
            before, word = word, behind
    return word is None or not word.label or has_witness(reading.system, before, word, None)
