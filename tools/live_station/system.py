"""How many frames a second the code has, by its labels: the words of linear time code do not say."""
from tape_report.choice import SYSTEMS

from .lines import Word

# How many ends of a second that say otherwise change what was found.
AGAINST = 2
# The system under which the label of each word is one.
WIDEST = 30


def said_by(before: Word, word: Word) -> int | None:
    """The frames a second, if the two are neighbours at the end of a second of the tape."""
    if before.direction != word.direction or abs(word.tick - before.tick - word.length) > word.length // 4:
        return None
    early, late = (before, word) if word.direction == "forward" else (word, before)
    is_end = (early.seconds + 1) % 60 == late.seconds and late.frames in (0, 2)
    return early.frames + 1 if is_end and early.frames + 1 in SYSTEMS else None


class System:
    """The frames a second, as they are found; or as they were given, which nothing changes."""

    def __init__(self, given: int | None) -> None:
        self.given = given
        self.found: int | None = given
        self.before: Word | None = None
        self.against = 0
        # What the labels say, if that is not what was given.
        self.doubt: int | None = None

    @property
    def slicing(self) -> int:
        """The system that the slicer is given: it is in the header alone, and in how long a piece is."""
        return self.given or WIDEST

    def take(self, word: Word) -> bool:
        """Whether the word changes what is known."""
        said = said_by(self.before, word) if self.before else None
        self.before = word
        if said is None:
            return False
        if said == self.found:
            self.against, self.doubt = 0, None
            return False
        self.against += 1
        if self.found is not None and self.against < AGAINST:
            return False
        self.against = 0
        if self.given:
            self.doubt = said
            return False
        self.found = said
        return True
