"""A tape read, and what the options ask of it."""
import contextlib
import tempfile
from collections.abc import Iterator
from fractions import Fraction
from typing import TYPE_CHECKING

from . import codes, levels, report, slicing
from .choice import Choice, Wanted, choose
from .faults import NoPicture, NoSound, reason_of
from .names import shown
from .place import Place, place_of
from .records import dataclass, replace
from .sound import Sound, sound_of
from .spans import Reading
from .source import Source

# A plain report has no need of the others, and each takes its time to be loaded.
if TYPE_CHECKING:
    from .row import Told
    from .vitc import Vitc


@dataclass
class Tape:
    """A tape that was read, as long as its words are kept."""

    name: str
    source: Source
    sound: Sound
    choice: Choice
    place: Place | None
    # The frames a second that were given.
    given: Fraction | None
    # What the rows of the picture say, or why they were not looked at; None where that was not asked for.
    vitc: "Vitc | str | None" = None

    @property
    def is_found(self) -> bool:
        """Its sound says a word, or its picture."""
        return self.choice.is_found or says_words(self.vitc)

    def report(self, has_margin: bool = False) -> str:
        """The report, with the margin of the tape where it is asked for: that takes about a second."""
        if self.vitc is None:
            return self.sound_report(has_margin)
        from . import vitc_report

        mine = vitc_report.lines(self.vitc, self.sound, self.choice.reading)
        return self.sound_report(has_margin) + "\n".join(mine) + "\n"

    def sound_report(self, has_margin: bool) -> str:
        mine = self.choice.reading
        if self.choice.is_found:
            level, margin = levels.level_of(self.sound, mine.track), None
            if has_margin:
                from .margin import margin_of

                margin = margin_of(self.sound, mine)
            return report.found_report(self.name, self.sound, self.choice, self.place, level, self.given, margin)
        tracks = sorted({reading.track for reading in self.choice.others})
        heights = {track: levels.level_of(self.sound, track) for track in tracks}
        return report.empty_report(self.name, self.sound, self.choice, heights)

    def told(self) -> "Told":
        from . import row

        told = row.told_of(self.name, self.sound, self.choice, self.place, self.given)
        if self.vitc is not None:
            add_picture(told, self.vitc, self.sound, self.choice.reading)
        return told

    def page(self, text: str) -> str:
        from . import page

        return page.page(self.name, text, self.choice.reading)


@dataclass
class Silent:
    """A file whose sound can't be read, of which the picture says words."""

    name: str
    reason: str
    vitc: "Vitc"

    def report(self) -> str:
        from . import vitc_report

        lines = [self.name, f"sound         not read: {self.reason}", *vitc_report.lines(self.vitc, None, None)]
        return "\n".join(lines) + "\n"

    def told(self) -> "Told":
        from . import row

        told = row.Told(row.Row(self.name, row.CODE, note=self.reason))
        add_picture(told, self.vitc, None, None)
        return told


def says_words(vitc: "Vitc | str | None") -> bool:
    return vitc is not None and not isinstance(vitc, str) and vitc.words > 0


def add_picture(told: "Told", vitc: "Vitc | str", sound: Sound | None, reading: Reading | None) -> None:
    """Adds to a row what the picture says."""
    from . import row, vitc_report

    told.row.vitc = vitc_report.cell(vitc, sound, reading)
    told.picture = vitc_report.as_object(vitc, sound, reading)
    if says_words(vitc):
        told.row.status = row.CODE


def picture_read(source: Source, limit: int) -> "Vitc | str":
    """What the rows of the picture say, or why they were not looked at."""
    from .vitc import vitc_of

    try:
        return vitc_of(source.path, limit)
    except NoPicture as fault:
        return reason_of(fault)


def silent_tape(source: Source, name: str, limit: int, fault: NoSound) -> Silent:
    """A file without sound, where its picture says words; and where it does not the fault."""
    vitc = picture_read(source, limit)
    if not isinstance(vitc, str) and vitc.words:
        return Silent(shown(name), reason_of(fault), vitc)
    raise fault


def placed(choice: Choice, given: Fraction | None) -> Place | None:
    """Where the tape lies in the day, which is doubtful if another track has another code."""
    place = place_of(choice, given) if choice.is_found else None
    doubt = codes.doubt_of(choice) if place is not None else ""
    return replace(place, doubts=(*place.doubts, doubt)) if place is not None and doubt else place


@contextlib.contextmanager
def tape_read(
    source: Source, name: str, wanted: Wanted, rate: Fraction | None, is_shown: bool = False, has_vitc: bool = False
) -> Iterator[Tape]:
    """Reads a tape. Its words are in a folder that goes with the block."""
    with tempfile.TemporaryDirectory() as room:
        sound = sound_of(source)
        if wanted.track and wanted.track > sound.tracks:
            raise NoSound(f"it has no track {wanted.track}, but {sound.tracks}")
        progress = slicing.progress_shown(sound, shown(name)) if is_shown else None
        try:
            choice = choose(sound, wanted, room, progress)
        finally:
            if progress:
                slicing.end_progress()
        place = placed(choice, rate)
        vitc = picture_read(source, wanted.limit) if has_vitc else None
        yield Tape(shown(name), source, sound, choice, place, rate, vitc)
