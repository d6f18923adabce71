"""The spans of a folder's tapes as clips, for editing systems: what was heard of a tape, from a label to the one
behind the last. A span whose rate is undecided is none."""
import re
from collections.abc import Iterable

from .labels import LABELS_A_DAY, label_of, number_of
from .rates import SPEED
from .records import dataclass
from .row import Told

@dataclass(frozen=True)
class Clip:
    """A span: the file, a name of it without blanks, its count and rate, and its labels; the last one is not in it."""

    file: str
    reel: str
    count: str
    rate: str
    begin: str
    end: str
    is_backward: bool
    track: int
    samples_a_second: int
    # What is to be known of it besides.
    comment: str = ""

    @property
    def frames(self) -> int:
        return (number_of(self.count, self.end) - number_of(self.count, self.begin)) % LABELS_A_DAY[self.count]

    @property
    def form(self) -> str:
        """What clips of one list have in common."""
        return f"{self.rate}d" if self.count == "30d" else self.rate


def reels_of(files: Iterable[str], most: int) -> dict[str, str]:
    """A name for each file, of at most `most` letters and digits, no two the same."""
    reels: dict[str, str] = {}
    for file in files:
        stem = file.rsplit("/", 1)[-1].rsplit(".", 1)[0]
        name = re.sub(r"[^A-Z0-9]", "", stem.upper())[:most] or "TAPE"
        number = 1
        while name in reels.values():
            number += 1
            name = name[: most - len(str(number))] + str(number)
        reels[file] = name
    return reels


def clips_of(tapes: list[Told], most: int) -> list[Clip]:
    """The spans of all tapes, in the order of the table."""
    with_code = [told for told in tapes if told.spans]
    reels = reels_of((told.row.file for told in with_code), most)
    return [clip_of(told, span, reels[told.row.file]) for told in with_code for span in told.spans if is_decided(span)]


def clip_of(told: Told, span: dict, reel: str) -> Clip:
    count, is_backward = span["count"], span["direction"] == "backward"
    first, last = (span["last"], span["first"]) if is_backward else (span["first"], span["last"])
    rate, end = span["rate"], label_of(count, number_of(count, last) + 1)
    track, comment = told.row.track or 1, comment_of(told, span)
    return Clip(told.row.file, reel, count, rate, first, end, is_backward, track, told.rate_of_samples, comment)


def is_decided(span: dict) -> bool:
    return bool(span.get("rate"))


def left_out(tapes: list[Told]) -> list[str]:
    """The tapes of which spans are in no list, since their rate is undecided."""
    return [told.row.file for told in tapes if not all(map(is_decided, told.spans))]


def comment_of(told: Told, span: dict) -> str:
    parts = ["runs backward on the tape"] if span["direction"] == "backward" else []
    parts += [f"{span['rate']} frames a second by the speed alone"] if span["rate_by"] == SPEED else []
    parts += [f"other codes: {told.row.other_codes}"] if told.row.other_codes else []
    return "; ".join(parts)


def by_form(clips: list[Clip]) -> dict[str, list[Clip]]:
    """The clips by frame rate and count, of which a list has one."""
    forms: dict[str, list[Clip]] = {}
    for clip in clips:
        forms.setdefault(clip.form, []).append(clip)
    return dict(sorted(forms.items()))
