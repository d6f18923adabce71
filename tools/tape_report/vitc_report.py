"""What a picture says, for people and for a table, and whether its sound says the same."""
from collections import Counter
from collections.abc import Iterator
from fractions import Fraction
from typing import Any

from .faults import NoStamp
from .labels import LABELS_A_DAY, name_of, number_of
from .place import count_of
from .report import clock
from .front_ends import FINENESS
from .sound import Sound
from .spans import Reading
from .vitc import LOWER, UNSURE, UPPER, Run, Vitc, label

# At so many places of the picture the sound is asked.
PLACES = 100
# So many runs are listed.
MOST_RUNS = 50
ORDERS = {
    UPPER: "the upper row's field first",
    LOWER: "the lower row's field first",
    UNSURE: "which field is first is not sure",
}


def sound_number(reading: Reading, count: str, seconds: Fraction) -> Fraction | None:
    """The number of the label that the sound says at a time, with the part of its frame that has passed."""
    tick = seconds * FINENESS * reading.rate
    for span in reading.spans:
        frame = span.frame or reading.frame
        if frame and count_of(span, reading.system) == count and span.begin - frame <= tick <= span.end:
            way = -1 if span.direction == "backward" else 1
            return number_of(count, span.first) + way * (tick - (span.begin - frame)) / frame
    return None


def differences(vitc: Vitc, sound: Sound, reading: Reading) -> list[int]:
    """By how many labels the picture is ahead of the sound, at places over the whole picture where both say one."""
    begins = Fraction(vitc.screen.begins) - Fraction(sound.place_of(reading.track)[0].begins)
    frames = sum(run.end - run.begin + 1 for run in vitc.runs)
    step = max(1, frames // PLACES)
    found = []
    for run in vitc.runs:
        for frame in range(run.begin, run.end + 1, step):
            said = sound_number(reading, run.count, vitc.seconds_at(frame) + begins)
            if said is not None:
                day = LABELS_A_DAY[run.count]
                found.append((round(run.number_at(frame) - said) + day // 2) % day - day // 2)
    return found


def agreement(vitc: Vitc, sound: Sound | None, reading: Reading | None) -> str:
    """Whether sound and picture say the same, in words. Nothing where one of them says nothing."""
    if sound is None or reading is None or not reading.heard or not vitc.runs:
        return ""
    found = differences(vitc, sound, reading)
    if not found:
        return "the sound has no label at the same time"
    ahead, places = Counter(found).most_common(1)[0]
    at = f", at {places} of {len(found)} places"
    if ahead == 0:
        return "the same labels as the sound" + at
    frames = f"{abs(ahead):,} frame{'s' * (abs(ahead) != 1)}"
    return f"{frames} {'ahead of' if ahead > 0 else 'behind'} the sound" + at


def refuse_apart(vitc: Vitc | str | None, sound: Sound, reading: Reading) -> None:
    """Raises where the picture says other labels than the sound: then it is not sure by which a copy is stamped."""
    if not isinstance(vitc, Vitc) or not vitc.runs or not reading.heard:
        return
    found = differences(vitc, sound, reading)
    if not found or 10 * found.count(0) < 9 * len(found):
        how = agreement(vitc, sound, reading)
        raise NoStamp(f"no stamp: of the picture it is said: {how}; without --vitc it is stamped by the sound")


def listed(numbers: list[int]) -> str:
    """Numbers as they are said: 10 and 12."""
    words = [str(it) for it in numbers]
    return words[0] if len(words) == 1 else ", ".join(words[:-1]) + " and " + words[-1]


def run_lines(vitc: Vitc) -> Iterator[str]:
    before: Run | None = None
    for run in vitc.runs[:MOST_RUNS]:
        if before is not None:
            yield f"    gap of {float(vitc.seconds_at(run.begin - before.end - 1)):.3f} s"
        first, last = label(run, run.first), label(run, run.last)
        begins, ends = (clock(float(vitc.seconds_at(frame))) for frame in (run.begin, run.end + 1))
        yield f"    {run.direction:8} {first} to {last}  {begins} to {ends}  frames {run.frames} without {run.without}"
        before = run
    if len(vitc.runs) > MOST_RUNS:
        yield f"    and {len(vitc.runs) - MOST_RUNS} more"


def lines(vitc: Vitc | str, sound: Sound | None, reading: Reading | None) -> list[str]:
    """The lines of the report; of a picture that was not looked at why."""
    if isinstance(vitc, str):
        return [f"picture       not looked at: {vitc}"]
    screen = vitc.screen
    told = [f"picture       {screen.codec}, {screen.width} by {screen.height}, {name_of(screen.rate)} frames a second"]
    if vitc.runs:
        silent = vitc.fields - vitc.words - vitc.conflicts
        differ = f", {vitc.conflicts} say two" if vitc.conflicts else ""
        said = f"{vitc.words} of {vitc.fields} say a label{differ}, {silent} none"
        told.append(f"fields        {said}; {ORDERS[vitc.order]}")
        if vitc.rows:
            told.append(f"rows          {listed(vitc.rows)} of a field, from 0 at the top")
        same = agreement(vitc, sound, reading)
        told += [f"agreement     {same}"] if same else []
        told += ["picture spans", *run_lines(vitc)]
    else:
        told.append(f"fields        {vitc.fields}, and none says a label in its upper {screen.rows} rows")
    return told + ([f"note          ffmpeg: {vitc.note}"] if vitc.note else [])


def cell(vitc: Vitc | str, sound: Sound | None, reading: Reading | None) -> str:
    """What the table says of a picture, in one cell."""
    if isinstance(vitc, str):
        return "not looked at: " + vitc
    if not vitc.runs:
        return "none"
    first, last = label(vitc.runs[0], vitc.runs[0].first), label(vitc.runs[-1], vitc.runs[-1].last)
    rows = f"rows {listed(vitc.rows)}" if vitc.rows else ""
    same = agreement(vitc, sound, reading)
    return "; ".join(it for it in (f"{first} to {last}", rows, same) if it)


def as_object(vitc: Vitc | str, sound: Sound | None, reading: Reading | None) -> dict[str, Any]:
    """The same for programs."""
    if isinstance(vitc, str):
        return {"note": vitc}
    spans = [
        {
            "direction": run.direction,
            "count": run.count,
            "first": label(run, run.first),
            "last": label(run, run.last),
            "frames": run.frames,
            "without": run.without,
            "begins": round(float(vitc.seconds_at(run.begin)), 4),
            "ends": round(float(vitc.seconds_at(run.end + 1)), 4),
        }
        for run in vitc.runs
    ]
    counted = {"fields": vitc.fields, "words": vitc.words, "conflicts": vitc.conflicts}
    told = {"order": vitc.order if vitc.runs else "", "rows": vitc.rows, "note": vitc.note}
    return {**counted, **told, "agreement": agreement(vitc, sound, reading), "spans": spans}
