"""The report of a tape, for people, and a row a span, for a spreadsheet."""
from collections.abc import Iterator
from fractions import Fraction
from typing import TextIO

from .breaks import breaks_of
from .choice import Choice
from .codes import own_codes
from .labels import NTSC, name_of
from .levels import LEVEL_SECONDS, Level
from .names import in_table
from .place import Place
from .rates import SPEED, TOLD, UNDECIDED, Rated, played_rate, rated
from .sound import Sound
from .spans import Reading

SPAN_ROW = "file track system span direction first last heard bridged begins ends speed gap relation".split()
# Code has two to four crossings a cell. A frame has 80 cells; these are the cells of a second at 25 frames.
CELLS_A_SECOND = 80 * 25


def clock(seconds: float) -> str:
    """Hours, minutes, seconds and thousandths."""
    minutes, rest = divmod(round(1000 * seconds), 60_000)
    return f"{minutes // 60}:{minutes % 60:02}:{rest // 1000:02}.{rest % 1000:03}"


def span_rows(name: str, reading: Reading) -> Iterator[list[object]]:
    for number, span in enumerate(reading.spans, 1):
        begins, ends = (f"{reading.seconds_at(tick):.4f}" for tick in (span.begin, span.end))
        gap = "" if span.gap is None else f"{reading.seconds_of(span.gap):.4f}"
        yield [
            name,
            reading.track,
            reading.system,
            number,
            span.direction,
            span.first,
            span.last,
            span.heard,
            span.bridged,
            begins,
            ends,
            f"{span.speed / 1000:.3f}",
            gap,
            span.relation or "",
        ]


def write_csv(name: str, reading: Reading | None, out: TextIO, has_head: bool) -> None:
    import csv

    rows = csv.writer(out)
    if has_head:
        rows.writerow(SPAN_ROW)
    if reading is not None:
        rows.writerows(map(in_table, span_rows(name, reading)))


def sound_line(sound: Sound) -> str:
    length = "of unknown length" if sound.seconds is None else clock(sound.seconds)
    tracks = "1 track" if sound.tracks == 1 else f"{sound.tracks} tracks"
    return f"sound         {sound.kind}, {sound.streams[0].rate} samples a second, {tracks}, {length}"


def early(sound: Sound) -> str:
    """Said if a level is that of the first minutes alone."""
    return " in the first ten minutes" if sound.seconds is None or sound.seconds > LEVEL_SECONDS else ""


def rate_line(choice: Choice, how: Rated) -> Iterator[str]:
    """Said if the labels do not decide the rate."""
    mine = choice.reading
    played = played_rate(mine, mine.spans[0])
    if how.by == TOLD and played is not None:
        yield f"rate          {name_of(how.rate)} as given; the tape plays {float(played):.3f} frames a second"
    elif how.by == SPEED:
        whole = Fraction(mine.system)
        other = whole if how.rate != whole else whole * NTSC
        yield f"rate          {name_of(how.rate)} by its speed alone; --rate {name_of(other)} says otherwise"
    elif how.by == UNDECIDED:
        yield f"rate          undecided: {how.doubt}"


def tracks_lines(choice: Choice) -> Iterator[str]:
    """The tracks, and the code of those that have their own."""
    tracks = choice.best_of_tracks
    if len(tracks) < 2:
        return
    yield "tracks        " + ", ".join(f"{it.track}: {it.heard} frames heard" for it in tracks)
    for it in own_codes(choice):
        first, last = it.spans[0].first, it.spans[-1].last
        heard = f"heard {it.heard} in {len(it.spans)} span{'s' * (len(it.spans) != 1)}"
        yield f"track {it.track:<7} {it.system} frames a second, {first} to {last}, {heard}"


def code_lines(choice: Choice, level: Level, sound: Sound, given: Fraction | None) -> Iterator[str]:
    mine = choice.reading
    how = rated(mine, mine.spans[0], given)
    form = ", drop-frame" if mine.spans[0].is_drop else ""
    rate = f"{how.name} frames a second{form}" if choice.has_system else "too few frames for a system"
    yield f"code          track {mine.track}, {rate}; {choice.sureness}"
    yield from rate_line(choice, how)
    yield from tracks_lines(choice)
    if choice.tried:
        before = "" if choice.before_path is None else f"; without the path {choice.before_path} frames"
        yield f"front end     {mine.front}; tried {', '.join(choice.tried)}{before}"
    yield f"peak          {level.decibels}{early(sound)}"
    missed = f"{mine.refused} words refused, {mine.lost} times lost"
    yield f"heard         {mine.heard} frames, {mine.bridged} bridged; {missed}"
    yield f"breaks        {breaks_of(mine).told()}"


def span_lines(reading: Reading) -> Iterator[str]:
    for span in reading.spans:
        if span.gap is not None:
            yield f"    gap of {reading.seconds_of(span.gap):.3f} s: {span.relation}"
        begins, ends = clock(reading.seconds_at(span.begin)), clock(reading.seconds_at(span.end))
        heard = f"heard {span.heard} bridged {span.bridged} speed {span.speed / 1000:.3f}"
        yield f"    {span.direction:8} {span.first} to {span.last}  {begins} to {ends}  {heard}"


def first_lines(place: Place | None) -> Iterator[str]:
    if place is None:
        yield "first sample  not known: the tape runs backward where its code begins"
        return
    samples = f"{abs(place.rest)} sample" + ("s" if abs(place.rest) != 1 else "")
    where = f" and {samples}" if place.rest > 0 else f" less {samples}" if place.rest < 0 else ""
    yield f"first sample  {place.label}{where}, {place.reference} samples since midnight"
    if place.doubts:
        yield f"not sure      {'; '.join(place.doubts)}"


def margin_lines(margin: int | None) -> Iterator[str]:
    """Said if all words were read and some decibels are left."""
    if margin:
        from .margin import MOST_DECIBELS

        more = ", or more" if margin == MOST_DECIBELS else ""
        yield f"margin        every word was read; the noise could be some {margin} dB louder{more}"


def found_report(
    name: str,
    sound: Sound,
    choice: Choice,
    place: Place | None,
    level: Level,
    given: Fraction | None,
    margin: int | None = None,
) -> str:
    """The report of a tape with code."""
    lines = [
        name,
        sound_line(sound),
        *code_lines(choice, level, sound, given),
        *margin_lines(margin),
        *first_lines(place),
        "spans",
    ]
    lines += span_lines(choice.reading)
    lines += [f"note          {choice.reading.note}"] if choice.reading.note else []
    return "\n".join(lines) + "\n"


def advice(level: Level, was_tried: bool) -> str:
    """What a track without code sounds like, and what to try that was not tried."""
    if level.is_silent:
        return "silence: is it the right file, or the right track?"
    if level.is_quiet:
        return "very quiet" + ("" if was_tried else ": try --threshold 20")
    if level.crossings > 6 * CELLS_A_SECOND:
        more = "--path" if was_tried else "--smooth 3 or --path"
        return f"far more crossings than code has: hiss, or sound that is no code; try {more}"
    if level.crossings < CELLS_A_SECOND / 4:
        return "far fewer crossings than code has: speech or music, or code played slowly"
    return "as many crossings as code may have, and music: if it is code, try --threshold, --smooth 5, or a filter"


def empty_report(name: str, sound: Sound, choice: Choice, levels: dict[int, Level]) -> str:
    """The report of a tape without code: what it sounds like."""
    lines = [name, sound_line(sound), "code          none found"]
    if choice.tried:
        lines.append(f"front ends    tried {', '.join(choice.tried)}")
    for track, level in levels.items():
        told = f"peak {level.decibels}, {level.crossings:.0f} crossings a second{early(sound)}"
        lines.append(f"track {track:<7} {told}; {advice(level, bool(choice.tried))}")
    lines += [f"note          {choice.reading.note}"] if choice.reading.note else []
    return "\n".join(lines) + "\n"
