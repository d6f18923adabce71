"""The tool for tapes: each file is reported, and the page, picture and copy of one are written if the options say so.
"""
import argparse
import os
import sys
from collections.abc import Sequence
from typing import TYPE_CHECKING

from . import options as words
from . import report
from .endings import FAILED, FOUND, NONE_FOUND, say
from .faults import Fault, NoSound, NoTarget, reason_of
from .front_ends import FINENESS
from .names import shown
from .reading import wanted_of
from .source import Source, opened
from .spans import Reading
from .work import Silent, Tape, silent_tape, tape_read

if TYPE_CHECKING:
    from .targets import Part


def main(arguments: Sequence[str]) -> int:
    options = words.tape_options(arguments)
    states = [tell(options, name, number == 0) for number, name in enumerate(options.files)]
    return max(states, key=(FOUND, NONE_FOUND, FAILED).index)


def tell(options: argparse.Namespace, name: str, is_first: bool) -> int:
    """One file, and the status that it alone would end with."""
    try:
        with opened(name) as source:
            if options.page or options.picture or options.stamp:
                refuse_targets(options, source)
            wanted, rate = wanted_of(words.reading_of(options))
            try:
                with tape_read(source, name, wanted, rate, is_shown=True, has_vitc=options.vitc) as tape:
                    return tell_tape(options, tape, is_first)
            except NoSound as fault:
                if not options.vitc:
                    raise
                return tell_silent(options, silent_tape(source, name, wanted.limit, fault), is_first)
    except BrokenPipeError:
        raise
    except (Fault, OSError) as fault:
        reason = reason_of(fault)
        if options.json:
            from . import row

            print(row.Told(row.Row(shown(name), row.FAILED, note=reason)).as_json(), flush=True)
        say(f"{shown(name)}: {reason}")
        return FAILED


def refuse_targets(options: argparse.Namespace, source: Source) -> None:
    """Raises if a file that is asked for may not be written."""
    from . import targets

    asked = (options.page, options.picture, options.stamp)
    targets.refuse_all(asked, options.force, [source.tape])
    for path in (options.page, options.picture):
        refuse_tape(path)


def refuse_tape(path: str | None) -> None:
    """A page or a picture takes no tape's place, by force neither."""
    if path is None or not os.path.isfile(path) or not os.path.getsize(path):
        return
    from .kinds import TAPE, kind_of

    if kind_of(path) == TAPE:
        raise NoTarget(f"{shown(path)}: it is a tape, and is left as it is")


def tell_silent(options: argparse.Namespace, tape: Silent, is_first: bool) -> int:
    """A file of which the picture alone can be read."""
    if options.json:
        print(tape.told().as_json())
    elif options.csv:
        report.write_csv(tape.name, None, sys.stdout, is_first)
    else:
        sys.stdout.write(("" if is_first else "\n") + tape.report())
    sys.stdout.flush()
    if options.page or options.picture or options.stamp:
        raise NoSound(tape.reason)
    return FOUND


def tell_tape(options: argparse.Namespace, tape: Tape, is_first: bool) -> int:
    """The report at once; the JSON object, of which a file has one, when all that was asked for is written."""
    text = tape.report(options.margin) if options.page or not (options.csv or options.json) else ""
    if options.csv:
        report.write_csv(tape.name, tape.choice.reading if tape.choice.is_found else None, sys.stdout, is_first)
    elif not options.json:
        sys.stdout.write(text if is_first else "\n" + text)
    sys.stdout.flush()
    fault, told = None, []
    try:
        told = write_asked(options, tape, text) if tape.choice.is_found else []
    except BrokenPipeError:
        raise
    except (Fault, OSError) as why:
        fault = reason_of(why)
    if options.json:
        print(object_of(tape, [*told, *([fault] if fault else [])]), flush=True)
    elif not options.csv:
        sys.stdout.write("".join(f"copy          {it}\n" for it in told))
        sys.stdout.flush()
    for each in (*told, *([fault] if fault else [])):
        say(f"{tape.name}: {each}")
    if fault:
        return FAILED
    return FOUND if tape.is_found else NONE_FOUND


def object_of(tape: Tape, notes: Sequence[str]) -> str:
    told = tape.told()
    told.row.note = "; ".join(it for it in (told.row.note, *notes) if it)
    return told.as_json()


def write_asked(options: argparse.Namespace, tape: Tape, text: str) -> list[str]:
    """The files that the options name; what a copy has not kept."""
    if not (options.page or options.picture or options.stamp):
        return []
    from . import targets

    tapes, mine = [tape.source.tape], tape.choice.reading
    if options.page:
        targets.write_text(options.page, tape.page(text), options.force, tapes)
    if options.picture:
        with targets.written(options.picture, options.force, tapes) as part:
            draw_reading(part, mine)
    if options.stamp:
        from . import stamp, vitc_report

        vitc_report.refuse_apart(tape.vitc, tape.sound, mine)
        return stamp.stamp(tape.sound, mine.track, tape.place, options.stamp, options.force, tapes)
    return []


def draw_reading(part: "Part", reading: Reading) -> None:
    """The picture of the speed over time."""
    from .plot import draw_part
    from .speed_plot import speed_of_report

    with open(reading.path, encoding="ascii") as lines:
        points, script = speed_of_report(lines, FINENESS * reading.rate)
    draw_part(points, script, part)
