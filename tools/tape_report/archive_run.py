"""A run over a folder: every tape under it is read, and the tables of all are written."""
import argparse
import os
from collections.abc import Iterable

from . import jobs, lock, output, probing, store, table
from . import options as words
from .clips import left_out
from .endings import FAILED, FOUND, NONE_FOUND, say
from .faults import Fault
from .folder import Found, look_under
from .output import Made
from .programs import program
from .remarks import named, summary
from .row import FAILED as FAILED_ROW
from .row import MISSING, Row, Told
from .store import Run

# Something under the folder was not looked at.
NOT_ALL = NONE_FOUND


def work(options: argparse.Namespace) -> int:
    if not os.path.isdir(options.folder):
        raise Fault("it is no folder")
    program()
    run = Run(os.path.abspath(options.folder), os.path.abspath(options.out), words.archive_reading_of(options))
    goes_on = options.resume or options.part is not None
    output.refuse(run, goes_on, options.force)
    os.makedirs(run.out, exist_ok=True)
    what = "a run" if options.part is None else f"part {options.part[0]}/{options.part[1]}"
    with lock.held(os.path.join(run.out, store.LOCK), what, is_shared=options.part is not None):
        # Another run may have ended there meanwhile.
        output.refuse(run, goes_on, options.force)
        return work_in(run, options)


def work_in(run: Run, options: argparse.Namespace) -> int:
    """The work in an output that is this run's."""
    made = Made(run.out)
    made.refuse([output.TABLE, output.OBJECTS, output.INDEX], options.force)
    store.put_run(run)
    found = look_under(run.folder, run.out)
    if options.all:
        probing.look_into_all(found, run.folder)
    if options.part:
        return work_part(run, options, found)
    output.take_away_removed(run, found.tapes, found.closed)
    jobs.put_list(run, found.tapes)
    numbers = [number for number, name in enumerate(found.tapes) if not (options.resume and store.is_done(run, name))]
    jobs.work_all(run, numbers, options.jobs, options.hosts)
    asked = table.Asked(
        options.edl or made.has(output.EDL), options.ale or made.has(output.ALE), options.force, options.all
    )
    tapes = table.collect(run, found, made, asked)
    return tell(tapes, found, options, without_list(tapes) if asked.edl or asked.ale else [])


def work_part(run: Run, options: argparse.Namespace, found: Found) -> int:
    """Each N-th tape, and no table."""
    at, of = options.part
    names = found.tapes[at::of]
    for name in names:
        if not (options.resume and store.is_done(run, name)):
            jobs.work_one(run, name)
    return tell(table.told_of_all(run, names), found, options)


def without_list(tapes: list[Told]) -> list[str]:
    """What the lists of spans leave out."""
    names = left_out(tapes)
    have = "1 tape has" if len(names) == 1 else f"{len(names)} tapes have"
    return [f"{have} spans in no list, since their rate is undecided: {named(names)}"] if names else []


def tell(tapes: list[Told], found: Found, options: argparse.Namespace, more: Iterable[str] = ()) -> int:
    """The summary, with each tape that was not read; or an object a tape."""
    rows = [told.row for told in tapes]
    remarks = [*summary(found, options.all), *more]
    if options.json:
        print("".join(told.as_json() + "\n" for told in tapes), end="")
        for remark in remarks:
            say(remark)
    else:
        part = f"part {options.part[0]}/{options.part[1]}: " if options.part else ""
        print("\n".join([part + table.counts(rows), *missed(rows), *remarks]))
    return status_of(rows, found, options)


def missed(rows: Iterable[Row]) -> list[str]:
    fell_out = (row for row in rows if row.status in (FAILED_ROW, MISSING))
    return [f"{row.status}: {row.file}: {row.note or 'not read'}" for row in fell_out]


def status_of(rows: Iterable[Row], found: Found, options: argparse.Namespace) -> int:
    """Whether the work was done, and whether all under the folder was looked at."""
    if any(row.status == MISSING and not row.note for row in rows):
        return FAILED
    is_unknown = bool(found.unknown) and not options.all
    return NOT_ALL if found.closed or is_unknown or any(row.status == MISSING for row in rows) else FOUND
