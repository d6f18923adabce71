"""The tool for folders: a run over one, or a job of a few of its tapes."""
from collections.abc import Sequence

from . import jobs, store
from .endings import FAILED, FOUND, say
from .faults import Fault, reason_of
from .names import shown


def main(arguments: Sequence[str]) -> int:
    if arguments[:1] == [jobs.JOB]:
        return job(*arguments[1:])
    # A job, of which there are many, has no need of what a run does.
    from . import archive_run
    from .options import archive_options

    options = archive_options(arguments)
    try:
        return archive_run.work(options)
    except BrokenPipeError:
        raise
    except (Fault, OSError) as fault:
        say(f"{shown(options.folder)}: {reason_of(fault)}")
        return FAILED


def job(out: str, *numbers: str) -> int:
    """A few tapes, by their numbers in the list."""
    run = store.run_in(out)
    if run is None:
        say(f"{shown(out)}: {store.RUN} is not there")
        return FAILED
    names = jobs.names_of(run)
    for number in numbers:
        jobs.work_one(run, names[int(number)])
    return FOUND
