"""The tapes of a folder, worked by GNU parallel: each job is this tool on a few, by their numbers in a list."""
import os
import shlex
import shutil
import subprocess
import sys

from . import store
from .faults import Fault, NoProgram, NoSound, NotThere, reason_of
from .names import shown
from .reading import wanted_of
from .row import FAILED, MISSING, Row, Told
from .source import opened
from .store import Run
from .targets import write_text, written
from .work import silent_tape, tape_read

# The word with which a job begins.
JOB = "--job"
# The most tapes of a job; and how many jobs, at least, each place for jobs does one after another.
MOST_OF_A_JOB, JOBS_EACH = 8, 8
# On so many hosts a job is tried.
RETRIES = "4"
# Above this status parallel itself failed, and not its jobs.
MOST_FAILED_JOBS = 101


def put_list(run: Run, names: list[str]) -> None:
    """The names of the tapes, in a file, each with a NUL behind it."""
    with written(os.path.join(run.out, store.LIST), force=True) as part:
        part.file.write(b"".join(os.fsencode(name) + b"\0" for name in names))


def names_of(run: Run) -> list[str]:
    with open(os.path.join(run.out, store.LIST), "rb") as file:
        return [os.fsdecode(name) for name in file.read().split(b"\0")[:-1]]


def work_all(run: Run, numbers: list[int], jobs: int, hosts: str | None) -> None:
    """Works these tapes of the list. Whole commands go to parallel, so that it has nothing to replace in them."""
    if not numbers:
        return
    if shutil.which("parallel") is None:
        raise NoProgram("GNU parallel is not installed (Debian: parallel)")
    words = ["parallel", "--null", "--jobs", str(jobs), "--joblog", store.LOG]
    if hosts:
        # A host that is dead is left out, and what one that died had begun goes to another.
        words += ["--sshloginfile", os.path.abspath(hosts), "--workdir", "/", "--filter-hosts", "--retries", RETRIES]
    if sys.stderr.isatty():
        words.append("--bar")
    tool = [os.path.abspath(sys.argv[0]), JOB, run.out]
    commands = b"".join(os.fsencode(shlex.join([*tool, *group])) + b"\0" for group in groups_of(numbers, jobs))
    there = {**os.environ, "PARALLEL_SHELL": "/bin/sh"}
    ran = subprocess.run(words, input=commands, cwd=run.out, env=there, check=False)
    if ran.returncode > MOST_FAILED_JOBS:
        raise NoProgram(f"parallel ended with status {ran.returncode}")


def groups_of(numbers: list[int], jobs: int) -> list[list[str]]:
    """The tapes of each job: a few, since a start takes as long as a short tape, and enough jobs for all places."""
    size = max(1, min(MOST_OF_A_JOB, len(numbers) // (JOBS_EACH * jobs)))
    words = [str(number) for number in numbers]
    return [words[at : at + size] for at in range(0, len(words), size)]


def work_one(run: Run, name: str) -> None:
    """A tape: its report and its page, and then its row."""
    os.makedirs(run.room(name), exist_ok=True)
    store.take_away(run, name)
    state = None
    try:
        state = store.state_of(run, name)
        told, text = read_one(run, name)
    except Exception as fault:
        # Whatever it is, the others go on, and this one has its row.
        reason = reason_of(fault) if isinstance(fault, (Fault, OSError)) else f"a fault of this tool: {fault!r}"
        # Without its state the file is away.
        is_there = state is not None and not isinstance(fault, NotThere)
        told = Told(Row(shown(name), FAILED if is_there else MISSING, note=reason))
        text = f"{shown(name)}\n{'failed  ' if is_there else 'not read'}      {reason}\n"
    write_text(os.path.join(run.room(name), store.REPORT), text, force=True)
    store.put_row(run, name, state, told)


def read_one(run: Run, name: str) -> tuple[Told, str]:
    wanted, rate = wanted_of(run.reading)
    has_vitc = bool(run.reading.get("vitc"))
    with opened(run.path(name)) as source:
        try:
            with tape_read(source, name, wanted, rate, has_vitc=has_vitc) as tape:
                text, told = tape.report(run.reading.get("margin", False)), tape.told()
                if tape.choice.is_found:
                    path = os.path.join(run.room(name), store.PAGE)
                    write_text(path, tape.page(text), force=True, tapes=[source.tape])
                return told, text
        except NoSound as fault:
            if not has_vitc:
                raise
            silent = silent_tape(source, name, wanted.limit, fault)
            return silent.told(), silent.report()
