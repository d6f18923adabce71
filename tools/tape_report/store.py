"""What the output of an archive has of its run and of each tape. A tape's row is written last, so with it the tape is
done."""
import contextlib
import json
import os
from typing import Any

from .records import asdict, dataclass
from .row import FAILED, MISSING, Row, Told
from .targets import write_text

TAPES, ROW, REPORT, PAGE = "tapes", "row.json", "report.txt", "page.html"
RUN, LIST, LOG, LOCK = "run.json", "jobs.list", "jobs.log", "run.lock"
OF_A_TAPE = (ROW, REPORT, PAGE)

# Rows of another form are read again.
FORM = 2


@dataclass
class Run:
    """What a run works, and how it reads: the words that say how, as they were given."""

    folder: str
    out: str
    reading: dict[str, Any]

    def path(self, name: str) -> str:
        return os.path.join(self.folder, name)

    def room(self, name: str) -> str:
        """The folder of a tape in the output."""
        return os.path.join(self.out, TAPES, name)


def run_in(out: str) -> Run | None:
    """The run whose output this is."""
    try:
        with open(os.path.join(out, RUN), encoding="ascii") as file:
            said = json.load(file)
        return Run(said["folder"], out, said["reading"])
    except (OSError, ValueError, KeyError, TypeError):
        return None


def put_run(run: Run) -> None:
    text = json.dumps({"version": 1, "folder": run.folder, "reading": run.reading}, sort_keys=True)
    write_text(os.path.join(run.out, RUN), text + "\n", force=True)


def state_of(run: Run, name: str) -> dict[str, Any]:
    """What shows whether a tape changed since it was read."""
    there = os.stat(run.path(name))
    return {"form": FORM, "size": there.st_size, "modified": there.st_mtime_ns, "reading": run.reading}


def put_row(run: Run, name: str, state: dict[str, Any] | None, told: Told) -> None:
    text = json.dumps({"state": state, **asdict(told)})
    write_text(os.path.join(run.room(name), ROW), text + "\n", force=True)


def stored(run: Run, name: str) -> tuple[dict[str, Any] | None, Told] | None:
    """What is stored of a tape: its state when it was read, and what was found in it."""
    try:
        with open(os.path.join(run.room(name), ROW), encoding="ascii") as file:
            said = json.load(file)
        told = Told(Row(**said["row"]), said["rate_of_samples"], said["spans"], said["tracks"], said.get("picture", {}))
        return said["state"], told
    except (OSError, ValueError, KeyError, TypeError):
        return None


def is_done(run: Run, name: str) -> bool:
    """The tape was read, did not fail, and has not changed since, nor has the way of reading."""
    found = stored(run, name)
    try:
        return found is not None and found[1].row.status not in (FAILED, MISSING) and found[0] == state_of(run, name)
    except OSError:
        return False


def take_away(run: Run, name: str) -> None:
    """What belonged to the tape before, its row first."""
    for part in OF_A_TAPE:
        with contextlib.suppress(FileNotFoundError):
            os.unlink(os.path.join(run.room(name), part))


def names_stored(run: Run) -> list[str]:
    """The tapes of which anything is stored."""
    top = os.path.join(run.out, TAPES)
    places = (place for place, _, files in os.walk(top) if any(part in files for part in OF_A_TAPE))
    return [os.path.relpath(place, top) for place in places]


def take_empty_away(run: Run, name: str) -> None:
    """The folder of a tape, and those above it, as far as nothing is in them."""
    with contextlib.suppress(OSError):
        while name:
            os.rmdir(run.room(name))
            name = os.path.dirname(name)
