"""The folder into which an archive writes: whose it is, and which files in it are this tool's.

The names and sums of the tables are kept, so that a file of such a name that someone else made or changed is left as it
is, and one of an earlier run that is stale is taken away.
"""
import contextlib
import fnmatch
import hashlib
import json
import os

from . import lock, store
from .faults import NoTarget
from .names import shown
from .store import Run, run_in
from .targets import write_text

TABLE, OBJECTS, INDEX, REMARKS = "archive.csv", "archive.jsonl", "index.html", "archive-notes.txt"
MADE = "made.json"
# Every name that may be made there, and forms of names.
OWN = (store.RUN, MADE, TABLE, OBJECTS, INDEX, REMARKS, store.TAPES, store.LIST, store.LOG, store.LOCK)
FORMS = ("archive-*.edl", "archive-*.ale")
EDL, ALE = ".edl", ".ale"


def sum_of(data: bytes) -> str:
    return hashlib.sha256(data).hexdigest()


def stands_in(out: str) -> list[str]:
    """What is in a folder under a name that this tool gives."""
    names = sorted(os.listdir(out)) if os.path.isdir(out) else []
    there = [name for name in names if name in OWN or any(fnmatch.fnmatchcase(name, form) for form in FORMS)]
    # What a run leaves that ended before it wrote whose output it is.
    return [name for name in there if name != store.LOCK or not lock.is_own(os.path.join(out, name))]


def refuse(run: Run, goes_on: bool, force: bool) -> None:
    """Raises if what is in the output would be harmed."""
    folder, out = os.path.realpath(run.folder), os.path.realpath(run.out)
    if os.path.commonpath([folder, out]) == out:
        raise NoTarget(f"{shown(run.out)}: the tapes lie in it; the reports want a folder of their own")
    if force:
        return
    before, stands = run_in(run.out), stands_in(run.out)
    if before is None and stands:
        raise NoTarget(
            f"{shown(run.out)}: {shown(stands[0])} stands there and is of no run of this tool; --force replaces it"
        )
    if before is not None and before.folder != run.folder:
        raise NoTarget(f"{shown(run.out)}: it has the reports of {shown(before.folder)}; --force replaces them")
    if before is not None and not goes_on:
        raise NoTarget(
            f"{shown(run.out)}: it has the reports of a run before; --resume goes on, --force reads all again"
        )


class Made:
    """The tables that runs made in an output, each with the sums that it may have."""

    def __init__(self, out: str) -> None:
        self.out = out
        self.sums: dict[str, list[str]] = {}
        # An earlier version wrote no such file: then all of its names are its own.
        self.is_known = False
        with contextlib.suppress(OSError, ValueError, AttributeError):
            with open(os.path.join(out, MADE), encoding="ascii") as file:
                said = json.load(file)
            self.sums = {str(name): [str(it) for it in sums] for name, sums in said["sums"].items()}
            self.is_known = True

    def path(self, name: str) -> str:
        return os.path.join(self.out, name)

    def is_own(self, name: str) -> bool:
        """It is as a run wrote it."""
        try:
            with open(self.path(name), "rb") as file:
                return sum_of(file.read()) in self.sums.get(name, [])
        except OSError:
            return False

    def has(self, ending: str) -> bool:
        return any(name.endswith(ending) for name in self.sums)

    def refuse(self, names: list[str], force: bool) -> None:
        """Raises if one of these is there and is not this tool's."""
        if force or not self.is_known:
            return
        for name in names:
            if os.path.lexists(self.path(name)) and not self.is_own(name):
                raise NoTarget(
                    f"{shown(self.path(name))}: it is not as this tool wrote it, and is left; --force replaces it"
                )

    def put(self) -> None:
        write_text(self.path(MADE), json.dumps({"version": 1, "sums": self.sums}, sort_keys=True) + "\n", force=True)

    def write(self, texts: dict[str, str], force: bool) -> None:
        """Writes the tables of this run, and takes away those of earlier runs that it does not have."""
        self.refuse(list(texts), force)
        data = {name: text.encode("utf-8", "backslashreplace") for name, text in texts.items()}
        stale = [name for name in self.sums if name not in texts and self.is_own(name)]
        # Killed from here on, a run leaves files that the next one knows.
        self.sums = {name: self.sums.get(name, []) for name in (*self.sums, *texts)}
        for name in texts:
            self.sums[name] = [*self.sums[name], sum_of(data[name])]
        self.put()
        for name, text in texts.items():
            write_text(self.path(name), text, force=True)
        for name in stale:
            os.unlink(self.path(name))
        self.sums = {name: [sum_of(data[name])] for name in texts}
        self.put()


def take_away_removed(run: Run, names: list[str], closed: dict[str, str]) -> None:
    """The reports of tapes that are no more. Of a folder that could not be read nothing is known, and all is kept."""
    there = set(names)
    for name in store.names_stored(run):
        is_hidden = any(name.startswith(folder) for folder in closed if folder.endswith("/")) or "./" in closed
        if name not in there and name not in closed and not is_hidden:
            store.take_away(run, name)
            store.take_empty_away(run, name)
