"""The tables of an archive, of what is stored of each tape: the same folder gives the same, whatever the order of the
jobs.
"""
import csv
import io

from . import output, store
from .ale import ale_files
from .edl import edl_files
from .folder import Found, sort_key
from .index import index
from .names import in_table, shown
from .output import Made
from .records import dataclass
from .remarks import summary, whole
from .row import COLUMNS, MISSING, STATES, Row, Told
from .store import Run


def table(rows: list[Row]) -> str:
    """The table, as CSV."""
    text = io.StringIO()
    out = csv.writer(text, lineterminator="\n")
    out.writerow(COLUMNS)
    out.writerows(in_table(row.cells()) for row in rows)
    return text.getvalue()


def told_of_all(run: Run, names: list[str]) -> list[Told]:
    """What is stored of each tape; of one that was not read that it is missing."""
    found = (store.stored(run, name) for name in names)
    return [it[1] if it else Told(Row(shown(name))) for it, name in zip(found, names)]


def with_closed(names: list[str], tapes: list[Told], found: Found) -> tuple[list[str], list[Told]]:
    """The rows with those of folders and files that could not be looked at, in the order of their names."""
    rows = list(zip(names, tapes))
    rows += [(name, Told(Row(shown(name), MISSING, note=why))) for name, why in found.closed.items()]
    rows.sort(key=lambda it: sort_key(it[0]))
    return [name for name, _ in rows], [told for _, told in rows]


def counts(rows: list[Row]) -> str:
    """How many tapes there are, and how many of each state, which add up."""
    states = [row.status for row in rows]
    return f"{len(rows)} tapes: " + ", ".join(f"{states.count(state)} {word}" for state, word in STATES.items())


@dataclass(frozen=True)
class Asked:
    """What is to be written besides the table."""

    edl: bool
    ale: bool
    force: bool
    all: bool


def texts_of(run: Run, names: list[str], tapes: list[Told], found: Found, asked: Asked) -> dict[str, str]:
    """The tables by name."""
    rows = [told.row for told in tapes]
    texts = {
        output.TABLE: table(rows),
        output.OBJECTS: "".join(told.as_json() + "\n" for told in tapes),
        output.INDEX: index(run, names, rows, counts(rows), summary(found, asked.all)),
    }
    if remarks := whole(found, asked.all):
        texts[output.REMARKS] = remarks
    if asked.edl:
        texts |= edl_files(tapes)
    if asked.ale:
        texts |= ale_files(tapes)
    return texts


def collect(run: Run, found: Found, made: Made, asked: Asked) -> list[Told]:
    """Writes the tables and the page of all tapes."""
    names, tapes = with_closed(found.tapes, told_of_all(run, found.tapes), found)
    made.write(texts_of(run, names, tapes, found, asked), asked.force)
    return tapes
