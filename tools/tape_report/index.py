"""The page of all tapes, which sorts and filters by column without a network, with what failed first."""
import html
import os
from typing import Any
from urllib.parse import quote

from . import store
from .page import data_in_script, form_of
from .records import asdict
from .row import COLUMNS, Row
from .store import Run


def link(run: Run, name: str, part: str) -> str:
    """The way to a tape's file from the page, or nothing if it has none."""
    if not os.path.exists(os.path.join(run.room(name), part)):
        return ""
    return "/".join(quote(os.fsencode(step)) for step in (store.TAPES, *name.split(os.sep), part))


def item(run: Run, name: str, row: Row) -> dict[str, Any]:
    return {**asdict(row), "report": link(run, name, store.REPORT), "page": link(run, name, store.PAGE)}


def index(run: Run, names: list[str], rows: list[Row], counted: str, remarks: list[str]) -> str:
    """The page, with the rows of the table as JSON inside."""
    data = {"columns": COLUMNS, "remarks": remarks, "tapes": [item(run, name, row) for name, row in zip(names, rows)]}
    head, foot = form_of("index.html").replace("@COUNTS@", html.escape(counted)).split("/*DATA*/")
    return head + data_in_script(data) + foot
