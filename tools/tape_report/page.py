"""The report as one page that opens in any browser, without a network."""
import html
import json
import os
from typing import Any

from .breaks import kinds_of
from .spans import Reading

# More words than these are thinned out: a page is to open at once.
MOST_WORDS = 200_000


def words_and_losses(reading: Reading) -> tuple[list[list[Any]], list[float]]:
    """The words as their time, speed, direction and label; and the times at which the code was lost."""
    words: list[list[Any]] = []
    lost: list[float] = []
    number = 0
    every = -(-reading.words // MOST_WORDS) or 1
    with open(reading.path, encoding="ascii") as lines:
        for line in lines:
            if line.startswith("word "):
                if number % every == 0:
                    parts = line.split()
                    seconds = round(reading.seconds_at(int(parts[10])), 4)
                    words.append([seconds, int(parts[14]) / 1000, int(parts[1] == "backward"), parts[2]])
                number += 1
            elif line.startswith("lost ") and len(lost) < MOST_WORDS:
                lost.append(round(reading.seconds_at(int(line.split()[-1])), 4))
    return words, lost


def data_of(reading: Reading) -> dict[str, Any]:
    words, lost = words_and_losses(reading)
    kinds = kinds_of(reading)
    spans = [
        {
            "direction": span.direction,
            "first": span.first,
            "last": span.last,
            "begin": reading.seconds_at(span.begin),
            "end": reading.seconds_at(span.end),
            "heard": span.heard,
            "bridged": span.bridged,
            "speed": span.speed / 1000,
            "gap": "" if span.gap is None else f"{reading.seconds_of(span.gap):.3f} s",
            "relation": span.relation or "",
            "kind": kind,
        }
        for span, kind in zip(reading.spans, kinds)
    ]
    return {"seconds": reading.seconds_of(reading.ticks), "words": words, "lost": lost, "spans": spans}


def form_of(name: str) -> str:
    with open(os.path.join(os.path.dirname(__file__), name), encoding="utf-8") as form:
        return form.read()


def data_in_script(data: object) -> str:
    """Data as a script takes it. No text in it may end the script."""
    return json.dumps(data, separators=(",", ":")).replace("<", "\\u003c")


def page(title: str, report: str, reading: Reading) -> str:
    """The page: the report, the speed over time, and the table of spans."""
    head, rest = form_of("page.html").split("@REPORT@")
    middle, foot = rest.split("/*DATA*/")
    told = html.escape(report) + middle + data_in_script(data_of(reading))
    return head.replace("@TITLE@", html.escape(title)) + told + foot
