"""The tools that draw: `draw_report` and `plot_chase`. Both read lines from standard input."""
import argparse
import sys
from collections.abc import Callable, Iterator, Sequence

from .chase_plot import error_of_trace
from .endings import FAILED, FOUND, NONE_FOUND, say
from .faults import Fault, Nothing, reason_of
from .options import parser_of
from .plot import Points, draw
from .speed_plot import speed_of_report
from .targets import refuse


def lines_in() -> Iterator[str]:
    if sys.stdin is None:
        raise Fault("standard input is closed")
    sys.stdin.reconfigure(errors="replace")
    yield from sys.stdin


def tick_rate(text: str) -> float:
    value = float(text)
    if not 0 < value < float("inf"):
        raise argparse.ArgumentTypeError("ticks a second, above 0")
    return value


def words_of(what: str, has_rate: bool) -> argparse.ArgumentParser:
    words = parser_of(what)
    if has_rate:
        words.add_argument("rate", type=tick_rate, metavar="TICK-RATE", help="ticks a second of the recording")
    words.add_argument("picture", metavar="PICTURE.png")
    words.add_argument("--force", action="store_true", help="replaces a picture that stands")
    return words


def drawn(options: argparse.Namespace, points: Callable[[], tuple[Points, str]]) -> int:
    """Draws what was read, where nothing is harmed by it."""
    try:
        refuse(options.picture, options.force)
        draw(*points(), options.picture, options.force)
    except Nothing as fault:
        say(str(fault))
        return NONE_FOUND
    except (Fault, OSError, ValueError, IndexError) as fault:
        say(reason_of(fault) if isinstance(fault, (Fault, OSError)) else "standard input is no such report")
        return FAILED
    return FOUND


def draw_report(arguments: Sequence[str]) -> int:
    what = "the speed of a report of tc ltc-read, on standard input, as a picture by gnuplot"
    options = words_of(what, has_rate=True).parse_args(arguments)
    return drawn(options, lambda: speed_of_report(lines_in(), options.rate))


def plot_chase(arguments: Sequence[str]) -> int:
    what = "the error of a trace of tc chase or tc ltc-chase, on standard input, as a picture by gnuplot"
    options = words_of(what, has_rate=False).parse_args(arguments)
    return drawn(options, lambda: error_of_trace(lines_in()))
