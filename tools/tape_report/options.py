"""The words that the tools take."""
import argparse
import os
import sys
from collections.abc import Callable, Sequence
from typing import IO, Any

from .choice import SYSTEMS
from .labels import RATES, system_of
from .programs import version


def number_from(least: int, most: int) -> Callable[[str], int]:
    """A whole number in a range."""

    def number(text: str) -> int:
        value = int(text)
        if not least <= value <= most:
            raise argparse.ArgumentTypeError(f"a number from {least} to {most}")
        return value

    return number


def typed_name() -> str:
    """The name under which the tool was called."""
    return os.path.basename(sys.argv[0])


class Words(argparse.ArgumentParser):
    """The words of a tool. Its help is output as any other: argparse passes over what can't be written."""

    def _print_message(self, message: str, file: IO[str] | None = None) -> None:
        if file is sys.stdout:
            print(message, end="", flush=True)
        else:
            super()._print_message(message, file)


def parser_of(what: str) -> argparse.ArgumentParser:
    words = Words(prog=typed_name(), description=what, allow_abbrev=False)
    words.add_argument("--version", action="version", version=f"{typed_name()} {version()}")
    return words


def add_reading(words: argparse.ArgumentParser) -> None:
    """How a tape is read."""
    words.add_argument("--track", type=number_from(1, 64), help="this track, and no other")
    words.add_argument("--system", type=int, choices=SYSTEMS, help="this system, and no other")
    words.add_argument("--rate", choices=list(RATES), help="these frames a second, whatever the speed says")
    words.add_argument("--limit", type=number_from(0, 255), default=2, help="frames that are bridged in a row (2)")
    words.add_argument("--all-words", action="store_true", help="words without a witness too")
    words.add_argument("--threshold", type=number_from(1, 32_767), help="the least height of code (250)")
    words.add_argument("--smooth", type=number_from(1, 16), help="sums of this many samples, for hiss (1)")
    words.add_argument("--deep", action="store_true", help="a lower threshold, for dull tapes")
    words.add_argument("--path", action="store_true", help="the best path through the sound, which is slow")
    words.add_argument("--vitc", action="store_true", help="the code in the upper rows of the picture too")
    words.add_argument("--margin", action="store_true", help="how much louder the noise could be, which takes a second")
    words.add_argument("--json", action="store_true", help="a JSON object a tape, in place of the report")
    words.add_argument("--force", action="store_true", help="replaces files that stand")


def tape_parser() -> argparse.ArgumentParser:
    words = parser_of("the time code of sound or video files, as a report")
    words.add_argument("files", nargs="+", metavar="FILE", help="a sound or video file, or - for standard input")
    add_reading(words)
    words.add_argument("--csv", action="store_true", help="a row a span, in place of the report")
    words.add_argument("--picture", metavar="FILE.png", help="the speed over time, drawn by gnuplot")
    words.add_argument("--page", metavar="FILE.html", help="a page to look at in a browser")
    words.add_argument("--stamp", metavar="COPY", help="a copy with the timecode of its first sample")
    return words


def archive_parser() -> argparse.ArgumentParser:
    words = parser_of("reports of every tape under a folder, and their table")
    words.add_argument("folder", metavar="FOLDER")
    words.add_argument("out", metavar="OUT")
    add_reading(words)
    words.add_argument(
        "-j",
        "--jobs",
        type=number_from(1, 4096),
        default=os.cpu_count(),
        help="this many tapes at a time, on each host",
    )
    words.add_argument("--hosts", metavar="FILE", help="hosts, one a line, reached by ssh")
    words.add_argument("--resume", action="store_true", help="goes on where a run was killed")
    words.add_argument("--all", action="store_true", help="files of any ending, as far as ffprobe hears sound in them")
    words.add_argument("--part", metavar="K/N", type=part, help="each N-th tape from the K-th on, and no table")
    words.add_argument("--edl", action="store_true", help="the spans as edit decision lists too (CMX 3600)")
    words.add_argument("--ale", action="store_true", help="the spans as Avid logs too")
    return words


def part(text: str) -> tuple[int, int]:
    at, of = map(int, text.split("/"))
    if not 0 <= at < of:
        raise argparse.ArgumentTypeError("K/N, with K from 0 to N - 1")
    return at, of


def refuse(words: argparse.ArgumentParser, options: argparse.Namespace) -> None:
    """Ends with status 2 if words do not go together."""
    if options.rate and options.system and system_of(RATES[options.rate]) != options.system:
        words.error(f"--rate {options.rate} is none of --system {options.system}")
    if options.path and (options.smooth is not None or options.deep):
        words.error("--path takes no --smooth and no --deep")


def tape_options(arguments: Sequence[str]) -> argparse.Namespace:
    words = tape_parser()
    options = words.parse_args(arguments)
    refuse(words, options)
    if options.json and options.csv:
        words.error("--json and --csv are two forms of one output")
    if len(options.files) > 1 and (options.picture or options.page or options.stamp):
        words.error("--picture, --page and --stamp are of one file")
    return options


def archive_options(arguments: Sequence[str]) -> argparse.Namespace:
    words = archive_parser()
    options = words.parse_args(arguments)
    refuse(words, options)
    return options


def reading_of(options: argparse.Namespace) -> dict[str, Any]:
    """The words that say how a tape is read."""
    names = ("track", "system", "rate", "limit", "all_words", "threshold", "smooth", "deep", "path")
    # A run of an archive goes on where these are the same, so that a new one stands there only where it is said.
    return {name: getattr(options, name) for name in names} | ({"vitc": True} if options.vitc else {})


def archive_reading_of(options: argparse.Namespace) -> dict[str, Any]:
    """The same of an archive, with the word for margins if it is said."""
    return reading_of(options) | ({"margin": True} if options.margin else {})
