"""The words that the station takes."""
import argparse
from collections.abc import Sequence

from tape_report.choice import SYSTEMS
from tape_report.options import number_from, parser_of

from .capture import STANDARD_INPUT
from .form import MOST_RATE, MOST_TRACKS
from .page import LOOPBACK

CARD_RATE = 48_000
# How many frames may be missing while a machine runs on, before it stops; and the least height of code.
LIMIT, THRESHOLD = 5, 250


def pace(text: str) -> float:
    value = float(text)
    if not 0.01 <= value <= 1000:
        raise argparse.ArgumentTypeError("a number from 0.01 to 1000")
    return value


def parser() -> argparse.ArgumentParser:
    words = parser_of("linear time code as it comes: on the terminal, to MIDI, for the room and in a log")
    source = words.add_mutually_exclusive_group()
    source.add_argument("--card", metavar="NAME", help="a card of ALSA (hw:0), which arecord -l lists")
    source.add_argument("--file", metavar="TAPE", help="a sound or video file, at its own pace")
    source.add_argument("--jack", metavar="PORT", help="a port of JACK, which jack_lsp lists")
    source.add_argument("input", nargs="?", choices=[STANDARD_INPUT], metavar="-", help="standard input")
    words.add_argument("--rate", type=number_from(1, MOST_RATE), help="samples a second (48000; JACK's own)")
    words.add_argument("--tracks", type=number_from(1, MOST_TRACKS), help="tracks of the card, or of raw samples")
    words.add_argument("--track", type=number_from(1, MOST_TRACKS), default=1, help="the track with the code (1)")
    words.add_argument("--system", type=int, choices=SYSTEMS, help="frames a second; found without it")
    words.add_argument("--limit", type=number_from(0, 255), default=LIMIT, help=f"frames invented in a row ({LIMIT})")
    words.add_argument(
        "--threshold", type=number_from(1, 32_767), default=THRESHOLD, help=f"the least height of code ({THRESHOLD})"
    )
    words.add_argument("--smooth", type=number_from(1, 16), default=1, help="sums of this many samples, for hiss (1)")
    words.add_argument("--deep", action="store_true", help="a lower threshold, for dull tapes")
    words.add_argument("--pace", type=pace, default=1.0, help="plays a file this many times as fast (1)")
    words.add_argument("--midi", metavar="DEVICE", help="sends MIDI Time Code to a raw MIDI device or a FIFO")
    words.add_argument("--page", metavar="PORT", type=number_from(1, 65_535), help="serves the display to browsers")
    words.add_argument("--bind", metavar="ADDRESS", help=f"the address of the page ({LOOPBACK})")
    words.add_argument("--log", metavar="FILE", help="appends a line an event to the file")
    words.add_argument("--plain", action="store_true", help="plain digits and no block characters")
    words.add_argument("--quiet", action="store_true", help="nothing on standard output")
    return words


def options_of(arguments: Sequence[str]) -> argparse.Namespace:
    words = parser()
    options = words.parse_args(arguments)
    if options.bind and options.page is None:
        words.error("--bind is of --page")
    if options.tracks and options.track > options.tracks:
        words.error(f"--track {options.track} is none of --tracks {options.tracks}")
    if options.jack and (options.track > 1 or (options.tracks or 1) > 1):
        words.error("a port of JACK has one track")
    if options.pace != 1 and not options.file:
        words.error("--pace is of --file")
    if not (options.card or options.file or options.jack or options.input):
        options.card = "default"
    return options
