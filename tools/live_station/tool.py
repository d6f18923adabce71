"""The tool: the source named by the options is opened, and the station runs until it is ended."""
import argparse
from collections.abc import Sequence

from tape_report.endings import FAILED, say
from tape_report.faults import Fault, NoSound, reason_of
from tape_report.programs import program

from . import capture
from .capture import Capture
from .options import CARD_RATE, options_of
from .page import is_loopback
from .station import Station


def main(arguments: Sequence[str]) -> int:
    options = options_of(arguments)
    try:
        program()
        if options.bind and not is_loopback(options.bind):
            say(f"the page is served on {options.bind}: whoever reaches that address sees the display")
        station = Station(options, lambda: opened(options))
        return station.run()
    except BrokenPipeError:
        raise
    except (Fault, OSError) as fault:
        say(reason_of(fault))
        return FAILED


def opened(options: argparse.Namespace) -> tuple[Capture, int]:
    """The samples that the options name, and the number of the track among them."""
    rate, track = options.rate or CARD_RATE, options.track
    if options.file:
        return capture.file(options.file, track, options.pace)
    if options.jack:
        return capture.jack(options.jack, options.rate), 1
    if options.card:
        # A card has mostly an even number of tracks, and two at least.
        return capture.card(options.card, rate, options.tracks or track + track % 2), track
    there = capture.standard_input(rate, options.tracks or track)
    if track > there.form.tracks:
        raise NoSound(f"standard input has no track {track}, but {there.form.tracks}")
    return there, track
