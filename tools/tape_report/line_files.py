"""The tools that turn line files into rows of pixels and back: `line_rows` and `line_runs`."""
import argparse
import struct
import sys
from collections.abc import Sequence

from .endings import FAILED, FOUND, say
from .options import number_from, parser_of

BLACK, WHITE = 16, 200
# Ticks a pixel: an edge stands between two pixels.
TICKS = 64
HEADER = 12
# A line has so many runs at most.
MOST_RUNS = 89
MOST_PIXELS = 65_536


def numbers_of(what: str, names: dict[str, tuple[int, int]], arguments: Sequence[str]) -> list[int]:
    """The numbers of a call, each with its least and its greatest value."""
    words = parser_of(what)
    for name, (least, most) in names.items():
        words.add_argument(name.lower(), metavar=name, type=number_from(least, most), help=f"from {least} to {most}")
    options: argparse.Namespace = words.parse_args(arguments)
    return [getattr(options, name.lower()) for name in names]


def row_of(runs: Sequence[int], width: int, first: int) -> bytes:
    """The row of a line: high and low runs by turns, the first one high."""
    levels = [BLACK] * first
    for number, run in enumerate(runs):
        levels += [BLACK if number % 2 else WHITE] * min(run, width)
    return bytes((levels + [BLACK] * width)[:width])


def line_rows(arguments: Sequence[str]) -> int:
    what = "the lines of a line file, on standard input, as rows of gray pixels on standard output"
    width, first = numbers_of(what, {"WIDTH": (1, MOST_PIXELS), "FIRST": (0, MOST_PIXELS)}, arguments)
    data = sys.stdin.buffer.read()
    at = HEADER
    try:
        while at < len(data):
            lines, at = data[at], at + 1
            for _ in range(lines):
                runs = struct.unpack_from(f">{data[at]}H", data, at + 1)
                at += 1 + 2 * len(runs)
                sys.stdout.buffer.write(row_of(runs, width, first))
        is_whole = data[:4] == b"VITL" and len(data) >= HEADER
    except (struct.error, IndexError):
        is_whole = False
    sys.stdout.buffer.flush()
    if not is_whole:
        is_cut = data[:4] == b"VITL"
        say(f"standard input is no {f'whole line file: it ends at byte {len(data)}' if is_cut else 'line file'}")
        return FAILED
    return FOUND


def edges_of(row: bytes) -> list[int]:
    """The moments, in ticks, at which the row crosses the middle between its lightest and its darkest pixel."""
    dark, light = min(row), max(row)
    if light - dark < 32:
        return []
    middle = (dark + light) / 2
    edges: list[int] = []
    for at, (one, next_one) in enumerate(zip(row, row[1:])):
        rises, falls = one < middle <= next_one, one >= middle > next_one
        if rises if len(edges) % 2 == 0 else falls:
            edges.append(round(TICKS * (at + (middle - one) / (next_one - one))))
    return edges


def line_of(row: bytes) -> bytes:
    """The runs between the edges, up to the last falling one, with their number; or nothing."""
    edges = edges_of(row)
    runs = [after - before for before, after in zip(edges, edges[1:])][:MOST_RUNS]
    if len(runs) % 2 == 0:
        runs = runs[:-1]
    return bytes([len(runs)]) + b"".join(struct.pack(">H", max(1, run)) for run in runs) if runs else b""


def line_runs(arguments: Sequence[str]) -> int:
    what = "rows of gray pixels, on standard input, as a line file for tc vitc-read, on standard output"
    names = {"SYSTEM": (25, 30), "PIXELS": (1, MOST_PIXELS), "WIDTH": (1, MOST_PIXELS), "LINES": (1, 255)}
    system, pixels, width, lines = numbers_of(what, names, arguments)
    write = sys.stdout.buffer.write
    write(b"VITL" + bytes([1, system, 0, 0]) + struct.pack(">I", pixels * TICKS))
    left = 0
    while field := sys.stdin.buffer.read(width * lines):
        found = [line_of(field[at : at + width]) for at in range(0, len(field), width)]
        found = [line for line in found if line]
        write(bytes([len(found)]) + b"".join(found))
        left = len(field) % width
    sys.stdout.buffer.flush()
    if left:
        say(f"the last row is cut short: it has {left} pixels of {width}")
        return FAILED
    return FOUND
