"""The time code in the upper rows of a picture: ffmpeg cuts them out of a video file, and `tc` reads them."""
import contextlib
import os
import subprocess
import tempfile
from collections.abc import Iterator
from fractions import Fraction
from typing import IO, Any

from .decoder import FILE, first_line, number_in, probed
from .faults import NoPicture, NoProgram
from .labels import LABELS_A_DAY, NTSC, label_of, name_of, number_of
from .programs import has_ffmpeg, program
from .records import dataclass, field

# So many rows of a field `tc` looks at, and so wide they are.
MOST_ROWS = 40
NARROWEST, WIDEST = 360, 4_096
RATES = (Fraction(25), 30 * NTSC, Fraction(30))
# The rows that carry code are told by so many fields, and a row carries it where it says a word in half of those that
# the best row reads.
FIELDS_ASKED = 20
UPPER, LOWER, UNSURE = "upper", "lower", "not sure"


@dataclass(frozen=True)
class Screen:
    """The picture of a file, as ffprobe tells it."""

    codec: str
    width: int
    height: int
    rate: Fraction
    # Its number among the streams of the file, and when its first frame is shown, in seconds of the file's clock.
    stream: int
    begins: float

    @property
    def system(self) -> int:
        return round(self.rate)

    @property
    def rows(self) -> int:
        """How many rows of a field are looked at."""
        return min(MOST_ROWS, self.height // 2)


@dataclass
class Run:
    """Frames whose labels go on, from the first that says one to the last."""

    count: str
    begin: int
    first: int
    end: int
    last: int
    # 1 forward, -1 backward, 0 where the label stays; None as long as there is one frame.
    way: int | None = None
    frames: int = 1

    def goes_on(self, frame: int, number: int) -> int | None:
        """The way in which this label goes on from the last, or None where it does not."""
        day, steps = LABELS_A_DAY[self.count], frame - self.end
        ways = (1, -1, 0) if self.way is None else (self.way,)
        return next((way for way in ways if (self.last + way * steps - number) % day == 0), None)

    def number_at(self, frame: int) -> int:
        return self.first + (self.way or 0) * (frame - self.begin)

    @property
    def direction(self) -> str:
        return {1: "forward", -1: "backward", 0: "still", None: "one"}[self.way]

    @property
    def without(self) -> int:
        """How many of its frames say no label."""
        return self.end - self.begin + 1 - self.frames


@dataclass
class Vitc:
    """What the fields of a picture say."""

    screen: Screen
    fields: int = 0
    words: int = 0
    conflicts: int = 0
    first_field: int | None = None
    # Fields whose mark is that of their place, where the upper row's field is the first, and those whose mark is not.
    straight: int = 0
    crossed: int = 0
    runs: list[Run] = field(default_factory=list)
    rows: list[int] = field(default_factory=list)
    note: str = ""

    @property
    def order(self) -> str:
        """Which row's field is the first of a frame, by the field marks."""
        if self.straight > 9 * self.crossed:
            return UPPER
        return LOWER if self.crossed > 9 * self.straight else UNSURE

    def seconds_at(self, frame: int) -> Fraction:
        """From the first frame of the picture on."""
        return frame / self.screen.rate


def screen_of(path: str) -> Screen:
    """The picture of a file, or why its rows are not looked at. A cover is no picture."""
    if not has_ffmpeg():
        raise NoPicture("ffmpeg, which reads pictures, is not installed")
    entries = "index,codec_type,codec_name,width,height,avg_frame_rate,start_time"
    for said in probed(path, f"stream={entries}:stream_disposition=attached_pic").get("streams", []):
        if said.get("codec_type") == "video" and not said.get("disposition", {}).get("attached_pic"):
            return screen_in(said)
    raise NoPicture("it has no picture")


def screen_in(said: dict[str, Any]) -> Screen:
    rate, width = rate_in(said), int(number_in(said, "width"))
    near = next((it for it in RATES if abs(rate / it - 1) < Fraction(1, 2000)), None)
    if near is None:
        raise NoPicture(f"it has {name_of(rate)} frames a second, and rows carry code at 25, 29.97 and 30")
    if not NARROWEST <= width <= WIDEST:
        raise NoPicture(f"it is {width} pixels wide, and code is looked for from {NARROWEST} to {WIDEST:,}")
    height = int(number_in(said, "height"))
    if height < 2:
        raise NoPicture("it has no two fields")
    codec, stream = str(said.get("codec_name", "unknown")), int(number_in(said, "index"))
    return Screen(codec, width, height, near, stream, number_in(said, "start_time"))


def rate_in(said: dict[str, Any]) -> Fraction:
    try:
        return Fraction(str(said.get("avg_frame_rate")))
    except (ValueError, ZeroDivisionError):
        return Fraction(0)


def cutter(path: str, screen: Screen, begin: int, count: int | None) -> list[str]:
    """The words of ffmpeg that cut the upper rows of each field out, from a field on and so many of them."""
    asked = f",select=gte(n\\,{begin})" if begin else ""
    filters = f"setfield=tff,separatefields{asked},crop=iw:{screen.rows}:0:0,setpts=N/FRAME_RATE/TB"
    words = ["ffmpeg", "-v", "error", "-nostdin", "-noautorotate", "-i", FILE + path, "-map", f"0:{screen.stream}"]
    words += ["-vf", filters, "-pix_fmt", "gray"] + (["-frames:v", str(count)] if count else [])
    return [*words, "-f", "rawvideo", "pipe:1"]


def luma_words(screen: Screen, first: int, rows: int) -> list[str]:
    numbers = (screen.system, screen.width, screen.rows, first, rows)
    return [program(), "luma-vitc", *map(str, numbers)]


def vitc_of(path: str, limit: int) -> Vitc:
    """What the picture of a file says; so many frames without a label are bridged."""
    vitc = Vitc(screen_of(path))
    with tempfile.TemporaryFile() as notes:
        for line in lines_of(path, vitc.screen, notes):
            take(vitc, line.split(), limit)
        notes.seek(0)
        vitc.note = first_line(notes.read(65_536))
    if not vitc.fields:
        raise NoPicture(f"no field of it can be read: {vitc.note or 'it is empty'}")
    if vitc.first_field is not None:
        vitc.rows = rows_of(path, vitc.screen, vitc.first_field)
    return vitc


def lines_of(path: str, screen: Screen, notes: IO[bytes]) -> Iterator[str]:
    """The lines of `vitc-read`. What ffmpeg complains of stands in the notes."""
    with contextlib.ExitStack() as ends:
        cut = started(ends, cutter(path, screen, 0, None), subprocess.DEVNULL, notes)
        luma = started(ends, luma_words(screen, 0, screen.rows), cut, subprocess.DEVNULL)
        read = started(ends, [program(), "vitc-read"], luma, subprocess.DEVNULL)
        for line in read:
            yield line.decode("ascii", "replace")


def started(ends: contextlib.ExitStack, words: list[str], source: IO[bytes] | int, notes: IO[bytes] | int) -> IO[bytes]:
    """A program that runs until the stack ends, and its output."""
    process = subprocess.Popen(words, stdin=source, stdout=subprocess.PIPE, stderr=notes)
    if process.stdout is None:
        raise NoProgram(f"{os.path.basename(words[0])} has no output")
    ends.callback(end, process)
    if not isinstance(source, int):
        source.close()
    return process.stdout


def end(process: "subprocess.Popen[bytes]") -> None:
    with contextlib.suppress(OSError):
        if process.stdout:
            process.stdout.close()
    process.kill()
    process.wait()


def take(vitc: Vitc, words: list[str], limit: int) -> None:
    """A line of `vitc-read`."""
    if len(words) < 3 or words[0] != "field":
        return
    number = int(words[1])
    vitc.fields = number + 1
    if words[2] == "conflict":
        vitc.conflicts += 1
    if words[2] != "word":
        return
    label, mark = words[3], int(words[-1])
    vitc.words += 1
    vitc.first_field = number if vitc.first_field is None else vitc.first_field
    if number % 2 == mark:
        vitc.straight += 1
    else:
        vitc.crossed += 1
    add_frame(vitc, number // 2, label, limit)


def add_frame(vitc: Vitc, frame: int, label: str, limit: int) -> None:
    """The label of a frame, of which both fields say one: that of its first field that says a word."""
    count = "30d" if ";" in label else str(vitc.screen.system)
    number = number_of(count, label)
    run = vitc.runs[-1] if vitc.runs else None
    if run is not None and run.end == frame:
        return
    if run is not None and run.count == count and frame - run.end <= limit + 1:
        way = run.goes_on(frame, number)
        if way is not None:
            run.way, run.end, run.last, run.frames = way, frame, number, run.frames + 1
            return
    vitc.runs.append(Run(count, frame, number, frame, number))


def rows_of(path: str, screen: Screen, begin: int) -> list[int]:
    """The rows of a field that carry code, from 0 at the top, by some fields from the first one with a word on."""
    cut, size = piped(cutter(path, screen, begin, FIELDS_ASKED), b""), screen.width * screen.rows
    pixels = cut[: len(cut) // size * size]
    heard = [words_of_row(screen, row, pixels) for row in range(screen.rows)]
    most = max(heard)
    return [row for row, words_heard in enumerate(heard) if most and 2 * words_heard >= most]


def words_of_row(screen: Screen, row: int, pixels: bytes) -> int:
    """In how many fields a row says a word by itself."""
    lines = piped(luma_words(screen, row, 1), pixels)
    return sum(line.split()[2:3] == [b"word"] for line in piped([program(), "vitc-read"], lines).splitlines())


def piped(words: list[str], data: bytes) -> bytes:
    return subprocess.run(words, input=data, stdout=subprocess.PIPE, stderr=subprocess.DEVNULL, check=False).stdout


def label(run: Run, number: int) -> str:
    return label_of(run.count, number)
