"""Linear time code, read from samples or from intervals of a tape, and lines of vertical interval time code, by proved
code: the functions of tc.h, over ctypes.

    import tc, wave

    with wave.open("tape.wav") as sound:
        samples = sound.readframes(sound.getnframes())
    for word in tc.words(samples, system=25, tolerance=tc.Tolerance.ROUGH):
        print(word.label, word.tick / 16)

Samples are those of one channel. Bytes hold 16 bits each, in the machine's order; an array, of `array` or numpy, says
what it holds: whole numbers of 16 bits, or of 32, whose upper 16 count, or floats, whose full scale is 1. What is beyond
full scale, or no number, counts as full scale. A track of an array of more channels is `samples[:, 1]`. A tick is a part
of a sample, which has `fineness` of them; tick 0 is at the first sample. Intervals are whole numbers, in bytes 32 bits
wide; an array has any width that holds them. A tick is their unit.

A `Reader` takes samples, a `Tape` intervals, and both give words, refused words and breaks. A `Slicer` takes samples
and gives intervals, for a `Tape`. A `Wheel` takes words and
the time, and gives frames: those that were heard, and invented ones for those that were not. An `MtcWriter` makes MIDI
Time Code of frames, and an `MtcReader` reads its bytes. `bits` gives the 80 bits of a word; a `Maker` makes intervals
of bits, and a `Sound` samples of intervals. `line` reads a line of vertical interval time code from its runs, and
`line_runs` makes these of a word.

The library is what TC_LIBRARY names in the environment; else libtc.so.1 in tc.libs/ beside this file, as a wheel has it,
in lib/ beside this file's folder, or two folders above this one, as `make install` puts it; else the loader's
libtc.so.1. Nothing but Python is needed.
"""

from __future__ import annotations

import array
import ctypes
import enum
import os
import sys
from collections.abc import Iterable, Iterator
from dataclasses import dataclass
from typing import NamedTuple, Union

ABI = 1
ROOM = 64
COUNTS = ("24", "25", "30", "30d")


class Tolerance(enum.IntEnum):
    """How much the cells of the code may differ."""

    NORMAL = 0
    WORN = 1
    ROUGH = 2


class Follows(enum.IntEnum):
    """Whether the threshold follows the level of the sound: not, at a half of it, or at a quarter."""

    FIXED = 0
    HALF = 1
    QUARTER = 2


class Witness(enum.IntEnum):
    """What a word of a tape is asked for, so that it counts: nothing; a witness, which is another word's sync word beside
    it; a witness, or the word that follows it on the tape, if that is beside it and has the next label; or one that
    counts on with it, the word before it or what comes next.
    """

    NOT_ASKED = 0
    ASKED = 1
    CONSECUTIVE = 2
    COUNTED = 3


class Fault(enum.IntEnum):
    """Why a word is refused: the first of its fields that no label has, or that it has no witness. A line has others
    before those of its fields: a run that is no whole number of cells, or too many cells; a sync pair; or the check.
    """

    FRAME_UNITS = 1
    FRAMES = 2
    SECOND_UNITS = 3
    SECOND_TENS = 4
    MINUTE_UNITS = 5
    MINUTE_TENS = 6
    HOUR_UNITS = 7
    HOURS = 8
    DROPPED_LABEL = 9
    ALONE = 12
    RUN = 13
    TOO_LONG = 14
    SYNC_PAIR = 15
    CHECK = 16


@dataclass(frozen=True)
class Settings:
    """How a sound is read. Raises ValueError at once if one is out of range."""

    system: int = 25
    """Frames a second: 24, 25 or 30, which reads 29.97 and drop-frame counting too."""
    tolerance: Tolerance = Tolerance.NORMAL
    follows: Follows = Follows.HALF
    threshold: int = 250
    """The threshold, or the least to which it falls, in units of a sum: 1 to 524,272."""
    fineness: int = 16
    """Ticks of a sample: 1 to 64."""
    smooth: int = 1
    """What is read is the sum of this many latest samples: 1 to 16."""
    pace: int = 0
    """0: an interval is read when it has ended, so a silence is told of when it is over. Else it is read as it passes,
    in pieces of this many ticks, 1 to 16,777,215."""

    def __post_init__(self) -> None:
        Reader(self)


@dataclass(frozen=True)
class Slicing:
    """How a sound is sliced into intervals. Raises ValueError at once if one is out of range."""

    follows: Follows = Follows.HALF
    threshold: int = 250
    """The threshold, or the least to which it falls, in units of a sum: 1 to 524,272."""
    fineness: int = 16
    """Ticks of a sample: 1 to 64."""
    smooth: int = 1
    """What is sliced is the sum of this many latest samples: 1 to 16."""
    pace: int = 0
    """0: an interval is given when it has ended. Else as it passes, in pieces of this many ticks, 1 to 16,777,215."""
    start: int = 0
    """Where the first interval begins: 0 at the first sample, 1 at the first crossing."""

    def __post_init__(self) -> None:
        Slicer(self)


class Kind(enum.IntEnum):
    """What a frame is: a word that was heard, one that was not, or the end of what may be invented."""

    HEARD = 1
    INVENTED = 2
    GONE = 3


class LabelFault(enum.IntEnum):
    """Why an address of MIDI Time Code is no label: the first of its parts that no label has."""

    HOURS = 1
    MINUTES = 2
    SECONDS = 3
    FRAMES = 4
    DROPPED = 5


class Word(NamedTuple):
    """A word of 80 bits that was read."""

    label: str
    """The frame address, with a semicolon if it is counted drop-frame."""
    backward: bool
    user: int
    """The user bits, group 1 as the least significant."""
    flags: int
    """Bit 0 is bit 10 of the word; then colour framing, and the three binary group flags."""
    balanced: bool
    tick: int
    """Where it ends."""
    length: int
    """The ticks of its 80 cells."""
    count: str
    """Its count: 24, 25, 30 or 30d."""


class Refused(NamedTuple):
    """80 bits that end in a sync word, and have a fault."""

    fault: Fault
    backward: bool
    tick: int


class Lost(NamedTuple):
    """A break of the code, at the interval of this place, counted from 0."""

    interval: int
    tick: int


Event = Union[Word, Refused, Lost]


class Frame(NamedTuple):
    """A frame of a flywheel."""

    kind: Kind
    label: str
    """The frame address, and nothing if the time code is gone."""
    backward: bool
    joined: bool
    """Whether the label of a heard one is the next after the word before and the frames invented since."""
    step: int
    """How many labels an invented one lies after the word before, from 1 to the limit."""
    tick: int
    """Where it ends."""
    count: str
    """Its count: 24, 25, 30 or 30d, and nothing if the time code is gone."""


class MtcLabel(NamedTuple):
    """A label that was read from MIDI Time Code, or one that is refused."""

    full: bool
    """Whether a full message has it, or eight quarter frames."""
    label: str
    """The frame address, and nothing if it is refused."""
    backward: bool
    """Of quarter frames, whether their pieces fall."""
    fault: LabelFault | None
    place: int
    """That of the byte that completes it, from 0 over all bytes."""


class LineWord(NamedTuple):
    """What a line of vertical interval time code says."""

    label: str
    """The frame address, with a semicolon where drop-frame counting is told."""
    user: int
    """The user bits, group 1 as the least significant."""
    flags: int
    """Bit 0 is the drop-frame flag; then colour framing, and the three binary group flags."""
    mark: bool
    """The field mark: not set in the first field of a frame, set in the second."""
    count: str
    """Its count: 25, 30 or 30d."""


class RefusedLine(NamedTuple):
    """A line that says no word."""

    fault: Fault
    place: int
    """That of the run or of the sync pair, from 0, or the residue of the check; 0 of a fault of the fields."""


class Full(Exception):
    """A reader was given as many samples, or intervals, as it takes."""


class _Settings(ctypes.Structure):
    _fields_ = [(name, ctypes.c_uint32) for name in Settings.__dataclass_fields__]


class _Event(ctypes.Structure):
    _fields_ = [
        *((name, ctypes.c_uint8) for name in ("kind", "direction", "detail", "flags")),
        *((name, ctypes.c_uint8) for name in ("hours", "minutes", "seconds", "frames")),
        ("user", ctypes.c_uint32),
        ("zero", ctypes.c_uint32),
        ("tick", ctypes.c_uint64),
        ("length", ctypes.c_uint64),
    ]

    def seen(self) -> Event:
        backward = self.direction == 1
        if self.kind == 3:
            return Lost(self.length, self.tick)
        if self.kind == 2:
            return Refused(Fault(self.detail), backward, self.tick)
        label = _text(self.detail, self.hours, self.minutes, self.seconds, self.frames)
        flags, balanced, count = self.flags & 31, bool(self.flags >> 5), COUNTS[self.detail]
        return Word(label, backward, self.user, flags, balanced, self.tick, self.length, count)


class _Taken(ctypes.Structure):
    _fields_ = [("used", ctypes.c_size_t), ("made", ctypes.c_size_t), ("full", ctypes.c_bool)]


class _SlicerSettings(ctypes.Structure):
    _fields_ = [(name, ctypes.c_uint32) for name in Slicing.__dataclass_fields__]


class _TapeSettings(ctypes.Structure):
    _fields_ = [(name, ctypes.c_uint32) for name in ("system", "tolerance", "firm")]


class _TapeTaken(ctypes.Structure):
    _fields_ = [*_Taken._fields_, ("refused", ctypes.c_bool)]


class _Label(ctypes.Structure):
    _fields_ = [(name, ctypes.c_uint32) for name in ("count", "hours", "minutes", "seconds", "frames")]


class _Heard(ctypes.Structure):
    _fields_ = [
        ("label", _Label),
        ("direction", ctypes.c_uint32),
        ("tick", ctypes.c_uint64),
        ("length", ctypes.c_uint64),
    ]


class _Frame(ctypes.Structure):
    _fields_ = [
        *((name, ctypes.c_uint32) for name in ("kind", "direction", "joined", "step")),
        ("label", _Label),
        ("zero", ctypes.c_uint32),
        ("tick", ctypes.c_uint64),
    ]

    def seen(self) -> Frame:
        kind, label = Kind(self.kind), self.label
        text = _text(label.count, label.hours, label.minutes, label.seconds, label.frames)
        text, count = ("", "") if kind == Kind.GONE else (text, COUNTS[label.count])
        return Frame(kind, text, self.direction == 1, self.joined == 1, self.step, self.tick, count)


class _MtcEvent(ctypes.Structure):
    _fields_ = [
        *((name, ctypes.c_uint32) for name in ("kind", "direction", "fault")),
        ("label", _Label),
        ("place", ctypes.c_uint64),
    ]

    def seen(self) -> MtcLabel:
        label, fault = self.label, LabelFault(self.fault) if self.fault else None
        text = "" if fault else _text(label.count, label.hours, label.minutes, label.seconds, label.frames)
        return MtcLabel(self.kind == 1, text, self.direction == 1, fault, self.place)


class _Word(ctypes.Structure):
    _fields_ = [("label", _Label), ("flags", ctypes.c_uint32), ("user", ctypes.c_uint32)]


class _Line(ctypes.Structure):
    _fields_ = [("place", ctypes.c_size_t), ("fault", ctypes.c_uint32), ("word", _Word)]

    def seen(self) -> LineWord | RefusedLine:
        if self.fault:
            return RefusedLine(Fault(self.fault), self.place)
        label, flags = self.word.label, self.word.flags
        text = _text(label.count, label.hours, label.minutes, label.seconds, label.frames)
        return LineWord(text, self.word.user, flags & 31, bool(flags >> 5), COUNTS[label.count])


class _Bits(ctypes.Structure):
    _fields_ = [("low", ctypes.c_uint64), ("high", ctypes.c_uint64)]


class _SoundTaken(ctypes.Structure):
    _fields_ = [("used", ctypes.c_size_t), ("made", ctypes.c_size_t)]


class _Given(ctypes.Structure):
    _fields_ = [("made", ctypes.c_size_t), ("done", ctypes.c_bool), ("refused", ctypes.c_bool)]


def _text(count: int, hours: int, minutes: int, seconds: int, frames: int) -> str:
    """A frame address, with a semicolon if it is counted drop-frame."""
    return f"{hours:02}:{minutes:02}:{seconds:02}{';' if count == 3 else ':'}{frames:02}"


_library: ctypes.CDLL | None = None


def library() -> ctypes.CDLL:
    """The library, loaded once. Raises OSError if there is none, or one of another version."""
    global _library
    if _library is None:
        here = os.path.dirname(os.path.realpath(__file__))
        folders = "tc.libs", "../lib", "../.."
        places = [os.path.normpath(os.path.join(here, place, "libtc.so.1")) for place in folders]
        name = os.environ.get("TC_LIBRARY") or next(filter(os.path.exists, places), "libtc.so.1")
        loaded = ctypes.CDLL(name)
        loaded.tc_abi.restype = ctypes.c_uint32
        if loaded.tc_abi() != ABI:
            raise OSError(f"{name} has version {loaded.tc_abi()} of its functions, and this file knows {ABI}")
        _describe(loaded)
        _library = loaded
    return _library


def _describe(loaded: ctypes.CDLL) -> None:
    """Tells ctypes what the functions take and give."""
    place, size = ctypes.POINTER(ctypes.c_void_p), ctypes.c_size_t
    events, frames = ctypes.POINTER(_Event), ctypes.POINTER(_Frame)
    for name in ("reader", "slicer", "tape", "wheel", "mtc_writer", "mtc_reader", "maker", "sound"):
        for what in ("bytes", "boundary"):
            getattr(loaded, f"tc_{name}_{what}").restype = size
        made = getattr(loaded, f"tc_{name}_at")
        made.restype, made.argtypes = None, [ctypes.c_void_p, place]
        started = getattr(loaded, f"tc_{name}_start_")
        started.restype = None if name.startswith("mtc") else ctypes.c_bool
    loaded.tc_mtc_writer_start_.argtypes = loaded.tc_mtc_reader_start_.argtypes = [place]
    loaded.tc_reader_start_.argtypes = [place, ctypes.POINTER(_Settings)]
    loaded.tc_reader_write_s16_.restype = _Taken
    loaded.tc_reader_write_s16_.argtypes = [place, ctypes.c_void_p, size, events, size]
    loaded.tc_slicer_start_.argtypes = [place, ctypes.POINTER(_SlicerSettings)]
    loaded.tc_slicer_write_s16_.restype = _Taken
    loaded.tc_slicer_write_s16_.argtypes = [place, ctypes.c_void_p, size, ctypes.POINTER(ctypes.c_uint32), size]
    loaded.tc_tape_start_.argtypes = [place, ctypes.POINTER(_TapeSettings)]
    loaded.tc_tape_write_.restype = _TapeTaken
    loaded.tc_tape_write_.argtypes = [place, ctypes.c_void_p, size, events, size]
    loaded.tc_tape_last_.restype, loaded.tc_tape_last_.argtypes = size, [place, events, size]
    for name in ("reader", "tape"):
        told = getattr(loaded, f"tc_{name}_told_")
        told.restype, told.argtypes = ctypes.c_uint64, [place]
    loaded.tc_wheel_start_.argtypes = [place, ctypes.c_uint32]
    loaded.tc_wheel_pass_.restype = loaded.tc_wheel_hear_.restype = _Given
    loaded.tc_wheel_pass_.argtypes = [place, ctypes.c_uint64, frames, size]
    loaded.tc_wheel_hear_.argtypes = [place, ctypes.POINTER(_Heard), frames, size]
    numbers, ticks = ctypes.c_uint32, ctypes.POINTER(ctypes.c_uint32)
    loaded.tc_word_bits.restype = ctypes.c_bool
    loaded.tc_word_bits.argtypes = [ctypes.POINTER(_Word), ctypes.POINTER(_Bits)]
    loaded.tc_line_runs.restype = size
    loaded.tc_line_runs.argtypes = [ctypes.POINTER(_Word), numbers, ctypes.POINTER(ctypes.c_uint16), size]
    loaded.tc_line_read.restype = ctypes.c_bool
    loaded.tc_line_read.argtypes = [numbers, numbers, ctypes.c_void_p, size, ctypes.POINTER(_Line)]
    loaded.tc_maker_start_.argtypes = [place, numbers, numbers, numbers]
    loaded.tc_maker_bits_.restype = _Given
    loaded.tc_maker_bits_.argtypes = [place, ctypes.POINTER(_Bits), numbers, ticks, size]
    loaded.tc_sound_start_.argtypes = [place, numbers]
    loaded.tc_sound_write_.restype = _SoundTaken
    loaded.tc_sound_write_.argtypes = [place, ctypes.c_void_p, size, ctypes.POINTER(ctypes.c_int16), size]
    loaded.tc_mtc_writer_write_.restype = _Given
    loaded.tc_mtc_writer_write_.argtypes = [place, frames, ctypes.POINTER(ctypes.c_uint8), size]
    loaded.tc_mtc_reader_read_.restype = _Taken
    loaded.tc_mtc_reader_read_.argtypes = [place, ctypes.c_void_p, size, ctypes.POINTER(_MtcEvent), size]


class _Object:
    """What the library keeps in memory of this program's."""

    _name: str
    """The word of its functions."""
    _gives: type
    """What it writes."""

    def _make(self) -> None:
        """Makes room, and the object in it."""
        self._make_room()
        self._call("at", self._handle, ctypes.byref(self._handle))

    def _make_room(self) -> None:
        self._library = library()
        boundary, self._bytes = self._call("boundary"), self._call("bytes")
        self._room = ctypes.create_string_buffer(self._bytes + boundary)
        self._handle = ctypes.c_void_p(-(-ctypes.addressof(self._room) // boundary) * boundary)
        self._given = (self._gives * ROOM)()

    def _call(self, what: str, *words):
        return getattr(self._library, f"tc_{self._name}_{what}")(*words)

    def _start(self, settings, told) -> None:
        self._start_with((settings,), told)

    def _start_with(self, settings, told) -> None:
        if not self._call("start_", ctypes.byref(self._handle), *settings):
            raise ValueError(f"out of range: {told}")

    def copy(self):
        """One that goes on from the same place, in a room of its own."""
        other = object.__new__(type(self))
        other.__dict__.update(self.__dict__)
        other._make_room()
        ctypes.memmove(other._handle.value, self._handle.value, self._bytes)
        return other

    __copy__ = copy

    def __deepcopy__(self, _known):
        return self.copy()

    def __reduce__(self):
        raise TypeError(f"a {type(self).__name__} lies in the memory of this process, and can't be stored")


FULL_SCALE = 32_767


def _level(value: float) -> int:
    """A float as a sample of 16 bits. What is no number is at full scale too."""
    return FULL_SCALE if value >= 1 else int(value * FULL_SCALE) if value > -1 else -FULL_SCALE


def _view(held, what: str) -> memoryview:
    """A row of numbers, or bytes. Raises ValueError if it is neither."""
    try:
        view = memoryview(held)
    except TypeError:
        raise ValueError(f"no {what}: {type(held).__name__}") from None
    if view.ndim != 1:
        raise ValueError(f"{what} are one behind another, not in {view.ndim} directions")
    return view


def _row(view: memoryview, kinds: str, what: str) -> array.array:
    """The numbers of a view of one of these kinds, of the machine's order or another. Raises ValueError if it has others."""
    order, kind = ("@", view.format) if view.format[:1].isalpha() else (view.format[:1], view.format[1:])
    if kind not in tuple(kinds) or array.array(kind).itemsize != view.itemsize:
        raise ValueError(f"no {what}: numbers of format {view.format!r}")
    row = array.array(kind, view.tobytes())
    if order in ">!" and sys.byteorder == "little" or order == "<" and sys.byteorder == "big":
        row.byteswap()
    return row


def _samples_of(samples) -> memoryview:
    """Samples of 16 bits, one behind another."""
    view = _view(samples, "samples")
    if view.format in ("B", "b", "c"):
        if view.nbytes % 2:
            raise ValueError("samples are of 16 bits: the number of bytes is odd")
        return view if view.c_contiguous else memoryview(view.tobytes())
    row = _row(view, "hilfd", "samples of 16 or 32 bits or floats")
    if row.typecode in "fd":
        row = array.array("h", map(_level, row))
    elif row.itemsize == 4:
        row = array.array("h", (sample >> 16 for sample in row))
    elif row.itemsize != 2:
        raise ValueError(f"samples of {8 * row.itemsize} bits: 16 and 32 are known, and floats")
    return memoryview(row)


def _intervals_of(intervals) -> memoryview:
    """Intervals of 32 bits, one behind another. A number that does not fit becomes 0, which is no interval either."""
    if isinstance(intervals, (bytes, bytearray, memoryview, array.array)) or hasattr(intervals, "__array_interface__"):
        view = _view(intervals, "intervals")
        if view.format in ("B", "b", "c"):
            if view.nbytes % 4:
                raise ValueError("intervals are of 32 bits: the bytes hold no whole number of them")
            return view if view.c_contiguous else memoryview(view.tobytes())
        row: Iterable[int] = _row(view, "hHiIlLqQ", "intervals")
    else:
        try:
            row = list(intervals)
        except TypeError:
            raise ValueError(f"no intervals: {type(intervals).__name__}") from None
        if not all(isinstance(number, int) for number in row):
            raise ValueError("intervals are whole numbers")
    return memoryview(array.array("I", (number if 0 <= number < 1 << 32 else 0 for number in row)))


def _numbers(numbers: Iterable[int], told) -> list[int]:
    """The numbers, if each has 32 bits. Raises ValueError if one has not."""
    listed = list(numbers)
    if not all(isinstance(number, int) and 0 <= number < 1 << 32 for number in listed):
        raise ValueError(f"out of range: {told}")
    return listed


class Reader(_Object):
    """Reads the words of a sound, in pieces of any length. One reader serves one thread at a time."""

    _name, _gives = "reader", _Event

    def __init__(self, settings: Settings | None = None, **numbers: int):
        """Settings, or some of their fields by name. Raises ValueError if one is out of range."""
        self._settings = settings or Settings()
        if numbers:
            self._settings = Settings(**{**vars(self._settings), **numbers})
        self._make()
        fields = (getattr(self._settings, name) for name in Settings.__dataclass_fields__)
        self._start(_Settings(*_numbers(fields, self._settings)), self._settings)

    @property
    def settings(self) -> Settings:
        return self._settings

    def write(self, samples) -> list[Event]:
        """Takes all samples, and gives the events that they bring. Raises ValueError if these are no samples, and Full
        if the reader takes no more.
        """
        return _events_of(self, "write_s16_", _samples_of(samples), 2, 2)

    def told(self) -> int:
        """Up to which tick all words are told: one that is told later ends there or behind it. This is the time to tell
        a `Wheel`. With a pace of 0 it stands still during a silence, and else it goes on by such pieces.
        """
        return self._call("told_", ctypes.byref(self._handle))


class Slicer(_Object):
    """Slices a sound into its intervals, in pieces of any length, for a `Tape`. One serves one thread at a time."""

    _name, _gives = "slicer", ctypes.c_uint32

    def __init__(self, slicing: Slicing | None = None, **numbers: int):
        """Settings, or some of their fields by name. Raises ValueError if one is out of range."""
        self._slicing = slicing or Slicing()
        if numbers:
            self._slicing = Slicing(**{**vars(self._slicing), **numbers})
        self._make()
        fields = (getattr(self._slicing, name) for name in Slicing.__dataclass_fields__)
        self._start(_SlicerSettings(*_numbers(fields, self._slicing)), self._slicing)

    @property
    def slicing(self) -> Slicing:
        return self._slicing

    def write(self, samples) -> array.array:
        """Takes all samples, and gives the intervals that they bring. Raises ValueError if these are no samples, and
        Full if the slicer takes no more.
        """
        view = _samples_of(samples)
        held = (ctypes.c_char * view.nbytes).from_buffer_copy(view.cast("B"))
        made, at, count = array.array("I"), 0, view.nbytes // 2
        while True:
            place = ctypes.c_void_p(ctypes.addressof(held) + 2 * at)
            taken = self._call("write_s16_", ctypes.byref(self._handle), place, count - at, self._given, ROOM)
            made.extend(self._given[: taken.made])
            at += taken.used
            if taken.made < ROOM:
                if at < count:
                    raise Full("the slicer takes no more: begin a new one")
                return made


class Tape(_Object):
    """Reads the words of a tape from its intervals, in pieces of any length. One serves one thread at a time."""

    _name, _gives = "tape", _Event

    def __init__(self, system: int = 25, tolerance: Tolerance = Tolerance.NORMAL, firm: Witness | bool = False):
        """Frames a second, 24, 25 or 30; how much cells may differ; and what each word is asked for: True is a witness,
        another word's sync word beside it. Raises ValueError if one is out of range.
        """
        self._make()
        told = (system, tolerance, int(firm))
        self._start(_TapeSettings(*_numbers(told, told)), told)
        self._least = 4 if firm == Witness.CONSECUTIVE else 3

    def write(self, intervals) -> list[Event]:
        """Takes all intervals, in ticks from 1 to 16,777,215, and gives the events that they bring. Raises ValueError
        at a number that is no interval, when those before it are taken, and Full if the reader takes no more.
        """
        return _events_of(self, "write_", _intervals_of(intervals), 4, self._least)

    def last(self) -> list[Event]:
        """The events that come if the tape ends here: a word that still waits for its witness, or for the next word. The
        reader may go on.
        """
        made = self._call("last_", ctypes.byref(self._handle), self._given, ROOM)
        return [event.seen() for event in self._given[:made]]

    def told(self) -> int:
        """Up to which tick all words are told, as `Reader.told` says it."""
        return self._call("told_", ctypes.byref(self._handle))


def _events_of(kept: _Object, what: str, view: memoryview, width: int, least: int) -> list:
    """Has all that lies in a view taken, by calls that take nothing with room for fewer events than `least`."""
    held = (ctypes.c_char * view.nbytes).from_buffer_copy(view.cast("B"))
    brought: list = []
    at, count = 0, view.nbytes // width
    while True:
        place = ctypes.c_void_p(ctypes.addressof(held) + width * at)
        taken = kept._call(what, ctypes.byref(kept._handle), place, count - at, kept._given, ROOM)
        brought += [event.seen() for event in kept._given[: taken.made]]
        at += taken.used
        if taken.full and at < count:
            raise Full("the reader takes no more: begin a new one")
        if getattr(taken, "refused", False):
            raise ValueError(f"the number at {at} is no interval")
        if ROOM - taken.made >= least:
            return brought


class Wheel(_Object):
    """A flywheel: frames of the words that were heard, and invented ones for those that were not. No tick that it is
    told, of a word or of the time, may lie before an earlier one: `told` of the reader gives the time behind its words.
    """

    _name, _gives = "wheel", _Frame

    def __init__(self, limit: int):
        """The most frames that are invented in a row, 0 to 255. Raises ValueError if it is out of range."""
        self._make()
        self._start(*_numbers([limit], limit), limit)

    def passed(self, tick: int) -> list[Frame]:
        """The frames that are due at the tick. Raises ValueError if it lies before the latest one."""
        if not 0 <= tick < 1 << 64:
            raise ValueError(f"no tick: {tick}")
        return self._frames("pass_", tick)

    def heard(self, word: Word) -> list[Frame]:
        """The frames that are due before a word, and the word as one. Raises ValueError if it is no word, or ended
        before the latest tick.
        """
        heard = _Heard(_label_of(word.count, word.label), int(word.backward), word.tick, word.length)
        return self._frames("hear_", ctypes.byref(heard))

    def _frames(self, what: str, told) -> list[Frame]:
        brought: list[Frame] = []
        while True:
            taken = self._call(what, ctypes.byref(self._handle), told, self._given, ROOM)
            if taken.refused:
                raise ValueError("the tick lies before the latest one, or the word is none")
            brought += [frame.seen() for frame in self._given[: taken.made]]
            if taken.done:
                return brought


class MtcWriter(_Object):
    """Makes MIDI Time Code of frames: a full message at the first of a run, and four quarter frames of each."""

    _name, _gives = "mtc_writer", ctypes.c_uint8

    def __init__(self) -> None:
        self._make()
        self._call("start_", ctypes.byref(self._handle))

    def write(self, frame: Frame) -> bytes:
        """The bytes of the next frame: 18 if it begins a run, 8 if it goes on with one, none if the time code is gone.
        Raises ValueError if it is no frame.
        """
        label = _label_of(frame.count, frame.label) if frame.kind != Kind.GONE else _Label()
        numbers = frame.kind, int(frame.backward), int(frame.joined), frame.step
        told = _Frame(*numbers, label, 0, frame.tick)
        given = self._call("write_", ctypes.byref(self._handle), ctypes.byref(told), self._given, ROOM)
        if given.refused:
            raise ValueError(f"no frame: {frame}")
        return bytes(self._given[: given.made])


class MtcReader(_Object):
    """Reads the labels of MIDI Time Code from bytes of MIDI, in pieces of any length."""

    _name, _gives = "mtc_reader", _MtcEvent

    def __init__(self) -> None:
        self._make()
        self._call("start_", ctypes.byref(self._handle))

    def write(self, data) -> list[MtcLabel]:
        """Takes all bytes, and gives the labels that they complete. Raises ValueError if these are no bytes."""
        view = _view(data, "bytes")
        if not view.c_contiguous or view.itemsize != 1:
            raise ValueError("bytes are one behind another")
        return _events_of(self, "read_", view, 1, 1)


class Maker(_Object):
    """Makes the intervals of bits: a zero is one interval, and a one two. Lengths are in ticks."""

    _name, _gives = "maker", ctypes.c_uint32
    LEAD = 2
    """Two bits, a zero and a one, by which a reader locks: `maker.write(Maker.LEAD, 2)` before the first word."""

    def __init__(self, cell: int, to: int | None = None, step: int = 0):
        """A first cell of this length, 16 to 8,388,607, and each next one by a step nearer to another length. Raises
        ValueError if 8 steps are more than the lesser of both, or a length is out of range.
        """
        self._make()
        shape = (cell, cell if to is None else to, step)
        self._start_with(_numbers(shape, shape), shape)

    def write(self, number: int, count: int = 80) -> list[int]:
        """The intervals of the first `count` bits of a number, bit 0 first, 128 at most: `bits(..)` gives a word's."""
        if not 0 <= number < 1 << 128 or not 0 <= count <= 128:
            raise ValueError(f"no {count} bits of a number: {number}")
        told, made = _Bits(number & (1 << 64) - 1, number >> 64), (ctypes.c_uint32 * 256)()
        given = self._call("bits_", ctypes.byref(self._handle), ctypes.byref(told), count, made, 256)
        return list(made[: given.made])


class Sound(_Object):
    """Makes the samples of intervals: as many of one level as each has ticks, the first above zero, then by turns."""

    _name, _gives = "sound", ctypes.c_int16

    def __init__(self, level: int):
        """The level, 0 to 32,767. Raises ValueError if it is out of range."""
        self._make()
        self._start(*_numbers([level], level), level)

    def write(self, intervals) -> array.array:
        """The samples of these intervals, in ticks."""
        listed = array.array("I", _numbers(intervals, "an interval"))
        held = (ctypes.c_uint32 * len(listed)).from_buffer_copy(listed)
        made, at = array.array("h"), 0
        while True:
            place = ctypes.c_void_p(ctypes.addressof(held) + 4 * at)
            taken = self._call("write_", ctypes.byref(self._handle), place, len(listed) - at, self._given, ROOM)
            made.extend(self._given[: taken.made])
            at += taken.used
            if taken.made < ROOM:
                return made


def bits(label: str, count: str, user: int = 0, flags: int = 0) -> int:
    """The 80 bits of a word as one number, of which bit 0 comes first in time: its label, its count, 24, 25, 30 or 30d,
    its user bits, and its flags as `Word.flags` has them. An even number of the bits is 0. Raises ValueError if that is
    no word.
    """
    told, found = _Word(_label_of(count, label), flags | 32 | (count == "30d"), *_numbers([user], user)), _Bits()
    if not 0 <= flags < 32 or not library().tc_word_bits(ctypes.byref(told), ctypes.byref(found)):
        raise ValueError(f"no word: {label} of {count}, user {user}, flags {flags}")
    return found.low + (found.high << 64)


def line(system: int, length: int, runs: Iterable[int]) -> LineWord | RefusedLine:
    """What a line of vertical interval time code says, of a picture of 25 or 30 frames, or its first fault. The line
    lasts `length` ticks, 460 to 65,535, and a cell 1/115 of it. Its runs are in ticks, 0 to 65,535: high and low by
    turns, from the high one of bit 0 to the last high one. Raises ValueError where there are no such lines, or where
    there is an even number of runs, or more than 89.
    """
    listed, told = list(runs), (system, length)
    if not all(isinstance(run, int) and 0 <= run < 1 << 16 for run in listed):
        raise ValueError(f"no runs: {listed}")
    held, found = array.array("H", [*listed, 0]), _Line()
    place = ctypes.c_void_p(held.buffer_info()[0])
    if not library().tc_line_read(*_numbers(told, told), place, len(listed), ctypes.byref(found)):
        raise ValueError(f"no line of {length} ticks and {len(listed)} runs at {system} frames")
    return found.seen()


def line_runs(label: str, count: str, length: int, user: int = 0, flags: int = 0, mark: bool = False) -> list[int]:
    """The runs, in ticks, of the line of `length` ticks that says a word: its label, its count, 25, 30 or 30d, its user
    bits, its flags as `LineWord.flags` has them, and its field mark. Raises ValueError where there is no such line.
    """
    told = _Word(_label_of(count, label), flags | 32 * mark | (count == "30d"), *_numbers([user], user))
    runs = (ctypes.c_uint16 * 89)()
    made = library().tc_line_runs(ctypes.byref(told), *_numbers([length], length), runs, 89) if 0 <= flags < 32 else 0
    if not made:
        raise ValueError(f"no line of {length} ticks: {label} of {count}, user {user}, flags {flags}")
    return list(runs[:made])


def _label_of(count: str, label: str) -> _Label:
    """A frame address in numbers. Raises ValueError if the text is none."""
    parts = [int(part) for part in label.replace(";", ":").split(":")]
    if len(parts) != 4 or count not in COUNTS:
        raise ValueError(f"no label: {label} of {count}")
    return _Label(COUNTS.index(count), *_numbers(parts, label))


def words(samples, **numbers: int) -> Iterator[Word]:
    """The words of a sound, under settings by name. Raises ValueError at once, as `Reader` does."""
    return (event for event in Reader(**numbers).write(samples) if isinstance(event, Word))
