"""A track read by `tc`: its intervals are made once, and go to a reader of each system."""
import contextlib
import os
import select
import subprocess
import sys
import tempfile
from collections import deque
from collections.abc import Callable, Iterator, Sequence
from typing import IO, TYPE_CHECKING

from .faults import Fault, NoProgram, NoSound, NotThere
from .front_ends import FrontEnd
from .programs import program
from .sound import Done, Input, Sound
from .track import opened_for, track_samples
from .spans import Reading, spans_in

if TYPE_CHECKING:
    from .decoder import Decoder

# Under this tolerance sound is read: the command that prints its words, and the word of `ltc-spans`. With the last word
# each word needs a witness, or one behind it that joins it and counts on.
READ, TOLERANCE, WITNESS = "ltc-rough", "rough", "consecutive"
PIECE = 1 << 20
# What `tc` writes is gathered to so many bytes: half of what a pipe holds, so that no reader waits for another.
GATHERED = 1 << 15
# A decoder that ends at least these seconds before the length that was said has ended early.
EARLY_SECONDS = 0.5
Progress = Callable[[Input], None]
# With less room than this, in bytes, a disk is full.
ROOM = 65_536
# Of a path so many bytes of intervals are kept, half an hour or more.
MOST_KEPT = 16 << 20
# How often it is shown how far a sound is read, while nothing comes of it.
SHOWN_SECONDS = 0.5
# An interval of the greatest length: a silence is written as so many of them.
LONGEST = (16_777_215).to_bytes(4, "big")


class Reader:
    """`tc` reading intervals, as one system: its spans and its words."""

    def __init__(self, room: str, begin: str, system: int, limit: int, all_words: bool) -> None:
        self.system = system
        self.outputs: list[str] = []
        self.readers: list[subprocess.Popen[bytes]] = []
        asked = [] if all_words else [WITNESS]
        for words in (["ltc-spans", str(limit), TOLERANCE, *asked], [READ, *asked]):
            path = os.path.join(room, f"{begin}-{system}-{words[0]}")
            with open(path, "wb") as output:
                self.readers.append(started(words, output))
            self.outputs.append(path)

    def inputs(self) -> list[IO[bytes]]:
        return [reader.stdin for reader in self.readers if reader.stdin]

    def take(self, data: bytes) -> None:
        for pipe in self.inputs():
            pipe.write(data)

    def close(self) -> bool:
        """Whether both came to their end."""
        for pipe in self.inputs():
            with contextlib.suppress(OSError):
                pipe.close()
        return all([reader.wait() == 0 for reader in self.readers])

    def lines(self, number: int, last: int | None = None) -> list[str]:
        """The lines of an output, or the last `last` of them."""
        with open(self.outputs[number], encoding="ascii") as lines:
            return [line.rstrip("\n") for line in (lines if last is None else deque(lines, last))]

    def forget(self) -> None:
        for path in self.outputs:
            os.unlink(path)


def started(words: list[str], output: IO[bytes]) -> "subprocess.Popen[bytes]":
    """A reader of intervals. What it notes of a file that gave none is nothing new."""
    return subprocess.Popen([program(), *words], stdin=subprocess.PIPE, stdout=output, stderr=subprocess.DEVNULL)


class Silences:
    """How many intervals have the greatest length: they are pieces of a silence, and no transitions. The first byte of
    each interval is zero, so no two neighbours have these bytes between them.
    """

    def __init__(self) -> None:
        self.count, self.rest = 0, b""

    def take(self, data: bytes) -> None:
        data = self.rest + data
        self.count += data.count(LONGEST)
        self.rest = data[-3:]


class Kept:
    """The first intervals of a path, in a file: a filter is fitted to them where frames are missing."""

    def __init__(self, path: str) -> None:
        self.file, self.left = open(path, "wb"), MOST_KEPT

    def take(self, data: bytes) -> None:
        self.left -= self.file.write(data[: self.left])


class Slicing:
    """`tc` of a track, by `wav-ltc` or the best path: the bytes of its interval file, and then how it and the decoder
    ended.
    """

    def __init__(self, sound: Sound, track: int, front: FrontEnd) -> None:
        self.sound = sound
        self.stream, number = sound.place_of(track)
        self.front = front = front.at(self.stream.rate)
        self.input = opened_for(sound, track, front)
        self.notes = tempfile.TemporaryFile()
        words = ["wav-ltc", "25", str(number)]
        samples: IO[bytes] = self.input.output
        if front.is_path:
            words, samples = ["pcm-ltc", "25", str(self.rate)], track_samples(sound, self.input, track)
        if front.taps:
            # Few tapes need it, and what it stands on takes its time to be loaded.
            from .twice import filtered

            samples = filtered(samples, front.taps)
        command = [program(), *words, *front.words()]
        self.slicer = subprocess.Popen(command, stdin=samples, stdout=subprocess.PIPE, stderr=self.notes)
        if front.is_path:
            samples.close()
        if self.slicer.stdout is None:
            raise NoProgram("tc has no output")
        self.output = self.slicer.stdout

    @property
    def rate(self) -> int:
        """The samples a second that are sliced."""
        return self.front.resampled or self.stream.rate

    def pieces(self, progress: Progress | None) -> Iterator[bytes]:
        """What comes, gathered, and meanwhile how far the sound is read: a silence gives nothing for long."""
        gathered, is_ended = bytearray(), False
        while not is_ended:
            while progress and not select.select([self.output], [], [], SHOWN_SECONDS)[0]:
                progress(self.input)
            data = os.read(self.output.fileno(), PIECE)
            gathered += data
            is_ended = not data
            if progress and data:
                progress(self.input)
            if gathered and (is_ended or len(gathered) >= GATHERED):
                yield bytes(gathered)
                gathered.clear()

    def close(self) -> None:
        self.output.close()
        self.slicer.kill()
        self.slicer.wait()
        self.input.close()

    def ended(self, is_empty: bool) -> str:
        """What is to be noted of how it went. Raises if nothing was read."""
        status = self.slicer.wait()
        self.notes.seek(0)
        note = self.notes.read(65_536).decode("utf-8", "replace").strip().replace("\n", "; ")
        if self.input.decoder is not None:
            return self.decoder_ended(self.input.decoder, note, is_empty)
        if status != 0 and (is_empty or "refused" not in note and "limit" not in note):
            raise NoSound(note or f"tc ended with status {status}")
        # The best path has the samples alone, and does not see that they end too early.
        wave = self.sound.wave
        is_cut = self.front.is_path and wave is not None and wave.is_cut
        return f"the file ends inside its samples, at byte {wave.length}" if is_cut and wave else note

    def decoder_ended(self, decoder: "Decoder | Done", note: str, is_empty: bool) -> str:
        # It has no reader any more, if `tc` gave up.
        self.input.output.close()
        status, seconds, said = decoder.wait(), decoder.seconds() or 0.0, decoder.note()
        has_failed = status != 0 or said != ""
        told = f"ffmpeg: {said or f'it ended with status {status}'}" if has_failed else ""
        if is_empty or status != 0 and seconds == 0:
            raise NoSound(told or note or "no sound came")
        # The length of the whole may be that of a picture: it counts if the decoder failed.
        whole = self.stream.seconds or (self.sound.seconds if has_failed else None)
        is_early = whole is not None and seconds < whole - EARLY_SECONDS
        read_to = f"read to {minutes(seconds)} of {minutes(whole)}" if is_early and whole else ""
        return "; ".join(it for it in (read_to, note, told) if it)


def minutes(seconds: float) -> str:
    """Minutes and seconds, or hours too."""
    whole, rest = divmod(int(seconds), 60)
    return f"{whole // 60}:{whole % 60:02}:{rest:02}" if whole >= 60 else f"{whole}:{rest:02}"


def read_track(
    sound: Sound,
    track: int,
    systems: Sequence[int],
    front: FrontEnd,
    limit: int,
    room: str,
    all_words: bool,
    progress: Progress | None = None,
) -> list[Reading]:
    """A track read as each of the systems, by a front end. The lines of the words stay in the room."""
    slicing = Slicing(sound, track, front)
    begin = f"{track}-{front.name}".replace(" ", "-")
    kept = Kept(os.path.join(room, f"{begin}-intervals")) if front.is_path and not front.taps else None
    readers = [Reader(room, begin, system, limit, all_words) for system in systems]
    is_empty, silences = True, Silences()
    try:
        for data in slicing.pieces(progress):
            silences.take(data)
            if kept:
                kept.take(data)
            for reader in readers:
                # The system is in byte 5 of the header, and nothing else depends on it.
                reader.take(data[:5] + bytes([reader.system]) + data[6:] if is_empty else data)
            is_empty = False
        note = slicing.ended(is_empty)
    except BrokenPipeError:
        raise not_read(room) from None
    finally:
        are_whole = all([reader.close() for reader in readers])
        slicing.close()
        if kept:
            kept.file.close()
    if not are_whole and not is_empty:
        raise not_read(room)
    sliced = kept.file.name if kept else ""
    return [told(reader, track, slicing, note, silences.count, sliced) for reader in readers]


def not_read(room: str) -> Fault:
    """Why a reader gave up: nothing but a full disk makes it do so."""
    there = os.statvfs(room)
    if there.f_bavail * there.f_frsize < ROOM:
        return NotThere(f"no space left for its words in {os.path.dirname(room)} (TMPDIR names another folder)")
    return NoProgram("tc did not read the intervals that it made")


def told(reader: Reader, track: int, slicing: Slicing, note: str, silent: int, sliced: str) -> Reading:
    """What a reader wrote, as a reading."""
    spans, ticks = spans_in(reader.lines(0))
    front = slicing.front
    reading = Reading(
        track,
        reader.system,
        slicing.rate,
        front.name,
        front.sums,
        front.high_pass is not None,
        spans,
        ticks=ticks,
        path=reader.outputs[1],
        note=note,
        made=front,
        file_rate=slicing.stream.rate,
        sliced=sliced,
    )
    for line in reader.lines(1, last=1):
        words = line.split()
        if words and words[0] == "end":
            reading.intervals, reading.words, reading.refused, reading.lost = (int(words[n]) for n in (2, 4, 6, 8))
            reading.intervals -= silent
    return reading


def progress_shown(sound: Sound, name: str) -> Progress | None:
    """A line on a terminal that says how far a track is read, if standard error is one."""
    if not sys.stderr.isatty() or not sound.seconds:
        return None

    def show(source: Input) -> None:
        part = part_read(sound, source)
        sys.stderr.write(f"\r{name}: {100 * min(1.0, part):3.0f} %")
        sys.stderr.flush()

    return show


def part_read(sound: Sound, source: Input) -> float:
    """How much of a sound is read. The place in a file is that of `tc` too, which has it from here."""
    if source.decoder is not None:
        return (source.decoder.seconds() or 0.0) / (sound.seconds or 1.0)
    try:
        return os.lseek(source.output.fileno(), 0, os.SEEK_CUR) / (sound.wave.length if sound.wave else 1)
    except OSError:
        return 0.0


def end_progress() -> None:
    if sys.stderr.isatty():
        sys.stderr.write("\r\x1b[K")
