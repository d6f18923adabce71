"""The sound of a file: its tracks, and each as a WAV file that `tc wav-ltc` reads."""
import os
import shutil
import struct
import threading
from collections.abc import Callable, Sequence
from typing import IO, TYPE_CHECKING, Any, NamedTuple

from . import programs
from .faults import NoSound, NotThere
from .records import dataclass, field
from .source import Source, path_of
from .wave import NO_SIZE, Wave, is_wave, wave_of

# Most tapes have no need of ffmpeg.
if TYPE_CHECKING:
    from .decoder import Decoder

# A decoded stream is kept up to this size, in bytes.
MOST_KEPT = 64 << 20
# Forms whose header has no length: ffprobe estimates it.
ESTIMATED = ("mp3", "aac", "ac3", "eac3")
# Files of `tc` that are no sound, by their first bytes, and the command that reads each.
READ_BY_TC = {b"LTCI": ("an interval file", "ltc-read"), b"VITL": ("a line file", "vitc-read")}


class Done(NamedTuple):
    """A decoder that has ended well, and gave all."""

    whole: float
    output: None = None

    def wait(self) -> int:
        return 0

    def seconds(self) -> float:
        return self.whole

    def note(self) -> str:
        return ""

    def close(self) -> None:
        pass


class Kept(NamedTuple):
    """A stream that was decoded into a file without a name, and how that went."""

    file: IO[bytes]
    decoder: "Decoder | Done"


@dataclass(frozen=True)
class Stream:
    """Tracks that are decoded together: those of a sound file, or of one sound of a video file."""

    tracks: int
    rate: int
    # The number of the sound among those of the file.
    number: int = 0
    # When its first sample is played, in seconds of the file's clock.
    begins: float = 0.0
    # How long it is by its own header; None where that is not known.
    seconds: float | None = None


@dataclass
class Sound:
    """The sound of a file, and the chunks of one that `tc` reads itself."""

    source: Source
    kind: str
    streams: list[Stream]
    seconds: float | None
    wave: Wave | None = None
    is_decoded: bool = False
    # What was found of the levels of its tracks, by `levels`.
    levels: dict[int, Any] = field(default_factory=dict)
    # Streams that were decoded once, by their numbers.
    kept: dict[int, Kept] = field(default_factory=dict)
    # Decodes its one stream without ffmpeg, where that can be.
    other_decoder: Callable[[], Kept | None] | None = None

    @property
    def tracks(self) -> int:
        return sum(stream.tracks for stream in self.streams)

    def place_of(self, track: int) -> tuple[Stream, int]:
        """The stream of a track, and the track's number in it. Tracks count from 1 through all streams."""
        left = track
        for stream in self.streams:
            if left <= stream.tracks:
                return stream, left
            left -= stream.tracks
        raise NoSound(f"it has no track {track}, but {self.tracks}")

    def open_kept(self, stream: Stream) -> "Input":
        """A stream as a WAV file. One that is decoded is decoded once, if it is short."""
        size = MOST_KEPT if stream.seconds is None and self.seconds is None else self.size_of(stream)
        if not self.is_decoded or size >= MOST_KEPT:
            return self.open(stream)
        if stream.number not in self.kept:
            by_another = self.other_decoder() if self.other_decoder else None
            self.kept[stream.number] = by_another or self.kept_by_ffmpeg(stream)
        there = self.kept[stream.number]
        return Input(file=open(path_of(there.file), "rb"), decoder=there.decoder)

    def kept_by_ffmpeg(self, stream: Stream) -> Kept:
        from .decoder import kept

        return kept(self.source.path, stream.number)

    def size_of(self, stream: Stream) -> float:
        """How many bytes it has when it is decoded, about."""
        return 3.0 * stream.tracks * stream.rate * (stream.seconds or self.seconds or 0.0)

    def open(self, stream: Stream, filters: Sequence[str] = ()) -> "Input":
        """A stream as a WAV file, to read from."""
        if self.is_decoded or filters:
            from .decoder import Decoder

            return Input(decoder=Decoder(self.source.path, stream.number, filters))
        if self.wave is not None and self.wave.is_open and self.wave.data is not None:
            return relayed(self.source.path, self.wave.data.place, self.wave.letters == b"RIFF")
        return Input(file=open(self.source.path, "rb"))


@dataclass
class Input:
    """Where a WAV file is read from, and what runs for it."""

    file: IO[bytes] | None = None
    decoder: "Decoder | Done | None" = None

    @property
    def output(self) -> IO[bytes]:
        source = self.decoder.output if self.file is None and self.decoder is not None else self.file
        if source is None:
            raise NoSound("it is not open")
        return source

    def close(self) -> None:
        if self.file is not None:
            self.file.close()
        elif self.decoder is not None:
            self.decoder.close()


def relayed(path: str, place: int, is_riff: bool) -> Input:
    """A file whose writer left its size open, with a size that every `tc` takes for open."""
    reading, writing = os.pipe()
    threading.Thread(target=relay, args=(path, place, is_riff, writing), daemon=True).start()
    return Input(file=os.fdopen(reading, "rb"))


def relay(path: str, place: int, is_riff: bool, writing: int) -> None:
    try:
        with open(path, "rb") as file, os.fdopen(writing, "wb") as out:
            head = bytearray(file.read(place))
            if is_riff:
                struct.pack_into("<I", head, place - 4, NO_SIZE)
            out.write(head)
            shutil.copyfileobj(file, out, 1 << 20)
    except (BrokenPipeError, ValueError):
        return


def wave_sound(source: Source, form: Wave) -> Sound:
    """A sound file that `tc` reads itself. What is not right in it `tc` says."""
    letters = form.letters.decode("ascii")
    kind = "WAV with bext" if letters == "RIFF" and form.first(b"bext") else "WAV" if letters == "RIFF" else letters
    tracks, rate = (form.form.tracks, form.form.rate) if form.form else (1, 0)
    return Sound(source, kind, [Stream(max(1, tracks), rate)], form.seconds, form)


def stream_of(said: dict[str, Any], number: int, is_known: bool) -> Stream:
    """A sound as ffprobe tells it."""
    from .decoder import number_in

    seconds = number_in(said, "duration") if is_known else 0.0
    tracks, rate = int(said["channels"]), int(said["sample_rate"])
    return Stream(tracks, rate, number, number_in(said, "start_time"), seconds or None)


def decoded_sound(source: Source, form: Wave | None) -> Sound:
    """Any other sound, as ffmpeg sees it."""
    if not programs.has_ffmpeg():
        what = "its samples are of a form that tc does not take" if form else "it is no WAV file"
        raise NoSound(f"{what}, and ffmpeg, which reads others, is not installed")
    # Most tapes of a job need no module for it.
    from . import flac

    if (header := flac.header_of(source.path)) is not None:
        stream = Stream(header.tracks, header.rate, seconds=header.seconds)
        sound = Sound(source, "flac", [stream], header.seconds, form, is_decoded=True)
        sound.other_decoder = lambda: flac.kept(source.path, header)
        return sound
    from .decoder import number_in, streams_of

    sounds, whole = streams_of(source.path)
    kind, coded = str(whole.get("format_name", "sound")).split(",")[0], str(sounds[0].get("codec_name", "unknown"))
    streams = [stream_of(it, number, kind not in ESTIMATED) for number, it in enumerate(sounds)]
    seconds = number_in(whole, "duration") or None
    return Sound(source, kind if kind == coded else f"{kind} ({coded})", streams, seconds, form, is_decoded=True)


def sound_of(source: Source) -> Sound:
    """The sound of a file, or why there is none."""
    try:
        with open(source.path, "rb") as file:
            head = file.read(12)
        if not head:
            raise NoSound("it is empty")
        if head[:4] in READ_BY_TC:
            what, command = READ_BY_TC[head[:4]]
            raise NoSound(f"it is {what} and no sound: tc {command} < {source.name}")
        if not is_wave(head):
            return decoded_sound(source, None)
        form = wave_of(source.path)
    except OSError as fault:
        raise NotThere((fault.strerror or "it can't be read").lower()) from fault
    if form.form is None or form.data is None or form.form.is_whole:
        return wave_sound(source, form)
    return decoded_sound(source, form)
