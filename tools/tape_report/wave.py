"""The chunks of a WAV, BWF, RF64 or BW64 file. A header of any bytes is read, and what is wrong in it is reported."""
import os
import struct
from typing import BinaryIO

from .records import dataclass, field

LETTERS = (b"RIFF", b"RF64", b"BW64")
# A size that says nothing: it is in `ds64`, or the writer did not know it.
NO_SIZE = 0xFFFFFFFF
# What writers to a pipe leave for the size of `data`, and `tc` takes for a length that is not known.
OPEN_TO_TC = range(0x7FFFF000, 0x80000000)
# The same of writers that `tc` may not know: from GStreamer's to `arecord`'s.
OPEN_SIZES = range(0x7FFF0000, 0x80000001)
PCM, EXTENSIBLE = 1, 0xFFFE
# No file has more chunks than this; a header that says so is no header.
MOST_CHUNKS = 10_000


@dataclass(frozen=True)
class Chunk:
    """A chunk: its letters, the place of its first byte, its size as the file has it, and as much of it as there is."""

    name: bytes
    place: int
    size: int
    there: int

    @property
    def end(self) -> int:
        """Where the next chunk begins: a chunk of odd size has a byte more."""
        return self.place + self.size + self.size % 2


@dataclass(frozen=True)
class Form:
    """What `fmt ` says of the samples."""

    code: int
    tracks: int
    rate: int
    block: int
    bits: int

    @property
    def is_whole(self) -> bool:
        """Whole numbers that `tc` reads as they are."""
        return (
            self.code == PCM
            and 1 <= self.tracks <= 64
            and 1 <= self.rate <= 6_250_000
            and self.bits in (8, 16, 24, 32)
            and 8 * self.block == self.tracks * self.bits
        )


@dataclass
class Wave:
    """A sound file, by its chunks."""

    letters: bytes
    length: int
    chunks: list[Chunk] = field(default_factory=list)
    form: Form | None = None
    # The size of the whole as its bytes 4 to 7 have it.
    riff_size: int = 0
    # Whether the size of `data` is known.
    is_open: bool = False

    @property
    def data(self) -> Chunk | None:
        return self.first(b"data")

    def first(self, name: bytes) -> Chunk | None:
        return next((chunk for chunk in self.chunks if chunk.name == name), None)

    @property
    def is_cut(self) -> bool:
        """It ends before its `data` does."""
        return self.data is not None and not self.is_open and self.data.there < self.data.size

    @property
    def seconds(self) -> float | None:
        """How long the sound is, as far as it is there."""
        if self.form is None or self.data is None or not self.form.block or not self.form.rate:
            return None
        return self.data.there // self.form.block / self.form.rate


def is_wave(head: bytes) -> bool:
    """Bytes 0 to 11 of a file are those of a sound file. An AVI file begins with RIFF too."""
    return head[:4] in LETTERS and (len(head) < 12 or head[8:12] == b"WAVE")


def wave_of(path: str) -> Wave:
    """The chunks of a file, up to the first that is not there."""
    with open(path, "rb") as file:
        length = file.seek(0, os.SEEK_END)
        file.seek(0)
        head = file.read(12)
        wave = Wave(head[:4], length, riff_size=int.from_bytes(head[4:8], "little"))
        if len(head) == 12:
            read_chunks(file, wave)
    return wave


def read_chunks(file: BinaryIO, wave: Wave) -> None:
    place, long_size = 12, None
    while place + 8 <= wave.length and len(wave.chunks) < MOST_CHUNKS:
        file.seek(place)
        name, size = struct.unpack("<4sI", file.read(8))
        body = file.read(min(size, 64)) if name in (b"fmt ", b"ds64") else b""
        if name == b"ds64" and wave.letters != b"RIFF" and len(body) >= 16:
            long_size = int.from_bytes(body[8:16], "little")
        if name == b"fmt " and wave.data is None and len(body) >= 16:
            wave.form = form_of(body)
        left = wave.length - place - 8
        if name == b"data" and wave.data is None:
            size, wave.is_open = size_of_data(wave, size, long_size, left)
        wave.chunks.append(Chunk(name, place + 8, size, min(size, left)))
        place = wave.chunks[-1].end


def form_of(body: bytes) -> Form:
    code, tracks, rate, _bytes, block, bits = struct.unpack_from("<HHIIHH", body)
    if code == EXTENSIBLE and len(body) >= 26:
        code = int.from_bytes(body[24:26], "little")
    return Form(code, tracks, rate, block, bits)


def size_of_data(wave: Wave, size: int, long_size: int | None, left: int) -> tuple[int, bool]:
    """How long `data` is, and whether its writer left that open; then it goes to the end of the file."""
    if wave.letters != b"RIFF":
        if size != NO_SIZE:
            return size, False
        return (long_size, False) if long_size else (left, True)
    if size == NO_SIZE or size in OPEN_SIZES and size > left:
        return left, True
    if size == 0 and left > 0 and wave.riff_size <= wave.length - left - 8:
        return left, True
    return size, False
