"""The form of samples, and the header of a sound that comes as a stream."""
import struct
from dataclasses import dataclass
from typing import IO

from tape_report.faults import NoSound

# A size that no header can know.
OPEN = 0xFFFF_FFFF
# Writers to a pipe put sizes from here on if they do not know one: GStreamer and arecord.
UNKNOWN_FROM = 2_147_418_112
WAVES = (b"RIFF", b"RF64", b"BW64")
PLAIN, EXTENSIBLE = 1, 65_534
MOST_OF_A_CHUNK = 1 << 24
MOST_TRACKS, MOST_RATE = 64, 6_250_000


@dataclass(frozen=True)
class Form:
    """The format of samples: their rate, the number of tracks, and the bits of each sample."""

    rate: int
    tracks: int
    bits: int = 16

    @property
    def block(self) -> int:
        """The bytes of a sample of all tracks."""
        return self.tracks * self.bits // 8

    def header(self) -> bytes:
        """The header of a WAV file of this form whose length nobody knows."""
        return struct.pack(
            "<4sI4s4sIHHIIHH4sI",
            b"RIFF",
            OPEN,
            b"WAVE",
            b"fmt ",
            16,
            PLAIN,
            self.tracks,
            self.rate,
            self.rate * self.block,
            self.block,
            self.bits,
            b"data",
            OPEN,
        )


def form_in(chunk: bytes) -> Form:
    """What a chunk `fmt ` says, if `tc` takes it."""
    if len(chunk) < 16:
        raise NoSound("its header is cut off")
    kind, tracks, rate, _, block, bits = struct.unpack_from("<HHIIHH", chunk)
    if kind == EXTENSIBLE and len(chunk) >= 26:
        kind = struct.unpack_from("<H", chunk, 24)[0]
    is_taken = kind == PLAIN and 1 <= tracks <= MOST_TRACKS and bits in (8, 16, 24, 32) and 0 < rate <= MOST_RATE
    if not is_taken or 8 * block != tracks * bits:
        raise NoSound("its samples are of a form that tc does not take")
    return Form(rate, tracks, bits)


def whole(stream: IO[bytes], size: int) -> bytes:
    """`size` bytes of a stream, however it is cut."""
    data = b""
    while len(data) < size:
        piece = stream.read(size - len(data))
        if not piece:
            raise NoSound("it ends inside its header" if data else "it is empty")
        data += piece
    return data


def wave_header(stream: IO[bytes]) -> tuple[Form, int | None]:
    """The form of a WAV file behind its first four letters, up to its first sample; and how many bytes of samples
    there are, if the header knows.
    """
    if whole(stream, 8)[4:] != b"WAVE":
        raise NoSound("it is no WAV file")
    form = None
    while True:
        name, size = struct.unpack("<4sI", whole(stream, 8))
        if name == b"data":
            break
        if size > MOST_OF_A_CHUNK:
            raise NoSound("its header has a chunk that is too long")
        chunk = whole(stream, size + size % 2) if size else b""
        form = form_in(chunk) if name == b"fmt " else form
    if form is None:
        raise NoSound("its header does not say what its samples are")
    return form, None if size == 0 or size >= UNKNOWN_FROM else size
