"""FLAC: its header, which says all that is to be known before it is decoded, so that nobody has to be asked; and its
samples by the program `flac`, which starts in a tenth of the time that ffmpeg takes.
"""
import shutil
import struct
import subprocess
import tempfile
from typing import IO, NamedTuple

from .sound import Done, Kept

LETTERS = b"fLaC"
# The first block says what the samples are: its kind, 0, its length, and from here on rate, tracks, bits and length.
FIRST_BLOCK, SAMPLES_AT, SIZE = b"\0\0\0\x22", 18, 42
# In 64 bits: 20 of the rate, 3 of the tracks less one, 5 of the bits less one, 36 of the samples.
LENGTH_BITS, BITS_BITS, TRACKS_BITS = 36, 5, 3


class Header(NamedTuple):
    """Samples a second, tracks, samples of each track, and their bits."""

    rate: int
    tracks: int
    samples: int
    bits: int

    @property
    def seconds(self) -> float:
        return self.samples / self.rate


def header_of(path: str) -> Header | None:
    """The header; None if it is another file, or its writer did not know the length."""
    with open(path, "rb") as file:
        head = file.read(SIZE)
    # The mark of the last block is the first bit of its kind.
    if len(head) < SIZE or head[:4] != LETTERS or bytes([head[4] & 0x7F]) + head[5:8] != FIRST_BLOCK:
        return None
    number = int.from_bytes(head[SAMPLES_AT : SAMPLES_AT + 8], "big")
    samples = number & ((1 << LENGTH_BITS) - 1)
    tracks = (number >> (LENGTH_BITS + BITS_BITS)) & ((1 << TRACKS_BITS) - 1)
    rate = number >> (LENGTH_BITS + BITS_BITS + TRACKS_BITS)
    bits = (number >> LENGTH_BITS) & ((1 << BITS_BITS) - 1)
    return Header(rate, tracks + 1, samples, bits + 1) if rate and samples else None


def kept(path: str, header: Header) -> Kept | None:
    """All of it as a WAV file of 24 bits, as ffmpeg gives it; None if `flac` is not installed or finds a fault: then
    ffmpeg is asked, which reads on behind one.
    """
    if header.bits not in (16, 24) or shutil.which("flac") is None:
        return None
    try:
        samples = decoded(path, header)
        return samples and Kept(wave_of(samples, header), Done(header.seconds))
    except OSError:
        return None


def decoded(path: str, header: Header) -> bytes | None:
    """The samples of the length that the header says, if the file has that many and is whole."""
    words = ["flac", "-d", "-s", "-c", "--force-raw-format", "--endian=little", "--sign=signed", "--", path]
    nothing = subprocess.DEVNULL
    size = header.samples * header.tracks * header.bits // 8
    with subprocess.Popen(words, stdin=nothing, stdout=subprocess.PIPE, stderr=nothing) as process:
        samples = process.stdout.read(size + 1) if process.stdout else b""
        if len(samples) > size:
            process.kill()
    return samples if process.returncode == 0 and len(samples) == size else None


def wave_of(samples: bytes, header: Header) -> IO[bytes]:
    """A file without a name."""
    samples = widened(samples) if header.bits == 16 else samples
    block = 3 * header.tracks
    form = struct.pack("<HHIIHH", 1, header.tracks, header.rate, header.rate * block, block, 24)
    file = tempfile.TemporaryFile()
    file.write(b"RIFF" + struct.pack("<I", 36 + len(samples)) + b"WAVEfmt " + struct.pack("<I", 16) + form)
    file.write(b"data" + struct.pack("<I", len(samples)) + samples)
    file.flush()
    return file


def widened(samples: bytes) -> bytes:
    """Samples of 16 bits as such of 24."""
    wide = bytearray(len(samples) // 2 * 3)
    wide[1::3], wide[2::3] = samples[0::2], samples[1::2]
    return bytes(wide)
