"""What a track sounds like, from its samples: its peak, and how often it crosses zero."""
import array
import math
import sys
from typing import IO

from .records import dataclass
from .sound import Sound

# The level is measured over these seconds.
LEVEL_SECONDS = 600
PIECE_BLOCKS = 65_536
DECODED_BITS = 24
# Of the upper byte of a sample: 1 below zero; how far it lies from zero; and that of a byte without a sign.
SIGNS = bytes(128) + b"\1" * 128
APART = bytes(range(128)) + bytes(range(127, -1, -1))
SIGNED = bytes(range(128, 256)) + bytes(range(128))
# All bits of a byte the other way round.
TURNED = bytes(range(255, -1, -1))
# Below these peaks, of 32,768, there is nothing, and little.
SILENCE, QUIET = 16, 500


@dataclass(frozen=True)
class Level:
    """The peak, of 32,768, and the crossings of zero in a second."""

    peak: int = 0
    crossings: float = 0.0

    @property
    def is_silent(self) -> bool:
        return self.peak < SILENCE

    @property
    def is_quiet(self) -> bool:
        return SILENCE <= self.peak < QUIET

    @property
    def decibels(self) -> str:
        # To a tenth, and no zero with a sign.
        return f"{round(20 * math.log10(self.peak / 32_768), 1) + 0.0} dB" if self.peak else "silence"


def halves_of(data: bytes, bits: int, tracks: int, track: int) -> tuple[bytes, bytes]:
    """The lower and the upper bytes of the upper 16 bits of the samples of a track, of whole blocks."""
    width = bits // 8
    block = width * tracks
    data = data[: len(data) // block * block]
    first = width * (track - 1)
    if width == 1:
        upper = data[first::block].translate(SIGNED)
        return bytes(len(upper)), upper
    return data[first + width - 2 :: block], data[first + width - 1 :: block]


def words_of(data: bytes, bits: int, tracks: int, track: int) -> array.array:
    """The upper 16 bits of the samples of a track, of whole blocks."""
    low, high = halves_of(data, bits, tracks, track)
    both = bytearray(2 * len(low))
    both[0::2], both[1::2] = low, high
    words = array.array("h")
    words.frombytes(bytes(both))
    if sys.byteorder == "big":
        words.byteswap()
    return words


def crossings_in(upper: bytes) -> int:
    """How often neighbouring samples lie on different sides of zero, by their upper bytes."""
    signs = upper.translate(SIGNS)
    return signs.count(b"\0\1") + signs.count(b"\1\0")


def peak_in(low: bytes, upper: bytes, peak: int) -> int:
    """The greatest distance from zero, if it is above that of samples before. Whole strings of bytes are looked
    through: a loop over the samples takes ten times as long.
    """
    top = greatest(upper.translate(APART), peak >> 8)
    if top is None:
        return peak
    above = greatest_at(low, upper, top)
    below = greatest_at(low.translate(TURNED), upper, 255 - top)
    ones = [256 * top + above] if above is not None else []
    # A byte turned is one less than its distance from zero.
    others = [256 * top + below + 1] if below is not None else []
    return max([peak, *ones, *others])


def greatest(data: bytes, least: int = 0) -> int | None:
    """The greatest byte, if it is not below `least`."""
    return next((value for value in range(255, least - 1, -1) if value in data), None)


def greatest_at(low: bytes, upper: bytes, value: int) -> int | None:
    """The greatest lower byte of the samples with this upper one."""
    if value not in upper:
        return None
    mask = bytearray(256)
    mask[value] = 255
    both = int.from_bytes(upper.translate(mask), "little") & int.from_bytes(low, "little")
    return greatest(both.to_bytes(len(low), "little"))


def skip_to_samples(file: IO[bytes]) -> None:
    """Reads a decoder's WAV file up to its first sample. Before it there may be chunks that say who wrote the file."""
    file.read(12)
    while len(head := file.read(8)) == 8:
        size = int.from_bytes(head[4:], "little")
        if head[:4] == b"data":
            return
        file.read(size + size % 2)


def level_of(sound: Sound, track: int, seconds: int = LEVEL_SECONDS) -> Level:
    """The level of a track, of its first minutes; it is found once."""
    if track not in sound.levels:
        sound.levels[track] = (
            decoded_level(sound, track, seconds) if sound.is_decoded else level_there(sound, track, seconds)
        )
    return sound.levels[track]


def decoded_level(sound: Sound, track: int, seconds: int) -> Level:
    stream, number = sound.place_of(track)
    source = sound.open_kept(stream)
    try:
        skip_to_samples(source.output)
        return level_in(source.output, DECODED_BITS, stream.tracks, number, stream.rate, stream.rate * seconds)
    finally:
        source.close()


def level_there(sound: Sound, track: int, seconds: int) -> Level:
    """The level of a track of a file that `tc` reads itself."""
    form = sound.wave.form if sound.wave else None
    data = sound.wave.data if sound.wave else None
    if data is None or form is None or not form.is_whole:
        return Level()
    with open(sound.source.path, "rb") as file:
        file.seek(data.place)
        blocks = min(form.rate * seconds, data.there // form.block)
        return level_in(file, form.bits, form.tracks, track, form.rate, blocks)


def samples_of(sound: Sound, track: int, first: int, count: int) -> array.array:
    """`count` samples of a track of a file that `tc` reads itself, from `first` on."""
    form = sound.wave.form if sound.wave else None
    data = sound.wave.data if sound.wave else None
    if data is None or form is None or not form.is_whole:
        return array.array("h")
    with open(sound.source.path, "rb") as file:
        file.seek(data.place + form.block * first)
        blocks = min(count, data.there // form.block - first)
        return words_of(file.read(form.block * blocks), form.bits, form.tracks, track)


def level_in(file: IO[bytes], bits: int, tracks: int, track: int, rate: int, left: int) -> Level:
    """The level of `left` blocks at most."""
    peak, crossings, count = 0, 0, 0
    while left > 0:
        low, upper = halves_of(file.read(bits // 8 * tracks * min(PIECE_BLOCKS, left)), bits, tracks, track)
        if not upper:
            break
        peak = peak_in(low, upper, peak)
        crossings += crossings_in(upper)
        count += len(upper)
        left -= len(upper)
    return Level(peak, crossings * rate / count if count else 0.0)
