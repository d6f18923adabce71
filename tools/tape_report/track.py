"""The samples of a track, from whichever WAV file it is read, as 16 bits that `tc pcm-ltc` takes."""
import contextlib
import os
import threading
from typing import IO

from .front_ends import FrontEnd
from .levels import DECODED_BITS, PIECE_BLOCKS, skip_to_samples, words_of
from .sound import Input, Sound


def opened_for(sound: Sound, track: int, front: FrontEnd) -> Input:
    """The stream of a track as a front end has it."""
    stream, _ = sound.place_of(track)
    return sound.open(stream, front.filters) if front.filters else sound.open_kept(stream)


def track_samples(sound: Sound, source: Input, track: int) -> IO[bytes]:
    """A pipe from which the samples are read."""
    reading, writing = os.pipe()
    threading.Thread(target=fill, args=(sound, source, track, writing), daemon=True).start()
    return os.fdopen(reading, "rb")


def fill(sound: Sound, source: Input, track: int, writing: int) -> None:
    """Writes the samples into the pipe, up to the end of either."""
    with contextlib.suppress(BrokenPipeError, ValueError, OSError), os.fdopen(writing, "wb") as out:
        stream, number = sound.place_of(track)
        form = sound.wave.form if sound.wave else None
        bits = DECODED_BITS if source.decoder is not None or form is None else form.bits
        skip_to_samples(source.output)
        left = samples_left(sound, source, bits // 8 * stream.tracks)
        while left is None or left > 0:
            many = PIECE_BLOCKS if left is None else min(PIECE_BLOCKS, left)
            words = words_of(source.output.read(bits // 8 * stream.tracks * many), bits, stream.tracks, number)
            if not words:
                break
            left = None if left is None else left - len(words)
            out.write(words.tobytes())


def samples_left(sound: Sound, source: Input, block: int) -> int | None:
    """How many blocks are samples; None if all to the end are."""
    data = sound.wave.data if sound.wave and source.decoder is None else None
    return data.there // block if data is not None else None
