"""A copy of a sound file whose chunk `bext` says where it begins (EBU Tech 3285), read back before it gets its name.
"""
import re
import struct
from collections.abc import Iterator
from typing import IO

from . import ixml
from .faults import NoStamp
from .place import Place
from .wave import NO_SIZE, Chunk, Wave, wave_of

# Where the reference is in `bext`: behind description, originator, its reference, date and time.
REFERENCE_AT = 256 + 32 + 32 + 10 + 8
BEXT_SIZE = 602
PIECE = 1 << 20
# The chunk of XMP, and the timecode of the beginning that it may say.
XMP = b"_PMX"
XMP_TIME = re.compile(rb"""timeValue\s*(?:=\s*["']|>)\s*(\d\d[:;]\d\d[:;]\d\d[:;]\d\d)""")
# The sizes of a file with `ds64` are there: of the whole, of `data`, and how many samples it has.
LONG_SIZES = struct.Struct("<QQQ")


def bext_of(reference: int) -> bytes:
    """The body of a chunk, version 1, that says only where the file begins."""
    body = bytearray(BEXT_SIZE)
    struct.pack_into("<QH", body, REFERENCE_AT, reference, 1)
    return bytes(body)


def with_reference(body: bytes, reference: int) -> bytes:
    if len(body) < REFERENCE_AT + 8:
        raise NoStamp("its chunk bext is too short for a reference")
    return body[:REFERENCE_AT] + struct.pack("<Q", reference) + body[REFERENCE_AT + 8 :]


def pieces(file: IO[bytes], place: int, end: int) -> Iterator[bytes]:
    """The bytes of a file from a place to an end."""
    file.seek(place)
    while place < end:
        data = file.read(min(PIECE, end - place))
        if not data:
            raise NoStamp("it became shorter while it was copied")
        yield data
        place += len(data)


def body_of(file: IO[bytes], chunk: Chunk) -> bytes:
    return b"".join(pieces(file, chunk.place, chunk.place + chunk.there))


def rate_of_whole(form: Wave) -> int:
    """The samples a second. A copy says the lengths that its file has, so these have to be true."""
    if form.data is None or form.form is None:
        raise NoStamp("it has no samples")
    if form.is_cut:
        raise NoStamp("it is cut short")
    if any(chunk.there < chunk.size for chunk in form.chunks):
        raise NoStamp("its last chunk is cut short")
    return form.form.rate


def stamp_wave(path: str, form: Wave, place: Place, out: IO[bytes]) -> None:
    """Writes the copy: each chunk as it was, but `bext` and iXML with the reference, and `bext` before `data` where
    there was none.
    """
    rate_of_whole(form)
    has_bext = form.first(b"bext") is not None
    with open(path, "rb") as file:
        out.write(file.read(12))
        for chunk in form.chunks:
            if chunk.name == b"data" and not has_bext:
                write_chunk(out, b"bext", bext_of(place.reference))
                has_bext = True
            copy_chunk(file, chunk, form, place, out)
        # What comes behind the last chunk and is none.
        for data in pieces(file, min(form.chunks[-1].end, form.length), form.length):
            out.write(data)
    lengthen(out, form)


def timecode_of(place: Place) -> ixml.Timecode:
    return ixml.timecode_of(place.rate, place.count == "30d")


def copy_chunk(file: IO[bytes], chunk: Chunk, form: Wave, place: Place, out: IO[bytes]) -> None:
    if chunk.name == b"bext":
        write_chunk(out, chunk.name, with_reference(body_of(file, chunk), place.reference))
    elif chunk.name == b"iXML":
        body, rate = body_of(file, chunk), place.samples_a_second
        write_chunk(out, chunk.name, ixml.stamped(body, place.reference, rate, timecode_of(place)))
    else:
        # With the eight bytes before it, and the byte behind it if the size is odd and it is there.
        for data in pieces(file, chunk.place - 8, min(chunk.end, form.length)):
            out.write(data)


def write_chunk(out: IO[bytes], name: bytes, body: bytes) -> None:
    out.write(name + struct.pack("<I", len(body)) + body + b"\0" * (len(body) % 2))


def lengthen(out: IO[bytes], form: Wave) -> None:
    """Says in the head how long the copy is, if the file says its length."""
    more = out.tell() - form.length
    sizes = form.first(b"ds64")
    if form.letters != b"RIFF" and form.riff_size == NO_SIZE:
        if sizes is not None and sizes.size >= LONG_SIZES.size:
            add_at(out, sizes.place, "<Q", more)
    elif 0 < form.riff_size < NO_SIZE and not form.is_open:
        if form.riff_size + more >= NO_SIZE:
            raise NoStamp("it is too long for one chunk more; as RF64 it could be stamped")
        add_at(out, 4, "<I", more)


def add_at(out: IO[bytes], place: int, form: str, more: int) -> None:
    """Adds to a number in a file, unless it is zero, which says nothing."""
    out.seek(place)
    number = struct.unpack(form, out.read(struct.calcsize(form)))[0]
    out.seek(place)
    out.write(struct.pack(form, number + more if number else 0))


def check_wave(path: str, form: Wave, copy: str, place: Place) -> list[str]:
    """Reads the copy back: its samples and its other chunks are the file's, and all that says where it begins is
    meant; but for what is told.
    """
    reference = place.reference
    made = wave_of(copy)
    with open(path, "rb") as file, open(copy, "rb") as other:
        theirs = [chunk for chunk in made.chunks if chunk.name != b"bext"]
        ours = [chunk for chunk in form.chunks if chunk.name != b"bext"]
        if [chunk.name for chunk in ours] != [chunk.name for chunk in theirs]:
            raise NoStamp("the copy has other chunks")
        for mine, its in zip(ours, theirs):
            if mine.name not in (b"iXML", b"ds64") and not are_equal(file, mine, other, its):
                raise NoStamp(f"the copy has another chunk {mine.name.decode('ascii', 'replace')}")
        said, told = references_in(other, made), told_in(other, made, place)
    if made.form != form.form or not said or set(said) != {reference}:
        raise NoStamp(f"the copy says {said} and not {reference}")
    return told


def told_in(file: IO[bytes], form: Wave, place: Place) -> list[str]:
    """What a file says of its timecode that is another one, and is left as it is."""
    told, meant = [], timecode_of(place)
    for chunk in form.chunks:
        if chunk.name == b"iXML":
            others = ixml.timecodes_in(body_of(file, chunk)) - {meant.rate.encode(), meant.flag.encode()}
            told += [f"iXML says {it.decode('ascii', 'replace')}" for it in sorted(others)]
        elif chunk.name == XMP:
            others = {it.decode("ascii") for it in XMP_TIME.findall(body_of(file, chunk))} - {place.label}
            told += [f"XMP says {it} and is left as it is" for it in sorted(others)]
    return told


def are_equal(file: IO[bytes], mine: Chunk, other: IO[bytes], its: Chunk) -> bool:
    if mine.there != its.there:
        return False
    both = zip(pieces(file, mine.place, mine.place + mine.there), pieces(other, its.place, its.place + its.there))
    return all(one == two for one, two in both)


def references_in(file: IO[bytes], form: Wave) -> list[int]:
    """All that a file says of where it begins."""
    found = []
    for chunk in form.chunks:
        if chunk.name == b"bext":
            found.append(struct.unpack_from("<Q", body_of(file, chunk), REFERENCE_AT)[0])
        elif chunk.name == b"iXML":
            found += ixml.reference_in(body_of(file, chunk))
    return found
