"""The chunk iXML of a sound file: the samples since midnight that it says beside those of `bext`, and the rate of the
code."""
import re
from fractions import Fraction

from .faults import NoStamp
from .records import dataclass

# Names of the upper and the lower 32 bits of the number, wherever the chunk repeats it.
PAIRS = (
    (b"TIMESTAMP_SAMPLES_SINCE_MIDNIGHT_HI", b"TIMESTAMP_SAMPLES_SINCE_MIDNIGHT_LO"),
    (b"BWF_TIME_REFERENCE_HIGH", b"BWF_TIME_REFERENCE_LOW"),
)
RATE = re.compile(rb"<TIMESTAMP_SAMPLE_RATE>\s*(\d+)\s*</TIMESTAMP_SAMPLE_RATE>")
REFUSED = "its chunk iXML says when it begins in a form that is not known here"


def element(name: bytes) -> re.Pattern[bytes]:
    return re.compile(rb"(<" + name + rb">)\s*(\d*)\s*(</" + name + rb">)")


def valued(name: bytes) -> re.Pattern[bytes]:
    """An element of any value."""
    return re.compile(rb"(<" + name + rb">)([^<]*)(</" + name + rb">)")


@dataclass(frozen=True)
class Timecode:
    """The rate of a code and whether it drops labels, as iXML writes them."""

    rate: str
    flag: str


def timecode_of(rate: Fraction, is_drop: bool) -> Timecode:
    return Timecode(f"{rate.numerator}/{rate.denominator}", "DF" if is_drop else "NDF")


def is_plain(text: bytes) -> bool:
    """The text is of single bytes: of wide ones nothing would be found, and the old number would stay."""
    return b"\0" not in text.rstrip(b"\0")


def stamped(text: bytes, reference: int, rate: int, timecode: Timecode) -> bytes:
    """The chunk with this number in place of the old one, and the rate of the code that it is of; a chunk that says
    none stays as it is.
    """
    if not is_plain(text):
        raise NoStamp(REFUSED)
    for high, low in PAIRS:
        text = with_pair(text, high, low, reference)
    if b"TIMESTAMP_SAMPLES_SINCE_MIDNIGHT" in text:
        said = RATE.findall(text)
        if any(int(each) != rate for each in said) or text.count(b"<TIMESTAMP_SAMPLE_RATE") != len(said):
            raise NoStamp("its chunk iXML counts at another rate than its samples have")
    for name, value in ((b"TIMECODE_RATE", timecode.rate), (b"TIMECODE_FLAG", timecode.flag)):
        text = valued(name).sub(rb"\g<1>" + value.encode("ascii") + rb"\g<3>", text)
    return text


def timecodes_in(text: bytes) -> set[bytes]:
    """What the chunk says of the rate of the code, and whether it drops labels."""
    return {it[1].strip() for name in (b"TIMECODE_RATE", b"TIMECODE_FLAG") for it in valued(name).findall(text)}


def with_pair(text: bytes, high: bytes, low: bytes, reference: int) -> bytes:
    if high not in text and low not in text:
        return text
    for name, value in ((high, reference >> 32), (low, reference & 0xFFFFFFFF)):
        text, count = element(name).subn(rb"\g<1>" + str(value).encode("ascii") + rb"\g<3>", text)
        if count != 1 or text.count(name) != 2:
            raise NoStamp(REFUSED)
    return text


def reference_in(text: bytes) -> list[int]:
    """The numbers that the chunk says, each of a pair of names."""
    found = []
    for high, low in PAIRS:
        halves = [element(name).findall(text) for name in (high, low)]
        if all(halves):
            found.append((int(halves[0][0][1]) << 32) + int(halves[1][0][1]))
    return found
