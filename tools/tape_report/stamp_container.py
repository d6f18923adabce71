"""A copy of a MOV, MP4 or MXF file with its timecode, by ffmpeg, read back before it gets its name."""
import shutil
import subprocess
from collections.abc import Iterable
from fractions import Fraction
from typing import Any

from .decoder import FILE, first_line, number_in, probed
from .faults import NoStamp
from .kept import TIMECODE, lost, said_of, timecodes_of
from .labels import RATES
from .place import Place

# Endings of files that have a timecode beside their picture, and what ffmpeg calls them.
CONTAINERS = {".mov": "mov", ".mp4": "mp4", ".m4v": "mp4", ".mxf": "mxf"}
# The rates that a picture may have, and how near to one a rounded number is; the mean over all frames may be farther.
PICTURE_RATES = [times * rate for rate in RATES.values() for times in (1, 2, 4)]
NEAR, NEAR_THE_MEAN = Fraction(1, 50_000), Fraction(1, 4_000)
NO_PICTURE = (
    "it has no picture, and a container keeps its timecode beside one;"
    " a WAV file can be stamped: ffmpeg -i FILE FILE.wav"
)


def ffmpeg(*words: str) -> str:
    """What ffmpeg writes to its output. Raises if it fails."""
    if not shutil.which("ffmpeg"):
        raise NoStamp("ffmpeg is not installed")
    ran = subprocess.run(
        ["ffmpeg", "-v", "error", "-nostdin", *words], stdin=subprocess.DEVNULL, capture_output=True, check=False
    )
    if ran.returncode != 0:
        lines = ran.stderr.strip().split(b"\n")
        raise NoStamp("ffmpeg: " + first_line(lines[-1]))
    return ran.stdout.decode("utf-8", "replace")


def picture_of(path: str) -> tuple[Fraction, Fraction]:
    """The frames a second of the picture, by which ffmpeg reads a timecode, and when its first frame is shown.

    A cover is no picture.
    """
    entries = "stream=codec_type,avg_frame_rate,r_frame_rate,start_time:stream_disposition=attached_pic"
    for stream in probed(path, entries).get("streams", []):
        if stream.get("codec_type") == "video" and not stream.get("disposition", {}).get("attached_pic"):
            rates = (fraction_in(stream, "avg_frame_rate"), fraction_in(stream, "r_frame_rate"))
            if rates[0]:
                return true_rate(*rates), Fraction(number_in(stream, "start_time"))
    raise NoStamp(NO_PICTURE)


def fraction_in(said: dict[str, Any], name: str) -> Fraction:
    try:
        return Fraction(str(said.get(name)))
    except (ValueError, ZeroDivisionError):
        return Fraction(0)


def true_rate(mean: Fraction, least: Fraction) -> Fraction:
    """The rate of a picture as a fraction. The mean over all frames is a little off where the last one has another
    length, and a container may round it; the rate whose ticks hold all frames tells what is meant.
    """
    for said, near in ((mean, NEAR), (least, NEAR_THE_MEAN)):
        for rate in PICTURE_RATES:
            if abs(said / rate - 1) <= NEAR and abs(mean / rate - 1) <= near:
                return rate
    return mean


def label_of_picture(place: Place, sound_begins: float, path: str) -> str:
    """The label of the first frame of the picture, in its frames, of which a frame of the code may have two or four."""
    rate, begins = picture_of(path)
    times = rate / place.rate
    if times not in (1, 2, 4):
        code, picture = (f"{float(each):.3f}".rstrip("0").rstrip(".") for each in (place.rate, rate))
        raise NoStamp(f"the code has {code} frames a second and the picture {picture}: its labels do not fit")
    return place.label_at(begins - Fraction(sound_begins), int(times))


def sums_of(path: str, is_decoded: bool) -> list[str]:
    """A sum of each sound: of its packets as they are, or of its samples."""
    how = [] if is_decoded else ["-c", "copy"]
    told = ffmpeg("-i", FILE + path, "-map", "0:a", *how, "-f", "streamhash", "-hash", "md5", "pipe:1")
    return [line.split("=")[-1] for line in told.split()]


def stamp_container(path: str, form: str, label: str, copy: str) -> None:
    """Writes the copy, with all streams that the form takes: those of sound and picture always, the others as far as
    it does.
    """
    refusal = None
    for left_out in ((), ("-0:d", "-0:t"), ("-0:d", "-0:t", "-0:s")):
        try:
            ffmpeg(*copy_words(path, form, label, left_out), FILE + copy)
            return
        except NoStamp as fault:
            refusal = refusal or fault
    raise refusal or NoStamp("ffmpeg wrote no copy")


def copy_words(path: str, form: str, label: str, left_out: Iterable[str]) -> list[str]:
    said = probed(path, "stream=index,codec_type,codec_tag_string:stream_tags=reel_name")
    streams = said.get("streams", [])
    # A timecode that was there is written anew.
    old = [f"-0:{it['index']}" for it in streams if it.get("codec_tag_string") == TIMECODE]
    words = ["-y", "-i", FILE + path, "-map", "0"]
    for each in (*old, *left_out):
        words += ["-map", each]
    words += ["-c", "copy", "-copy_unknown", "-map_metadata", "0", "-timecode", label]
    if form in ("mov", "mp4"):
        words += ["-movflags", "use_metadata_tags"]
    reel = next((it["tags"]["reel_name"] for it in streams if "reel_name" in it.get("tags", {})), None)
    if reel is not None:
        words += ["-metadata:s:v:0", f"reel_name={reel}"]
    return [*words, "-f", form]


def check_container(path: str, copy: str, label: str) -> list[str]:
    """The copy says the label wherever it says one, and its sounds are those of the file; what it has not kept."""
    said = said_of(copy)
    told = timecodes_of(said)
    others = [it for it in told if it.replace(";", ":") != label.replace(";", ":")]
    if not told or others:
        raise NoStamp(f"ffmpeg wrote {others[0] if others else 'no timecode'} into the copy, and not {label}")
    # A container may cut its packets in another way; then the samples decide.
    if sums_of(path, False) != sums_of(copy, False) and sums_of(path, True) != sums_of(copy, True):
        raise NoStamp("ffmpeg changed the sound of the copy")
    return lost(said_of(path), said)
