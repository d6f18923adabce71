"""A copy of a file with the timecode of its first sample; only if that is sure, and only what was read back."""
import os
from collections.abc import Iterable

from . import targets
from .faults import NoStamp, NoTarget
from .place import Place
from .sound import Sound
from .stamp_container import CONTAINERS, check_container, label_of_picture, stamp_container
from .stamp_wave import check_wave, stamp_wave

BACKWARD = "no stamp: the tape runs backward where its code begins"
SOUND_TO_SOUND = "the copy of a sound file is a sound file: give it a name that ends in .wav"
ONLY_CONTAINERS = "the copy of a video file is to end in .mov, .mp4 or .mxf"
# Sound files that have no place for a stamp of the kind that is written here.
NO_PLACE = "{} has no chunk bext and no timecode; a WAV file can be stamped: ffmpeg -i FILE FILE.wav"
WITHOUT_A_PLACE = ("aiff", "w64", "flac", "mp3", "ogg", "caf", "au", "wv", "ape", "aac", "asf")


def stamp(
    sound: Sound, track: int, place: Place | None, out: str, force: bool, tapes: Iterable[targets.Identity]
) -> list[str]:
    """Writes the copy, and tells what is not as it was in the file. No file is changed in place."""
    if place is None:
        raise NoStamp(BACKWARD)
    if place.doubts:
        raise NoStamp("no stamp, since it is not sure: " + "; ".join(place.doubts))
    form = CONTAINERS.get(os.path.splitext(out)[1].lower())
    refuse_form(sound, form)
    told: list[str] = []
    with targets.written(out, force, tapes) as part:
        if sound.wave is not None:
            stamp_wave(sound.source.path, sound.wave, place, part.file)
            part.file.flush()
            told = check_wave(sound.source.path, sound.wave, name_of(part), place)
        elif form is not None:
            label = label_of_picture(place, sound.place_of(track)[0].begins, sound.source.path)
            stamp_container(sound.source.path, form, label, name_of(part))
            told = [f"not kept: {it}" for it in check_container(sound.source.path, name_of(part), label)]
        if sound.source.name == sound.source.path:
            keep_mode_and_time(sound.source.path, part)
    return told


def refuse_form(sound: Sound, form: str | None) -> None:
    """The copy has the form of its file."""
    if sound.wave is not None:
        if form is not None:
            raise NoStamp(SOUND_TO_SOUND)
        return
    kind = sound.kind.split()[0]
    if kind in WITHOUT_A_PLACE:
        raise NoStamp(NO_PLACE.format(kind.upper()))
    if form is None:
        raise NoStamp(ONLY_CONTAINERS)


def name_of(part: targets.Part) -> str:
    if part.name is None:
        raise NoTarget("a copy is read back, so it can't go into a fifo or a device")
    return part.name


def keep_mode_and_time(path: str, part: targets.Part) -> None:
    there = os.stat(path)
    part.file.flush()
    os.fchmod(part.file.fileno(), there.st_mode & 0o777)
    os.utime(part.file.fileno(), ns=(there.st_atime_ns, there.st_mtime_ns))
