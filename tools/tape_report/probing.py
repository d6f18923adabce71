"""Files of any ending, looked into by ffprobe: which of them have sound."""
import os
from collections.abc import Iterable
from concurrent.futures import ThreadPoolExecutor

from .decoder import probed
from .faults import NoProgram
from .folder import Found, sort_key
from .programs import has_ffmpeg


def has_stream(path: str, kinds: Iterable[str]) -> bool:
    """It has a sound, or where pictures are read too a picture."""
    streams = probed(path, "stream=codec_type").get("streams", [])
    return any(stream.get("codec_type") in kinds for stream in streams)


def look_into_all(found: Found, folder: str) -> None:
    """Takes for tapes also those files that have sound whatever their ending."""
    if not has_ffmpeg():
        raise NoProgram("--all looks into files by ffprobe, which is not installed (Debian: ffmpeg)")
    names = found.others + found.unknown
    paths = (os.path.join(folder, name) for name in names)
    with ThreadPoolExecutor(os.cpu_count()) as pool:
        has_sound = dict(zip(names, pool.map(lambda path: has_stream(path, ("audio",)), paths)))
    found.tapes = sorted(found.tapes + [name for name in names if has_sound[name]], key=sort_key)
    found.others = [name for name in found.others if not has_sound[name]]
    found.unknown = [name for name in found.unknown if not has_sound[name]]
