"""What a copy of a container has not kept of its file: streams, and what is said of them."""
import json
import subprocess
from collections import Counter
from typing import Any

from .decoder import FILE, probed

# Said by who writes a file, of the writing; or of the timecode, which is meant to be another.
OF_THE_WRITER = frozenset(
    "timecode encoder major_brand minor_version compatible_brands handler_name vendor_id duration track language"
    " bps number_of_frames number_of_bytes _statistics_writing_app _statistics_writing_date_utc _statistics_tags"
    " operational_pattern_ul".split()
)
ENTRIES = "stream=codec_type,codec_name,codec_tag_string:stream_tags:format_tags"
TIMECODE = "tmcd"
Streams = list[dict[str, Any]]


def said_of(path: str) -> dict[str, Any]:
    """Streams and tags of a file, with the XMP that a MOV file may have."""
    words = ["ffprobe", "-v", "error", "-export_xmp", "1", "-show_entries", "format_tags=xmp"]
    words += ["-of", "json", FILE + path]
    said = probed(path, ENTRIES)
    asked = subprocess.run(words, stdin=subprocess.DEVNULL, capture_output=True, check=False)
    try:
        more = json.loads(asked.stdout or b"{}").get("format", {}).get("tags", {})
    except ValueError:
        more = {}
    if "xmp" in more:
        said.setdefault("format", {}).setdefault("tags", {})["XMP"] = more["xmp"]
    return said


def tags_of(said: dict[str, Any]) -> Counter[tuple[str, str]]:
    """All that is said, of the whole and of each stream, by name and value."""
    parts = [said.get("format", {}), *streams_of(said)]
    tags = [(name.lower(), str(value)) for part in parts for name, value in part.get("tags", {}).items()]
    return Counter(it for it in tags if it[0].split("-")[0] not in OF_THE_WRITER)


def streams_of(said: dict[str, Any]) -> Streams:
    """The streams, but for those of timecode."""
    return [it for it in said.get("streams", []) if it.get("codec_tag_string") != TIMECODE]


def kinds_of(said: dict[str, Any]) -> Counter[str]:
    return Counter(f"{it.get('codec_type', 'data')} {it.get('codec_name', '')}".strip() for it in streams_of(said))


def timecodes_of(said: dict[str, Any]) -> list[str]:
    """All that a container says of when it begins, of each stream and of the whole."""
    parts = [said.get("format", {}), *said.get("streams", [])]
    return [part["tags"]["timecode"] for part in parts if "timecode" in part.get("tags", {})]


def lost(before: dict[str, Any], after: dict[str, Any]) -> list[str]:
    """What is in a file and not in its copy. Each thing that is said is named once, by its name."""
    streams = [f"a stream ({kind})" for kind in (kinds_of(before) - kinds_of(after)).elements()]
    values = {value for _, value in tags_of(after)}
    names = sorted({name for name, value in tags_of(before) - tags_of(after) if value not in values})
    return streams + names
