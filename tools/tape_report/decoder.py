"""ffmpeg, for all sound that `tc` does not take: what it says of a file, and a stream of it as a WAV file."""
import contextlib
import os
import re
import subprocess
import tempfile
from collections.abc import Sequence
from typing import IO, Any

from .faults import NoSound
from .names import plain
from .sound import Kept

# Before a name, so that none is taken for an option or a protocol.
FILE = "file:"
ADDRESS = re.compile(r"\[([^\]@]*?) @ 0x[0-9a-f]+\]")
# No header of a file is looked into for longer.
SECONDS = 60


def probed(path: str, entries: str) -> dict[str, Any]:
    """What ffprobe says of a file; nothing if it fails."""
    import json

    words = ["ffprobe", "-v", "error", "-show_entries", entries, "-of", "json", FILE + path]
    try:
        asked = subprocess.run(
            words,
            stdin=subprocess.DEVNULL,
            stdout=subprocess.PIPE,
            stderr=subprocess.DEVNULL,
            check=False,
            timeout=SECONDS,
        )
        said = json.loads(asked.stdout.decode("utf-8", "replace") or "{}")
    except (subprocess.TimeoutExpired, ValueError):
        return {}
    return said if isinstance(said, dict) else {}


class Decoder:
    """A stream of a file, decoded into a pipe or a file. How it ended is known when it has."""

    def __init__(self, path: str, stream: int, filters: Sequence[str] = (), into: IO[bytes] | None = None) -> None:
        self.notes = tempfile.TemporaryFile()
        self.progress = tempfile.TemporaryFile()
        words = [
            "ffmpeg",
            "-v",
            "error",
            "-nostdin",
            "-progress",
            f"pipe:{self.progress.fileno()}",
            "-i",
            FILE + path,
        ]
        words += ["-map", f"0:a:{stream}", "-vn", *filters, "-c:a", "pcm_s24le", "-f", "wav", "pipe:1"]
        self.process = subprocess.Popen(
            words,
            stdin=subprocess.DEVNULL,
            stdout=subprocess.PIPE if into is None else into,
            stderr=self.notes,
            pass_fds=(self.progress.fileno(),),
        )
        self.output = self.process.stdout

    def close(self) -> None:
        """Ends it, if it has not ended by itself."""
        with contextlib.suppress(OSError):
            if self.output:
                self.output.close()
        self.process.kill()
        self.process.wait()

    def wait(self) -> int:
        return self.process.wait()

    def seconds(self) -> float | None:
        """How far it has come."""
        size = os.fstat(self.progress.fileno()).st_size
        text = os.pread(self.progress.fileno(), 4096, max(0, size - 4096)).decode("ascii", "replace")
        times = [line[12:] for line in text.splitlines() if line.startswith("out_time_us=")]
        return int(times[-1]) / 1e6 if times and times[-1].isdigit() else None

    def note(self) -> str:
        """What it complained of, in one line."""
        self.notes.seek(0)
        return first_line(self.notes.read(65_536))


def kept(path: str, stream: int) -> Kept:
    file = tempfile.TemporaryFile()
    decoder = Decoder(path, stream, into=file)
    decoder.wait()
    return Kept(file, decoder)


def first_line(said: bytes) -> str:
    """The first complaint of ffmpeg, without the addresses in its memory, which are others in each run."""
    lines = (line.strip() for line in said.decode("utf-8", "replace").split("\n"))
    return plain(ADDRESS.sub(r"[\1]", next(filter(None, lines), "")))


def streams_of(path: str) -> tuple[list[dict[str, Any]], dict[str, Any]]:
    """The sounds of a file, and what is said of the whole."""
    entries = "stream=codec_type,codec_name,channels,sample_rate,start_time,duration:format=duration,format_name"
    said = probed(path, entries)
    sounds = [it for it in said.get("streams", []) if it.get("codec_type") == "audio"]
    sounds = [it for it in sounds if number_in(it, "channels") > 0 and number_in(it, "sample_rate") > 0]
    if not sounds:
        raise NoSound("it has no sound that ffmpeg can read")
    return sounds, said.get("format", {})


def number_in(said: dict[str, Any], name: str, default: float = 0.0) -> float:
    """A number of ffprobe's answer, which may be `N/A`."""
    try:
        return float(said.get(name, default))
    except (TypeError, ValueError):
        return default
