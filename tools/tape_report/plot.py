"""Pictures by gnuplot: of a report of `tc ltc-read` or `tc ltc-rough`, and of a trace of `tc chase`.

A picture goes into its file as all that is written: nothing that stands is replaced without force, and by force
nothing but a picture.
"""
import os
import shutil
import subprocess
import tempfile

from .faults import Fault, NoProgram, NoTarget
from .names import shown
from .targets import Part, written

PICTURE = b"\x89PNG"
# gnuplot needs a point in each of its files.
NO_POINT = "NaN NaN NaN\n"
Points = dict[str, list[str]]


def refuse_other(path: str) -> None:
    """Raises if something stands there that is no picture: a tape, as it may be, or a report."""
    if not os.path.isfile(path) or not os.path.getsize(path):
        return
    with open(path, "rb") as file:
        if file.read(4) != PICTURE:
            raise NoTarget(f"{shown(path)}: it is no picture, and is left as it is")


def draw(points: Points, script: str, out: str, force: bool) -> None:
    """A picture into a file."""
    refuse_other(out)
    with written(out, force) as part:
        draw_part(points, script, part)


def draw_part(points: Points, script: str, part: Part) -> None:
    """The points of each name go to gnuplot as a file `ROOM/name`."""
    if shutil.which("gnuplot") is None:
        raise NoProgram("gnuplot is not installed (Debian: gnuplot-nox)")
    with tempfile.TemporaryDirectory() as room:
        for name, lines in points.items():
            with open(os.path.join(room, name), "w", encoding="utf-8") as file:
                file.writelines(lines or [NO_POINT])
        picture = os.path.join(room, "picture")
        terminal, rest = script.lstrip().split("\n", 1)
        words = f'{terminal}\ncd "{room}"\nset output "{picture}"\n{rest}'
        ran = subprocess.run(["gnuplot"], input=words.encode(), capture_output=True, check=False)
        if ran.returncode != 0 or not os.path.exists(picture):
            told = ran.stderr.decode("utf-8", "replace").strip().splitlines()
            raise Fault(f"the picture was not drawn: {told[-1] if told else 'gnuplot failed'}")
        with open(picture, "rb") as made:
            shutil.copyfileobj(made, part.file)
