"""The programs that the tools run: their own `tc`, and ffmpeg if it is installed."""
import functools
import mmap
import os
import shutil
from collections.abc import Iterator

from .faults import NoProgram

HERE = os.path.dirname(os.path.dirname(os.path.realpath(__file__)))
# A name that is in this `tc`, and in no other program of that name.
OWN_WORD = b"ltc-spans"
ELF = b"\x7fELF"
MISSING = "tc is not installed; TC names it"
OTHER = "is another program of that name (iproute2 has one) and is not run; TC=/path/to/tc names the right one"


def beside() -> list[str]:
    """Where `tc` is, seen from here: in the repository in bin/ beside tools/; installed, lib/NAME beside bin/NAME; of a
    package of another name than the program's, beside bin/tc.
    """
    top, name = os.path.split(HERE)
    programs = os.path.join(os.path.dirname(top), "bin")
    return [os.path.join(top, "bin", "tc"), os.path.join(programs, name), os.path.join(programs, "tc")]


def on_path() -> Iterator[str]:
    for folder in os.get_exec_path():
        yield os.path.join(folder, "tc")


def is_program(path: str) -> bool:
    return os.path.isfile(path) and os.access(path, os.X_OK)


def is_other(path: str) -> bool:
    """A program that has not this one's words. It is looked into and not run; a script may call what it likes."""
    with open(path, "rb") as file:
        if file.read(4) != ELF:
            return False
        with mmap.mmap(file.fileno(), 0, access=mmap.ACCESS_READ) as text:
            return text.find(OWN_WORD) < 0


@functools.cache
def program() -> str:
    """The path of `tc`: that of TC, the one it was installed with, or the first of the shell's that is no other
    program.
    """
    named = os.environ.get("TC")
    if named:
        if not is_program(named):
            raise NoProgram(f"TC names no program: {named}")
        if is_other(named):
            raise NoProgram(f"{named} {OTHER}")
        return named
    for path in filter(is_program, beside()):
        if not is_other(path):
            return path
    others = []
    for path in filter(is_program, on_path()):
        if not is_other(path):
            return path
        others.append(path)
    raise NoProgram(f"{others[0]} {OTHER}" if others else MISSING)


def has_ffmpeg() -> bool:
    return shutil.which("ffmpeg") is not None and shutil.which("ffprobe") is not None


def version() -> str:
    """The version that this tool was installed with."""
    for folder in (HERE, os.path.dirname(HERE)):
        try:
            with open(os.path.join(folder, "VERSION"), encoding="ascii") as file:
                return file.read().strip()
        except OSError:
            continue
    return "unknown"
