"""Names of the tools, and which `tc` they run."""
import os
import shutil
import subprocess
import sys

from .making import TC, TOP, code, intervals, wav
from .running import TAPE, NotTried, has, run, want

# A program of another project, of the same name: it leaves a file where it is run.
OTHER = "#!/bin/sh\ntouch '{}'\n"


def installed(room, program):
    """The tools as `make install` puts them, under another root."""
    want("make")
    if not os.path.exists(os.path.join(TOP, "bin", "tc")):
        raise NotTried("bin/tc")
    ran = subprocess.run(
        ["make", "-C", TOP, "install", f"PREFIX={room}/usr", f"PROGRAM={program}"], capture_output=True, check=False
    )
    assert ran.returncode == 0, ran.stderr.decode()
    return os.path.join(room, "usr", "bin")


def try_installed_names(room):
    """Messages, usage and version say the name that was typed; the tools run the program that they came with."""
    path = wav(os.path.join(room, "tape.wav"), 48_000, [code(48_000, intervals("25", "10:00:00:00", 60))])
    there = {name: value for name, value in os.environ.items() if name != "TC"}
    with open(os.path.join(TOP, "VERSION"), encoding="ascii") as file:
        version = file.read().strip()
    for program in ("tc", "tcode"):
        bin_folder = installed(room, program)
        for tool in ("tape", "archive"):
            name = os.path.join(bin_folder, f"{program}-{tool}")
            ended, out, _ = run(name, "--version")
            assert ended == 0 and out == f"{program}-{tool} {version}\n", out
            ended, _, notes = run(name)
            has(notes, f"usage: {program}-{tool} ", f"{program}-{tool}: error:")
        ended, out, _ = run(os.path.join(bin_folder, f"{program}-live"), "--version")
        assert ended == 0 and out == f"{program}-live {version}\n", out
        ended, out, notes = run(
            os.path.join(bin_folder, f"{program}-tape"), path, env={**there, "PATH": "/usr/bin:/bin"}
        )
        assert ended == 0, notes
        _, _, notes = run(os.path.join(bin_folder, f"{program}-tape"), "none.wav", env=there)
        has(notes, f"{program}-tape: none.wav: no such file")


def elf_of_another(room):
    """A program that is none of this project, under its name."""
    folder = os.path.join(room, "other")
    os.mkdir(folder)
    shutil.copy(shutil.which("true"), os.path.join(folder, "tc"))
    return folder


def try_other_tc(room):
    """A program of the name that is another's is not run, and a line says what to do; the right one behind it is."""
    path = wav(os.path.join(room, "tape.wav"), 48_000, [code(48_000, intervals("25", "10:00:00:00", 60))])
    # The tool alone, with no program beside it.
    alone = os.path.join(room, "alone")
    shutil.copytree(os.path.join(TOP, "tools"), os.path.join(alone, "tools"))
    other = elf_of_another(room)
    there = {name: value for name, value in os.environ.items() if name != "TC"}
    python = os.path.dirname(sys.executable)
    words = [sys.executable, os.path.join(alone, "tools", "tape"), path]
    ended, _, notes = run(*words, env={**there, "PATH": f"{other}:{python}"})
    assert ended == 3, notes
    has(notes, f"{other}/tc is another program of that name (iproute2 has one) and is not run; TC=/path/to/tc")
    right = os.path.join(room, "right")
    os.mkdir(right)
    os.symlink(os.path.abspath(TC), os.path.join(right, "tc"))
    ended, _, notes = run(*words, env={**there, "PATH": f"{other}:{right}:{python}"})
    assert ended == 0, notes
    ended, _, notes = run(*words, env={**there, "TC": os.path.join(other, "tc")})
    assert ended == 3 and "is not run" in notes, notes
    ended, _, notes = run(*words, env={**there, "TC": os.path.join(room, "nothing")})
    assert ended == 3 and "TC names no program" in notes, notes
    ended, _, notes = run(*words, env={**there, "PATH": python})
    assert ended in (0, 3), notes


def try_usage(_room):
    """Called by another name, the tool says that name."""
    ended, _, notes = run(TAPE, "none.wav")
    has(notes, "tape: none.wav: no such file")
