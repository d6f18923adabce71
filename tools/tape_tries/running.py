"""How the tries run the tools, and what they look for."""
import os
import shutil
import subprocess
import sys
import tempfile
import traceback

from .making import TOP

sys.path.insert(0, os.path.join(TOP, "tools"))
from tape_report import endings
from tape_report import tape as tape_tool

# Whether more is tried than in a few minutes can be.
is_long = False
TAPE, ARCHIVE = (os.path.join(TOP, "tools", name) for name in ("tape", "archive"))


def run(*words, **others):
    others.setdefault("stdin", subprocess.DEVNULL) if "input" not in others else None
    ran = subprocess.run(words, stdout=subprocess.PIPE, stderr=subprocess.PIPE, check=False, **others)
    return ran.returncode, ran.stdout.decode("utf-8", "replace"), ran.stderr.decode("utf-8", "replace")


def has(text, *parts):
    for part in parts:
        assert part in text, f"no {part!r} in\n{text}"


def tape(*words, status=0):
    ended, out, notes = run(TAPE, *words)
    assert ended == status, f"status {ended} for {status}\n{out}{notes}"
    return out, notes


def forked(*words):
    """The status of `tools/tape`, and its notes, by a child that has it loaded: a start costs more than a header."""
    with tempfile.TemporaryFile() as notes:
        child = os.fork()
        if child == 0:
            os._exit(loaded_tape(words, notes.fileno()))
        _, how = os.waitpid(child, 0)
        notes.seek(0)
        return os.waitstatus_to_exitcode(how), notes.read().decode("utf-8", "replace")


def loaded_tape(words, notes):
    """The tool in this process, which ends with it."""
    os.dup2(os.open(os.devnull, os.O_RDWR), 0)
    os.dup2(0, 1)
    os.dup2(notes, 2)
    sys.argv = [TAPE, *words]
    try:
        return endings.run(tape_tool.main)
    except SystemExit as end:
        return end.code if isinstance(end.code, int) else 1
    except BaseException:
        traceback.print_exc()
        return 1
    finally:
        sys.stdout.flush()
        sys.stderr.flush()


class NotTried(Exception):
    """A program is not installed."""


def want(*programs):
    for name in programs:
        if shutil.which(name) is None:
            raise NotTried(name)
