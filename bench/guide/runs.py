"""Runs of the program, by the runner `runs.c`."""
import os
import struct
import subprocess
from typing import NamedTuple

HERE = os.path.dirname(os.path.abspath(__file__))
EXITED, KILLED, TOO_LONG = range(3)
MOST_WORDS = 400
# how calls of the program may be made to fail: these are those of `runs.c`, in its order
FAULTS = ("none", "read-pieces", "read-fails", "write-fails", "write-pieces", "no-memory", "note-fails")


class Ended(NamedTuple):
    """How a run ended."""

    how: int
    code: int
    is_faulted: bool
    new: tuple
    output: bytes
    note: bytes


class Stopped(Exception):
    """The runner has ended."""


def build(room):
    """The runner, compiled: it is loaded before the program."""
    made = os.path.join(room, "runs.so")
    subprocess.run(["cc", "-O2", "-fPIC", "-shared", "-o", made, os.path.join(HERE, "runs.c")], check=True)
    return made


class Runner:
    """The program with its runner, held before it begins."""

    def __init__(self, asked):
        (theirs, questions), (self.answers, also_theirs) = os.pipe(), os.pipe()
        self.questions = questions
        guided = f"{asked.listed} {asked.reached} {asked.most_output} {asked.seconds} {theirs} {also_theirs}"
        # (as many words as a run may have; they stand where its own will)
        self.process = subprocess.Popen(
            [asked.program, *["-"] * MOST_WORDS],
            env={"LD_PRELOAD": asked.runner, "GUIDED": guided},
            stdin=subprocess.DEVNULL,
            stdout=subprocess.DEVNULL,
            pass_fds=(theirs, also_theirs),
        )
        os.close(theirs)
        os.close(also_theirs)

    def get(self, size):
        parts = []
        while size:
            part = os.read(self.answers, min(size, 1 << 20))
            if not part:
                raise Stopped
            parts.append(part)
            size -= len(part)
        return b"".join(parts)

    def number(self):
        return int.from_bytes(self.get(4), "little")

    def run(self, case, by_ways):
        """Runs a case, and looks at the ways of jumps too if it is asked for."""
        parts = [struct.pack("<IIII", by_ways, FAULTS.index(case.fault), case.number, len(case.words))]
        for part in (*case.words, case.input):
            parts += [struct.pack("<I", len(part)), part]
        view = memoryview(b"".join(parts))
        try:
            while view:
                view = view[os.write(self.questions, view):]
        except BrokenPipeError:
            raise Stopped from None
        how, code, is_faulted, count = struct.unpack("<IIII", self.get(16))
        new = struct.unpack(f"<{count}I", self.get(4 * count))
        output = self.get(self.number())
        return Ended(how, code, bool(is_faulted), new, output, self.get(self.number()))

    def end(self):
        os.close(self.questions)
        os.close(self.answers)
        self.process.wait()
