"""What a run is to end with: by the table of statuses, and by the second reading."""
import os
import re
import resource
import select
import struct
import subprocess
import sys

from .runs import EXITED, KILLED

NOTES = {
    0: rb"",
    2: rb"tc: usage: (dash in word \d+|command|count of words|value of word \d+)\n",
    3: rb"tc: refused: ([a-z0-9-]+ at byte \d+|row \d+ column \d+|line \d+ column \d+)\n",
    4: rb"tc: read fault\n",
    5: rb"tc: write fault\n",
    6: rb"(tc: out of memory\n)?",
    7: rb"tc: limit\n",
    8: rb"",
}
FAILED = 255
# what the second reading may take of memory
MEMORY = 2 << 30


def is_text(words):
    """Whether all words are UTF-8."""
    try:
        for word in words:
            word.decode("utf-8")
    except UnicodeDecodeError:
        return False
    return True


def complaint(case, ended, most_output):
    """What is wrong with the end of a run whatever its command, or nothing."""
    if ended.how != EXITED:
        return f"signal {ended.code}" if ended.how == KILLED else "it did not end in time"
    note = rb"" if is_noteless(case, ended) else NOTES.get(ended.code)
    if note is None or not re.fullmatch(note, ended.note):
        return f"status {ended.code}, note {ended.note[:200]!r}"
    is_full = len(ended.output) >= most_output
    # (the words are copied before they are judged, and there may be no memory for that)
    lacks_memory = ended.code == 6 and case.fault == "no-memory" and ended.is_faulted
    if (ended.code == 8) != (not is_text(case.words)) and not lacks_memory:
        return f"status {ended.code}: words that are {'no ' if ended.code != 8 else ''}UTF-8"
    if ended.code in (2, 6, 8) and ended.output:
        return f"status {ended.code}, and something was printed"
    wanted = {"read-fails": 4, "write-fails": 5}.get(case.fault) if ended.is_faulted else None
    if is_full and ended.code == 5:
        return None
    if wanted is not None and ended.code != wanted:
        return f"status {ended.code}, wanted {wanted}: {case.fault}"
    if ended.code in (4, 5) and ended.code != wanted:
        return f"status {ended.code}, and no call failed"
    if ended.code == 6 and not (case.fault == "no-memory" and ended.is_faulted):
        return "status 6, and there was memory"
    return None


def is_cut(case, ended):
    """Whether a read or a write failed, so that what was written is a front of what the run would have written."""
    return ended.is_faulted and case.fault in ("read-fails", "write-fails")


def is_noteless(case, ended):
    """Whether the write of the note failed, which changes neither output nor status."""
    return ended.is_faulted and case.fault == "note-fails"


def front(ended, whole):
    """What is wrong with what was written before a fault, or nothing. Of an output that is full the front is known."""
    is_front = whole.output.startswith(ended.output)
    return None if is_front else "what was written before the fault is no front of the whole"


def difference(case, ended, wanted):
    """What differs from the second reading, or nothing."""
    status, output, note = wanted
    if is_noteless(case, ended):
        note = b""
    if status == FAILED:
        return "the second reading panicked"
    if ended.code != status:
        return f"status {ended.code}, wanted {status}"
    if ended.note != note:
        return f"note {ended.note!r}, wanted {note!r}"
    if ended.output != output:
        at = len(os.path.commonprefix([ended.output, output]))
        return f"output at byte {at}: {ended.output[at:at + 60]!r}, wanted {output[at:at + 60]!r}"
    return None


class Second:
    """The second reading, as a process that is asked."""

    def __init__(self, made, seconds=600):
        self.made, self.seconds, self.process = made, seconds, None
        ended = self.told((b"luma-vitc", b"25", b"360", b"1", b"0", b"1"), b"", 100)
        self.knows_luma = ended is not None and ended[0] == 0

    def begin(self):
        self.process = subprocess.Popen([self.made, "served"], stdin=subprocess.PIPE, stdout=subprocess.PIPE,
                                        stderr=subprocess.DEVNULL, bufsize=0)
        resource.prlimit(self.process.pid, resource.RLIMIT_AS, (MEMORY, MEMORY))

    def end(self):
        if self.process:
            self.process.kill()
            self.process.wait()
            self.process.stdin.close()
            self.process.stdout.close()
            self.process = None

    def get(self, size):
        parts, left = [], size
        while left:
            part = self.process.stdout.read(min(left, 1 << 20))
            if not part:
                raise OSError("it ended")
            parts.append(part)
            left -= len(part)
        return b"".join(parts)

    def number(self):
        return int.from_bytes(self.get(4), "little")

    def ask(self, question):
        """Asks, and waits for an answer to begin."""
        if not self.process:
            self.begin()
        view = memoryview(question)
        while view:
            view = view[self.process.stdin.write(view):]
        if not select.select([self.process.stdout], [], [], self.seconds)[0]:
            raise OSError("no answer in time")

    def told(self, words, data, most):
        """What a run is to end with: status, the first `most` bytes of its output, and note; none if the reading gives
        no answer in time."""
        parts = [struct.pack("<III", 0, most, len(words))]
        for part in (*words, data):
            parts += [struct.pack("<I", len(part)), part]
        try:
            self.ask(b"".join(parts))
            status = self.number()
            return status, self.get(self.number()), self.get(self.number())
        except OSError as why:
            print(f"bench/guided: the second reading: {why}", file=sys.stderr)
            self.end()
            return None

    def case(self, seed, number):
        """The words and the input of a case of bench/cases, or none."""
        try:
            self.ask(struct.pack("<IQQ", 1, seed, number))
            words = tuple(self.get(self.number()) for _ in range(self.number()))
            return words, self.get(self.number())
        except OSError:
            self.end()
            return None
