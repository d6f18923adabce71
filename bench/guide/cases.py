"""Cases: the words of a run, its input, and how its system calls fail. They are kept in files."""
import hashlib
import os
import re
import subprocess
import urllib.parse
from typing import NamedTuple

from .runs import FAULTS

MOST_INPUT = 1 << 16
MOST_WITH_FAULTS = 6
FIRST_FAULTS = [(fault, number) for fault in ("read-fails", "write-fails") for number in (0, 1, 2, 5)]
FIRST_FAULTS += [("read-pieces", 3), ("write-pieces", 2), ("no-memory", 0), ("note-fails", 0)]


class Case(NamedTuple):
    """The words and the input of a run, and which of its system calls fail, by which number."""

    words: tuple
    input: bytes
    fault: str = "none"
    number: int = 0

    def command(self):
        return self.words[0].decode("latin-1") if self.words else ""

    def told(self):
        """One line: the words as in an address of the web, and the fault."""
        line = " ".join(urllib.parse.quote(word, safe=":;,") or "%" for word in self.words)
        return line + (f"\t{self.fault} {self.number}" if self.fault != "none" else "")

    def name(self):
        """The name of its file: the same for the same case, another for another."""
        of = hashlib.sha256(self.told().encode() + b"\n" + self.input).hexdigest()[:12]
        return re.sub(r"[^a-z-]", "", self.command())[:20] + "-" + of


def read(data):
    """The case of a file, or none."""
    line, end, rest = data.partition(b"\n")
    words, _, fault = line.partition(b"\t")
    kind, _, number = fault.decode("latin-1").partition(" ")
    if not end or kind not in ("", *FAULTS) or (kind and not re.fullmatch(r"\d{1,9}", number)):
        return None
    spelled = [b"" if word == b"%" else urllib.parse.unquote_to_bytes(word) for word in words.split(b" ") if word]
    if any(0 in word for word in spelled):
        return None
    return Case(tuple(spelled), rest, kind or "none", int(number or 0))


def keep(case, folder):
    """Writes the case to a new file of the folder. What stands there stands."""
    os.makedirs(folder, exist_ok=True)
    path = os.path.join(folder, case.name())
    try:
        with open(path, "xb") as file:
            file.write(case.told().encode() + b"\n" + case.input)
    except FileExistsError:
        pass
    return path


def kept(folder, known):
    """The cases of a folder whose files are not known yet, which then are."""
    found = []
    try:
        names = sorted(os.listdir(folder))
    except OSError:
        return found
    for name in names:
        path = os.path.join(folder, name)
        if name in known or not os.path.isfile(path):
            continue
        known.add(name)
        try:
            with open(path, "rb") as file:
                case = read(file.read())
        except OSError:
            continue
        if case:
            found.append(case)
    return found


# The conformance's cases


def bytes_of(cell, data, program):
    """The bytes that a cell of the table says, as conformance/README.md has it."""
    if cell in ("-", "none"):
        return b""
    if cell.startswith("="):
        return cell[1:].replace("\\n", "\n").encode()
    if cell.startswith("@"):
        name, _, length = cell[1:].partition(":")
        with open(os.path.join(data, name), "rb") as file:
            return file.read()[: int(length) if length else None]
    if cell.startswith("tc "):
        made = b""
        for words in cell[3:].split(" | "):
            run = subprocess.run([program, *words.split()], input=made, capture_output=True, timeout=60, check=False)
            made = run.stdout
        return made
    parts = (part.partition("*") for part in cell.split(" "))
    return b"".join(bytes.fromhex(digits) * int(times or 1) for digits, _, times in parts)


def of_the_conformance(top, program):
    """The cases of the table, with the front of an input that is long."""
    data, found = os.path.join(top, "crates/tc_conformance/data"), []
    with open(os.path.join(data, "cases.tsv"), encoding="utf-8") as table:
        for row in table:
            cells = row.rstrip("\n").split("\t")
            if row.startswith("#") or len(cells) < 6:
                continue
            try:
                given = bytes_of(cells[2], data, program)
            except (OSError, ValueError, subprocess.SubprocessError):
                continue
            found.append(Case(tuple(word.encode() for word in cells[1].split()), given[:MOST_INPUT]))
    return found


def with_faults(them):
    """The first cases of each command that read, with its first reads and writes failing, and in pieces."""
    count, found = {}, []
    for case in them:
        count[case.command()] = count.get(case.command(), 0) + bool(case.input)
        if case.input and count[case.command()] <= MOST_WITH_FAULTS:
            found += [case._replace(fault=fault, number=number) for fault, number in FIRST_FAULTS]
    return found


EXAMPLES = {
    ".ltci": (
        "ltc-read", "ltc-worn", "ltc-rough firm", "ltc-fly 2", "ltc-spans 2 rough firm", "ltc-mtc 2",
        "ltc-jam 2 24 48000", "ltc-chase 25 10:00:00:00 2 1 8", "ltc-convert 2", "ltc-pcm 900",
    ),
    ".wav": ("wav-ltc 25 1 500", "wav-ltc 25 1 500 path", "wav-ltc 25 1 500 4 deep live"),
    ".mtc": ("mtc-read",),
    ".vitl": ("vitc-read",),
    ".csv": ("chase 25 00:00:00:00",),
}


def of_the_examples(top):
    """The example files with the commands that read them."""
    found, folder = [], os.path.join(top, "examples")
    for name in sorted(os.listdir(folder)):
        for words in EXAMPLES.get(os.path.splitext(name)[1], ()):
            with open(os.path.join(folder, name), "rb") as file:
                found.append(Case(tuple(word.encode() for word in words.split()), file.read()[:MOST_INPUT]))
    return found
