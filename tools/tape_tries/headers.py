"""No traceback from any input: headers by chance, names of all kinds."""
import os
import random
import shutil
import subprocess

from . import running
from .making import bext, code, intervals, ixml, wav
from .running import ARCHIVE, TAPE, forked, has, run

# Bytes at the edges of what a field can hold.
EDGES = (0, 1, 127, 128, 254, 255)
FUZZED, FUZZED_LONG = 20, 2_000
NAMES, NAMES_LONG = 20, 500
# What shells, parallel, options and terminals make something of.
ODD = [b" ", b"-", b"--", b"{}", b"{#}", b"$(x)", b"`", b"'", b'"', b"\\", b"\n", b"\r", b"\t", b"\x1b[2J", b"*", b"?", b"~", b"%s"]


def header_by_chance(base, chance):
    """A file with some bytes of its header changed, and sometimes cut."""
    data = bytearray(base)
    for _ in range(chance.randrange(1, 12)):
        data[chance.randrange(0, 80 if chance.random() < 0.7 else 1200)] = chance.choice(
            [*EDGES, chance.randrange(256)]
        )
    return bytes(data[: chance.randrange(1, 1200)] if chance.random() < 0.3 else data)


def try_headers(room):
    """Files whose headers are fuzzed: each ends with a status of its own, and a line if it fails."""
    made = code(48_000, intervals("25", "10:00:00:00", 60), lead=480)
    path = wav(os.path.join(room, "whole.wav"), 48_000, [made, made], 16, bext(), behind=ixml())
    with open(path, "rb") as file:
        base = file.read()
    chance, states = random.Random(59), {0: 0, 1: 0, 3: 0}
    fuzzed, copy = os.path.join(room, "fuzzed.wav"), os.path.join(room, "copy.wav")
    count = FUZZED_LONG if running.is_long else FUZZED
    for number in range(count):
        data = header_by_chance(base, chance)
        with open(fuzzed, "wb") as out:
            out.write(data)
        ended, notes = forked(fuzzed, "--stamp", copy, "--force")
        assert (
            ended in states and "Traceback" not in notes and "fault of this tool" not in notes
        ), f"{number}: {ended}\n{notes}"
        assert ended != 3 or notes.strip(), f"{number}: no reason"
        states[ended] += 1
    left = sorted(os.listdir(room))
    assert left in (["copy.wav", "fuzzed.wav", "whole.wav"], ["fuzzed.wav", "whole.wav"]), left
    return f"{count} headers: {states[0]} with code, {states[1]} without, {states[3]} refused"


def try_short_headers(room):
    """A header that ends early is a line with its reason, at each length."""
    path = wav(os.path.join(room, "whole.wav"), 48_000, [[0] * 100])
    with open(path, "rb") as file:
        base = file.read()
    short = os.path.join(room, "short.wav")
    for length in range(0, 46):
        with open(short, "wb") as out:
            out.write(base[:length])
        ended, notes = forked(short)
        assert "Traceback" not in notes and ended == (1 if length >= 44 else 3), f"{length} bytes: {ended} {notes}"
        assert ended == 1 or "short.wav: " in notes, f"{length} bytes: {notes}"


def try_names(room):
    """Names with bytes that are no UTF-8, with newlines and blanks: in the output they are valid UTF-8, on one line."""
    made = code(48_000, intervals("25", "10:00:00:00", 60), lead=480)
    plain = wav(os.path.join(room, "plain.wav"), 48_000, [made])
    for name, shown in (
        (b"\xff\xfe.wav", "\\xff\\xfe.wav"),
        (b"new\nline.wav", "new\\x0aline.wav"),
        (b"{} {1} $x `y`.wav", "{} {1} $x `y`.wav"),
        (b"a\\xff.wav", "a\\x5cxff.wav"),
        ("Bänder \u2028.wav".encode(), "Bänder \\xe2\\x80\\xa8.wav"),
    ):
        os.link(os.fsencode(plain), os.path.join(os.fsencode(room), name))
        for words in ([], ["--csv"], ["--json"]):
            ran = subprocess.run([TAPE, name, *words], capture_output=True, cwd=room, check=False)
            assert ran.returncode == 0, ran.stderr
            has(
                ran.stdout.decode("utf-8"),
                shown.replace("\\", "\\\\").replace("ä", "\\u00e4") if "--json" in words else shown,
            )
        ran = subprocess.run([TAPE, b"no" + name], capture_output=True, cwd=room, check=False)
        assert ran.returncode == 3 and b"Traceback" not in ran.stderr, ran.stderr
        has(ran.stderr.decode("utf-8"), shown)


def name_by_chance(chance):
    """The bytes of a name: letters, what programs make something of, any bytes, UTF-8 and what looks like it."""
    parts = []
    for _ in range(chance.randrange(1, 9)):
        parts.append(
            chance.choice(
                [
                    chance.choice(ODD),
                    bytes(chance.choice([*range(1, 47), *range(48, 256)]) for _ in range(chance.randrange(1, 5))),
                    chr(chance.choice([chance.randrange(0x80, 0x3000), 0x2028, 0x202E, 0x1F600])).encode(),
                    b"tape",
                ]
            )
        )
    name = b"".join(parts)[: chance.randrange(1, 200)]
    return b"x" + name if name in (b".", b"..") else name


def try_names_by_chance(room):
    """Names of any bytes: each tape is read by `tools/tape`, and has its row in the archive."""
    chance, folder = random.Random(60), os.path.join(os.fsencode(room), b"folder")
    os.mkdir(folder)
    plain = os.fsencode(wav(os.path.join(room, "plain.wav"), 48_000, [code(48_000, intervals("25", "10:00:00:00", 60))]))
    names = set()
    while len(names) < (NAMES_LONG if running.is_long else NAMES):
        names.add(name_by_chance(chance) + b".wav")
    for name in sorted(names):
        path = os.path.join(folder, name)
        os.link(plain, path)
        ended, notes = forked(os.fsdecode(path))
        assert ended == 0 and "Traceback" not in notes, f"{name}: {ended} {notes}"
    if not shutil.which("parallel"):
        return f"{len(names)} names by the tape, none by the archive (no GNU parallel)"
    out = os.path.join(room, "out")
    ended, told, notes = run(ARCHIVE, os.fsdecode(folder), out, "-j", "2")
    assert ended == 0 and "Traceback" not in notes, told + notes
    has(told, f"{len(names)} tapes: {len(names)} with code, 0 without, 0 failed, 0 not read")
    return f"{len(names)} names"


def try_early_ends(room):
    """Output that nobody reads, and a full one, end without a traceback."""
    plain = wav(os.path.join(room, "plain.wav"), 48_000, [code(48_000, intervals("25", "10:00:00:00", 60))])
    for tool in (f"'{TAPE}' '{plain}'", f"'{TAPE}' --json '{plain}'", f"'{TAPE}' '{plain}' '{plain}' '{plain}'"):
        _, _, notes = run("sh", "-c", f"{tool} | true")
        assert "Traceback" not in notes, notes
        ended, _, notes = run("sh", "-c", f"{tool} > /dev/full")
        assert ended == 3 and "Traceback" not in notes, notes
        has(notes, "no space left")


def try_bad_words(room):
    for words in ([], ["--jobs", "0", "a", "b"], ["--part", "3/3", "a", "b"], ["--part", "x", "a", "b"], ["a"]):
        ended, _, notes = run(ARCHIVE, *words)
        assert ended == 2 and "Traceback" not in notes, notes
    for words in (["--rate", "26", "x"], ["--csv", "--json", "x"], ["--page", "p", "x", "y"], ["--track", "0", "x"]):
        ended, _, notes = run(TAPE, *words)
        assert ended == 2 and "Traceback" not in notes, notes
