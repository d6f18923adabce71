"""Folders of tapes: the table is that of the folder, whatever happens to a run."""
import csv
import os
import random
import shutil
import signal
import subprocess
import time

from . import running
from .making import code, intervals, wav
from .running import ARCHIVE, has, run, want

KILLS, KILLS_LONG = 10, 200


def archive_of(room):
    """A folder with tapes of all kinds, and names of all kinds."""
    folder = os.path.join(room, "folder")
    os.makedirs(os.path.join(folder, "a b"))
    made = code(48_000, intervals("25", "10:00:00:00", 60))
    names = ["plain.wav", "a b/with blank.wav", "new\nline.wav", "Bänder ß.wav", "quote'\"$x.wav", "no ending"]
    for number, name in enumerate(names):
        wav(os.path.join(folder, name), 48_000, [made[480 * number :]])
    wav(os.path.join(os.fsencode(folder), b"\xff raw.wav"), 48_000, [made])
    wav(os.path.join(folder, "silent.wav"), 48_000, [[0] * 48_000])
    open(os.path.join(folder, "empty.wav"), "wb").close()
    open(os.path.join(folder, "notes.txt"), "w", encoding="ascii").close()
    return folder


def table_of(out):
    with open(os.path.join(out, "archive.csv"), "rb") as file:
        return file.read()


def try_archive(room):
    want("parallel")
    folder = archive_of(room)
    tables = []
    for jobs in ("1", "4"):
        out = os.path.join(room, "out" + jobs)
        ended, told, notes = run(ARCHIVE, folder, out, "--jobs", jobs)
        assert ended == 0, told + notes
        has(told, "9 tapes: 7 with code, 1 without, 1 failed, 0 not read", "failed: empty.wav: it is empty")
        tables.append(table_of(out))
        index = open(os.path.join(out, "index.html"), encoding="utf-8").read()
        has(index, "9 tapes: 7 with code", "B%C3%A4nder%20%C3%9F.wav/page.html")
    assert tables[0] == tables[1], "the tables differ"
    assert not [
        name for _, _, files in os.walk(room) for name in files if name.startswith(".tc-part")
    ], "half a file was left"


def try_resume(room):
    """A run that is killed goes on from where it was."""
    want("parallel")
    folder = archive_of(room)
    out = os.path.join(room, "out")
    killed = subprocess.Popen(
        [ARCHIVE, folder, out, "--jobs", "1"],
        stdout=subprocess.DEVNULL,
        stderr=subprocess.DEVNULL,
        start_new_session=True,
    )
    rows = os.path.join(out, "tapes", "plain.wav", "row.json")
    while not os.path.exists(rows) and killed.poll() is None:
        time.sleep(0.01)
    os.killpg(killed.pid, signal.SIGKILL)
    killed.wait()
    assert not os.path.exists(os.path.join(out, "archive.csv"))
    stood = os.path.getmtime(rows)
    ended, told, notes = run(ARCHIVE, folder, out, "--resume")
    assert ended == 0, told + notes
    assert os.path.getmtime(rows) == stood, "a tape that was done was read again"
    fresh = os.path.join(room, "fresh")
    run(ARCHIVE, folder, fresh)
    assert table_of(out) == table_of(fresh), "the tables differ"


def try_parts(room):
    want("parallel")
    folder = archive_of(room)
    out, whole = os.path.join(room, "out"), os.path.join(room, "whole")
    for part in range(3):
        ended, told, notes = run(ARCHIVE, folder, out, "--part", f"{part}/3")
        assert ended == 0, told + notes
    run(ARCHIVE, folder, out, "--resume")
    run(ARCHIVE, folder, whole)
    assert table_of(out) == table_of(whole), "the tables differ"


def rows_of(out):
    """The rows of the table, by the names of their files."""
    return {row["file"]: row for row in csv.DictReader(table_of(out).decode("utf-8").splitlines())}


def try_whose_output(room):
    """An output that is another's is left as it is."""
    want("parallel")
    folder, out = os.path.join(room, "folder"), os.path.join(room, "out")
    os.mkdir(folder)
    os.mkdir(out)
    wav(os.path.join(folder, "a.wav"), 48_000, [code(48_000, intervals("25", "10:00:00:00", 60))])
    mine = os.path.join(out, "index.html")
    with open(mine, "w", encoding="ascii") as file:
        file.write("mine")
    ended, _, notes = run(ARCHIVE, folder, out)
    assert ended == 3 and os.listdir(out) == ["index.html"], notes
    has(notes, "index.html stands there and is of no run of this tool")
    for where in (folder, room):
        ended, _, notes = run(ARCHIVE, folder, where, "--force")
        assert ended == 3 and os.listdir(folder) == ["a.wav"], notes
        has(notes, "the tapes lie in it")
    os.unlink(mine)
    assert run(ARCHIVE, folder, out)[0] == 0
    ended, _, notes = run(ARCHIVE, folder, out)
    assert ended == 3, notes
    has(notes, "--resume goes on, --force reads all again")
    other = os.path.join(room, "other")
    os.mkdir(other)
    ended, _, notes = run(ARCHIVE, other, out, "--resume")
    assert ended == 3, notes
    has(notes, "it has the reports of")
    assert run(ARCHIVE, folder, out, "--force")[0] == 0


def try_changed(room):
    """--resume reads again what changed, in size or in time, or failed, and takes away what belonged to the tape
    before.
    """
    want("parallel")
    folder, out = archive_of(room), os.path.join(room, "out")
    assert run(ARCHIVE, folder, out)[0] == 0
    before = rows_of(out)
    stood = {
        name: os.path.getmtime(os.path.join(out, "tapes", name, "row.json")) for name in ("plain.wav", "silent.wav")
    }
    # An older tape in place of a newer one, of another length; one of the same length; and one that is a tape now.
    changed, same, empty = (os.path.join(folder, name) for name in ("a b/with blank.wav", "no ending", "empty.wav"))
    length = os.path.getsize(same)
    wav(changed, 48_000, [[0] * 10_000])
    os.utime(changed, (1, 1))
    wav(same, 48_000, [code(48_000, intervals("25", "20:00:00:00", 70))])
    os.truncate(same, length)
    os.utime(same, (2, 2))
    wav(empty, 48_000, [code(48_000, intervals("25", "11:00:00:00", 60))])
    ended, told, notes = run(ARCHIVE, folder, out, "--resume")
    assert ended == 0, notes
    has(told, "9 tapes: 7 with code, 2 without, 0 failed, 0 not read")
    after = rows_of(out)
    assert before["a b/with blank.wav"]["status"] == "code" and after["a b/with blank.wav"]["status"] == "none"
    assert not os.path.exists(
        os.path.join(out, "tapes", "a b/with blank.wav", "page.html")
    ), "the page of the tape before"
    assert after["no ending"]["first"].startswith("20:00"), after["no ending"]
    assert after["empty.wav"]["first"].startswith("11:00"), after["empty.wav"]
    for name, time_before in stood.items():
        assert os.path.getmtime(os.path.join(out, "tapes", name, "row.json")) == time_before, f"{name} was read again"
    fresh = os.path.join(room, "fresh")
    run(ARCHIVE, folder, fresh)
    assert table_of(out) == table_of(fresh), "the tables differ"
    run(ARCHIVE, folder, out, "--resume", "--threshold", "30000")
    assert "code" not in {row["status"] for row in rows_of(out).values()}, "read as before"


def try_odd_names(room):
    """A folder and an output with names that shells and parallel would replace; tapes of such names."""
    want("parallel")
    folder, out = os.path.join(room, "{} {1}\n{#}"), os.path.join(room, "{.} $(x) '")
    os.mkdir(folder)
    made = code(48_000, intervals("25", "10:00:00:00", 60))
    names = ["-dash.wav", "{}.wav", "{1}.wav", "a\tb.wav", "new\nline.wav", "-", "{= $_ =}.wav"]
    for name in names:
        wav(os.path.join(folder, name), 48_000, [made])
    raw = wav(os.path.join(os.fsencode(folder), b"\xff.wav"), 48_000, [made])
    ended, told, notes = run(ARCHIVE, folder, out, "-j", "2")
    assert ended == 0, told + notes
    has(told, "8 tapes: 8 with code, 0 without, 0 failed, 0 not read")
    assert {"-dash.wav", "{}.wav", "new\\x0aline.wav", "\\xff.wav", "a\\x09b.wav"} <= set(rows_of(out)), rows_of(out)
    assert os.path.exists(os.path.join(os.fsencode(out), b"tapes", os.path.basename(raw), b"page.html"))


def try_early_headers(room):
    """Tapes whose headers end early, and one that is away, have their rows with the reason, and the others go on."""
    want("parallel")
    folder, out = os.path.join(room, "folder"), os.path.join(room, "out")
    os.mkdir(folder)
    with open(
        wav(os.path.join(folder, "plain.wav"), 48_000, [code(48_000, intervals("25", "10:00:00:00", 60))]), "rb"
    ) as file:
        base = file.read()
    for length in (1, 4, 8, 11, 12, 20, 30, 43):
        with open(os.path.join(folder, f"{length:02}.wav"), "wb") as file:
            file.write(base[:length])
    ended, told, notes = run(ARCHIVE, folder, out)
    assert ended == 0 and "Traceback" not in notes, told + notes
    has(told, "9 tapes: 1 with code, 0 without, 8 failed, 0 not read")
    assert all(row["note"] for row in rows_of(out).values() if row["status"] == "failed"), rows_of(out)


def many_tapes(room, count):
    """A folder of `count` short tapes."""
    folder = os.path.join(room, "many")
    os.mkdir(folder)
    made = code(48_000, intervals("25", "10:00:00:00", 60))
    for number in range(count):
        wav(
            os.path.join(folder, f"{number:02}.wav"),
            48_000,
            [[0] * 48_000] if number % 7 == 3 else [made[600 * number :]],
        )
    return folder


def try_kills(room):
    """`kill -9` at moments by chance: the run that goes on gives the same table, and nothing half-written is left."""
    want("parallel")
    folder, fresh = many_tapes(room, 40), os.path.join(room, "fresh")
    assert run(ARCHIVE, folder, fresh)[0] == 0
    chance, runs, killed, wanted = random.Random(9), 0, 0, KILLS_LONG if running.is_long else KILLS
    while killed < wanted:
        # one archive, killed until it is whole
        out, runs = os.path.join(room, f"out{runs}"), runs + 1
        while killed_in_time([ARCHIVE, folder, out, *(["--resume"] if os.path.exists(out) else [])], chance):
            killed += 1
            if killed == wanted:
                break
        ended, told, notes = run(ARCHIVE, folder, out, "--resume")
        assert ended == 0, told + notes
        assert table_of(out) == table_of(fresh), "the tables differ"
        left = [name for _, _, files in os.walk(out) for name in files if name.startswith(".tc-part")]
        assert not left, left
        shutil.rmtree(out)
    return f"{killed} kills in {runs} runs"


def killed_in_time(words, chance):
    """Starts a run, kills it at a moment by chance, and says whether it was still running."""
    started = subprocess.Popen(words, stdout=subprocess.DEVNULL, stderr=subprocess.DEVNULL, start_new_session=True)
    time.sleep(chance.uniform(0.1, 1.0))
    is_running = started.poll() is None
    if is_running:
        os.killpg(started.pid, signal.SIGKILL)
    started.wait()
    return is_running
