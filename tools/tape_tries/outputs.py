"""The output of an archive: nothing of others is harmed, nothing of an earlier run is left stale, and one run works."""
import csv
import os
import signal
import subprocess
import time

from .folders import archive_of, many_tapes, table_of
from .left_out import archive, plain
from .making import code, intervals, wav
from .running import ARCHIVE, has, run, want


def content(path):
    with open(path, "rb") as file:
        return file.read()


def put(path, text="mine"):
    with open(path, "w", encoding="ascii") as file:
        file.write(text)
    return path


def try_names_that_stand(room):
    """Each name that the archive gives is guarded, in a folder of others and in its own."""
    want("parallel")
    folder = os.path.join(room, "folder")
    plain(os.path.join(folder, "a.wav"))
    names = ("run.json", "archive-25.edl", "archive-25.ale", "archive-notes.txt", "run.lock", "made.json")
    for number, name in enumerate(names):
        out = os.path.join(room, f"out{number}")
        os.mkdir(out)
        put(os.path.join(out, name))
        _, notes = archive(folder, out, "--edl", "--ale", status=3)
        has(notes, f"{name} stands there and is of no run of this tool")
        assert os.listdir(out) == [name] and content(os.path.join(out, name)) == b"mine", os.listdir(out)
    out = os.path.join(room, "own")
    archive(folder, out)
    mine = put(os.path.join(out, "archive-25.edl"))
    _, notes = archive(folder, out, "--resume", "--edl", status=3)
    has(notes, "archive-25.edl: it is not as this tool wrote it, and is left")
    archive(folder, out, "--resume")
    assert content(mine) == b"mine", "a file of someone else is gone"
    table = os.path.join(out, "archive.csv")
    put(table, "changed by hand")
    _, notes = archive(folder, out, "--resume", status=3)
    has(notes, "archive.csv: it is not as this tool wrote it")
    assert content(table) == b"changed by hand"
    archive(folder, out, "--resume", "--force", "--edl")
    assert content(mine).startswith(b"TITLE: "), content(mine)


def try_stale_lists(room):
    """Lists of a rate that no tape has any more are taken away, and lists that stand follow the table."""
    want("parallel")
    folder, out = os.path.join(room, "folder"), os.path.join(room, "out")
    plain(os.path.join(folder, "a.wav"))
    drop = code(48_000, intervals("30d", "10:00:00;00", 80, rate=30 / 1.001))
    other = wav(os.path.join(folder, "b.wav"), 48_000, [drop])
    archive(folder, out, "--edl", "--ale")
    lists = {"archive-25.edl", "archive-25.ale", "archive-29.97d.edl", "archive-29.97d.ale"}
    assert lists <= set(os.listdir(out)), os.listdir(out)
    os.unlink(other)
    # An earlier list that stands is kept as the table is, also where it is not asked for again.
    archive(folder, out, "--resume")
    assert lists & set(os.listdir(out)) == {"archive-25.edl", "archive-25.ale"}, os.listdir(out)
    assert not os.path.exists(os.path.join(out, "tapes", "b.wav")), "the report of a tape that is no more"
    # One that was changed is no longer this tool's.
    put(os.path.join(out, "archive-25.ale"))
    os.unlink(os.path.join(folder, "a.wav"))
    archive(folder, out, "--resume")
    assert content(os.path.join(out, "archive-25.ale")) == b"mine"
    assert not os.path.exists(os.path.join(out, "archive-25.edl")), "a list of no tape"


def try_a_folder_in_the_place_of_a_tape(room):
    """A tape that becomes a folder of tapes is read as these."""
    want("parallel")
    folder, out = os.path.join(room, "folder"), os.path.join(room, "out")
    plain(os.path.join(folder, "a.wav"))
    archive(folder, out)
    os.unlink(os.path.join(folder, "a.wav"))
    plain(os.path.join(folder, "a.wav", "report.txt"))
    told, _ = archive(folder, out, "--resume")
    has(told, "1 tapes: 1 with code")


def try_two_runs(room):
    """A second run in an output says who works there; one that died holds nobody up; parts work side by side."""
    want("parallel")
    folder, out = many_tapes(room, 30), os.path.join(room, "out")
    first = subprocess.Popen(
        [ARCHIVE, folder, out, "-j", "1"], stdout=subprocess.DEVNULL, stderr=subprocess.DEVNULL, start_new_session=True
    )
    while not os.path.exists(os.path.join(out, "tapes")) and first.poll() is None:
        time.sleep(0.01)
    _, notes = archive(folder, out, "--resume", status=3)
    has(notes, f"a run, process {first.pid} on ", "works there")
    _, notes = archive(folder, out, "--part", "0/2", status=3)
    os.killpg(first.pid, signal.SIGKILL)
    first.wait()
    archive(folder, out, "--resume")
    alone = os.path.join(room, "alone")
    archive(folder, alone)
    assert table_of(out) == table_of(alone), "the tables differ"
    parts = os.path.join(room, "parts")
    both = [subprocess.Popen([ARCHIVE, folder, parts, "--part", f"{k}/2"], stdout=subprocess.DEVNULL) for k in range(2)]
    assert [each.wait() for each in both] == [0, 0]
    archive(folder, parts, "--resume")
    assert table_of(parts) == table_of(alone), "the tables differ"


def try_two_tables(room):
    """Two runs over one folder give one table, byte for byte, with notes of ffmpeg in it."""
    want("parallel", "ffmpeg", "ffprobe", "flac")
    folder = archive_of(room)
    path = wav(os.path.join(room, "long.wav"), 48_000, [code(48_000, intervals("25", "10:00:00:00", 300))])
    for number in range(3):
        cut = os.path.join(folder, f"cut{number}.flac")
        subprocess.run(["flac", "-s", "-f", "-o", cut, path], check=True)
        with open(cut, "r+b") as file:
            file.truncate(os.path.getsize(cut) * (number + 1) // 5)
    tables = []
    for number in range(2):
        out = os.path.join(room, f"out{number}")
        archive(folder, out, "-j", "3")
        tables.append(table_of(out))
    assert tables[0] == tables[1], "the tables differ"
    rows = csv.DictReader(tables[0].decode("utf-8").splitlines())
    notes = [row["note"] for row in rows if row["file"].startswith("cut")]
    assert any("ffmpeg" in note for note in notes) and not any("0x" in note for note in notes), notes


def try_pictures_of_the_tools(room):
    """What draws replaces no tape, by force neither, and no picture without it; its --help helps."""
    want("gnuplot")
    from .making import TC, TOP

    tape = plain(os.path.join(room, "tape.wav"))
    making = [TC, "ltc-make", "25", "forward", "10:00:00:00", "60", "24", "48000"]
    made = subprocess.run(making, capture_output=True, check=True).stdout
    report = subprocess.run([TC, "ltc-read"], input=made, capture_output=True, check=True).stdout
    trace = b"".join(b"step %d locked error %d c d cause none p 00:00:00:0%d\n" % (n, n, n) for n in range(9))
    draw, chase = (os.path.join(TOP, "tools", name) for name in ("draw_report", "plot_chase"))
    before, picture = content(tape), os.path.join(room, "picture.png")
    for words, text in (((draw, "48000"), report), ((chase,), trace)):
        for force in ((), ("--force",)):
            ended, _, notes = run(words[0], *force, *words[1:], tape, input=text)
            assert ended == 3 and content(tape) == before, f"{words}: {ended} {notes}"
        ended, _, notes = run(*words, picture, input=text)
        assert ended == 0 and content(picture).startswith(b"\x89PNG"), notes
        ended, _, notes = run(*words, picture, input=text)
        assert ended == 3 and "it exists" in notes, notes
        assert run(words[0], "--force", *words[1:], picture, input=text)[0] == 0
        os.unlink(picture)
        ended, told, _ = run(words[0], "--help")
        assert ended == 0 and "PICTURE.png" in told, told
        assert run(words[0])[0] == 2
        ended, _, notes = run(*words, picture, input=b"")
        assert ended == 1 and not os.path.exists(picture), f"{ended} {notes}"
    other = plain(os.path.join(room, "other.wav"))
    for option in ("--picture", "--page"):
        ended, _, notes = run(os.path.join(TOP, "tools", "tape"), tape, option, other, "--force")
        assert ended == 3 and content(other) == before, f"{option}: another tape is gone\n{notes}"
    assert not [name for name in os.listdir(room) if name.startswith(".tc-part")], os.listdir(room)
