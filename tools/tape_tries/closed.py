"""Ends: outputs that are closed or full, each with its status and without a traceback."""
import contextlib
import os
import subprocess

from .harm import small_disk
from .left_out import plain
from .making import TC, TOP
from .running import ARCHIVE, TAPE, has, run, want


def shell(command, **others):
    ended, out, notes = run("sh", "-c", command, **others)
    assert "Traceback" not in notes and "Exception" not in notes, f"{command}\n{notes}"
    return ended, out, notes


def commands(room):
    """The tools, each as a command that ends well, and writes to standard output."""
    want("parallel", "gnuplot")
    tape = plain(os.path.join(room, "folder", "a.wav"))
    live, rows, runs = (os.path.join(TOP, "tools", name) for name in ("live", "line_rows", "line_runs"))
    lines, pixels = os.path.join(room, "lines"), os.path.join(room, "pixels")
    with open(lines, "wb") as file:
        subprocess.run([TC, "vitc-make", "25", "10:00:00:00", "1", "864"], stdout=file, check=True)
    with open(lines, "rb") as file, open(pixels, "wb") as out:
        subprocess.run([rows, "720", "12"], stdin=file, stdout=out, check=True)
    archive = f"'{ARCHIVE}' '{room}/folder' '{room}/out' --force"
    return {
        "tape": f"'{TAPE}' '{tape}'",
        "tape --json": f"'{TAPE}' --json '{tape}'",
        "archive": archive,
        "archive --json": archive + " --json",
        "live": f"'{live}' --file '{tape}'",
        "line_rows": f"'{rows}' 720 12 < '{lines}'",
        "line_runs": f"'{runs}' 25 864 720 2 < '{pixels}'",
    }


def try_closed_output(room):
    """A standard output that is closed, or full, is status 3 with a note; one whose reader left is 141."""
    for name, command in commands(room).items():
        ended, _, notes = shell(f"{command} >&-")
        assert ended == 3 and notes.strip(), f"{name} >&-: {ended} {notes}"
        ended, _, notes = shell(f"{command} > /dev/full")
        assert ended == 3 and "no space left" in notes, f"{name} > /dev/full: {ended} {notes}"
        ended, out, notes = shell(f"{{ {command}; echo $? >&2; }} | true")
        # A short output may be written before its reader has gone.
        assert notes.split()[-1] in ("141", "0"), f"{name} | true: {notes}"
        ended, _, notes = shell(f"{{ sleep 1; {command}; echo $? >&2; }} | true")
        assert notes.split()[-1] == "141", f"{name} | true: {notes}"


def try_closed_notes(room):
    """With standard error closed, or full, a tool does what it does."""
    for name, command in commands(room).items():
        for where in ("2>&-", "2> /dev/full", "<&- 2>&-" if "<" not in command else "2>&-"):
            ended, out, _ = shell(f"{command} {where}")
            assert ended == 0 and out, f"{name} {where}: {ended}"
    for where in ("2>&-", "2> /dev/full"):
        assert shell(f"'{TAPE}' '{room}/none.wav' {where}")[0] == 3


def try_ends_of_pictures(room):
    """What draws does so with its outputs closed; a full disk under the picture is status 3, and one under TMPDIR where
    that is needed.
    """
    want("gnuplot")
    report, trace = os.path.join(room, "report"), os.path.join(room, "trace")
    words = [TC, "ltc-make", "25", "forward", "10:00:00:00", "60", "24", "48000"]
    made = subprocess.run(words, stdout=subprocess.PIPE, check=True).stdout
    with open(report, "wb") as file:
        subprocess.run([TC, "ltc-read"], input=made, stdout=file, check=True)
    with open(trace, "wb") as file:
        file.writelines(b"step %d locked error %d c d cause none p 00:00:00:0%d\n" % (n, n, n) for n in range(9))
    draw, chase = (os.path.join(TOP, "tools", name) for name in ("draw_report", "plot_chase"))
    with small_disk(room, "64k") as disk:
        full = {**os.environ, "TMPDIR": disk}
        with open(os.path.join(disk, "fill"), "wb") as file, contextlib.suppress(OSError):
            file.write(bytes(63 * 1024))
            file.flush()
        for command, text in ((f"'{draw}' 48000", report), (f"'{chase}'", trace)):
            for number, where in enumerate((">&-", "2>&-", ">&- 2>&-", "> /dev/full 2> /dev/full")):
                picture = os.path.join(room, f"{os.path.basename(text)}{number}.png")
                ended, _, notes = shell(f"{command} '{picture}' < '{text}' {where}")
                assert ended == 0 and os.path.getsize(picture), f"{command} {where}: {ended} {notes}"
            ended, _, notes = shell(f"{command} '{room}/none.png' <&-")
            assert ended in (1, 3) and notes.strip(), f"{command} <&-: {ended} {notes}"
            for picture, there in ((f"{disk}/full.png", os.environ), (f"{room}/none.png", full)):
                ended, _, notes = shell(f"{command} '{picture}' < '{text}'", env=there)
                assert ended in (0, 3) and os.path.exists(picture) == (ended == 0), f"{picture}: {ended} {notes}"
                assert ended == 3 or there is not os.environ, f"{picture} is written on a full disk"
                with contextlib.suppress(FileNotFoundError):
                    os.unlink(picture)
            assert os.listdir(disk) == ["fill"], os.listdir(disk)


def try_help_of_all(_room):
    """Each tool helps, and refuses words that it does not take with status 2."""
    for name in ("tape", "archive", "live", "draw_report", "plot_chase", "line_rows", "line_runs"):
        tool = os.path.join(TOP, "tools", name)
        ended, out, _ = run(tool, "--help")
        assert ended == 0 and "usage: " + name in out, f"{name}: {ended} {out}"
        ended, _, notes = run(tool, "--no-such-word")
        assert ended == 2 and "Traceback" not in notes, f"{name}: {ended} {notes}"


def try_help_that_nobody_reads(_room):
    """Help and version are output as any other: status 3 where they can't be written, and 141 where nobody reads them;
    whether Python keeps output back or not.
    """
    plain = {key: value for key, value in os.environ.items() if key != "PYTHONUNBUFFERED"}
    for name in ("tape", "archive", "live", "draw_report", "plot_chase", "line_rows", "line_runs"):
        command = f"'{os.path.join(TOP, 'tools', name)}' {'--version' if name == 'live' else '--help'}"
        for there in (plain, {**plain, "PYTHONUNBUFFERED": "1"}):
            for where in (">&-", "> /dev/full"):
                ended, _, notes = shell(f"{command} {where}", env=there)
                assert ended == 3 and notes.strip(), f"{command} {where}: {ended} {notes}"
        _, _, notes = shell(f"{{ sleep 0.3; {command}; echo $? >&2; }} | true")
        assert notes.split()[-1] == "141", f"{command} | true: {notes}"


def try_broken_lines(room):
    """What is no line file is refused with status 3."""
    rows = os.path.join(TOP, "tools", "line_rows")
    for text in (b"", b"VITL", b"no line file at all", b"VITL" + bytes(8) + b"\1\5\0"):
        ended, _, notes = run(rows, "720", "12", input=text)
        assert ended == 3 and "Traceback" not in notes and "line file" in notes, f"{text}: {ended} {notes}"


def try_full_rooms(room):
    """A full TMPDIR, and a full disk under the output, are status 3 or a tape that was not read; nothing is called
    done.
    """
    all_of = commands(room)
    with small_disk(room, "64k") as disk:
        with open(os.path.join(disk, "fill"), "wb") as file:
            file.write(bytes(60 * 1024))
        there = {**os.environ, "TMPDIR": disk}
        ended, _, notes = shell(all_of["tape"], env=there)
        assert ended == 3, f"tape: {ended} {notes}"
        has(notes, "no space left")
        ended, out, notes = shell(all_of["archive"], env=there)
        assert ended in (1, 3), f"archive: {ended} {out} {notes}"
        assert "1 with code" not in out, out
        ended, out, notes = shell(f"'{ARCHIVE}' '{room}/folder' '{disk}/out'")
        assert ended == 3, f"a full OUT: {ended} {out} {notes}"
        has(notes, "no space left")
