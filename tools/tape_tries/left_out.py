"""Folders: nothing under one is left out without a word."""
import csv
import json
import os
import shutil
import stat
import subprocess

from . import running
from .folders import archive_of, rows_of, table_of
from .making import code, intervals, wav
from .running import ARCHIVE, has, run, want

# The user as whom folders are tried that may not be opened: root may open all.
NOBODY = 65_534


def plain(path):
    os.makedirs(os.path.dirname(path), exist_ok=True)
    return wav(path, 48_000, [code(48_000, intervals("25", "10:00:00:00", 60))])


def archive(folder, out, *words, status=0, **others):
    ended, told, notes = run(*others.pop("by", ()), ARCHIVE, folder, out, *words, **others)
    assert ended == status and "Traceback" not in notes, f"status {ended} for {status}\n{told}{notes}"
    return told, notes


def as_nobody(room):
    """The words by which a program runs as someone who may not open all."""
    if os.getuid() != 0:
        return ()
    want("setpriv")
    os.chmod(room, 0o777)
    user = (f"--reuid={NOBODY}", f"--regid={NOBODY}", "--clear-groups")
    return ("setpriv", *user, "env", f"HOME={room}", f"TMPDIR={room}")


def try_closed_folders(room):
    """A folder and a file that may not be opened have rows, and the status says so; the others are read."""
    want("parallel")
    by, folder, out = as_nobody(room), os.path.join(room, "folder"), os.path.join(room, "out")
    plain(os.path.join(folder, "open", "a.wav"))
    plain(os.path.join(folder, "closed", "b.wav"))
    os.chmod(plain(os.path.join(folder, "secret.wav")), 0)
    os.chmod(os.path.join(folder, "closed"), 0)
    try:
        told, _ = archive(folder, out, status=1, by=by)
    finally:
        os.chmod(os.path.join(folder, "closed"), 0o755)
    has(told, "3 tapes: 1 with code, 0 without, 0 failed, 2 not read", "missing: secret.wav: permission denied")
    has(told, "missing: closed/: not all of it can be read: permission denied")
    rows = rows_of(out)
    assert rows["closed/"]["status"] == rows["secret.wav"]["status"] == "missing", rows
    # When they are open again they are read, though nothing about them changed.
    os.chmod(os.path.join(folder, "secret.wav"), 0o644)
    told, _ = archive(folder, out, "--resume", by=by)
    has(told, "3 tapes: 3 with code, 0 without, 0 failed, 0 not read")


def try_reports_behind_closed_folders(room):
    """What was read of a folder that may not be opened now is kept."""
    want("parallel")
    by, folder, out = as_nobody(room), os.path.join(room, "folder"), os.path.join(room, "out")
    plain(os.path.join(folder, "closed", "b.wav"))
    archive(folder, out, by=by)
    os.chmod(os.path.join(folder, "closed"), 0)
    try:
        archive(folder, out, "--resume", status=1, by=by)
    finally:
        os.chmod(os.path.join(folder, "closed"), 0o755)
    assert os.path.exists(os.path.join(out, "tapes", "closed", "b.wav", "report.txt")), "its report is gone"


def try_links(room):
    """Folders behind links are read once, whatever leads to them, and loops are told."""
    want("parallel")
    folder, out, volume = (os.path.join(room, name) for name in ("folder", "out", "volume"))
    plain(os.path.join(folder, "here", "a.wav"))
    plain(os.path.join(volume, "deep", "b.wav"))
    for name, to in (("mounted", volume), ("again", os.path.join(volume, "deep")), ("loop", "."), ("here/up", "..")):
        os.symlink(to, os.path.join(folder, name))
    os.symlink("nowhere", os.path.join(folder, "gone.wav"))
    os.symlink("..", os.path.join(volume, "above"))
    told, _ = archive(folder, out, status=1)
    has(told, "2 with code", "missing: gone.wav: it is a link to nothing")
    has(told, "link loop: leads to the folder, which is read once", "link here/up: leads to the folder, which")
    has(told, "link mounted/above: leads to a folder above, which is read once")
    files = [name for name in rows_of(out) if name.endswith(("a.wav", "b.wav"))]
    assert files in (["again/b.wav", "here/a.wav"], ["here/a.wav", "mounted/deep/b.wav"]), files
    has(told, "which is read once")


def try_unknown_endings(room):
    """Files of endings that say nothing are counted and listed, and --all looks into them."""
    want("parallel", "ffmpeg", "ffprobe")
    folder, out = os.path.join(room, "folder"), os.path.join(room, "out")
    path = plain(os.path.join(folder, "a.wav"))
    for name, form in (("reel.xyz", "flac"), ("noted.txt", "flac")):
        subprocess.run(["ffmpeg", "-v", "error", "-i", path, "-f", form, os.path.join(folder, name)], check=True)
    for name in ("plain.txt", "cover.jpg", "what.ever"):
        with open(os.path.join(folder, name), "w", encoding="ascii") as file:
            file.write("no sound\n" * 20)
    told, _ = archive(folder, out, status=1)
    has(told, "1 tapes: 1 with code", "2 files of unknown ending, not looked at (see --all): reel.xyz, what.ever")
    has(told, "3 files without sound by their endings: .txt 2, .jpg 1")
    with open(os.path.join(out, "archive-notes.txt"), encoding="utf-8") as file:
        has(file.read(), "of unknown ending, not looked at: reel.xyz\n", "without sound by its ending: cover.jpg\n")
    with open(os.path.join(out, "index.html"), encoding="utf-8") as file:
        has(file.read(), "2 files of unknown ending")
    _, notes = archive(folder, os.path.join(room, "json"), "--json", status=1)
    has(notes, "2 files of unknown ending")
    told, _ = archive(folder, out, "--resume", "--all")
    has(told, "3 tapes: 3 with code", "3 files without sound, as ffprobe says: ")
    assert {"reel.xyz", "noted.txt"} < set(rows_of(out)), rows_of(out)


def try_endings_of_ffmpeg(_room):
    """Each ending that ffmpeg has for sound and video is known, but for those that say too little; each twelfth form is
    asked for them, and with --long all are.
    """
    want("ffmpeg")
    from tape_report import kinds

    told = run("ffmpeg", "-hide_banner", "-demuxers")[1]
    names = [line.split()[1].split(",")[0] for line in told.splitlines()[4:] if len(line.split()) > 1]
    unknown = set()
    for name in names if running.is_long else names[::12]:
        about = run("ffmpeg", "-hide_banner", "-h", f"demuxer={name}")[1]
        if name in WITHOUT_A_HEADER or "Common extensions: " not in about:
            continue
        endings = about.split("Common extensions: ")[1].split("\n")[0].rstrip(".").split(",")
        unknown |= {f".{it}" for it in endings} - kinds.TAPES - kinds.OTHERS
    assert not unknown, sorted(unknown)
    for name in ("tape.wv", "tape.tta", "tape.mp2", "tape.ac3", "TAPE.VOB", "tape.3gp", "tape.mov"):
        assert kinds.kind_by_name(name) == kinds.TAPE, name


# Samples, pictures and subtitles that do not say what they are; and notes of music, which no tape is.
WITHOUT_A_HEADER = set(
    "alaw mulaw s8 u8 s16le u16le rawvideo bitpacked nc libopenmpt aqtitle pjs mpl2 realtext sbg mcc ea_cdata luodat"
    " tty mpjpeg mjpeg ty idf".split()
)


def try_more_forms(room):
    """Tapes of endings that were passed over have their rows."""
    want("parallel", "ffmpeg", "ffprobe")
    folder, out = os.path.join(room, "folder"), os.path.join(room, "out")
    path = plain(os.path.join(room, "a.wav"))
    os.makedirs(folder)
    names = ("a.wv", "a.tta", "a.mp2", "a.ac3", "a.3gp", "a.vob")
    for name in names:
        words = ["-ar", "48000", *(["-c:a", "aac"] if name == "a.3gp" else [])]
        subprocess.run(["ffmpeg", "-v", "error", "-i", path, *words, os.path.join(folder, name)], check=True)
    told, _ = archive(folder, out)
    has(told, f"{len(names)} tapes: {len(names)} with code")


def try_vanished_files(room):
    """A tape that goes away while others are read has a row, and the status says so; its report goes with it later."""
    want("parallel")
    folder, out = os.path.join(room, "folder"), os.path.join(room, "out")
    for name in ("a.wav", "b.wav"):
        plain(os.path.join(folder, name))
    # A parallel of one's own, which removes a tape before it works the list.
    bin_folder = os.path.join(room, "bin")
    os.mkdir(bin_folder)
    script = os.path.join(bin_folder, "parallel")
    with open(script, "w", encoding="ascii") as file:
        file.write(f"#!/bin/sh\nrm '{folder}/b.wav'\nexec '{shutil.which('parallel')}' \"$@\"\n")
    os.chmod(script, 0o755)
    there = {**os.environ, "PATH": f"{bin_folder}:{os.environ['PATH']}"}
    told, _ = archive(folder, out, status=1, env=there)
    has(told, "2 tapes: 1 with code, 0 without, 0 failed, 1 not read", "missing: b.wav: no such file or directory")
    told, _ = archive(folder, out, "--resume")
    has(told, "1 tapes: 1 with code")
    assert not os.path.exists(os.path.join(out, "tapes", "b.wav")), "the report of a tape that is no more"


def try_other_things(room):
    """A fifo with a tape's name has a row, and nothing waits for it."""
    want("parallel")
    folder, out = os.path.join(room, "folder"), os.path.join(room, "out")
    plain(os.path.join(folder, "a.wav"))
    os.mkfifo(os.path.join(folder, "pipe.wav"))
    assert stat.S_ISFIFO(os.lstat(os.path.join(folder, "pipe.wav")).st_mode)
    told, _ = archive(folder, out, status=1, timeout=60)
    has(told, "missing: pipe.wav: it is a device, a fifo or a socket")


def try_parts_tell(room):
    """A part of an array prints what it found."""
    want("parallel")
    folder, out = archive_of(room), os.path.join(room, "out")
    told, _ = archive(folder, out, "--part", "0/3")
    has(told, "part 0/3: 3 tapes: ")
    told, _ = archive(folder, out, "--part", "1/3", "--json")
    assert len([json.loads(line) for line in told.splitlines()]) == 3, told
    assert not os.path.exists(os.path.join(out, "archive.csv"))


def try_formulas(room):
    """A name that a spreadsheet would take for a formula is text in the tables."""
    want("parallel")
    folder, out = os.path.join(room, "folder"), os.path.join(room, "out")
    plain(os.path.join(folder, "=1+2.wav"))
    archive(folder, out)
    assert [row[0] for row in csv.reader(table_of(out).decode("utf-8").splitlines())][1] == "\\x3d1+2.wav"
    ended, told, _ = run(os.path.join(os.path.dirname(ARCHIVE), "tape"), "=1+2.wav", "--csv", cwd=folder)
    assert ended == 0 and told.splitlines()[1].startswith("\\x3d1+2.wav,"), told
    with open(os.path.join(out, "archive.jsonl"), encoding="ascii") as file:
        assert json.loads(file.readline())["file"] == "=1+2.wav"
