"""Time code in the rows of a picture, and whether the sound says the same."""
import csv
import json
import os
import struct
import subprocess

from .making import TC, code, intervals, wav
from .running import ARCHIVE, has, run, tape, want

WIDTH, HEIGHT = 720, 576
DARK, LIGHT = 16, 200
# The rows of a field that carry code, where it begins, and how many pixels two cells have.
ROWS, LEFT, TWO_CELLS = (10, 12), 22, 15
LINE_TICKS = 1_840


def line_bits(count, label, frames):
    """The runs of the first line of each field, in cells of 16 ticks."""
    made = subprocess.run(
        [TC, "vitc-make", count, label, str(frames), str(LINE_TICKS)], stdout=subprocess.PIPE, check=True
    ).stdout
    place, fields = 12, []
    while place < len(made):
        lines, place = made[place], place + 1
        first = None
        for _ in range(lines):
            runs = struct.unpack_from(f">{made[place]}H", made, place + 1)
            place += 1 + 2 * made[place]
            first = first or runs
        fields.append([length // 16 for length in first])
    return fields


def row_of(runs):
    """A row of pixels, light and dark by turns."""
    row, cells = bytearray([DARK] * WIDTH), 0
    for number, length in enumerate(runs):
        begin, end = (LEFT + TWO_CELLS * at // 2 for at in (cells, cells + length))
        row[begin:end] = bytes([DARK if number % 2 else LIGHT]) * (end - begin)
        cells += length
    return bytes(row)


def frames_of(fields, is_upper_first=True, height=HEIGHT):
    """Frames of two fields each, whose rows lie by turns; None is a field without code."""
    plain = bytes([DARK]) * WIDTH
    for first, second in zip(fields[::2], fields[1::2]):
        rows = [plain] * height
        both = (first, second) if is_upper_first else (second, first)
        for parity, runs in enumerate(both):
            for row in ROWS if runs else ():
                rows[2 * row + parity] = row_of(runs)
        yield b"".join(rows)


def film(room, name, fields, sound=None, rate="25", is_upper_first=True, coded=("ffv1", "pcm_s16le"), offset="0"):
    """A video file of these fields, with a sound that begins so many seconds behind it."""
    want("ffmpeg", "ffprobe")
    path = os.path.join(room, name)
    words = ["ffmpeg", "-v", "error", "-y", "-f", "rawvideo", "-pix_fmt", "gray", "-s", f"{WIDTH}x{HEIGHT}"]
    words += ["-r", rate, "-i", "pipe:0"]
    words += ["-itsoffset", offset, "-i", sound, "-map", "0", "-map", "1"] if sound else []
    words += ["-c:v", coded[0], "-c:a", coded[1], path]
    subprocess.run(words, input=b"".join(frames_of(fields, is_upper_first)), check=True)
    return path


def sound_of(room, name, label, frames, lead=0):
    return wav(os.path.join(room, name), 48_000, [code(48_000, intervals("25", label, frames), lead=lead)])


def try_vitc(room):
    """Fields of a picture with its sound: the order, the rows, the labels, a gap, and that both say the same."""
    fields = line_bits("25", "10:00:00:00", 60)
    fields[40:60] = [None] * 20
    path = film(room, "tape.mkv", fields, sound_of(room, "sound.wav", "10:00:00:00", 60))
    out, _ = tape(path)
    assert "picture" not in out, out
    out, _ = tape(path, "--vitc")
    has(out, "picture       ffv1, 720 by 576, 25 frames a second", "100 of 120 say a label, 20 none")
    has(out, "the upper row's field first", "rows          10 and 12 of a field")
    has(out, "agreement     the same labels as the sound, at 49 of 49 places")
    has(out, "10:00:00:00 to 10:00:00:19  0:00:00.000 to 0:00:00.800", "gap of 0.400 s")
    has(out, "10:00:01:05 to 10:00:02:09", "track 1, 25 frames a second")
    out, _ = tape(path, "--vitc", "--json")
    said = json.loads(out)
    assert (said["picture"]["rows"], said["picture"]["order"], len(said["picture"]["spans"])) == ([10, 12], "upper", 2)
    assert said["vitc"].startswith("10:00:00:00 to 10:00:02:09; rows 10 and 12; the same labels"), said["vitc"]


def try_vitc_and_sound(room):
    """The sound says other labels, or begins later."""
    fields = line_bits("25", "10:00:00:05", 60)
    out, _ = tape(film(room, "ahead.mkv", fields, sound_of(room, "sound.wav", "10:00:00:00", 60)), "--vitc")
    has(out, "agreement     5 frames ahead of the sound, at")
    fields = line_bits("25", "10:00:00:00", 60)
    sound = sound_of(room, "late.wav", "10:00:00:10", 40)
    out, _ = tape(film(room, "late.mkv", fields, sound, offset="0.4"), "--vitc")
    has(out, "agreement     the same labels as the sound, at")


def try_vitc_order(room):
    """The lower row's field first; and a picture whose rows say nothing."""
    fields = line_bits("25", "10:00:00:00", 30)
    sound = sound_of(room, "sound.wav", "10:00:00:00", 30)
    out, _ = tape(film(room, "lower.mkv", fields, sound, is_upper_first=False), "--vitc")
    has(out, "the lower row's field first")
    out, _ = tape(film(room, "none.mkv", [None] * 60, sound), "--vitc")
    has(out, "60, and none says a label in its upper 40 rows")
    out, _ = tape(film(room, "drop.mkv", line_bits("30d", "00:00:59;20", 30), sound, "30000/1001"), "--vitc")
    has(out, "00:00:59;20 to 00:01:00;21", "29.97 frames a second", "the sound has no label at the same time")


def try_vitc_alone(room):
    """A picture without a sound, files that are no picture, and what is cut or broken."""
    path = film(room, "silent.mkv", line_bits("25", "10:00:00:00", 30))
    _, notes = tape(path, status=3)
    has(notes, "no sound")
    out, _ = tape(path, "--vitc")
    has(out, "sound         not read: it has no sound", "10:00:00:00 to 10:00:01:04")
    page = os.path.join(room, "page.html")
    tape(path, "--vitc", "--page", page, status=3)
    assert not os.path.exists(page), "a page without sound"
    sound = sound_of(room, "sound.wav", "10:00:00:00", 60)
    out, _ = tape(sound, "--vitc")
    has(out, "picture       not looked at: it has no picture")
    narrow = os.path.join(room, "narrow.mkv")
    words = ["ffmpeg", "-v", "error", "-f", "lavfi", "-i", "color=s=176x144:r=25:d=1", "-i", sound, narrow]
    subprocess.run(words, check=True, stdin=subprocess.DEVNULL)
    out, _ = tape(narrow, "--vitc")
    has(out, "not looked at: it is 176 pixels wide")
    with open(path, "rb") as file:
        whole = file.read()
    for number, text in enumerate((whole[: len(whole) // 2], whole[:400], whole[:200] + bytes(999), b"", b"x" * 5000)):
        broken = os.path.join(room, f"broken{number}.mkv")
        with open(broken, "wb") as file:
            file.write(text)
        ended, out, notes = run(os.path.join(os.path.dirname(ARCHIVE), "tape"), broken, "--vitc")
        assert ended in (0, 1, 3) and "Traceback" not in notes, notes


def try_vitc_of_a_folder(room):
    """The table has what the picture says, where that is asked for."""
    want("parallel")
    folder, out = os.path.join(room, "folder"), os.path.join(room, "out")
    os.makedirs(folder)
    fields = line_bits("25", "10:00:00:00", 30)
    film(folder, "both.mkv", fields, sound_of(room, "sound.wav", "10:00:00:00", 30))
    film(folder, "silent.mkv", fields)
    wav(os.path.join(folder, "sound.wav"), 48_000, [code(48_000, intervals("25", "10:00:00:00", 30))])

    def table(*words):
        ended, told, notes = run(ARCHIVE, folder, out, *words)
        assert ended == 0, told + notes
        with open(os.path.join(out, "archive.csv"), encoding="utf-8") as rows:
            return {row["file"]: (row["status"], row["vitc"]) for row in csv.DictReader(rows)}

    rows = table()
    assert rows == {"both.mkv": ("code", ""), "silent.mkv": ("failed", ""), "sound.wav": ("code", "")}, rows
    rows = table("--resume", "--vitc")
    assert rows["sound.wav"] == ("code", "not looked at: it has no picture"), rows
    assert rows["silent.mkv"] == ("code", "10:00:00:00 to 10:00:01:04; rows 10 and 12"), rows
    assert rows["both.mkv"][1].startswith("10:00:00:00 to 10:00:01:04; rows 10 and 12; the same labels"), rows
