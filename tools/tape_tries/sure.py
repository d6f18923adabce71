"""What a stamp and a list need to be sure of: the rate, the track, the picture; and what a copy keeps."""
import csv
import json
import os
import re
import subprocess

from .containers import timecode_in, video
from .left_out import archive
from .making import bext, chunk, chunks_in, code, intervals, ixml, tone, wav
from .pictures import film, line_bits, sound_of
from .running import TAPE, has, run, tape, want


def made(count, label, frames, rate=None, lead=4800):
    return code(48_000, intervals(count, label, frames, rate=rate), lead=lead)


def try_picture_rates(room):
    """The picture has exactly the rate of the code: of pairs that differ by a thousandth none is stamped."""
    pairs = (
        ("30d", 30 / 1.001, "30", 3),
        ("30d", 30 / 1.001, "30000/1001", 0),
        ("30d", 30 / 1.001, "60000/1001", 0),
        ("30d", 30 / 1.001, "60", 3),
        ("25", 25, "100", 0),
        ("25", 25, "75", 3),
        ("24", 24 / 1.001, "48000/1001", 0),
        ("24", 24 / 1.001, "24", 3),
        ("24", 24 / 1.001, "24000/1001", 0),
        ("30", 30, "30000/1001", 3),
        ("30", 30, "30", 0),
        ("24", 24, "24000/1001", 3),
    )
    for number, (count, rate, picture, status) in enumerate(pairs):
        label = "10:00:00;00" if count == "30d" else "10:00:00:00"
        path = video(room, "tape.mov", made(count, label, 100, rate), picture)
        copy = os.path.join(room, f"copy{number}.mov")
        _, notes = tape(path, "--stamp", copy, status=status)
        assert os.path.exists(copy) == (status == 0), f"{count} in {picture}"
        if status:
            has(notes, "its labels do not fit")


def rows_of(out):
    return {row["file"]: row for row in csv.DictReader(out.splitlines())}


def try_rate_by(room):
    """By what the rate is known is a column and a field; an undecided one is in no list and in no stamp."""
    want("parallel")
    folder, out = os.path.join(room, "folder"), os.path.join(room, "out")
    os.mkdir(folder)
    tapes = {
        "25.wav": (made("25", "10:00:00:00", 90), "25", "labels"),
        "drop.wav": (made("30d", "10:00:00;00", 90, 30 / 1.001), "29.97", "labels"),
        "film.wav": (made("24", "10:00:00:00", 90), "24", "speed"),
        "ntsc.wav": (made("30", "10:00:00:00", 90, 30 / 1.001), "29.97", "speed"),
        "slow.wav": (made("30", "10:00:00:00", 90, 30 * 0.98), "", "undecided"),
        "near.wav": (made("30", "10:00:00:00", 90, 30 * 0.995), "", "undecided"),
    }
    for name, (samples, _, _) in tapes.items():
        wav(os.path.join(folder, name), 48_000, [samples])
    told, _ = archive(folder, out, "--edl", "--ale")
    has(told, "2 tapes have spans in no list, since their rate is undecided: near.wav, slow.wav")
    with open(os.path.join(out, "archive.csv"), encoding="utf-8") as file:
        rows = rows_of(file.read())
    for name, (_, rate, by) in tapes.items():
        assert (rows[name]["rate"], rows[name]["rate_by"]) == (rate, by), f"{name}: {rows[name]}"
        assert bool(rows[name]["start"]) == bool(rows[name]["reference"]) == (by != "undecided"), rows[name]
    lists = {name for name in os.listdir(out) if name.startswith("archive-")}
    wanted = {f"archive-{it}.edl" for it in ("24", "25", "29.97", "29.97d")}
    assert {name for name in lists if name.endswith(".edl")} == wanted, lists
    for name in lists:
        with open(os.path.join(out, name), encoding="utf-8") as file:
            text = file.read()
        assert "slow.wav" not in text and "near.wav" not in text, name
        is_by_speed = name[len("archive-") : -len(".edl")] in ("24", "29.97")
        assert ("by the speed alone" in text) == is_by_speed, f"{name}\n{text}"
    slow = os.path.join(folder, "slow.wav")
    out_text, _ = tape(slow)
    has(out_text, "track 1, 30 or 29.97 frames a second", "rate          undecided: 29.39")
    has(out_text, "frames a second may be 30 or 29.97: say --rate")
    copy = os.path.join(room, "no.wav")
    tape(slow, "--stamp", copy, status=3)
    said = json.loads(tape(slow, "--json", "--rate", "30")[0])
    assert (said["rate"], said["rate_by"], said["spans"][0]["rate_by"]) == ("30", "told", "told"), said


def try_two_codes(room):
    """Two codes on two tracks are both in report and table, and a stamp asks which is meant."""
    one, two = made("25", "10:00:00:00", 90), made("25", "20:00:00:00", 80)
    path, copy = wav(os.path.join(room, "two.wav"), 48_000, [one, two]), os.path.join(room, "copy.wav")
    out, notes = tape(path, "--stamp", copy, status=3)
    has(out, "track 2       25 frames a second, 20:00:00:00 to")
    has(notes, "track 2 has a code of its own: say --track")
    said = json.loads(tape(path, "--json")[0])
    assert said["other_codes"].startswith("track 2: 20:00:00:00 to 20:00:03:0"), said
    assert said["stamp"].startswith("no: track 2"), said
    tape(path, "--track", "2", "--stamp", copy)
    same = wav(os.path.join(room, "same.wav"), 48_000, [one, one])
    tape(same, "--stamp", copy, "--force")
    assert json.loads(tape(same, "--json")[0])["other_codes"] == ""


def try_one_object(room):
    """One JSON object a file, also where a stamp is refused, with the reason in its note."""
    path = wav(os.path.join(room, "little.wav"), 48_000, [made("25", "10:00:00:00", 40)])
    out, notes = tape(path, "--json", "--stamp", os.path.join(room, "no.wav"), status=3)
    lines = out.splitlines()
    assert len(lines) == 1, out
    said = json.loads(lines[0])
    assert said["status"] == "code" and "less than two seconds" in said["note"], said
    has(notes, "no stamp, since it is not sure")
    out, _ = tape(path, "--json", "--page", path, status=3)
    assert len(out.splitlines()) == 1, out


def try_picture_and_sound_apart(room):
    """Where the picture says other labels than the sound, --vitc with --stamp is refused; without --vitc it is not."""
    fields = line_bits("25", "10:00:00:00", 75)
    for label, status in (("10:00:00:05", 3), ("10:00:00:00", 0)):
        path = film(room, f"apart{status}.mkv", fields, sound_of(room, "sound.wav", label, 75))
        copy = os.path.join(room, f"copy{status}.mov")
        _, notes = tape(path, "--vitc", "--stamp", copy, status=status)
        assert os.path.exists(copy) == (status == 0), notes
        if status:
            has(notes, "5 frames behind the sound", "without --vitc it is stamped by the sound")
            tape(path, "--stamp", copy)


def tags_in(path):
    told = run("ffprobe", "-v", "error", "-show_entries", "stream_tags:format_tags", "-of", "json", path)[1]
    said = json.loads(told)
    return [tags for part in (said.get("format", {}), *said["streams"]) for tags in [part.get("tags", {})]]


def try_metadata(room):
    """A copy keeps what is said of its file, its reel and its streams of data; what it does not keep is told."""
    samples = made("25", "10:00:00:00", 100)
    plain = video(room, "plain.mov", samples)
    path, copy = os.path.join(room, "tape.mov"), os.path.join(room, "copy.mov")
    words = ["ffmpeg", "-v", "error", "-i", plain, "-map", "0", "-c", "copy", "-timecode", "01:00:00:00"]
    words += ["-movflags", "use_metadata_tags", "-metadata", "creation_time=1999-12-31T23:59:59.000000Z"]
    words += ["-metadata", "com.example.house=Machine room 5", "-metadata", "title=Reel 12"]
    subprocess.run([*words, "-metadata:s:v:0", "reel_name=REEL12", path], check=True)
    out, notes = tape(path, "--stamp", copy)
    assert timecode_in(copy) == "09:59:59:22", timecode_in(copy)
    both = [{key: value for tags in tags_in(it) for key, value in tags.items()} for it in (path, copy)]
    for name in ("creation_time", "com.example.house", "title", "reel_name"):
        assert both[0].get(name) and both[0][name] == both[1].get(name), f"{name}: {both}"
    assert "not kept" not in out + notes, out + notes
    # A stream that the form of the copy does not take.
    text = os.path.join(room, "words.srt")
    with open(text, "w", encoding="ascii") as file:
        file.write("1\n00:00:00,000 --> 00:00:01,000\nhello\n")
    with_text = os.path.join(room, "text.mkv")
    words = ["ffmpeg", "-v", "error", "-i", plain, "-i", text, "-map", "0:v", "-map", "0:a", "-map", "1"]
    subprocess.run([*words, "-c", "copy", "-c:s", "srt", with_text], check=True)
    out, notes = tape(with_text, "--stamp", os.path.join(room, "text.mov"))
    has(out, "copy          not kept: a stream (subtitle subrip)")
    has(notes, "not kept: a stream (subtitle subrip)")
    said = json.loads(tape(with_text, "--json", "--stamp", os.path.join(room, "text.mov"), "--force")[0])
    has(said["note"], "not kept: a stream (subtitle subrip)")


def try_ixml_and_xmp(room):
    """iXML says the rate of the stamp and whether labels are dropped; what XMP says else is told."""
    more = "<TIMECODE_RATE>25/1</TIMECODE_RATE><TIMECODE_FLAG>NDF</TIMECODE_FLAG>"
    xmp = chunk(b"_PMX", b'<xmpDM:startTimecode xmpDM:timeFormat="25Timecode" xmpDM:timeValue="01:00:00:00"/>')
    samples = made("30d", "10:00:00;00", 90, 30 / 1.001)
    path = wav(os.path.join(room, "tape.wav"), 48_000, [samples], chunks=bext() + ixml(more=more), behind=xmp)
    copy = os.path.join(room, "copy.wav")
    out, notes = tape(path, "--stamp", copy)
    text = dict(chunks_in(copy))[b"iXML"].decode("ascii")
    assert re.search("<TIMECODE_RATE>(.*?)<", text)[1] == "30000/1001", text
    assert re.search("<TIMECODE_FLAG>(.*?)<", text)[1] == "DF", text
    has(out, "copy          XMP says 01:00:00:00 and is left as it is")
    has(notes, "XMP says 01:00:00:00")


def try_tracks_beside(room):
    """Programme beside the code is no second code."""
    samples = made("25", "10:00:00:00", 90)
    path = wav(os.path.join(room, "both.wav"), 48_000, [tone(len(samples), 48_000), samples])
    ended, out, _ = run(TAPE, path, "--json")
    assert ended == 0 and json.loads(out)["stamp"] == "yes", out
