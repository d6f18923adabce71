"""MOV, MP4 and MXF files, and their stamps."""
import os
import re
import struct
import subprocess

from .making import code, intervals, tone, wav
from .running import has, run, tape, want


def video(room, name, made, rate="25", coded=("mpeg4", "pcm_s16le"), offset="0"):
    """A video file with the code on its second sound, which begins `offset` seconds behind the picture."""
    want("ffmpeg", "ffprobe")
    one = wav(os.path.join(room, "one.wav"), 48_000, [tone(len(made), 48_000)])
    two = wav(os.path.join(room, "two.wav"), 48_000, [made])
    path = os.path.join(room, name)
    words = ["ffmpeg", "-v", "error", "-y", "-f", "lavfi", "-i", f"color=s=176x144:r={rate}:d=4", "-i", one]
    words += ["-itsoffset", offset, "-i", two, "-map", "0:v", "-map", "1:a", "-map", "2:a"]
    subprocess.run([*words, "-c:v", coded[0], "-c:a", coded[1], path], check=True)
    return path


def timecode_in(path):
    """The timecode of a container as ffprobe gives it, of its streams or of the whole."""
    entries = "stream_tags=timecode:format_tags=timecode"
    _, told, _ = run("ffprobe", "-v", "error", "-show_entries", entries, "-of", "csv=p=0", path)
    return next(iter(re.findall(r"\d\d:\d\d:\d\d[:;]\d\d", told)), None)


def timecodes_in(path):
    """All that the container says, of its streams and of the whole: of MXF each package has a start of its own."""
    words = ["ffprobe", "-v", "error", "-show_entries", "stream_tags=timecode:format_tags=timecode", "-of", "csv=p=0"]
    return set(re.findall(r"\d\d:\d\d:\d\d[:;]\d\d", run(*words, path)[1]))


def try_containers(room):
    """MOV, MP4 and MXF files with their code on their second sound, and their stamps; of MOV also from Matroska."""
    made = code(48_000, intervals("25", "10:00:00:00", 100), lead=9600)
    for name, copy, coded in (
        ("tape.mov", "copy.mov", ("mpeg4", "pcm_s16le")),
        ("tape.mp4", "copy.mp4", ("mpeg4", "aac")),
        ("tape.mxf", "copy.mxf", ("mpeg2video", "pcm_s16le")),
        ("tape.mkv", "from.mov", ("mpeg4", "pcm_s16le")),
    ):
        path, copy = video(room, name, made, coded=coded), os.path.join(room, copy)
        out, _ = tape(path, "--stamp", copy, "--force")
        has(out, "track 2", "2 tracks", "first sample  09:59:59:20")
        assert timecode_in(copy) == "09:59:59:20", f"{name}: {timecode_in(copy)}"
        # The copy is read as the file was.
        again, _ = tape(copy)
        told = [line for line in out.split("\n")[2:] if not line.startswith("copy ")]
        assert again.split("\n")[2:] == told, again


def try_drop_in_containers(room):
    made = code(48_000, intervals("30d", "00:01:00;02", 100, rate=30 / 1.001), lead=1602)
    for name, coded in (
        ("tape.mov", ("mpeg4", "pcm_s16le")),
        ("tape.mp4", ("mpeg4", "aac")),
        ("tape.mxf", ("mpeg2video", "pcm_s16le")),
    ):
        copy = os.path.join(room, "copy" + name[4:])
        tape(video(room, name, made, "30000/1001", coded), "--stamp", copy, "--force")
        assert timecode_in(copy) == "00:00:59;29", f"{name}: {timecode_in(copy)}"
    # Twice as many pictures: of a minute four labels are dropped.
    copy = os.path.join(room, "copy.mov")
    tape(video(room, "tape.mov", made, "60000/1001"), "--stamp", copy, "--force")
    assert timecode_in(copy) == "00:00:59;58", timecode_in(copy)


XMP = b"""<x:xmpmeta xmlns:x="adobe:ns:meta/"><rdf:RDF xmlns:rdf="http://www.w3.org/1999/02/22-rdf-syntax-ns#">
<rdf:Description xmlns:xmpDM="http://ns.adobe.com/xmp/1.0/DynamicMedia/">
<xmpDM:startTimecode xmpDM:timeFormat="25Timecode" xmpDM:timeValue="01:00:00:00"/>
</rdf:Description></rdf:RDF></x:xmpmeta>"""
XMP_BOX = bytes.fromhex("be7acfcb97a942e89c71999491e3afac")


def box(name, body):
    return struct.pack(">I", 8 + len(body)) + name + body


def with_xmp(data):
    """A MOV whose last box is `moov`, with XMP in it as editors write it, and with XMP in a box behind it."""
    at, size = 0, 0
    while at + size < len(data):
        at += size
        size = int.from_bytes(data[at : at + 4], "big")
    assert data[at + 4 : at + 8] == b"moov", "ffmpeg writes it in another place"
    inside = data[:at] + box(b"moov", data[at + 8 :] + box(b"udta", box(b"XMP_", XMP)))
    return inside, data + box(b"uuid", XMP_BOX + XMP)


def try_xmp_in_a_mov(room):
    """XMP of a container may say when it begins; ffmpeg does not keep it, so the copy has none, and that is told."""
    path = video(room, "tape.mov", code(48_000, intervals("25", "10:00:00:00", 60), lead=9600))
    with open(path, "rb") as file:
        variants = with_xmp(file.read())
    for data in variants:
        copy = os.path.join(room, "copy.mov")
        with open(path, "wb") as file:
            file.write(data)
        out, _ = tape(path, "--stamp", copy, "--force")
        has(out, "copy          not kept: xmp")
        assert timecode_in(copy) == "09:59:59:20", timecode_in(copy)
        with open(copy, "rb") as file:
            assert b"startTimecode" not in file.read(), "the copy has XMP that says another beginning"


def try_pictures(room):
    """The label is that of the picture's first frame, in its frames; a picture of another rate gets none."""
    made = code(48_000, intervals("25", "10:00:00:00", 60), lead=9600)
    copy = os.path.join(room, "copy.mov")
    tape(video(room, "fast.mov", made, "50"), "--stamp", copy, "--force")
    assert timecode_in(copy) == "09:59:59:40", timecode_in(copy)
    tape(video(room, "late.mov", made, offset="2"), "--stamp", copy, "--force")
    assert timecode_in(copy) == "09:59:57:20", timecode_in(copy)
    # The first sample lies 0.45 frames behind a label, and then 0.45 before one, with the picture 0.4 before that.
    made = code(48_000, intervals("25", "10:00:00:00", 60), lead=8692)
    tape(video(room, "fast.mov", made, "50"), "--stamp", copy, "--force")
    assert timecode_in(copy) == "09:59:59:41", timecode_in(copy)
    made = code(48_000, intervals("25", "10:00:00:00", 60), lead=8492)
    tape(video(room, "late.mov", made, offset="0.016"), "--stamp", copy, "--force")
    assert timecode_in(copy) == "09:59:59:20", timecode_in(copy)
    made = code(48_000, intervals("25", "10:00:00:00", 60), lead=9600)
    # What was there before is replaced.
    for form, coded in (("mov", ("mpeg4", "pcm_s16le")), ("mxf", ("mpeg2video", "pcm_s16le"))):
        path, before = video(room, "plain." + form, made, coded=coded), os.path.join(room, "before." + form)
        words = ["ffmpeg", "-v", "error", "-i", path, "-map", "0:v", "-map", "0:a", "-c", "copy"]
        subprocess.run([*words, "-timecode", "01:00:00:00", before], check=True)
        assert timecode_in(before) == "01:00:00:00", timecode_in(before)
        copy = os.path.join(room, "copy." + form)
        tape(before, "--stamp", copy, "--force")
        assert timecodes_in(copy) == {"09:59:59:20"}, f"{form}: {timecodes_in(copy)}"
    other = os.path.join(room, "other.mov")
    _, notes = tape(video(room, "film.mov", made, "24"), "--stamp", other, status=3)
    has(notes, "25 frames a second and the picture 24")
    assert not [name for name in os.listdir(room) if name.startswith("other")], "a copy was left"


def try_no_picture(room):
    """A container without a picture has no place for a timecode, and a sound file is no container."""
    want("ffmpeg", "ffprobe")
    path = wav(os.path.join(room, "sound.wav"), 48_000, [code(48_000, intervals("25", "10:00:00:00", 60))])
    for name in ("sound.mov", "sound.mp4"):
        subprocess.run(["ffmpeg", "-v", "error", "-y", "-i", path, os.path.join(room, name)], check=True)
        for form in ("mov", "mp4", "mxf"):
            _, notes = tape(os.path.join(room, name), "--stamp", os.path.join(room, "no." + form), status=3)
            has(notes, "it has no picture")
        _, notes = tape(os.path.join(room, name), "--stamp", os.path.join(room, "no.wav"), status=3)
        has(notes, "to end in .mov, .mp4 or .mxf")
    _, notes = tape(path, "--stamp", os.path.join(room, "no.mov"), status=3)
    has(notes, "ends in .wav")
    assert not [name for name in os.listdir(room) if name.startswith("no.")], "a copy was left"
