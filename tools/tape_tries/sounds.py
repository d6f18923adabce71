"""Sounds that go through ffmpeg, and what its end counts for."""
import os
import re
import struct
import subprocess

from . import running
from .making import chunks_in, code, intervals, reference_in, wav
from .running import TAPE, NotTried, has, run, tape, want


def try_music(room):
    """Music of a Debian package has no code, and code beside it is found."""
    want("ffmpeg", "ffprobe")
    music = os.environ.get("MUSIC", "/usr/share/games/frozen-bubble/snd/introzik.ogg")
    if not os.path.exists(music):
        raise NotTried(f"music (frozen-bubble-data, or MUSIC names a file): {music}")
    seconds, path = 30 if running.is_long else 10, os.path.join(room, "music.wav")
    begin = os.path.join(room, "begin" + os.path.splitext(music)[1])
    whole = ["ffmpeg", "-v", "error", "-y"]
    subprocess.run([*whole, "-i", music, "-t", str(seconds), "-c", "copy", begin], check=True)
    subprocess.run([*whole, "-i", begin, "-ar", "48000", path], check=True)
    out, _ = tape(path, status=1)
    has(out, "2 tracks", "code          none found", "crossings a second")
    rough, _ = tape(begin, status=1)
    crossings = [[int(each) for each in re.findall(r"(\d+) crossings a second", told)] for told in (out, rough)]
    assert len(crossings[0]) == len(crossings[1]) == 2, crossings
    assert all(0.5 < one / other < 2 for one, other in zip(*crossings)), f"as WAV and as it is: {crossings}"
    words = ["ffmpeg", "-v", "error", "-i", path, "-ac", "1", "-c:a", "pcm_s16le", "-f", "s16le", "-"]
    data = subprocess.run(words, stdout=subprocess.PIPE, check=True).stdout
    sound = list(struct.unpack(f"<{len(data) // 2}h", data))
    made = code(48_000, intervals("25", "10:00:00:00", 25 * (seconds - 1)), lead=4800)
    for tracks, number in (([sound, made], 2), ([made, sound], 1)):
        out, _ = tape(wav(os.path.join(room, "both.wav"), 48_000, tracks))
        has(out, f"code          track {number}, 25 frames a second; sure")
        has(out, f"heard         {25 * (seconds - 1)} frames, 0 bridged")
        has(out, f"{3 - number}: 0 frames heard")


def try_mp3(room):
    want("ffmpeg", "ffprobe")
    made = code(48_000, intervals("25", "10:00:00:00", 250), lead=9600)
    path, packed_path = wav(os.path.join(room, "long.wav"), 48_000, [made]), os.path.join(room, "tape.mp3")
    subprocess.run(["ffmpeg", "-v", "error", "-y", "-i", path, "-b:a", "128k", packed_path], check=True)
    out, _ = tape(packed_path)
    has(out, "25 frames a second", "mp3")


def converted(room, name, *words):
    """The plain tape, in another form, by ffmpeg."""
    want("ffmpeg", "ffprobe")
    made = code(48_000, intervals("25", "10:00:00:00", 100), lead=9600)
    path, other = wav(os.path.join(room, "plain.wav"), 48_000, [made]), os.path.join(room, name)
    subprocess.run(["ffmpeg", "-v", "error", "-nostdin", "-y", "-i", path, *words, other], check=True)
    return other


def try_every_form(room):
    """Forms that `tc` does not take are read by ffmpeg, and WAV of floats has its stamp too."""
    for name, *words in (
        ("float.wav", "-c:a", "pcm_f32le"),
        ("double.wav", "-c:a", "pcm_f64le"),
        ("alaw.wav", "-c:a", "pcm_alaw"),
        ("adpcm.wav", "-c:a", "adpcm_ima_wav"),
        ("tape.aiff",),
        ("tape.flac",),
        ("tape.w64",),
        ("tape.avi", "-c:a", "pcm_s16le"),
        ("tape.mka", "-c:a", "flac"),
    ):
        path = converted(room, name, *words)
        out, _ = tape(path)
        has(out, "forward  10:00:00:00 to 10:00:03:24", "first sample  09:59:59:20")
    copy = os.path.join(room, "stamped.wav")
    tape(os.path.join(room, "float.wav"), "--stamp", copy)
    letters = [name for name, _ in chunks_in(copy)]
    assert (
        letters.count(b"bext") == 1
        and dict(chunks_in(copy))[b"data"] == dict(chunks_in(os.path.join(room, "float.wav")))[b"data"]
    )
    for name in ("tape.aiff", "tape.flac", "tape.w64"):
        for end in ("wav", "mov"):
            _, notes = tape(os.path.join(room, name), "--stamp", os.path.join(room, "no." + end), status=3)
            has(notes, name[5:].upper(), "ffmpeg -i FILE FILE.wav")
    assert not [name for name in os.listdir(room) if name.startswith("no.")], "a copy was left"


def try_decoder_that_fails(room):
    """A decoder that ends early is named in the report, with how far it came; one that gives nothing fails."""
    made = code(48_000, intervals("25", "10:00:00:00", 300))
    path = wav(os.path.join(room, "plain.wav"), 48_000, [made])
    want("ffmpeg", "ffprobe", "flac")
    short = os.path.join(room, "short.flac")
    subprocess.run(["flac", "-s", "-f", "-o", short, path], check=True)
    with open(short, "r+b") as file:
        file.truncate(os.path.getsize(short) // 6)
    out, _ = tape(short)
    told = re.search(r"note          read to 0:0(\d) of 0:12; ?|note          read to 0:0(\d) of 0:12", out)
    assert told and int(told[1] or told[2]) in (1, 2, 3), out
    with open(short, "r+b") as file:
        file.truncate(100)
    _, notes = tape(short, status=3)
    has(notes, "short.flac: ")


def try_standard_input(room):
    """A pipe, a file as the standard input, and names with a dash at the front."""
    path = wav(os.path.join(room, "-dash.wav"), 48_000, [code(48_000, intervals("25", "10:00:00:00", 60), lead=480)])
    with open(path, "rb") as file:
        data = file.read()
    want_line = "first sample  10:00:00:00 less 528 samples, 1727999472"
    for name in ("-", "/dev/stdin"):
        ended, out, notes = run(TAPE, name, input=data)
        assert ended == 0, notes
        has(out, want_line)
        with open(path, "rb") as file:
            ended, out, notes = run(TAPE, name, stdin=file)
        assert ended == 0, notes
        has(out, want_line)
        with open(path, "rb") as file:
            ended, _, notes = run(TAPE, name, "--stamp", path, "--force", stdin=file)
        assert ended == 3, notes
        has(notes, "it is the tape itself")
    ended, out, notes = run(TAPE, "--", "-dash.wav", cwd=room)
    assert ended == 0, notes
    has(out, want_line)
    copy = os.path.join(room, "copy.wav")
    ended, _, notes = run(TAPE, "-", "--stamp", copy, input=data)
    assert ended == 0 and reference_in(copy)[0] == 1_727_999_472, notes
    fifo = os.path.join(room, "fifo")
    os.mkfifo(fifo)
    feeding = subprocess.Popen(["cp", path, fifo])
    out, _ = tape(fifo)
    feeding.wait()
    has(out, want_line)


def try_dash_by_ffmpeg(room):
    """Names that ffmpeg could take for options or protocols."""
    converted(room, "plain.flac")
    for name in ("-dash.flac", "http:x.flac", "concat:a|b.flac", "%d.flac", "pipe:0.flac"):
        os.link(os.path.join(room, "plain.flac"), os.path.join(room, name))
        ended, out, notes = run(TAPE, "--", name, cwd=room)
        assert ended == 0, f"{name}: {notes}"
        has(out, "forward  10:00:00:00")


def try_open_sizes(room):
    """Sizes that writers to a pipe leave are lengths that are not known: the sound goes to the end of the file."""
    made = code(48_000, intervals("25", "10:00:00:00", 60), lead=480)
    path = wav(os.path.join(room, "open.wav"), 48_000, [made])
    for riff, data in (
        (0, 0),
        (36, 0),
        (0xFFFFFFFF, 0xFFFFFFFF),
        (0x7FFFF024, 0x7FFFF000),
        (0x7FFF0024, 0x7FFF0000),
        (0x80000024, 0x80000000),
    ):
        with open(path, "r+b") as file:
            for place, value in ((4, riff), (40, data)):
                file.seek(place)
                file.write(struct.pack("<I", value))
        out, _ = tape(path)
        has(out, "forward  10:00:00:00 to 10:00:02:09", "0:00:02.41", "first sample  10:00:00:00 less 528 samples")
        assert "note" not in out, f"{data:#x}: {out}"
        copy = os.path.join(room, "copy.wav")
        tape(path, "--stamp", copy, "--force")
        again, _ = tape(copy)
        assert again.split("\n")[2:] == out.split("\n")[2:], f"{data:#x}: {again}"
