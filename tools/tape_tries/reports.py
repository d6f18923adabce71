"""What the report of a tape says, and its other forms."""
import csv
import json
import math
import os
import random
import re
import shutil
import sys

from .making import TC, TOP, code, intervals, tone, wav
from .running import ARCHIVE, TAPE, NotTried, has, run, tape, want

sys.path.insert(0, os.path.join(TOP, "tools"))
from tape_report.breaks import breaks_of
from tape_report.labels import label_of
from tape_report.spans import Reading, spans_in


def try_right_track(room):
    made = code(96_000, intervals("25", "10:00:00:00", 100), lead=4800)
    path = wav(os.path.join(room, "right.wav"), 96_000, [tone(len(made), 96_000), made], 24)
    out, _ = tape(path)
    has(out, "track 2, 25 frames a second; sure", "forward  10:00:00:00 to 10:00:03:24", "2 tracks")


def try_counts(room):
    for count, label, shown, rate in (
        ("24", "01:00:00:00", "24 frames a second", 24),
        ("25", "01:00:00:00", "25 frames a second", 25),
        ("30", "01:00:00:00", "30 frames a second", 30),
        ("30", "01:00:00:00", "29.97 frames a second", 30 / 1.001),
        ("30d", "01:00:58;00", "29.97 frames a second, drop-frame", 30 / 1.001),
    ):
        made = code(48_000, intervals(count, label, 120, rate=rate))
        out, _ = tape(wav(os.path.join(room, "count.wav"), 48_000, [made]))
        has(out, shown + "; sure")


def try_options(room):
    """What each option changes: a track, a system, gaps that are bridged, low sound, and hiss."""
    made = code(48_000, intervals("25", "10:00:00:00", 60))
    other = code(48_000, intervals("25", "20:00:00:00", 100))
    both = wav(os.path.join(room, "both.wav"), 48_000, [made, other])
    out, _ = tape(both)
    has(out, "track 2", "20:00:00:00 to")
    out, _ = tape(both, "--track", "1")
    has(out, "track 1", "10:00:00:00 to")
    _, notes = tape(both, "--track", "3", status=3)
    has(notes, "no track 3, but 2")
    out, _ = tape(both, "--system", "30")
    has(out, "the system was given", "jumps 3", "step 6")
    tape(both, "--system", "26", status=2)
    # Three frames are silent: the words of four are not heard.
    frame = 48_000 // 25
    holed = made[: 30 * frame] + [0] * (3 * frame) + made[33 * frame :]
    path = wav(os.path.join(room, "holed.wav"), 48_000, [holed])
    for limit, spans in (("0", 2), ("2", 2), ("5", 1)):
        out, _ = tape(path, "--limit", limit, "--csv")
        assert len(out.splitlines()) == 1 + spans, f"--limit {limit}\n{out}"
    tape(path, "--limit", "256", status=2)
    low = wav(os.path.join(room, "low.wav"), 48_000, [[sample // 100 for sample in made]])
    out, _ = tape(low, "--threshold", "250", status=1)
    has(out, "very quiet: try --threshold 20")
    out, _ = tape(low, "--threshold", "20")
    has(out, "25 frames a second")
    out, _ = tape(low)
    has(out, "25 frames a second", "front end     threshold 20; tried threshold 20")


def margin_told(path, *words):
    """The decibels of the margin in the report; None if there is none."""
    out, _ = tape(path, "--margin", *words)
    found = re.search(r"\nmargin        every word was read; the noise could be some (\d+) dB louder", out)
    return int(found[1]) if found else None


def try_margin(room):
    """The margin is reported if every word was read, it shrinks as the noise grows, and the noise may grow by it."""
    chance = random.Random(9)
    made = code(48_000, intervals("25", "10:00:00:00", 60), lead=2400)
    hiss = [chance.uniform(-1, 1) for _ in made]

    def with_noise(name, loud):
        return wav(os.path.join(room, name), 48_000, [[round(a + loud * b) for a, b in zip(made, hiss)]])

    told = [margin_told(with_noise(f"hiss{loud}.wav", loud)) for loud in (90, 285, 900)]
    assert None not in told and told[0] >= told[1] + 6 and told[1] >= told[2] + 6, f"{told}"
    louder = with_noise("louder.wav", 900 * 10 ** (told[2] / 20))
    out, _ = tape(louder, "--csv")
    assert [row["heard"] for row in csv.DictReader(out.splitlines())] == ["60"], out
    # Not if a word is missing, if the noise covers words, of few words, or by a table.
    frame = 48_000 // 25
    holed = made[: 30 * frame] + [0] * frame + made[31 * frame :]
    assert margin_told(wav(os.path.join(room, "holed.wav"), 48_000, [holed])) is None
    assert margin_told(with_noise("covered.wav", 8000)) is None
    assert margin_told(wav(os.path.join(room, "few.wav"), 48_000, [made[: 20 * frame]])) is None
    out, _ = tape(louder, "--json")
    assert "margin" not in out, out


def try_margins_of_a_folder(room):
    """With --margin the reports of a folder have the lines that the tool has for each tape, and else they have none."""
    want("parallel")
    folder = os.path.join(room, "folder")
    os.makedirs(folder)
    made = code(48_000, intervals("25", "10:00:00:00", 60), lead=2400)
    frame = 48_000 // 25
    wav(os.path.join(folder, "whole.wav"), 48_000, [made])
    wav(os.path.join(folder, "holed.wav"), 48_000, [made[: 30 * frame] + [0] * frame + made[31 * frame :]])

    def reports(out, *words):
        ended, told, notes = run(ARCHIVE, folder, out, *words)
        assert ended == 0, told + notes
        rooms = os.path.join(out, "tapes")
        return [
            open(os.path.join(rooms, name, "report.txt"), encoding="utf-8").read()
            for name in ("holed.wav", "whole.wav")
        ]

    out = os.path.join(room, "out")
    assert not any("margin" in text for text in reports(out)), "a margin that was not asked for"
    holed, whole = reports(out, "--resume", "--margin")
    assert "margin" not in holed, holed
    mine, _ = tape(os.path.join(folder, "whole.wav"), "--margin")
    line = re.search(r"^margin .*$", mine, re.M)
    assert line and line[0] in whole, whole


def heard_of(path, *words):
    """How many frames are heard as 25 a second."""
    _, out, _ = run(TAPE, path, "--csv", "--system", "25", *words)
    return sum(int(row["heard"]) for row in csv.DictReader(out.splitlines()))


def hissy_and_hummed(room):
    """Code in hiss, and code on a hum, both as from a tape."""
    chance = random.Random(1)
    made = code(48_000, intervals("25", "10:00:00:00", 100))
    noisy = [round(sample / 2 + chance.gauss(0, 2400)) for sample in made]
    humming, held = [], 0.0
    for number, sample in enumerate(made):
        # Sound above 5000 Hz is weaker, as from a tape.
        held += (1 - math.exp(-2 * math.pi * 5000 / 48_000)) * (sample / 2 - held)
        humming.append(round(held + 3000 * math.sin(2 * math.pi * 50 * number / 48_000)))
    return (wav(os.path.join(room, name), 48_000, [it]) for name, it in (("hissy.wav", noisy), ("hum.wav", humming)))


def try_hiss_and_hum(room):
    """Sums read what is lost in hiss, and a lower threshold what a hum carries up and down."""
    hissy, hummed = hissy_and_hummed(room)
    plain, sums = heard_of(hissy, "--smooth", "1"), heard_of(hissy, "--smooth", "3")
    assert plain < 20 and sums > 95, f"of hiss {plain}, with sums {sums}"
    plain, deep = heard_of(hummed, "--smooth", "1"), heard_of(hummed, "--deep")
    assert plain < 20 and deep > 95, f"of hum {plain}, deep {deep}"
    tape(hissy, "--smooth", "17", status=2)


def try_front_ends(room):
    """If frames are missing the best path is tried, and where it hears no code the others; the report says which was
    taken.
    """
    hissy, hummed = hissy_and_hummed(room)
    for path in (hissy, hummed):
        assert heard_of(path) > 95, f"{path}: {heard_of(path)} frames"
        out, _ = tape(path)
        assert re.search(r"\nfront end     best path; tried best path; without the path \d+ frames", out), out
    # A loud hum, which only a filter takes away.
    made = code(48_000, intervals("25", "10:00:00:00", 100), size=3000)
    loud = [
        round(sample + 12_000 * math.sin(2 * math.pi * 50 * number / 48_000)) for number, sample in enumerate(made)
    ]
    path = wav(os.path.join(room, "loud.wav"), 48_000, [loud])
    want("ffmpeg")
    assert heard_of(path) > 90, f"of a loud hum {heard_of(path)} frames"
    # Of so few samples a second there is no path, and a filter gives no stamp.
    slow = code(4_000, intervals("25", "10:00:00:00", 100, rate=5), size=3000)
    loud = [round(it + 12_000 * math.sin(2 * math.pi * 10 * n / 4_000)) for n, it in enumerate(slow)]
    path = wav(os.path.join(room, "loud.wav"), 4_000, [loud])
    out, notes = tape(path, "--stamp", os.path.join(room, "no.wav"), status=3)
    has(out, "front end     high-pass at 300 Hz")
    has(notes, "a filter moves the code by some samples")
    # Code that is heard well is read once, and what is no code is said to have been tried.
    out, _ = tape(wav(os.path.join(room, "plain.wav"), 48_000, [code(48_000, intervals("25", "10:00:00:00", 100))]))
    assert "front end" not in out, out
    chance = random.Random(3)
    noise = [chance.randrange(-9000, 9000) for _ in range(96_000)]
    out, _ = tape(wav(os.path.join(room, "noise.wav"), 48_000, [noise]), status=1)
    has(out, "front ends    tried best path, sums of 3, deep")


def try_best_path(room):
    """In loud noise the best path hears what sums do not, from one track of several and from any width."""
    chance = random.Random(5)
    made = code(48_000, intervals("25", "10:00:00:00", 100), size=6000)
    loud = [max(-32_768, min(32_767, round(sample + chance.gauss(0, 4200)))) for sample in made]
    other = tone(len(loud), 48_000)
    for name, tracks, bits in (("loud.wav", [loud], 16), ("pair.wav", [other, loud], 24)):
        path = wav(os.path.join(room, name), 48_000, tracks, bits)
        track = ("--track", str(len(tracks)))
        sums, best = heard_of(path, *track, "--smooth", "3"), heard_of(path, *track, "--path")
        assert best > 95 and best > sums + 20, f"{name}: with the path {best}, with sums {sums}"
    out, _ = tape(path, "--track", "2")
    assert re.search(r"\nfront end     best path; tried best path; without the path \d+ frames", out), out
    tape(path, "--path", "--deep", status=2)


def try_path_where_nothing_is_heard(room):
    """In noise at the level of the code, of which the plain way hears nothing, the path is tried and hears nearly all;
    and brought to more samples a second, sound of few.
    """
    want("ffmpeg")
    chance = random.Random(7)
    for rate, loud, least in ((48_000, 8_000, 97), (8_000, 3_000, 97)):
        made = code(rate, intervals("25", "10:00:00:00", 100), size=8_000)
        noisy = [max(-32_768, min(32_767, round(it + chance.gauss(0, loud)))) for it in made]
        path = wav(os.path.join(room, f"{rate}.wav"), rate, [noisy])
        out, _ = tape(path)
        heard = int(re.search(r"\nheard         (\d+) frames", out)[1])
        assert heard >= least, f"at {rate} {heard} frames\n{out}"
        has(out, "front end     best path", "25 frames a second; sure")


def behind_a_capacitor(samples, hertz, rate):
    """The samples through a high-pass of two poles."""
    keep = 1 / (1 + 2 * math.pi * hertz / rate)
    for _ in range(2):
        held, last, behind = 0.0, 0.0, []
        for sample in samples:
            held, last = keep * (held + sample - last), sample
            behind.append(held)
        samples = behind
    return samples


def try_path_twice(room):
    """Sound of a capacitor, of which the path misses frames, is read through a filter that is fitted to them: nearly all
    of it is heard, the report and the JSON say how, and the words lie where the path had them, as does the stamp.
    """
    if run("/usr/bin/env", "python3", "-c", "import numpy")[0] != 0:
        raise NotTried("numpy (Debian: python3-numpy)")
    chance = random.Random(86)
    made = code(48_000, intervals("25", "10:00:00:00", 200), lead=4_801, size=8_000)
    noisy = [round(it + chance.gauss(0, 2_600)) for it in behind_a_capacitor(made, 1_500, 48_000)]
    path = wav(os.path.join(room, "tape.wav"), 48_000, [[max(-32_768, min(32_767, it)) for it in noisy]])
    once, twice = heard_of(path, "--path"), heard_of(path)
    assert once < 180 and twice > 190, f"{once} frames with the path, {twice} with the path twice"
    out, _ = tape(path)
    has(out, "front end     best path twice; tried best path, best path twice; without the path")
    said = json.loads(tape(path, "--json")[0])
    assert said["front_end"] == "best path twice" and said["stamp"] == "yes", said
    before = json.loads(tape(path, "--json", "--path")[0])
    assert abs(said["reference"] - before["reference"]) <= 1, f"{said['reference']} for {before['reference']}"
    assert abs(said["spans"][0]["begins"] - before["spans"][0]["begins"]) * 25 % 1 < 0.002, (said, before)
    # Without numpy the path stands as it is.
    os.mkdir(os.path.join(room, "none"))
    with open(os.path.join(room, "none", "numpy.py"), "w", encoding="ascii") as file:
        file.write("raise ImportError('none here')\n")
    ended, out, notes = run(TAPE, path, env={**os.environ, "PYTHONPATH": os.path.join(room, "none")})
    assert ended == 0 and not notes, notes
    has(out, "front end     best path; tried best path; without the path", f"heard         {once} frames")


def try_right_system_in_noise(room):
    """A false word or two make no other system: labels that break off each second count against it."""
    form = "span forward 10:00:{0:02}:00 10:00:{0:02}:24 heard 25 bridged 0 tick {0} {0} speed 1000"
    spans = [form.format(number) for number in range(9)]
    one = "span forward 10:00:00:00 10:00:08:24 heard 224 bridged 0 tick 0 9 speed 1000"
    read = {25: spans_in([one])[0], 30: spans_in(spans)[0]}
    systems = [Reading(1, system, 48_000, "plain", spans=found) for system, found in read.items()]
    assert max(systems, key=Reading.merit).system == 25


def try_too_few_frames(room):
    """Some frames of minutes of sound are no finding of a system."""
    made = code(48_000, intervals("25", "10:00:00:03", 12), lead=4_800)
    out, _ = tape(wav(os.path.join(room, "few.wav"), 48_000, [made]))
    has(out, "code          track 1, too few frames for a system; not sure: less than a second of code")
    said = json.loads(tape(os.path.join(room, "few.wav"), "--json")[0])
    assert (said["system"], said["rate"], said["rate_by"]) == (None, "", "undecided") and 0 < said["heard"] <= 12, said


def try_tracks(room):
    """Each track's own code is reported, if they differ; the same code on two is reported once."""
    one, two = (code(48_000, intervals("25", label, 60)) for label in ("10:00:00:00", "20:00:00:00"))
    out, _ = tape(wav(os.path.join(room, "two.wav"), 48_000, [one, two, one]))
    has(out, "track 2       25 frames a second, 20:00:00:00 to 20:00:02:0", "track 1, 25 frames")
    assert "\ntrack 3 " not in out, out


def try_misread_frames(_room):
    """Two spans of one frame side by side that fit the time, and a frame whose label was misread, are no jumps; a cut is."""
    frame = 30_720

    def breaks(*frames):
        """The breaks of spans of one frame each, between two long ones: at each place of `frames`, its label."""
        lines, at, before = [], 100, 100
        for place, label in ((100, 100), *frames, (110, 110)):
            text = label_of("25", label)
            if lines:
                lines.append(f"gap ticks {(place - at) * frame} step {label - before}")
            lines.append(f"span forward {text} {text} heard 1 bridged 0 tick {place * frame} {place * frame} speed 0")
            at, before = place, label
        first = f"span forward {label_of('25', 0)} {label_of('25', 99)} heard 100 bridged 0 tick 0 {99 * frame} speed 1000"
        lines = [
            first,
            f"gap ticks {frame} step 1",
            *lines,
            f"end intervals 1 spans 9 heard 1 bridged 0 ticks {120 * frame}",
        ]
        spans, ticks = spans_in(lines)
        return breaks_of(Reading(1, 25, 48_000, "plain", spans=spans, ticks=ticks))

    for frames, dropouts, jumps in (
        (((101, 101), (102, 102)), 1, 0),
        (((105, 2000),), 1, 0),
        (((105, 105), (106, 106), (108, 50)), 2, 0),
        (((105, 205), (106, 206)), 0, 2),
    ):
        found = breaks(*frames)
        assert (found.dropouts, found.jumps) == (dropouts, jumps), f"{frames}: {found}"


def try_false_jumps(room):
    """Labels that fit the time are no jump: on a noisy tape that is whole there are none, between single frames
    neither.
    """
    chance = random.Random(5)
    made = code(48_000, intervals("25", "10:00:00:00", 500))
    noisy = [round(sample / 2 + chance.gauss(0, 1500)) for sample in made]
    path = wav(os.path.join(room, "noisy.wav"), 48_000, [noisy])
    out, _ = tape(path, "--limit", "0", "--smooth", "1")
    spans = out.count("    forward")
    assert spans > 14, f"only {spans} spans\n{out}"
    lone = len(re.findall(r"heard 1 bridged 0", out))
    has(out, "jumps 0, turns 0")
    return f"{spans} spans, {lone} of them one frame"


def try_no_ffmpeg(room):
    """If ffmpeg is not installed WAV files are read as ever, and others are refused with a word."""
    path = wav(os.path.join(room, "sound.wav"), 48_000, [code(48_000, intervals("25", "10:00:00:00", 60))])
    bare = os.path.join(room, "bin")
    os.mkdir(bare)
    os.symlink(shutil.which("python3"), os.path.join(bare, "python3"))
    there = {**os.environ, "PATH": bare, "TC": TC}
    ended, out, notes = run(sys.executable, TAPE, path, env=there)
    assert ended == 0, out + notes
    other = os.path.join(room, "sound.mp3")
    with open(other, "wb") as file:
        file.write(b"ID3 no sound at all")
    ended, out, notes = run(sys.executable, TAPE, other, env=there)
    assert ended == 3 and not out, out
    has(notes, "it is no WAV file, and ffmpeg, which reads others, is not installed")
    ended, _, notes = run(sys.executable, ARCHIVE, room, os.path.join(room, "out"), env=there)
    assert ended == 3, notes
    has(notes, "GNU parallel is not installed (Debian: parallel)")


def try_breaks(room):
    one, two = intervals("25", "10:00:00:00", 60), intervals("25", "10:00:04:00", 60)
    three = intervals("25", "20:00:00:00", 60)
    made = code(48_000, one) + [0] * (48_000 * 8 // 5 - 3) + code(48_000, two) + code(48_000, three)
    out, _ = tape(wav(os.path.join(room, "breaks.wav"), 48_000, [made]))
    has(out, "drop-outs 1, jumps 1, turns 0")


def try_no_code(room):
    silent = wav(os.path.join(room, "silent.wav"), 48_000, [[0] * 96_000])
    out, _ = tape(silent, status=1)
    has(out, "code          none found", "silence")
    out, _ = tape(wav(os.path.join(room, "tone.wav"), 48_000, [tone(96_000, 48_000)]), status=1)
    has(out, "none found", "crossings a second")


def try_bad_files(room):
    for name, data, said in (
        ("text.txt", b"no sound\n", "tape: "),
        ("empty.wav", b"", "it is empty"),
        ("cut.wav", b"RIFF\0\0\0\0WAVEfmt ", "truncated"),
    ):
        path = os.path.join(room, name)
        with open(path, "wb") as out:
            out.write(data)
        _, notes = tape(path, status=3)
        has(notes, said)
    _, notes = tape(os.path.join(room, "missing.wav"), status=3)
    has(notes, "no such file")
    tape(status=2)
    tape("x.wav", "--track", "65", status=2)


def try_cut_short(room):
    """What was heard before the cut is reported, with the note."""
    path = wav(os.path.join(room, "short.wav"), 48_000, [code(48_000, intervals("25", "10:00:00:00", 100))])
    whole = open(path, "rb").read()
    with open(path, "wb") as out:
        out.write(whole[: len(whole) // 2])
    out, _ = tape(path)
    has(out, "forward  10:00:00:0", "note          tc: refused: truncated at byte")


def try_csv(room):
    path = wav(os.path.join(room, "rows.wav"), 48_000, [code(48_000, intervals("25", "10:00:00:00", 60))])
    out, _ = tape(path, "--csv")
    rows = list(csv.DictReader(out.splitlines()))
    assert len(rows) == 1 and rows[0]["direction"] == "forward" and rows[0]["system"] == "25", rows


def try_page(room):
    path = wav(os.path.join(room, "a & b <c>.wav"), 48_000, [code(48_000, intervals("25", "10:00:00:00", 60))])
    tape(path, "--page", os.path.join(room, "page.html"))
    text = open(os.path.join(room, "page.html"), encoding="utf-8").read()
    has(text, "a &amp; b &lt;c&gt;.wav", '"first":"10:00:00:0', '"words":[[')
    assert not re.search(r"https?://|src=|@import", text), "the page wants a network"


# A page shows the hint that the pointer would get at a place, and whether anything is out of its window.
ASKED = """<script>
const told = document.createElement("pre");
for (const s of PLACES) { tell(s); told.textContent += s + ": " + hint.textContent + "\\n"; }
const whole_page = document.documentElement, wider = whole_page.scrollWidth - whole_page.clientWidth;
told.textContent += "rows " + body.rows.length + ", wider by " + wider;
document.body.append(told);
</script>"""


def try_browser(room):
    """The page in a browser without a window of its own, at two sizes."""
    want("chromium")
    first, second = (code(48_000, intervals("25", label, 100)) for label in ("10:00:00:00", "20:00:00:00"))
    made = [0] * 48_000 + first + [0] * 48_000 + second
    page = os.path.join(room, "page.html")
    tape(wav(os.path.join(room, "a rather long name of a tape, side B.wav"), 48_000, [made]), "--page", page)
    with open(page, "a", encoding="utf-8") as file:
        file.write(ASKED.replace("PLACES", "[0.5, 3, 5.5, 8, 10.0005]"))
    for size in ("1280,900", "500,800"):
        words = ["chromium", "--headless", "--no-sandbox", "--disable-gpu", "--user-data-dir=" + room, "--dump-dom"]
        _, out, _ = run(*words, "--window-size=" + size, "file://" + page)
        has(out, "0.5: 0:00:00.500  no code before this", " 10:00:01:24  speed 1.000 forward  in span 1")
        has(out, "5.5: 0:00:05.500  gap of 1.041 s before span 2: step ", "forward  in span 2", "rows 2, wider by 0")


def try_picture(room):
    want("gnuplot")
    path = wav(os.path.join(room, "drawn.wav"), 48_000, [code(48_000, intervals("25", "10:00:00:00", 60))])
    tape(path, "--picture", os.path.join(room, "drawn.png"))
    assert open(os.path.join(room, "drawn.png"), "rb").read(8) == b"\x89PNG\r\n\x1a\n"
