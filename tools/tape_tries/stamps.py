"""Stamps of sound files: right to the sample, or not written."""
import itertools
import os
import random
import re
import struct
import subprocess

from . import running
from .making import TC, TOP, bext, chunk, chunks_in, code, intervals, ixml, packed, reference_in, wav
from .running import NotTried, has, run, tape, want


# The frame rates: a count, its frames a second, and how `--rate` and the report name it.
RATES = (
    ("24", 24 / 1.001, "23.976"),
    ("24", 24, "24"),
    ("25", 25, "25"),
    ("30", 30 / 1.001, "29.97"),
    ("30d", 30 / 1.001, "29.97"),
    ("30", 30, "30"),
)
SAMPLE_RATES = (44_100, 48_000, 96_000)
LEADS = (0, 1, 4_801, 48_000, 100_003)
LABELS = ("00:00:01:00", "00:01:00;02", "09:59:59:12", "10:00:00:00", "23:59:59:00")
LABELS_A_DAY = {"24": 2_073_600, "25": 2_160_000, "30": 2_592_000, "30d": 2_589_408}


def number_of(count, label):
    """How many labels come before it, as `tc` counts them."""
    mark = ";" if count == "30d" else ":"
    return int(run(TC, "number", count, label[:8] + mark + label[9:])[1].split()[-1])


def off_by(room, samples, rate, lead, label):
    """How many samples the stamp of drawn code is off what its encoder wrote."""
    count, frames, name = rate
    label = label[:8] + (";" if count == "30d" else ":") + label[9:]
    made = code(samples, intervals(count, label, 80, rate=frames), lead=lead)
    path, copy = wav(os.path.join(room, "place.wav"), samples, [made]), os.path.join(room, "copy.wav")
    out, _ = tape(path, "--stamp", copy, "--force")
    has(out, f"{name} frames a second")
    # Before the first word there are two cells, at whose end reading begins.
    wanted = round((number_of(count, label) - 2 / 80) * samples / frames) - lead
    got, data = reference_in(copy)
    assert data == packed([made], 16), "the samples of the copy"
    assert f"{got} samples since midnight" in out, f"the report says other than {got}"
    day = round(LABELS_A_DAY[count] * samples / frames)
    return (got - wanted + day // 2) % day - day // 2


def try_places(room):
    """The stamp is that of the encoder at each rate, each place of the code, and across midnight."""
    cases = list(itertools.product(SAMPLE_RATES, RATES, LEADS, LABELS))
    random.Random(4).shuffle(cases)
    cases = cases if running.is_long else cases[:24]
    offs = [abs(off_by(room, *case)) for case in cases]
    assert max(offs) <= 2, f"{max(offs)} samples off"
    return f"{len(offs)} stamps at {len(SAMPLE_RATES)} and {len(RATES)} rates, at most {max(offs)} samples off"


def try_libltc(room):
    """The same of code that libltc makes, whose first frame begins at the sample after the silence.

    Its edges rise in 40 microseconds.
    """
    want("cc")
    maker = os.path.join(room, "sound")
    built, _, notes = run("cc", "-O2", "-o", maker, os.path.join(TOP, "bench", "sound.c"), "-lltc", "-lm")
    if built != 0:
        raise NotTried("libltc-dev") if "ltc.h" in notes else AssertionError(notes)
    for lead in (0, 48_000, 288_000):
        for fps, label, number, rate in (
            ("24", "00:00:02:00", 48, 24),
            ("25", "10:00:00:00", 900_000, 25),
            ("25", "00:00:02:00", 50, 25),
            ("29.97", "00:10:00:00", 17_982, 30 / 1.001),
            ("29.97", "00:00:02:00", 60, 30 / 1.001),
            ("30", "00:00:02:00", 60, 30),
        ):
            words = [maker, "make", fps, "48000", "120", label]
            data = subprocess.run(words, stdout=subprocess.PIPE, stderr=subprocess.DEVNULL, check=True).stdout
            made = [0] * lead + list(struct.unpack(f"<{len(data) // 2}h", data))
            path = wav(os.path.join(room, "place.wav"), 48_000, [made])
            out, _ = tape(path, "--stamp", os.path.join(room, "copy.wav"), "--force")
            has(out, "29.97 frames a second, drop-frame" if fps == "29.97" else f"{fps} frames a second; ")
            day = round(24 * 3600 * 48_000 if fps != "29.97" else 2_589_408 / rate * 48_000)
            got, _ = reference_in(os.path.join(room, "copy.wav"))
            off = (got - (round(number * 48_000 / rate) - lead) + day // 2) % day - day // 2
            assert abs(off) <= 3, f"{fps} behind {lead}: {off} samples off\n{out}"


def try_smooth_place(room):
    """Sums of samples come late, and the stamp is the same."""
    path = wav(os.path.join(room, "sums.wav"), 48_000, [code(48_000, intervals("25", "10:00:00:00", 60), lead=4800)])
    got = {}
    for smooth in (1, 3, 5, 9):
        tape(path, "--smooth", str(smooth), "--stamp", os.path.join(room, "copy.wav"), "--force")
        got[smooth], _ = reference_in(os.path.join(room, "copy.wav"))
    assert max(got.values()) - min(got.values()) <= 1, got


def try_bext(room):
    made = code(48_000, intervals("25", "10:00:00:00", 60), lead=480)
    path = wav(os.path.join(room, "bwf.wav"), 48_000, [made], 24, bext())
    out, _ = tape(path, "--stamp", os.path.join(room, "stamped.wav"))
    has(out, "WAV with bext", "first sample  10:00:00:00 less 528 samples, 1727999472 samples since midnight")
    assert reference_in(os.path.join(room, "stamped.wav"))[0] == 1_727_999_472
    assert os.path.getsize(path) == os.path.getsize(os.path.join(room, "stamped.wav"))
    before = open(path, "rb").read()
    _, notes = tape(path, "--stamp", path, status=3)
    has(notes, "it is the tape itself")
    assert open(path, "rb").read() == before, "the file was changed"


def stamped(room, path, status=0, *words):
    """The copy of a tape, and what was noted."""
    copy = os.path.join(room, "stamped.wav")
    _, notes = tape(path, "--stamp", copy, "--force", *words, status=status)
    return copy, notes


def try_bext_anywhere(room):
    """An old `bext` is replaced where it is, before the samples or behind them, and there is no second one."""
    made = code(48_000, intervals("25", "10:00:00:00", 60), lead=480)
    for name, where in (("before", {"chunks": bext()}), ("behind", {"behind": bext()}), ("none", {})):
        path = wav(os.path.join(room, name + ".wav"), 48_000, [made], **where)
        copy, _ = stamped(room, path)
        found = [(letters, body) for letters, body in chunks_in(copy) if letters == b"bext"]
        assert [struct.unpack_from("<Q", body, 338)[0] for _, body in found] == [
            1_727_999_472
        ], f"{name}: {len(found)}"
        assert found[0][1].startswith(b"a tape") == bool(where), "the rest of the chunk"
        others = [[it for it in chunks_in(each) if it[0] != b"bext"] for each in (path, copy)]
        assert others[0] == others[1], f"{name}: other chunks than {[it[0] for it in others[0]]}"
    path = wav(os.path.join(room, "short.wav"), 48_000, [made], behind=chunk(b"bext", bytes(100)))
    _, notes = stamped(room, path, 3)
    has(notes, "bext is too short")


def try_ixml(room):
    """iXML gets the same number, in its two halves; one that says it in another form has no copy."""
    made = code(96_000, intervals("25", "23:59:00:00", 60), lead=480)
    for where in ("chunks", "behind"):
        path = wav(os.path.join(room, where + ".wav"), 96_000, [made], **{where: ixml("7", "12345678901")})
        copy, _ = stamped(room, path)
        got, data = reference_in(copy)
        assert got > 1 << 32 and data == packed([made], 16)
        text = dict(chunks_in(copy))[b"iXML"].decode("ascii")
        halves = [int(re.search(f"MIDNIGHT_{half}>(\\d+)<", text)[1]) for half in ("HI", "LO")]
        assert (halves[0] << 32) + halves[1] == got, f"iXML says {halves} and bext {got}"
    rate = "<TIMESTAMP_SAMPLE_RATE>{}</TIMESTAMP_SAMPLE_RATE>"
    plain = ixml()[8:].decode("ascii").rstrip("\0")
    for name, text, said in (
        ("rate", ixml(more=rate.format(48_000)), "counts at another rate"),
        ("twice", chunk(b"iXML", (plain + plain).encode("ascii")), "in a form that is not known"),
        ("wide", chunk(b"iXML", plain.encode("utf-16")), "in a form that is not known"),
        (
            "half",
            chunk(b"iXML", plain.replace("MIDNIGHT_LO", "MIDNIGHT_XX").encode("ascii")),
            "in a form that is not known",
        ),
    ):
        path = wav(os.path.join(room, name + ".wav"), 96_000, [made], chunks=text)
        _, notes = stamped(room, path, 3)
        has(notes, said)
    stamped(room, wav(os.path.join(room, "same.wav"), 96_000, [made], chunks=ixml(more=rate.format(96_000))))


def label_and_count(out, frames):
    """The label of the first sample and its count since midnight, both in samples at 25 frames a second or `frames`."""
    label, less, rest, count = re.search(
        r"first sample  (\S+)(?: (less|and) (\d+) samples?)?, (\d+) samples since", out
    ).groups()
    samples = round(number_of(str(frames), label) * 48_000 / frames) + int(rest or 0) * (-1 if less == "less" else 1)
    return samples % (86_400 * 48_000), int(count)


def try_one_number(room):
    """Label and count are one number, whatever the speed; off play speed there is no stamp, unless the rate is said."""
    for speed in (1.04, 0.5, 0.995, 1):
        made = code(48_000, intervals("25", "10:00:00:00", 75, rate=25 * speed), lead=60 * 48_000)
        path = wav(os.path.join(room, "speed.wav"), 48_000, [made])
        is_play = abs(speed - 1) < 0.01
        out, notes = tape(path, "--stamp", os.path.join(room, "copy.wav"), "--force", status=0 if is_play else 3)
        label, count = label_and_count(out, 25)
        assert label == count, f"at speed {speed} the label says {label} and the count {count}"
        if not is_play:
            has(notes, "no stamp, since it is not sure: the code is at speed")
        copy, _ = stamped(room, path, 0, "--rate", "25")
        got, _ = reference_in(copy)
        # Where the first word begins its label is right.
        cell = 48_000 / 25 / speed / 80
        wanted = 36_000 * 48_000 - 60 * 48_000 - round(2 * cell)
        assert abs(got - wanted) <= 2, f"at speed {speed} {got} for {wanted}"


def try_sureness(room):
    """What is not sure has no stamp: little code, a rate that the speed does not show, labels that fit two systems."""
    lone = code(48_000, intervals("25", "10:00:00:00", 40), lead=480)
    _, notes = stamped(room, wav(os.path.join(room, "little.wav"), 48_000, [lone]), 3)
    has(notes, "less than two seconds")
    between = code(48_000, intervals("30", "10:00:00:10", 90, rate=29.985), lead=480)
    path = wav(os.path.join(room, "between.wav"), 48_000, [between])
    out, notes = tape(path, "--stamp", os.path.join(room, "no.wav"), status=3)
    has(notes, "may be 30 or 29.97: say --rate")
    has(out, "not sure      29.985 frames a second")
    assert not os.path.exists(os.path.join(room, "no.wav"))
    references = {}
    for name in ("29.97", "30"):
        out, _ = tape(path, "--rate", name)
        has(out, f"rate          {name} as given; the tape plays 29.985 frames a second")
        references[name], _ = reference_in(stamped(room, path, 0, "--rate", name)[0])
    assert abs(references["29.97"] - references["30"] - 36 * 48_000) < 100, references
    out, _ = tape(
        wav(os.path.join(room, "film.wav"), 48_000, [code(48_000, intervals("24", "10:00:00:00", 60), lead=9)])
    )
    has(out, "rate          24 by its speed alone; --rate 23.976 says otherwise")
    tape(path, "--rate", "24", "--system", "30", status=2)
    first, second = (
        code(48_000, intervals("25", label, frames)) for label, frames in (("10:00:00:00", 8), ("11:00:00:00", 90))
    )
    _, notes = stamped(room, wav(os.path.join(room, "cut.wav"), 48_000, [first + second]), 3)
    has(notes, "less than two seconds")


def try_cut_copies(room):
    """A file whose end is missing has no copy, since its lengths would be wrong."""
    path = wav(os.path.join(room, "cut.wav"), 48_000, [code(48_000, intervals("25", "10:00:00:00", 100))])
    with open(path, "r+b") as file:
        file.truncate(os.path.getsize(path) - 1000)
    _, notes = stamped(room, path, 3)
    has(notes, "it is cut short")


def try_backward(room):
    made = code(48_000, intervals("25", "10:00:00:00", 60, "backward"), lead=480)
    path = wav(os.path.join(room, "back.wav"), 48_000, [made])
    out, notes = tape(path, "--stamp", os.path.join(room, "no.wav"), status=3)
    has(out, "backward", "first sample  not known")
    has(notes, "no stamp")
    assert not os.path.exists(os.path.join(room, "no.wav"))
