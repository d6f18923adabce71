"""python3 -m unittest discover -s python: tc.py over lib/libtc.so.1, on code that bin/tc makes."""

import array
import copy
import os
import pickle
import random
import struct
import subprocess
import sys
import threading
import unittest

try:
    import numpy
except ImportError:
    numpy = None

TOP = os.path.dirname(os.path.dirname(os.path.realpath(__file__)))
sys.path[:0] = [os.path.join(TOP, "python"), os.path.join(TOP, "tools")]
import tc
from tape_tries.making import TC, TICKS, code, intervals


@unittest.skipUnless(os.path.exists(TC), "bin/tc is not built")
class Reading(unittest.TestCase):
    @classmethod
    def setUpClass(cls):
        cls.samples = array.array("h", code(48_000, intervals("25", "09:59:59:20", 60), lead=700))
        cls.labels = [f"{'09:59:59' if n < 5 else f'10:00:{(n - 5) // 25:02}'}:{(20 + n) % 25:02}" for n in range(60)]

    def test_words_of_clean_code(self):
        words = list(tc.words(self.samples, system=25))
        self.assertEqual([word.label for word in words], self.labels)
        self.assertEqual({word.length for word in words[1:]}, {1_920 * 16})
        self.assertEqual({word.backward for word in words}, {False})

    def test_pieces_bring_the_same(self):
        whole = tc.Reader(system=25).write(self.samples)
        for length in (1_000, 1_024, 30_000):
            reader, brought = tc.Reader(system=25), []
            for at in range(0, len(self.samples), length):
                brought += reader.write(self.samples[at : at + length])
            self.assertEqual(brought, whole)

    def test_a_copy_goes_on_alone(self):
        half = len(self.samples) // 2
        reader = tc.Reader(system=25)
        first = reader.write(self.samples[:half])
        other = reader.copy()
        del reader
        self.assertEqual(first + other.write(self.samples[half:]), tc.Reader(system=25).write(self.samples))

    def test_bytes_and_views_are_samples(self):
        wanted = tc.Reader().write(self.samples)
        for samples in (self.samples.tobytes(), memoryview(self.samples), bytearray(self.samples.tobytes())):
            self.assertEqual(tc.Reader().write(samples), wanted)
        self.assertEqual(tc.Reader().write(b""), [])

    def test_arrays_say_what_they_hold(self):
        wanted = tc.Reader().write(self.samples)
        wide = array.array("i", (sample << 16 | 77 for sample in self.samples))
        floats = [array.array(kind, (sample / 32_767 for sample in self.samples)) for kind in "fd"]
        spaced = array.array("h", (it for sample in self.samples for it in (sample, 0)))
        swapped = array.array("h", self.samples)
        swapped.byteswap()
        for samples in (wide, memoryview(spaced)[::2]):
            self.assertEqual(tc.Reader().write(samples), wanted)
        for samples in floats:
            told = [word.label for word in tc.words(samples)]
            self.assertEqual(told, [event.label for event in wanted if isinstance(event, tc.Word)])
        if numpy is not None:
            for kind in ("<i2", ">i2", ">i4", ">f8"):
                native = {"i2": self.samples, "i4": wide, "f8": floats[1]}[kind[1:]]
                self.assertEqual(tc.Reader().write(numpy.array(native).astype(kind)), tc.Reader().write(native))
            two = numpy.array([self.samples, self.samples], dtype="i2").T
            self.assertEqual(tc.Reader().write(two[:, 1]), wanted)

    def test_floats_beyond_full_scale(self):
        for value, level in ((1.0, 32_767), (7.5, 32_767), (-1.0, -32_767), (-9e9, -32_767), (float("nan"), -32_767), (0.5, 16_383)):
            self.assertEqual(list(tc._samples_of(array.array("d", [value]))), [level])

    def test_what_is_no_sample_is_refused(self):
        wrong = [b"abc", 7, "abc", [1, 2], array.array("H", [1]), array.array("I", [1]), array.array("q", [1])]
        if numpy is not None:
            wrong += [numpy.zeros((4, 2), "i2"), numpy.zeros(4, "i8"), numpy.zeros(4, "f2"), numpy.zeros(4, "?"), numpy.zeros((), "i2")]
        for samples in wrong:
            with self.assertRaises(ValueError):
                tc.Reader().write(samples)

    def test_wrong_settings_are_refused_at_once(self):
        for numbers in ({"system": 29}, {"smooth": 17}, {"fineness": -1}, {"threshold": 1 << 40}):
            for make in (tc.Settings, tc.Reader, lambda **them: tc.words(self.samples, **them)):
                with self.assertRaises(ValueError):
                    make(**numbers)

    def test_each_copy_is_a_reader_of_its_own(self):
        half = len(self.samples) // 2
        wanted = tc.Reader().write(self.samples)
        for way in (tc.Reader.copy, copy.copy, copy.deepcopy):
            reader = tc.Reader()
            first = reader.write(self.samples[:half])
            other = way(reader)
            reader.write(self.samples[:1_000])
            self.assertEqual(first + other.write(self.samples[half:]), wanted)
        with self.assertRaises(TypeError):
            pickle.dumps(tc.Reader())

    def test_settings_at_the_edges(self):
        for numbers in ({"system": 30}, {"fineness": 64}, {"smooth": 16}, {"threshold": 524_272}, {"pace": 16_777_215}):
            tc.Reader(**numbers)
        wrong = ({"system": 29}, {"tolerance": 3}, {"follows": 3}, {"threshold": 0}, {"fineness": 65}, {"smooth": 0})
        for numbers in (*wrong, {"pace": 1 << 24}, {"pace": -1}, {"system": 1 << 40}):
            with self.assertRaises(ValueError):
                tc.Reader(**numbers)

    def test_readers_in_threads(self):
        wanted, found = tc.Reader().write(self.samples), [None] * 4

        def read(place):
            found[place] = tc.Reader().write(self.samples)

        threads = [threading.Thread(target=read, args=(place,)) for place in range(4)]
        for thread in threads:
            thread.start()
        for thread in threads:
            thread.join()
        self.assertEqual(found, [wanted] * 4)


@unittest.skipUnless(os.path.exists(TC), "bin/tc is not built")
class Slicing(unittest.TestCase):
    @classmethod
    def setUpClass(cls):
        ticks = intervals("25", "09:59:59:20", 40)
        chance = random.Random(5)
        made = code(48_000, ticks, lead=500, size=3_000)
        made[20_000:20_000] = [0] * 9_000
        cls.samples = array.array("h", (sample + chance.randint(-400, 400) for sample in made))

    def test_intervals_are_the_programs(self):
        ways = ({}, []), ({"follows": tc.Follows.HALF}, ["follow"]), ({"follows": tc.Follows.QUARTER}, ["deep"])
        for numbers, words in ways:
            smooth = 3 if words else 1
            told = {"follows": tc.Follows.FIXED, "threshold": 250 * smooth, "smooth": smooth, "start": 1, **numbers}
            words = ["25", "48000", "250", "16", *words, *(["3"] if words else [])]
            raw = self.samples.tobytes()
            file = subprocess.run([TC, "pcm-ltc", *words], input=raw, capture_output=True, check=True).stdout
            wanted = list(struct.unpack(f">{len(file) // 4 - 3}I", file[12:]))
            for piece in (1, 7, 999, 1_024, 1_000_000):
                slicer, found = tc.Slicer(**told), []
                for at in range(0, len(self.samples), piece):
                    found += slicer.write(self.samples[at : at + piece])
                self.assertEqual(found, wanted, f"{words} in pieces of {piece}")

    def test_a_tape_of_them_is_read_as_the_sound(self):
        for tolerance in tc.Tolerance:
            for pace in (0, 7_680):
                sliced = tc.Slicer(pace=pace).write(self.samples)
                wanted = tc.Reader(tolerance=tolerance, pace=pace).write(self.samples)
                self.assertEqual(tc.Tape(25, tolerance).write(sliced), wanted)

    def test_consecutive_words_of_sound(self):
        tape = tc.Tape(25, tc.Tolerance.ROUGH, tc.Witness.CONSECUTIVE)
        slicer, events = tc.Slicer(), []
        for at in range(0, len(self.samples), 1_024):
            events += tape.write(slicer.write(self.samples[at : at + 1_024]))
        events += tape.last()
        whole = tc.Tape(25, tc.Tolerance.ROUGH, tc.Witness.CONSECUTIVE)
        self.assertEqual(events, whole.write(tc.Slicer().write(self.samples)) + whole.last())
        self.assertGreater(sum(isinstance(event, tc.Word) for event in events), 30)

    def test_settings_at_the_edges_and_copies(self):
        for numbers in ({"start": 1}, {"fineness": 64}, {"smooth": 16}, {"threshold": 524_272}, {"pace": 16_777_215}):
            tc.Slicer(**numbers)
        wrong = ({"start": 2}, {"follows": 3}, {"threshold": 0}, {"fineness": 65}, {"smooth": 0}, {"pace": 1 << 24})
        for numbers in (*wrong, {"start": -1}, {"fineness": 1 << 40}):
            for make in (tc.Slicing, tc.Slicer):
                with self.assertRaises(ValueError):
                    make(**numbers)
        slicer, wanted = tc.Slicer(), tc.Slicer().write(self.samples)
        first = slicer.write(self.samples[:7_000])
        other = slicer.copy()
        slicer.write(self.samples[:1_000])
        self.assertEqual(first + other.write(self.samples[7_000:]), wanted)
        self.assertEqual(tc.Slicer().write(b""), array.array("I"))


@unittest.skipUnless(os.path.exists(TC), "bin/tc is not built")
class Tapes(unittest.TestCase):
    @classmethod
    def setUpClass(cls):
        cls.ticks = array.array("I", intervals("25", "09:59:59:20", 60))
        cls.labels = [f"{'09:59:59' if n < 5 else f'10:00:{(n - 5) // 25:02}'}:{(20 + n) % 25:02}" for n in range(60)]

    def test_words_of_a_clean_tape(self):
        rough = {"tolerance": tc.Tolerance.ROUGH}
        asked = ({}, {"firm": True}, *({"firm": witness} for witness in tc.Witness))
        for settings in ({}, {"tolerance": tc.Tolerance.WORN}, *({**rough, **firm} for firm in asked)):
            tape = tc.Tape(25, **settings)
            words = tape.write(self.ticks) + tape.last()
            self.assertEqual([word.label for word in words], self.labels)

    def test_pieces_and_copies_bring_the_same(self):
        whole = tc.Tape().write(self.ticks)
        for length in (1, 999, 5_000):
            tape, brought = tc.Tape(), []
            for at in range(0, len(self.ticks), length):
                brought += tape.write(list(self.ticks[at : at + length]))
                tape = tape.copy()
            self.assertEqual(brought, whole)

    def test_a_backward_word_waits_for_its_witness(self):
        ticks = intervals("25", "09:59:59:20", 3, "backward")
        tape = tc.Tape(25, tc.Tolerance.ROUGH, firm=True)
        told, last = tape.write(ticks), tape.last()
        self.assertEqual([word.backward for word in told + last], [True] * 3)
        self.assertEqual((len(told), len(last), tape.last()), (2, 1, last))

    def test_what_is_no_interval_is_refused(self):
        for wrong in (0, 16_777_216):
            tape = tc.Tape()
            with self.assertRaises(ValueError):
                tape.write([5_000, wrong, 5_000])
        for wrong in (b"abc", "abc", 7, [-1], [1 << 32], [1.5], array.array("d", [1]), array.array("q", [1 << 32 | 5_000])):
            with self.assertRaises(ValueError):
                tc.Tape().write(wrong)

    def test_intervals_of_every_width(self):
        wanted = tc.Tape().write(self.ticks)
        for kind in "hHiIlLqQ":
            self.assertEqual(tc.Tape().write(array.array(kind, self.ticks)), wanted)
        if numpy is not None:
            for kind in ("u2", "<u4", ">u4", "i8", "u8"):
                self.assertEqual(tc.Tape().write(numpy.array(self.ticks).astype(kind)), wanted)
            self.assertEqual(tc.Tape().write(numpy.repeat(numpy.array(self.ticks), 3)[::3]), wanted)

    def test_what_lies_before_no_interval_is_taken(self):
        for more in ([0], [-1], array.array("q", [-1]), array.array("Q", [1 << 63])):
            tape = tc.Tape()
            with self.assertRaises(ValueError):
                tape.write(list(self.ticks[:300]) + list(more))
            self.assertEqual(tape.told(), sum(self.ticks[:300]))
        for settings in ((29,), (25, 3), (25, 0, 4), (25, 0, -1)):
            with self.assertRaises(ValueError):
                tc.Tape(*settings)

    def test_the_next_word_stands_in_for_a_witness(self):
        labels = ["09:59:59:24", "10:00:00:00", "10:00:00:02"]
        maker = tc.Maker(1_000)
        front = maker.write(0b10, 20) + maker.write(tc.bits(labels[0], "25"))  # no sync word before the first word
        more = [tick for label in labels[1:] for tick in maker.write(tc.bits(label, "25"))]
        for witness, first, last, later in (
            (tc.Witness.NOT_ASKED, labels[:1], [], labels[1:]),
            (tc.Witness.ASKED, [tc.Fault.ALONE], [], labels[1:]),
            (tc.Witness.CONSECUTIVE, [], [tc.Fault.ALONE], labels),
            (tc.Witness.COUNTED, [], [tc.Fault.ALONE], labels[:2]),  # the last one's place is not its label's
        ):
            tape = tc.Tape(25, firm=witness)
            self.assertEqual([told_as(event) for event in tape.write(front)], first)
            self.assertEqual([told_as(event) for event in tape.last()], last)
            self.assertEqual(tape.told(), 100_000)
            self.assertEqual([told_as(event) for event in tape.copy().write(more)], later)


def told_as(event):
    """The label of a word, or the fault of a refused one."""
    return event.label if isinstance(event, tc.Word) else event.fault


@unittest.skipUnless(os.path.exists(TC), "bin/tc is not built")
class Wheels(unittest.TestCase):
    def test_a_hole_is_bridged_up_to_the_limit(self):
        words = tc.Tape().write(intervals("25", "09:59:59:20", 10))
        for limit, kinds in ((3, [2, 2, 2]), (2, [2, 2, 3]), (0, [3])):
            wheel, frames = tc.Wheel(limit), []
            for word in words[:4] + words[7:]:
                frames += wheel.copy().heard(word)
                wheel.heard(word)
            self.assertEqual([frame.kind for frame in frames], [1] * 4 + kinds + [1] * 3)
            self.assertEqual(frames[4 + len(kinds)].joined, limit == 3)
            self.assertEqual([frame.label for frame in frames if frame.kind == tc.Kind.HEARD][4], words[7].label)

    def test_what_is_told_up_to_refuses_no_word(self):
        samples = array.array("h", code(48_000, intervals("25", "09:59:59:20", 12), lead=700)) + array.array("h", [0] * 9_000)
        wanted = {}
        for pace in (0, 7_680):
            for length in (len(samples), 1, 63, 64, 480, 1_001, 1_024):
                reader, wheel, frames = tc.Reader(system=25, pace=pace), tc.Wheel(5), []
                for at in range(0, len(samples), length):
                    for event in reader.write(samples[at : at + length]):
                        if isinstance(event, tc.Word):
                            frames += wheel.heard(event)
                    frames += wheel.passed(reader.told())
                self.assertEqual(frames, wanted.setdefault(pace, frames))
                self.assertLessEqual(reader.told(), 16 * len(samples))
        kinds = {pace: [frame.kind for frame in frames] for pace, frames in wanted.items()}
        self.assertEqual(kinds, {0: [tc.Kind.HEARD] * 12, 7_680: [tc.Kind.HEARD] * 12 + [tc.Kind.INVENTED] * 4})

    def test_what_a_tape_has_told_refuses_no_word(self):
        for way in ("forward", "backward"):
            ticks = intervals("25", "09:59:59:20", 12, way)
            for witness in tc.Witness:
                for length in (1, 7, 100, 999):
                    tape, wheel, frames = tc.Tape(25, tc.Tolerance.ROUGH, witness), tc.Wheel(5), []
                    for at in range(0, len(ticks), length):
                        for word in tape.write(ticks[at : at + length]):
                            frames += wheel.heard(word)
                        frames += wheel.passed(tape.told())
                    for word in tape.last():
                        frames += wheel.heard(word)
                    self.assertEqual([frame.kind for frame in frames], [tc.Kind.HEARD] * 12)

    def test_time_does_not_fall(self):
        wheel = tc.Wheel(1)
        self.assertEqual(wheel.passed(1_000), [])
        for tick in (999, 1 << 60, -1):
            with self.assertRaises(ValueError):
                wheel.passed(tick)
        word = tc.Tape().write(intervals("25", "09:59:59:20", 2))[0]
        first = wheel.heard(word)
        self.assertEqual([(frame.kind, frame.joined, frame.tick) for frame in first], [(1, False, word.tick)])
        far = [(frame.kind, frame.step) for frame in wheel.passed((1 << 60) - 1)]
        self.assertEqual(far, [(tc.Kind.INVENTED, 1), (tc.Kind.GONE, 0)])

    def test_limits(self):
        for limit in (-1, 256, 1 << 40):
            with self.assertRaises(ValueError):
                tc.Wheel(limit)


@unittest.skipUnless(os.path.exists(TC), "bin/tc is not built")
class Midi(unittest.TestCase):
    @classmethod
    def setUpClass(cls):
        wheel = tc.Wheel(2)
        words = tc.Tape(30).write(intervals("30d", "09:59:59;20", 24))
        cls.frames = [frame for word in words for frame in wheel.heard(word)]

    def test_what_is_written_is_read(self):
        writer, reader = tc.MtcWriter(), tc.MtcReader()
        sent = [writer.write(frame) for frame in self.frames]
        self.assertEqual([len(data) for data in sent], [18] + [8] * 23)
        read = reader.write(sent[0]) + reader.copy().write(b"".join(sent[1:]))
        self.assertEqual([label.label for label in read], [self.frames[0].label] + [f.label for f in self.frames[::2]])
        self.assertEqual([label.full for label in read], [True] + [False] * 12)
        self.assertEqual(read[1].place, 25)

    def test_an_end_begins_a_run_anew(self):
        writer = tc.MtcWriter()
        self.assertEqual(len(writer.write(self.frames[0])), 18)
        gone = tc.Frame(tc.Kind.GONE, "", False, False, 0, 9, "")
        self.assertEqual(writer.write(gone), b"")
        self.assertEqual(len(writer.copy().write(self.frames[1])), 18)
        for wrong in ({"label": "24:00:00;00"}, {"label": "10:01:00;00"}, {"kind": 4}, {"step": 1}, {"label": "x"}):
            with self.assertRaises(ValueError):
                writer.write(self.frames[1]._replace(**wrong))

    def test_an_address_that_is_no_label(self):
        for address, fault in (
            ((0x38, 0, 0, 0), tc.LabelFault.HOURS),
            ((0x20, 60, 0, 0), tc.LabelFault.MINUTES),
            ((0x20, 0, 60, 0), tc.LabelFault.SECONDS),
            ((0x20, 0, 0, 25), tc.LabelFault.FRAMES),
            ((0x40, 1, 0, 1), tc.LabelFault.DROPPED),
        ):
            data = bytes((0xF0, 0x7F, 0x7F, 1, 1, *address, 0xF7))
            self.assertEqual(tc.MtcReader().write(data), [tc.MtcLabel(True, "", False, fault, 9)])
        with self.assertRaises(ValueError):
            tc.MtcReader().write(array.array("h", [1]))


@unittest.skipUnless(os.path.exists(TC), "bin/tc is not built")
class Lines(unittest.TestCase):
    LENGTH = 1_000

    @classmethod
    def setUpClass(cls):
        words = ["vitc-make", "30d", "09:59:59;28", "4", str(cls.LENGTH)]
        cls.header, cls.lines = lines_in(subprocess.run([TC, *words], stdout=subprocess.PIPE, check=True).stdout)

    def said(self, lines):
        """What vitc-read says of lines, each of a field of its own."""
        fields = b"".join(struct.pack(f">BB{len(runs)}H", 1, len(runs), *runs) for runs in lines)
        read = subprocess.run([TC, "vitc-read"], input=self.header + fields, stdout=subprocess.PIPE, check=True).stdout
        return [text.split(" ", 2)[2] for text in read.decode().splitlines()[:-1]]

    def test_lines_say_their_words(self):
        words = [tc.line(30, self.LENGTH, runs) for runs in self.lines]
        labels = ["09:59:59;28", "09:59:59;29", "10:00:00;00", "10:00:00;01"]
        self.assertEqual([word.label for word in words], [label for label in labels for _ in range(4)])
        self.assertEqual([word.mark for word in words], [False, False, True, True] * 4)
        self.assertEqual({(word.count, word.flags, word.user) for word in words}, {("30d", 1, 0)})
        self.assertEqual([told_of(word) for word in words], self.said(self.lines))

    def test_damaged_lines_have_the_faults_of_the_program(self):
        chance, damaged = random.Random(7), []
        for runs in self.lines * 40:
            runs, at = list(runs), chance.randrange(len(runs))
            runs[at] = max(1, runs[at] + chance.choice((-20, -9, -3, -2, 2, 3, 9, 18, 40, 900)))
            if at + 1 < len(runs) and chance.random() < 0.6:
                runs[at + 1] = max(1, sum(self.lines[0][at : at + 2]) - runs[at])
            damaged.append(runs[: chance.choice((len(runs), len(runs), 1, 7))])
        told = [told_of(tc.line(30, self.LENGTH, runs)) for runs in damaged]
        self.assertEqual(told, self.said(damaged))
        kinds = {text.removeprefix("nothing ").split(" ")[0] for text in told}
        self.assertGreaterEqual(kinds, {"word", "run", "too-long", "sync-pair", "check"})

    def test_what_is_made_is_read(self):
        for label, mark, runs in zip(["09:59:59;28", "10:00:00;01"], [False, True], [self.lines[0], self.lines[-1]]):
            self.assertEqual(tc.line_runs(label, "30d", self.LENGTH, mark=mark), list(runs))
        for count, system, label in (("25", 25, "23:59:59:24"), ("30", 30, "19:47:58:29"), ("30d", 30, "19:47:58;23")):
            for user, flags, mark in ((0xFCE0BA6D, 0b11110, False), (0, 0b01010, True), (0xFFFFFFFF, 0, True)):
                word = tc.LineWord(label, user, flags | (count == "30d"), mark, count)
                for length in (460, 1_716, 65_535):
                    runs = tc.line_runs(label, count, length, user, flags, mark)
                    self.assertEqual(tc.line(system, length, runs), word)
        for label, count, length, user, flags in (
            ("10:00:00:00", "24", 1_000, 0, 0),
            ("10:00:00:25", "25", 1_000, 0, 0),
            ("10:00:00:00", "25", 459, 0, 0),
            ("10:00:00:00", "25", 65_536, 0, 0),
            ("10:00:00:00", "25", 1_000, 1 << 32, 0),
            ("10:00:00:00", "30", 1_000, 0, 1),
            ("10:00:00:00", "25", 1_000, 0, 32),
        ):
            with self.assertRaises(ValueError):
                tc.line_runs(label, count, length, user, flags)

    def test_what_is_no_line_is_refused(self):
        runs = self.lines[0]
        for system, length in ((30, 460), (25, 65_535)):
            tc.line(system, length, runs)
        for system, length, wrong in (
            (24, 1_000, runs),
            (30, 459, runs),
            (30, 65_536, runs),
            (30, 1_000, runs[:-1]),
            (30, 1_000, []),
            (30, 1_000, [9] * 91),
            (30, 1_000, [65_536]),
            (-1, 1_000, runs),
        ):
            with self.assertRaises(ValueError):
                tc.line(system, length, wrong)


def lines_in(data):
    """The header of a line file, and the runs of its lines."""
    lines, at = [], 12
    while at < len(data):
        count, at = data[at], at + 1
        for _ in range(count):
            lines.append(struct.unpack_from(f">{data[at]}H", data, at + 1))
            at += 1 + 2 * data[at]
    return data[:12], lines


def told_of(line):
    """The words of vitc-read for what a line says."""
    if isinstance(line, tc.LineWord):
        flags = "".join(str(line.flags >> place & 1) for place in range(5))
        return f"word {line.label} user {line.user:08x} flags {flags} mark {int(line.mark)}"
    name = line.fault.name.lower().replace("_", "-")
    return f"nothing {name}" + (f" {line.place}" if line.fault >= tc.Fault.RUN else "")


@unittest.skipUnless(os.path.exists(TC), "bin/tc is not built")
class Making(unittest.TestCase):
    def test_what_is_made_is_read(self):
        labels = [f"09:59:59:{frame:02}" for frame in range(20, 25)] + ["10:00:00:00"]
        maker, sound, reader = tc.Maker(24), tc.Sound(9_000), tc.Reader(system=25, fineness=1)
        ticks = maker.write(tc.Maker.LEAD, 2)
        for label in labels:
            ticks += maker.copy().write(tc.bits(label, "25"))
        self.assertEqual(ticks, list(intervals("25", labels[0], 6, rate=TICKS / 80 / 24)))
        self.assertEqual([word.label for word in tc.Tape(25).write(ticks)], labels)
        samples = sound.write(ticks[:100]) + sound.copy().write(ticks[100:])
        self.assertEqual(len(samples), sum(ticks))
        self.assertEqual(set(samples), {9_000, -9_000})
        read = reader.write(samples + array.array("h", [-9_000 if samples[-1] > 0 else 9_000]))
        self.assertEqual([word.label for word in read if isinstance(word, tc.Word)], labels)

    def test_user_bits_and_flags_are_read(self):
        maker, tape = tc.Maker(1_000), tc.Tape(30)
        ticks = maker.write(tc.Maker.LEAD, 2)
        ticks += maker.write(tc.bits("10:00:00;02", "30d", user=0x89ABCDEF, flags=0b10100))
        (word,) = tape.write(ticks)
        self.assertEqual((word.label, word.count, word.user), ("10:00:00;02", "30d", 0x89ABCDEF))
        self.assertEqual((word.flags, word.balanced, word.length), (0b10101, True, 80_000))

    def test_a_shape_moves_to_another_length(self):
        maker = tc.Maker(20, 40, 2)
        self.assertEqual(maker.write(0, 13), list(range(20, 41, 2)) + [40, 40])
        for wrong in ((15,), (20, 15), (20, 40, 3), (1 << 23,), (-1,)):
            with self.assertRaises(ValueError):
                tc.Maker(*wrong)
        for number, count in ((1 << 128, 80), (-1, 80), (1, 129)):
            with self.assertRaises(ValueError):
                maker.write(number, count)

    def test_what_is_no_word_has_no_bits(self):
        for label, count, user, flags in (
            ("10:00:00:25", "25", 0, 0),
            ("10:01:00;00", "30d", 0, 0),
            ("10:00:00:00", "30", 0, 1),
            ("10:00:00:00", "25", 0, 32),
            ("10:00:00:00", "25", 1 << 32, 0),
            ("10:00:00:00", "26", 0, 0),
        ):
            with self.assertRaises(ValueError):
                tc.bits(label, count, user, flags)
        for level in (32_768, -1):
            with self.assertRaises(ValueError):
                tc.Sound(level)


if __name__ == "__main__":
    unittest.main()
