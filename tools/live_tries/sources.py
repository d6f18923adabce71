"""Where the sound comes from: files, standard input, a card that is lost and found again, JACK."""
import contextlib
import os
import random
import re
import signal
import subprocess
import threading
import time

from tape_tries.making import code, intervals, wav
from tape_tries.running import NotTried, has, run, want

from .stage import RATE, Runs, marked, none_left, on_terminal, raw, read_of, runs, tape, wait_for, words

CARD = 'pcm.tape {{ type file slave.pcm "null" file "/dev/null" infile "{}" format "raw" }}\n'


def try_systems(room):
    """Code of each system is known by its labels, within a second of it."""
    for count, rate, label in (("24", 24, "24"), ("25", 25, "25"), ("30", 30, "30"), ("30d", 29.97, "30")):
        mark = ";" if count == "30d" else ":"
        path = tape(room, words(count, f"10:00:00{mark}00", 70, rate=rate))
        ended, out, _ = runs("--file", path, "--pace", "2")
        assert ended == 0
        has(out, f"system   10:00:01{mark}00 {label} frames a second", f"forward, {label} frames a second")


def try_other_system(room):
    """If the tape changes to another system it is found again; if it was given, the labels are doubted."""
    path = tape(room, words("25", "10:00:00:00", 60), words("30", "11:00:00:00", 100, rate=30))
    _, out, _ = runs("--file", path)
    has(out, "10:00:01:00 25 frames a second, by the labels", "11:00:02:00 30 frames a second, by the labels")
    _, out, _ = runs("--file", tape(room, words("25", "11:00:00:00", 120)), "--system", "30")
    has(out, "the labels are those of 25 frames a second: --system 25?")


def try_standard_input(room):
    """A WAV file and raw samples on standard input; chunks behind the samples are none."""
    samples = words("25", "10:00:00:00", 40)
    path, junk = os.path.join(room, "tape.wav"), b"junk\3\0\0\0abc\0"
    wav(path, RATE, [samples], chunks=junk, behind=b"list" + bytes(400))
    with open(path, "rb") as file:
        ended, out, notes = runs("-", stdin=file)
    assert ended == 0, notes
    has(out, "standard input, track 1, 48000 samples a second", "10:00:01:00 25 frames a second")
    for options, data in ((("-",), raw(samples)), (("-", "--tracks", "2", "--track", "2"), both(samples))):
        file = os.path.join(room, "raw")
        with open(file, "wb") as out_file:
            out_file.write(data)
        with open(file, "rb") as sound:
            ended, out, notes = runs(*options, stdin=sound)
        assert ended == 0, notes
        has(out, "10:00:01:00 25 frames a second", "heard")
    ended, _, notes = runs("-")
    assert ended == 3 and "standard input: it is empty" in notes, notes


def both(samples):
    """Two tracks, of which the first is silent."""
    return b"".join(b"\0\0" + raw([sample]) for sample in samples)


def try_files(room):
    """The track of --track, also of files of 24 bits and of those that ffmpeg reads; a hint at the right one."""
    samples = words("25", "10:00:00:00", 60)
    path = wav(os.path.join(room, "tape.wav"), RATE, [[0] * len(samples), samples], bits=24)
    ended, out, _ = runs("--file", path, "--track", "2")
    has(out, "10:00:01:00 25 frames a second")
    assert ended == 0
    _, out, _ = runs("--file", path)
    has(out, "no code: silence on track 1. Is the tape running, and the cable in? Track 2 has -11 dB.")
    slow = wav(os.path.join(room, "slow.wav"), 22_050, [code(22_050, intervals("25", "10:00:00:00", 40))])
    ended, out, _ = runs("--file", slow)
    has(out, "22050 samples a second", "10:00:01:00 25 frames a second")
    want("ffmpeg")
    flac = os.path.join(room, "tape.flac")
    assert run("ffmpeg", "-v", "error", "-i", path, flac)[0] == 0
    ended, out, _ = runs("--file", flac, "--track", "2")
    assert ended == 0, out
    has(out, "10:00:01:00 25 frames a second")


def try_hiss(room):
    """Code in hiss is read by sums, and `--deep` reads it too."""
    chance, heard = random.Random(61), {}
    noisy = [sample + round(chance.gauss(0, 3_500)) for sample in words("25", "10:00:00:00", 60)]
    path = tape(room, [max(-32_768, min(32_767, sample)) for sample in noisy])
    for options in ((), ("--smooth", "3"), ("--smooth", "3", "--deep")):
        ended, out, _ = runs("--file", path, "--system", "25", *options)
        heard[options] = int(re.search(r"(\d+) frames heard", out)[1])
        assert ended == 0
    assert heard[("--smooth", "3")] >= 58 and heard[("--smooth", "3", "--deep")] >= 55, heard
    return ", ".join(f"{' '.join(options) or 'without'}: {count}" for options, count in heard.items())


def try_wrong_words(room):
    """What can't be had ends it in words, with 2 or 3."""
    path = tape(room, words("25", "10:00:00:00", 10))
    text = os.path.join(room, "text")
    with open(text, "w", encoding="ascii") as file:
        file.write("no sound\n" * 100)
    empty = os.path.join(room, "empty")
    open(empty, "wb").close()
    for status, options, said in (
        (2, ("--track", "0"), "argument --track: a number from 1 to 64"),
        (2, ("--page", "0"), "argument --page"),
        (2, ("--card", "x", "--file", path), "not allowed with argument --card"),
        (2, ("--bind", "::1"), "--bind is of --page"),
        (2, ("--pace", "2", "-"), "--pace is of --file"),
        (2, ("--pace", "nan", "--file", path), "a number from 0.01 to 1000"),
        (2, ("--tracks", "2", "--track", "3"), "--track 3 is none of --tracks 2"),
        (2, ("tape.wav",), "argument -"),
        (3, ("--file", path, "--track", "3"), "tape.wav: it has no track 3, but 1"),
        (3, ("--file", os.path.join(room, "none")), "none: no such file or directory"),
        (3, ("--file", room), "it is a folder"),
        (3, ("--file", empty), "empty: it is empty"),
        (3, ("--file", text), "text: it"),
    ):
        ended, out, notes = runs(*options)
        assert ended == status and said in notes and not out, f"{options}: {ended} for {status}\n{out}{notes}"


class Card:
    """A card whose samples are those of a FIFO, as a card gives those of its input: ALSA's device `file`."""

    def __init__(self, room):
        want("arecord")
        self.fifo = os.path.join(room, "input")
        os.mkfifo(self.fifo)
        with open(os.path.join(room, ".asoundrc"), "w", encoding="ascii") as file:
            file.write(CARD.format(self.fifo))
        self.home = {"HOME": room}
        self.is_over, self.is_still = False, False
        self.samples = raw(words("25", "10:00:00:00", 750))
        self.thread = threading.Thread(target=self.play, daemon=True)
        self.thread.start()

    def play(self):
        """Plays the tape into whoever listens, again if one left."""
        signal.pthread_sigmask(signal.SIG_BLOCK, [signal.SIGPIPE])
        while not self.is_over:
            with contextlib.suppress(OSError):
                self.play_to(os.open(self.fifo, os.O_WRONLY))

    def play_to(self, there):
        began, block = time.monotonic(), 960
        try:
            for number, at in enumerate(range(0, len(self.samples), block)):
                while self.is_still and not self.is_over:
                    time.sleep(0.02)
                time.sleep(max(0.0, began + number * block / 2 / RATE - time.monotonic()))
                if self.is_over:
                    return
                os.write(there, self.samples[at : at + block])
        finally:
            os.close(there)

    def end(self):
        self.is_over = True
        with contextlib.suppress(OSError):
            os.close(os.open(self.fifo, os.O_RDONLY | os.O_NONBLOCK))


def recorder(there):
    """The program that reads the card, by its number."""
    return next((pid for pid, told in marked(there.mark).items() if told.startswith("arecord")), 0)


def try_card(room):
    """A card that is lost is opened again, and so is one that stops; the display says what to do."""
    card, log = Card(room), os.path.join(room, "log")
    options = ("--card", "tape", "--tracks", "1", "--system", "25", "--log", log)
    there = on_terminal(*options, more=card.home)
    try:
        there.until(r"HEARD")
        os.kill(recorder(there), signal.SIGKILL)
        lost = there.until(r"CARD LOST")
        has(lost, "no samples from card tape: is its cable in, and its power on?")
        there.until(r"card tape is back")
        there.until(r"HEARD")
        card.is_still = True
        there.until(r"CARD LOST", 8)
        card.is_still = False
        there.until(r"HEARD", 8)
        there.send(signal.SIGINT)
        assert there.end() == 130
    finally:
        card.end()
    text = read_of(log)
    has(text, "card tape is lost, arecord ended with signal KILL; it is tried each second", "no samples for 3 s")
    assert [line.split()[1] for line in text.splitlines()].count("card") == 4, text


def try_card_often(room):
    """Lost ten times over, it leaves neither descriptors nor threads nor processes behind."""
    card = Card(room)
    run_of = Runs("--card", "tape", "--tracks", "1", "--quiet", more=card.home)
    pid = run_of.process.pid
    try:
        counts = []
        for _ in range(10):
            wait_for(lambda: recorder(run_of) and len(marked(run_of.mark)) >= 4, what="the card")
            time.sleep(0.2)
            counts.append((len(os.listdir(f"/proc/{pid}/fd")), len(os.listdir(f"/proc/{pid}/task"))))
            os.kill(recorder(run_of), signal.SIGTERM)
            wait_for(lambda: not recorder(run_of), what="the end of the card")
        assert run_of.process.poll() is None
        assert max(counts[1:]) <= counts[0], counts
        run_of.end(signal.SIGTERM)
    finally:
        card.end()
    return f"{counts[0][0]} descriptors and {counts[0][1]} threads, ten times"


def try_kill_with_card(room):
    """`kill -9` of the station ends the program that reads the card, also while the card gives nothing."""
    card = Card(room)
    try:
        for is_still in (False, True):
            run_of = Runs("--card", "tape", "--tracks", "1", "--system", "25", "--quiet", more=card.home)
            wait_for(lambda: recorder(run_of) and len(marked(run_of.mark)) >= 4, what="the card")
            card.is_still = is_still
            time.sleep(0.5)
            run_of.process.kill()
            run_of.process.communicate()
            none_left(run_of.mark)
    finally:
        card.end()


def try_no_card(room):
    """A card that is not there ends it, with what arecord says; and if arecord is missing, its package is named."""
    want("arecord")
    ended, out, notes = runs("--card", "none", more={"HOME": room})
    assert ended == 3, out + notes
    has(notes, "card none: arecord ended with status 1: ", "No such file or directory")
    ended, out, notes = runs("--card", "none", more={"PATH": room})
    assert ended == 3, out + notes
    has(notes, "arecord is not installed (Debian: alsa-utils)")


@contextlib.contextmanager
def jack_server(name):
    """A server of JACK without a card, that ends with the block."""
    want("jackd", "jack-stdin", "jack-stdout", "jack_samplerate", "jack_lsp")
    words_of = ["jackd", "-n", name, "-r", "-d", "dummy", "-r", str(RATE), "-p", "512"]
    server = subprocess.Popen(words_of, stdout=subprocess.DEVNULL, stderr=subprocess.DEVNULL)
    there = {**os.environ, "JACK_DEFAULT_SERVER": name, "JACK_NO_START_SERVER": "1"}
    try:
        for _ in range(100):
            if server.poll() is not None:
                raise NotTried("a JACK server that runs here")
            if run("jack_samplerate", env=there)[0] == 0:
                break
            time.sleep(0.05)
        yield server
    finally:
        server.terminate()
        server.wait()


def try_jack(room):
    """Code that another program plays into JACK is heard; a server that ends is reported, and waited for."""
    name, path = f"try{os.getpid()}", os.path.join(room, "raw")
    env = {"JACK_DEFAULT_SERVER": name, "JACK_NO_START_SERVER": "1"}
    with open(path, "wb") as file:
        file.write(raw(words("25", "10:00:00:00", 500)))
    with jack_server(name) as server, open(path, "rb") as sound:
        player = subprocess.Popen(
            ["jack-stdin", "-q", "system:playback_1"], stdin=sound, stderr=subprocess.DEVNULL, env={**os.environ, **env}
        )
        try:
            wait_for(lambda: "jstdin:input1" in run("jack_lsp", env={**os.environ, **env})[1], what="the player")
            there = on_terminal("--jack", "jstdin:input1", "--system", "25", columns=140, more=env)
            there.until(r"JACK jstdin:input1  track 1  48000 samples a second[\s\S]*HEARD")
            server.terminate()
            lost = there.until(r"CARD LOST")
            has(lost, "JACK jstdin:input1 is lost, jack-stdout ended with", "does the JACK server run?")
            there.send(signal.SIGINT)
            assert there.end() == 130
        finally:
            player.kill()
            player.wait()
    ended, _, notes = runs("--jack", "none", more=env)
    assert ended == 3 and "no JACK server runs" in notes, notes
