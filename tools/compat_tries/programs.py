"""Debian's programs that are linked against libltc, on libltc and on the library in its place, for tools/try_compat.

GStreamer's timecodestamper and xjadeo are given sounds of 250 frames, live, and Ardour's generator is recorded. xjadeo
has a screen of Xvfb; its sound, and Ardour's, goes by a jackd of its own with the driver dummy. What is not installed
is named and not tried.
"""
import array
import contextlib
import os
import re
import shutil
import subprocess
import tempfile
import time

SERVER, SCREEN, SECONDS = "tc-compat", ":77", 14
ARDOUR = """
AudioEngine:set_backend("JACK", "ardour", "")
local session = create_session("{room}/session", "session", 48000)
ARDOUR.config():set_send_ltc(true)
ARDOUR.LuaAPI.usleep(1000000)
session:request_roll(ARDOUR.TransportRequestSource.TRS_UI)
os.execute("timeout 12 jack-stdout -q -b 16 -d 8 ardour:LTC-Out > {room}/ardour.raw")
close_session()
quit()
"""


def lacking(*names):
    """The first of these programs that is not installed, or nothing."""
    return next((name for name in names if not shutil.which(name)), None)


@contextlib.contextmanager
def started(*words):
    """A program in the background, which is ended behind what is done."""
    with subprocess.Popen(words, stdout=subprocess.DEVNULL, stderr=subprocess.DEVNULL) as program:
        time.sleep(3)
        try:
            yield program
        finally:
            program.terminate()


def stamped(wave, env):
    """The labels that GStreamer's timecodestamper reads of a sound, which it takes in 8 bits."""
    video = "videotestsrc is-live=true num-buffers=290 ! video/x-raw,framerate=25/1,width=16,height=16"
    sound = f"filesrc location={wave} ! wavparse ! audioconvert ! identity sync=true ! queue ! stamp.ltc_sink"
    stamp = "timecodestamper name=stamp source=ltc set=always ! fakesink sync=true"
    words = ["timeout", str(SECONDS), "gst-launch-1.0", "-q", *f"{video} ! {stamp} {sound}".split()]
    env = {**env, "GST_DEBUG": "timecodestamper:4", "GST_DEBUG_NO_COLOR": "1"}
    told = subprocess.run(words, capture_output=True, env=env, check=False).stderr.decode(errors="replace")
    return re.findall(r"Got LTC timecode (\S+)", told)


def shown(samples, room, env):
    """The labels of the frames that xjadeo shows under a sound."""
    video = os.path.join(room, "video.avi")
    if not os.path.exists(video):
        picture = ("-f", "lavfi", "-i", "testsrc=size=64x48:rate=25:duration=14", "-c:v", "mjpeg", video)
        subprocess.run(("ffmpeg", "-loglevel", "error", *picture), stdin=subprocess.DEVNULL, check=True)
    words = ("timeout", str(2 * SECONDS), "xjadeo", "-R", "--ltc", video)
    pipes = {"stdin": subprocess.PIPE, "stdout": subprocess.PIPE, "stderr": subprocess.DEVNULL}
    with subprocess.Popen(words, env={**env, "DISPLAY": SCREEN}, **pipes) as program:
        time.sleep(2)
        program.stdin.write(b"notify frame\n")
        program.stdin.flush()
        play = ("timeout", str(SECONDS), "jack-stdin", "-q", "-b", "16", "xjadeo:ltc-input")
        subprocess.run(play, input=samples, capture_output=True, env=env, check=False)
        told = program.communicate(b"quit\n")[0].decode(errors="replace")
    places = map(int, re.findall(r"position=(\d+)", told))
    return [f"00:00:{place // 25:02}:{place % 25:02}" for place in places]


def generated(tc, room, env):
    """The labels of what Ardour's generator plays, by `tc`."""
    script, sound = os.path.join(room, "ardour.lua"), os.path.join(room, "ardour.raw")
    shutil.rmtree(os.path.join(room, "session"), ignore_errors=True)
    with open(script, "w", encoding="utf-8") as file:
        file.write(ARDOUR.format(room=room))
    words = ("timeout", "90", "ardour7-lua", script)
    env = {**env, "HOME": room}
    subprocess.run(words, env=env, stdin=subprocess.DEVNULL, capture_output=True, check=False)
    slices = (tc, "pcm-ltc", "30", "48000", "250", "16")
    with open(sound, "rb") as file:
        sliced = subprocess.run(slices, stdin=file, capture_output=True, check=True)
    read = subprocess.run((tc, "ltc-read"), input=sliced.stdout, capture_output=True, check=True).stdout.decode()
    return [line.split()[2] for line in read.splitlines() if line.startswith("word ")]


def told(labels, wanted):
    """How many of the labels there are, and behind a plus sign how many others."""
    others = sum(label not in wanted for label in labels)
    return f"{len(wanted.intersection(labels))}{f'+{others}' if others else ''}"


def runs(labels):
    """How many labels there are, and in how many runs of 30 a second: a run ends where jackd came too late."""
    places = [((int(h) * 60 + int(m)) * 60 + int(s)) * 30 + int(f) for h, m, s, f in (it.split(":") for it in labels)]
    ends = sum(after != before + 1 for before, after in zip(places, places[1:]))
    return f"{len(labels)}/{ends + 1}"


def try_programs(place, tc, sounds, wave):
    """Prints a table. place: the folder with the library; sounds: the name and the samples of each, 250 frames
    from 00:00:01:00 on; wave: writes a WAV file of samples.
    """
    wanted = {f"00:00:{number // 25:02}:{number % 25:02}" for number in range(25, 275)}
    env = {**os.environ, "JACK_DEFAULT_SERVER": SERVER, "JACK_NO_AUDIO_RESERVATION": "1"}
    both = (env, {**env, "LD_LIBRARY_PATH": place})
    print(f"{'':46} libltc  library")

    def row(name, sides):
        print(f"{name:46} {sides[0]:>6}  {sides[1]:>7}", flush=True)

    with tempfile.TemporaryDirectory() as room:
        missing = lacking("gst-launch-1.0")
        if missing:
            print(f"timecodestamper: not tried, for want of {missing}")
        else:
            for name, samples in sounds:
                path = wave(os.path.join(room, "sound.wav"), samples)
                row(f"timecodestamper, {name}", [told(stamped(path, side), wanted) for side in both])
        missing = lacking("xjadeo", "jackd", "jack-stdin", "jack-stdout", "Xvfb", "ffmpeg")
        if missing:
            print(f"xjadeo, Ardour: not tried, for want of {missing}")
            return
        driver = ("jackd", "-r", "-n", SERVER, "-d", "dummy", "-r", "48000", "-p", "1024")
        with started(*driver), started("Xvfb", SCREEN, "-screen", "0", "320x240x24"):
            for name, samples in sounds:
                held = array.array("h", samples).tobytes()
                row(f"xjadeo, {name}", [told(shown(held, room, side), wanted) for side in both])
            if lacking("ardour7-lua"):
                print("Ardour: not tried, for want of ardour7-lua")
                return
            played = [generated(tc, room, side) for side in both]
            row("Ardour's generator, words/runs of them", [runs(labels) for labels in played])
