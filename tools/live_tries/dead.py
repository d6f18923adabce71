"""An input that is dead is shown as dead: nothing is HEARD without samples, and what ended has ended."""
import contextlib
import json
import os
import re
import secrets
import signal
import subprocess
import threading
import time

from tape_tries.running import has, run, want

from . import pages
from .pages import Browser, Served
from .sources import Card, jack_server
from .stage import LIVE, PYTHON, RATE, Runs, environment, free_port, on_terminal, raw, read_of, runs, silence, tape
from .stage import wait_for, words
from .terminal import Terminal

# So long after the last sample it is shown that there is none; with what a busy machine adds.
SHOWN = 0.2
LATE = 0.6


class Feeder:
    """Samples of one track into a descriptor, as fast as they are played, until it is told to be still."""

    def __init__(self, handle, samples):
        self.handle, self.data = handle, raw(samples)
        self.is_still = self.is_over = False
        self.last = 0.0
        self.thread = threading.Thread(target=self.work, daemon=True)
        self.thread.start()

    def work(self):
        block, seconds = 960, 960 / 2 / RATE
        due = time.monotonic()
        with contextlib.suppress(OSError):
            for at in range(0, len(self.data), block):
                due = max(due + seconds, time.monotonic() - 0.05)
                time.sleep(max(0.0, due - time.monotonic()))
                while self.is_still and not self.is_over:
                    time.sleep(0.01)
                if self.is_over:
                    break
                os.write(self.handle, self.data[at : at + block])
                self.last = time.monotonic()
        os.close(self.handle)

    def end(self):
        self.is_over = True
        self.thread.join()


def fed(room, name, handle_in, *options):
    """A station on a terminal whose standard input is a descriptor."""
    mark = secrets.token_hex(8)
    command = f"exec '{PYTHON}' '{LIVE}' - --tracks 1 --system 25 {' '.join(options)} < '{name}'"
    env = environment(mark, {"TERM": "xterm", "LC_ALL": "C.UTF-8", "NO_COLOR": ""})
    there = Terminal(["/bin/sh", "-c", command], 100, 24, env)
    there.mark = mark
    return there


def try_no_samples(room):
    """A FIFO that gives nothing is NO SAMPLES within a quarter of a second or so, on terminal, page and log; with the
    age of its label; and HEARD again when samples are back.
    """
    fifo, log, port = os.path.join(room, "fifo"), os.path.join(room, "log"), free_port()
    os.mkfifo(fifo)
    there = fed(room, fifo, None, "--log", log, "--page", str(port))
    feeder = Feeder(os.open(fifo, os.O_WRONLY), words("25", "10:00:00:00", 750))
    try:
        there.until(r"HEARD")
        feeder.is_still = True
        there.until(r"NO SAMPLES", 3)
        late = time.monotonic() - feeder.last
        assert "HEARD" not in there.grid.text(), there.grid.text()
        assert SHOWN <= late < SHOWN + LATE, f"shown {late:.2f} s after the last sample"
        there.look(1.5)
        has(there.grid.text(), "NO SAMPLES 1 s", "no samples from standard input; the label is 2 s old")
        _, told, _ = run("curl", "-sS", "-m", "5", f"http://127.0.0.1:{port}/state")
        state = json.loads(told)
        assert state["state"] == "no samples" and state["text"].startswith("NO SAMPLES") and 1 < state["age"] < 5, state
        feeder.is_still = False
        there.until(r"HEARD", 3)
        there.send(signal.SIGINT)
        assert there.end() == 130
    finally:
        feeder.end()
    text = read_of(log)
    assert re.search(r" samples 10:00:\d\d:\d\d none from standard input\n", text), text
    assert re.search(r" samples - are back after \d\.\d s\n", text), text
    return f"shown {late:.2f} s after the last sample"


def try_no_samples_of_a_card(room):
    """A card that stops is NO SAMPLES first, and lost after three seconds."""
    card = Card(room)
    there = on_terminal("--card", "tape", "--tracks", "1", "--system", "25", more=card.home)
    try:
        there.until(r"HEARD")
        card.is_still = True
        there.until(r"NO SAMPLES", 2)
        there.until(r"CARD LOST", 6)
        card.is_still = False
        there.until(r"HEARD", 8)
        there.send(signal.SIGINT)
        assert there.end() == 130
    finally:
        card.end()


def try_ended_stays(room):
    """At the end of its input the station says ENDED, and nothing else behind it."""
    path = tape(room, words("25", "10:00:00:00", 40))
    ended, out, _ = runs("--file", path, "--system", "25")
    lines = [line for line in out.splitlines() if re.match(r"\d\d:\d\d:\d\d ", line)]
    assert ended == 0 and lines and " ended " in lines[-1] + " ", out
    served = Served(path)
    follower = served.follower()
    follower.settimeout(10)
    data = b""
    with contextlib.suppress(OSError):
        while piece := follower.recv(65_536):
            data += piece
    states = [json.loads(line[6:]).get("state") for line in data.split(b"\n") if line.startswith(b'data: {"clock"')]
    assert states[-1] == "ended" and "heard" in states, states[-5:]
    behind = states[states.index("ended") :]
    assert set(behind) == {"ended"}, behind
    assert served.run.end()[0] == 0


def try_slow_file(room):
    """A file that is played slowly has its samples, however rarely they come."""
    path = tape(room, words("25", "10:00:00:00", 8))
    _, out, _ = runs("--file", path, "--pace", "0.05", "--system", "25")
    behind = out[out.index("heard") :]
    assert "no samples" not in behind.lower(), out


def try_first_word(room):
    """The line `code` of the log has the label of the first word, and the time at which it came."""
    log = os.path.join(room, "log")
    path = tape(room, silence(0.5), words("25", "10:00:00:03", 50))
    assert runs("--file", path, "--log", log)[0] == 0
    lines = {line.split()[1]: line.split() for line in read_of(log).splitlines()}
    assert lines["code"][2] == "10:00:00:03", lines["code"]

    def seconds(words_of):
        clock = re.search(r"T(\d+):(\d+):(\d+\.\d+)", words_of[0])
        return 3600 * int(clock[1]) + 60 * int(clock[2]) + float(clock[3])

    apart = (seconds(lines["system"]) - seconds(lines["code"])) % 86_400
    assert 0.7 < apart < 1.2, f"{apart:.3f} s before the system was known"
    return f"{apart:.3f} s before the system was known"


def try_clock_that_is_set(_room):
    """How long a state lasts does not depend on the machine's clock."""
    from live_station.board import Board
    from live_station.screen import state_text
    from live_station.shown import Moment

    board = Board()
    board.show(state="gone", label="10:00:00:00")
    assert abs(board.shown.since - time.monotonic()) < 1, board.shown.since
    for clock in (0.0, time.time(), time.time() + 86_400):
        text = state_text(board.shown, Moment(clock, board.shown.since + 12.4))
        assert text == "GONE 12 s", text


@contextlib.contextmanager
def player(path, env):
    """A program that plays raw samples into JACK."""
    with open(path, "rb") as sound:
        playing = subprocess.Popen(
            ["jack-stdin", "-q", "system:playback_1"], stdin=sound, stderr=subprocess.DEVNULL, env=env
        )
        try:
            wait_for(lambda: "jstdin:input1" in run("jack_lsp", env=env)[1], what="the player")
            yield playing
        finally:
            playing.kill()
            playing.wait()


def try_jack_port_that_goes(room):
    """A port of JACK that goes away is told, tried again and shown, while the server runs on; one that never was ends
    the station at once.
    """
    name, path, log = f"try{os.getpid()}", os.path.join(room, "raw"), os.path.join(room, "log")
    env = {"JACK_DEFAULT_SERVER": name, "JACK_NO_START_SERVER": "1"}
    there_env = {**os.environ, **env}
    with open(path, "wb") as file:
        file.write(raw(words("25", "10:00:00:00", 1500)))
    with jack_server(name):
        ended, _, notes = runs("--jack", "jstdin:input1", more=env)
        assert ended == 3 and "JACK jstdin:input1: there is no such port; jack_lsp lists" in notes, notes
        with player(path, there_env):
            there = on_terminal("--jack", "jstdin:input1", "--system", "25", "--log", log, columns=140, more=env)
            there.until(r"HEARD")
        lost = there.until(r"CARD LOST", 8)
        has(lost, "JACK jstdin:input1")
        there.until(r"there is no such port", 8)
        with player(path, there_env):
            there.until(r"HEARD", 10)
            there.send(signal.SIGINT)
            assert there.end() == 130
    text = read_of(log)
    has(text, "there is no such port any more; it is tried each second", "JACK jstdin:input1 is back")


def try_no_samples_of_jack(room):
    """A server of JACK that stands still is NO SAMPLES, though its port is there."""
    name, path = f"try{os.getpid()}", os.path.join(room, "raw")
    env = {"JACK_DEFAULT_SERVER": name, "JACK_NO_START_SERVER": "1"}
    with open(path, "wb") as file:
        file.write(raw(words("25", "10:00:00:00", 750)))
    with jack_server(name) as server, player(path, {**os.environ, **env}):
        there = on_terminal("--jack", "jstdin:input1", "--system", "25", columns=140, more=env)
        there.until(r"HEARD")
        server.send_signal(signal.SIGSTOP)
        try:
            text = there.until(r"NO SAMPLES", 2)
            assert "HEARD" not in text, text
        finally:
            server.send_signal(signal.SIGCONT)
        there.send(signal.SIGINT)
        assert there.end() == 130


def try_no_samples_of_a_pipe(room):
    """A pipe that gives nothing, with the station's lines where there is no terminal."""
    reading, writing = os.pipe()
    feeder = Feeder(writing, words("25", "10:00:00:00", 250))
    out = os.path.join(room, "out")
    with open(out, "wb") as file:
        station = Runs("-", "--tracks", "1", "--system", "25", stdin=reading, stdout=file)
        os.close(reading)
        try:
            wait_for(lambda: " heard " in read_of(out), what="the code")
            feeder.is_still = True
            wait_for(lambda: " no samples " in read_of(out).split(" heard ")[-1], 3, "NO SAMPLES")
            feeder.is_still = False
            wait_for(lambda: " heard " in read_of(out).split(" no samples ")[-1], 3, "the code again")
        finally:
            feeder.end()
        assert station.end(signal.SIGINT)[0] == 130
    assert re.search(r" samples +10:00:\d\d:\d\d none from standard input", read_of(out)), read_of(out)


def try_no_samples_on_the_page(room):
    """The page in a browser says NO SAMPLES and not HEARD, and HEARD again when they are back."""
    browser, port, fifo = Browser(room), free_port(), os.path.join(room, "fifo")
    os.mkfifo(fifo)
    there = fed(room, fifo, None, "--page", str(port))
    feeder = Feeder(os.open(fifo, os.O_WRONLY), words("25", "10:00:00:00", 1500))
    try:
        there.until(r"HEARD")
        browser.opens(f"http://127.0.0.1:{port}/", 1280, 720)
        for is_still, said, other in ((False, "HEARD", "NO SAMPLES"), (True, "NO SAMPLES", "HEARD"), (False, "HEARD", "NO SAMPLES")):
            feeder.is_still = is_still
            wait_for(lambda: said in shown_by(browser, there), 4, said)
            assert other not in shown_by(browser, there), shown_by(browser, there)
            time.sleep(1.5)
            assert said in shown_by(browser, there), shown_by(browser, there)
            if is_still and pages.pictures:
                with open(os.path.join(pages.pictures, "live-no-samples.png"), "wb") as file:
                    file.write(browser.picture())
        there.send(signal.SIGINT)
        assert there.end() == 130
    finally:
        feeder.end()
        browser.end()


def shown_by(browser, there):
    """What the page says of the state; meanwhile the terminal is read, so that it holds nobody up."""
    there.look(0.02)
    return browser.says("document.getElementById('state').innerText")


SINK = """context.objects = [ { factory = adapter args = { factory.name = support.null-audio-sink node.name = "tape"
    media.class = "Audio/Sink" audio.position = [ MONO ] audio.rate = 48000 } } ]
"""
PIPEWIRE = """
pipewire > /dev/null 2>&1 & one=$!
wireplumber > /dev/null 2>&1 & two=$!
for n in 1 2 3 4 5 6 7 8 9 10; do sleep 0.5; pw-cli ls Node 2> /dev/null | grep -q '"tape"' && break; done
timeout 40 pw-cat -p --target tape --rate 48000 --channels 1 --format s16 - < "$HOME/raw" 2> /dev/null & three=$!
sleep 1
timeout -s INT 6 pw-record -P '{ stream.capture.sink=true }' --target tape --rate 48000 --channels 1 --format s16 - \\
    2> /dev/null | timeout -s INT 5 "$1" "$2" - --tracks 1 --system 25 > "$HOME/recorded"
timeout -s INT 5 pw-jack "$1" "$2" --jack tape:monitor_MONO --system 25 > "$HOME/jacked" 2> "$HOME/notes"
kill $three $two $one
wait
"""


def try_pipewire(room):
    """PipeWire by its own recorder and by its JACK."""
    want("pipewire", "wireplumber", "pw-record", "pw-jack", "pw-cat", "jack-stdout", "dbus-run-session")
    os.makedirs(os.path.join(room, ".config", "pipewire", "pipewire.conf.d"))
    with open(os.path.join(room, ".config", "pipewire", "pipewire.conf.d", "tape.conf"), "w", encoding="ascii") as file:
        file.write(SINK)
    with open(os.path.join(room, "raw"), "wb") as file:
        file.write(raw(words("25", "10:00:00:00", 1000)))
    script = os.path.join(room, "script")
    with open(script, "w", encoding="ascii") as file:
        file.write(PIPEWIRE)
    env = environment(secrets.token_hex(8), {"HOME": room, "XDG_RUNTIME_DIR": room})
    env.pop("XDG_CONFIG_HOME", None)
    os.chmod(room, 0o700)
    words_of = ["dbus-run-session", "--", "sh", script, PYTHON, LIVE]
    ran = subprocess.run(words_of, env=env, capture_output=True, timeout=90, check=False)
    recorded, jacked = (read_of(os.path.join(room, name)) for name in ("recorded", "jacked"))
    has(recorded, "heard forward speed 1.000", "standard input")
    has(jacked, "heard forward speed 1.000", "JACK tape:monitor_MONO")
    assert ran.returncode == 0, ran.stderr
