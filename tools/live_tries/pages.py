"""The page for the room, by curl, by sockets, and in a browser without a window."""
import base64
import contextlib
import json
import os
import random
import signal
import socket
import subprocess
import time
import urllib.request

from tape_tries.running import has, run, want

from .stage import Runs, free_port, silence, tape, wait_for, words

# Where the pictures are kept; nowhere without a name.
pictures = None
SIZES = {"room": (1280, 720), "phone": (390, 844)}


class Served:
    """A station with a page."""

    def __init__(self, path, *options, address="127.0.0.1"):
        self.port, self.address = free_port(), address
        self.run = Runs("--file", path, "--page", str(self.port), "--quiet", *options)
        wait_for(self.is_there, what="the page")

    def is_there(self):
        with contextlib.suppress(OSError), socket.create_connection((self.address, self.port), 1):
            return True
        return False

    def curl(self, path, *more):
        """The status of an answer, and its text."""
        words_of = ["curl", "-sS", "-m", "5", "-w", "\n%{http_code}", *more, f"http://127.0.0.1:{self.port}{path}"]
        _, out, notes = run(*words_of)
        text, _, status = out.rpartition("\n")
        return int(status), text, notes

    def follower(self, kept=None):
        """A connection that follows the events."""
        there = socket.socket()
        if kept:
            there.setsockopt(socket.SOL_SOCKET, socket.SO_RCVBUF, kept)
        there.connect(("127.0.0.1", self.port))
        there.sendall(b"GET /events HTTP/1.1\r\nHost: room\r\n\r\n")
        return there

    def end(self):
        ended, _, notes = self.run.end(signal.SIGINT)
        assert ended == 130 and not notes, notes

    def processor(self):
        """The seconds of a processor that the station itself took so far."""
        with open(f"/proc/{self.run.process.pid}/stat", encoding="ascii") as file:
            fields = file.read().rsplit(")", 1)[1].split()
        return (int(fields[11]) + int(fields[12])) / os.sysconf("SC_CLK_TCK")


def minute(room):
    return tape(room, words("25", "10:00:00:00", 1500))


def try_paths(room):
    """Its three paths are answered, by GET alone; headers are bounded, and a silent client is dropped."""
    want("curl")
    served = Served(minute(room))
    status, text, _ = served.curl("/")
    assert status == 200 and text.startswith("<!doctype html>"), text[:200]
    wait_for(lambda: '"state": "heard"' in served.curl("/state")[1])
    status, text, _ = served.curl("/state?x=1")
    told = json.loads(text)
    assert status == 200 and told["label"][:8] == "10:00:00" and told["events"][0][1] == "begins", text
    for path in ("/x", "/index.html", "/events/", "/../state", "//", "/%2e%2e/etc/passwd", "/static/../../etc/passwd"):
        assert served.curl(path, "--path-as-is")[0] == 404, path
    for method in ("POST", "PUT", "DELETE", "HEAD", "OPTIONS", "TRACE"):
        status = served.curl("/", *(("-I",) if method == "HEAD" else ("-X", method)))[0]
        assert status == 405, (method, status)
    assert served.curl("/", "-d", "x" * 100_000)[0] == 405
    assert served.curl("/", "-H", "X: " + "x" * 20_000)[0] == 431
    with socket.create_connection(("127.0.0.1", served.port)) as rude:
        rude.sendall(b"\x16\x03\x01\r\n\r\n")
        assert rude.recv(100).startswith(b"HTTP/1.1 400")
    chance = random.Random(61)
    for _ in range(200):
        with socket.create_connection(("127.0.0.1", served.port)) as noise, contextlib.suppress(OSError):
            noise.sendall(chance.choice((b"", b"GET ", b"GET /state HTTP/1.1\r\n")) + chance.randbytes(200))
            noise.sendall(chance.choice((b"", b"\r\n\r\n")))
    wait_for(lambda: served.curl("/state")[0] == 200, 8, "an answer behind noise")
    with socket.create_connection(("127.0.0.1", served.port)) as mute:
        began = time.monotonic()
        mute.settimeout(10)
        assert mute.recv(100) == b"" and time.monotonic() - began < 7
    served.end()


def listened(there, seconds):
    """What a follower gets in `seconds`, and the messages with a label."""
    data, end = b"", time.monotonic() + seconds
    there.settimeout(0.2)
    while time.monotonic() < end:
        try:
            data += there.recv(65_536)
        except TimeoutError:
            continue
    return [json.loads(line[6:]) for line in data.split(b"\n") if line.startswith(b"data: {")]


def try_fifty_readers(room):
    """Fifty readers get each label, and cost next to nothing; one that stalls is dropped, and the others go on."""
    served = Served(minute(room))
    before, began = served.processor(), time.monotonic()
    time.sleep(3)
    alone = (served.processor() - before) / (time.monotonic() - began)
    stalled = served.follower(kept=4096)
    crowd = [served.follower() for _ in range(50)]
    before, began = served.processor(), time.monotonic()
    told = listened(crowd[0], 3)
    with_all = (served.processor() - before) / (time.monotonic() - began)
    labels = {it["label"] for it in told if it.get("state") == "heard"}
    assert len(labels) >= 65, f"{len(labels)} labels in three seconds"
    for there in crowd[1:]:
        there.setblocking(False)
        assert len(there.recv(1 << 20)) > 5_000
    assert wait_for(lambda: listened(crowd[1], 12), 20, "messages")
    assert is_dropped(stalled), "one that stalls is not dropped"
    assert len(listened(crowd[1], 1)) >= 20, "the others do not go on"
    for there in crowd:
        there.close()
    served.end()
    return f"{100 * alone:.0f} % of a processor without readers, {100 * with_all:.0f} % with 50"


def is_dropped(there):
    """The other side has closed it: what was on the way is there, and then its end."""
    end = time.monotonic() + 2
    there.settimeout(0.2)
    while time.monotonic() < end:
        try:
            if not there.recv(65_536):
                return True
        except TimeoutError:
            continue
        except OSError:
            return True
    return False


def try_too_many_readers(room):
    """Beyond two hundred a reader is refused, and there is room again when they leave."""
    want("curl")
    served = Served(minute(room))
    crowd = [served.follower() for _ in range(200)]
    wait_for(lambda: served.curl("/state")[0] == 503, 5, "a refusal")
    for there in crowd:
        there.close()
    wait_for(lambda: served.curl("/state")[0] == 200, 5, "room")
    served.end()


def can_bind(address):
    """Whether the machine has this address."""
    with contextlib.suppress(OSError):
        socket.create_server((address, 0), family=socket.AF_INET6 if ":" in address else socket.AF_INET).close()
        return True
    return False


def try_other_address(room):
    """Another address is served with --bind alone, with a warning; a port that is taken ends it in words."""
    path, port = tape(room, words("25", "10:00:00:00", 50)), free_port()
    ended, _, notes = Runs("--file", path, "--page", str(port), "--bind", "0.0.0.0", "--quiet").end()
    assert ended == 0
    has(notes, "the page is served on 0.0.0.0: whoever reaches that address sees the display")
    for address in ("::1", "localhost"):
        if can_bind(address):
            Served(tape(room, words("25", "10:00:00:00", 750)), "--bind", address, address=address).end()
    with socket.create_server(("127.0.0.1", 0)) as taken:
        port = taken.getsockname()[1]
        ended, _, notes = Runs("--file", path, "--page", str(port)).end()
    assert ended == 3
    has(notes, f"the page can't be served on 127.0.0.1 port {port}: address already in use")
    ended, _, notes = Runs("--file", path, "--page", "8801", "--bind", "no such address").end()
    assert ended == 3 and "can't be served" in notes, notes


class Browser:
    """A browser without a window, by the protocol of WebDriver."""

    def __init__(self, room):
        want("chromium", "chromedriver")
        self.port = free_port()
        self.driver = subprocess.Popen(["chromedriver", f"--port={self.port}"], stdout=subprocess.DEVNULL)
        wait_for(self.is_there, what="chromedriver")
        options = ["--headless", "--no-sandbox", "--disable-gpu", "--hide-scrollbars"]
        options.append(f"--user-data-dir={room}/browser")
        wanted = {"capabilities": {"alwaysMatch": {"goog:chromeOptions": {"args": options}}}}
        self.session = f"/session/{self.asks('POST', '/session', wanted)['sessionId']}"

    def is_there(self):
        with contextlib.suppress(OSError):
            return self.asks("GET", "/status")["ready"]

    def asks(self, method, path, data=None):
        body = json.dumps(data or {}).encode() if method == "POST" else None
        request = urllib.request.Request(f"http://127.0.0.1:{self.port}{path}", body, method=method)
        with urllib.request.urlopen(request, timeout=60) as answer:
            return json.load(answer)["value"]

    def opens(self, url, wide, high):
        # The size of a phone is none that a window can have.
        size = {"width": wide, "height": high, "deviceScaleFactor": 1, "mobile": wide < 500}
        words_of = {"cmd": "Emulation.setDeviceMetricsOverride", "params": size}
        self.asks("POST", f"{self.session}/goog/cdp/execute", words_of)
        self.asks("POST", f"{self.session}/url", {"url": url})

    def says(self, script):
        return self.asks("POST", f"{self.session}/execute/sync", {"script": f"return {script}", "args": []})

    def picture(self):
        return base64.b64decode(self.asks("GET", f"{self.session}/screenshot"))

    def end(self):
        with contextlib.suppress(OSError):
            self.asks("DELETE", self.session)
        self.driver.terminate()
        self.driver.wait()


# The heights at which the page writes the numbers of its scale, and how high they are.
NUMBERS = """(() => {
  const at = [], plain = CanvasRenderingContext2D.prototype.fillText;
  CanvasRenderingContext2D.prototype.fillText = function(text, x, y) {
    if (/^[0-9.]+$/.test(text)) at.push([y, parseFloat(this.font)]);
    plain.call(this, text, x, y);
  };
  draw();
  CanvasRenderingContext2D.prototype.fillText = plain;
  return at;
})()"""


def try_scale_of_the_page(room):
    """The numbers of the scale of the speeds never overlap, at any size."""
    browser = Browser(room)
    try:
        served = Served(tape(room, words("25", "10:00:00:00", 750)))
        for wide, high in (*SIZES.values(), (800, 480), (1920, 1080), (320, 480)):
            browser.opens(f"http://127.0.0.1:{served.port}/", wide, high)
            wait_for(lambda: browser.says("speeds.speeds.length") > 1, what="the speeds")
            numbers = sorted(map(tuple, browser.says(NUMBERS)))
            assert len(numbers) >= 2, f"at {wide} by {high} {numbers}"
            for (one, _), (two, size) in zip(numbers, numbers[1:]):
                assert two - one >= 0.8 * size, f"at {wide} by {high} two numbers {two - one:.0f} apart: {numbers}"
        served.end()
    finally:
        browser.end()


def try_browser(room):
    """The page in a browser, at two sizes: what it says is what the display says, big, and beside nothing."""
    browser = Browser(room)
    try:
        parts = [words("25", "10:00:00:00", 100), silence(0.5), words("25", "11:00:00:00", 1200)]
        served, sizes = Served(tape(room, *parts)), []
        wait_for(lambda: '"jump"' in served.curl("/state")[1], 20, "a jump")
        for name, (wide, high) in SIZES.items():
            browser.opens(f"http://127.0.0.1:{served.port}/", wide, high)
            wait_for(lambda: browser.says("document.body.innerText").count("HEARD") == 1, what="the display")
            # The line of the speed takes a while to be one.
            time.sleep(3)
            text = browser.says("document.body.innerText")
            has(text, "11:00:", "HEARD", "forward", "speed 1.000", "level -11.2 dB")
            has(text, "jump", "from 10:00:03:")
            assert browser.says("document.documentElement.scrollWidth") <= wide, "wider than the window"
            with open(os.path.join(pictures or room, f"live-{name}.png"), "wb") as file:
                file.write(browser.picture())
            sizes.append(browser.says("document.getElementById('label').offsetHeight / window.innerHeight"))
        served.end()
    finally:
        browser.end()
    return f"the label has {' and '.join(f'{100 * size:.0f} %' for size in sizes)} of the height"
