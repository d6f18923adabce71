"""The display on standard output, by a thread of its own: a terminal that is stopped holds nobody up."""
import contextlib
import locale
import os
import signal
import termios
import threading
import time
from collections.abc import Callable

from .events import Event
from .screen import Style, plain_line, rows
from .shown import ENDED, Moment, Shown, now

# The display is redrawn at most this often a second; and plain output repeats the time of day after these seconds.
REDRAWN = 25
PLAIN_SECONDS = 1.0
OUT = 1
# To the other screen, without a cursor; and back.
BEGIN, END = b"\x1b[?1049h\x1b[?25l\x1b[2J", b"\x1b[0m\x1b[?25h\x1b[?1049l"
LOCAL = 3
Read = Callable[[], Shown]
# What is called when nothing can be written any more.
Fail = Callable[[OSError], None]


def is_screen() -> bool:
    """Standard output is a terminal that can be drawn on, and this process may."""
    if not os.isatty(OUT) or os.environ.get("TERM", "dumb") in ("", "dumb"):
        return False
    with contextlib.suppress(OSError):
        return os.tcgetpgrp(OUT) == os.getpgrp()
    return True


def has_blocks() -> bool:
    """The terminal's letters are those of Unicode, as far as the locale says."""
    return locale.nl_langinfo(locale.CODESET).upper() in ("UTF-8", "UTF8")


class Display:
    """What all displays have: a thread that draws what is shown, until it has to end."""

    def __init__(self, read: Read, fail: Fail) -> None:
        self.read, self.fail = read, fail
        self.is_over = threading.Event()
        self.thread = threading.Thread(target=self.work, name="display", daemon=True)

    def begin(self) -> None:
        self.thread.start()

    def work(self) -> None:
        try:
            while not self.is_over.wait(1 / REDRAWN):
                self.draw(self.read(), now())
        except OSError as fault:
            self.fail(fault)

    def draw(self, it: Shown, moment: Moment) -> None:
        """Nothing, if it is quiet."""

    def close(self, summary: str) -> None:
        """Ends it; the summary comes after all."""
        self.is_over.set()
        if self.thread.is_alive():
            self.thread.join(0.2)


class Screen(Display):
    """A terminal, of which only the lines are written that differ."""

    def __init__(self, read: Read, fail: Fail, is_plain: bool) -> None:
        super().__init__(read, fail)
        self.is_plain = is_plain or not has_blocks()
        self.has_colour = "NO_COLOR" not in os.environ
        self.style: Style | None = None
        self.drawn: list[str] = []
        # By this no write waits.
        self.handle = os.open(os.ttyname(OUT), os.O_WRONLY | os.O_NONBLOCK | os.O_NOCTTY | os.O_CLOEXEC)
        self.before = termios.tcgetattr(OUT)

    def begin(self) -> None:
        # Stopped in the middle, it would leave a terminal without a cursor and a card that nobody reads.
        signal.signal(signal.SIGTSTP, signal.SIG_IGN)
        quiet = termios.tcgetattr(OUT)
        quiet[LOCAL] &= ~termios.ECHO
        termios.tcsetattr(OUT, termios.TCSANOW, quiet)
        os.write(OUT, BEGIN)
        super().begin()

    def draw(self, it: Shown, moment: Moment) -> None:
        size = os.get_terminal_size(OUT)
        style = Style(size.columns or 80, size.lines or 24, self.is_plain, self.has_colour)
        text = ""
        if style != self.style:
            self.style, self.drawn, text = style, [], "\x1b[2J"
        drawn = rows(it, style, moment)
        for number in range(max(len(drawn), len(self.drawn))):
            row = drawn[number] if number < len(drawn) else ""
            if number >= len(self.drawn) or row != self.drawn[number]:
                text += f"\x1b[{number + 1};1H\x1b[K{row}"
        self.drawn = drawn
        if text:
            write(text.encode("utf-8", "replace"))

    def close(self, summary: str) -> None:
        super().close(summary)
        with contextlib.suppress(OSError):
            os.write(self.handle, END + summary.encode("utf-8", "replace"))
        with contextlib.suppress(OSError, termios.error):
            termios.tcsetattr(OUT, termios.TCSANOW, self.before)
        os.close(self.handle)


class PlainLines(Display):
    """A line a second, and one an event."""

    def __init__(self, read: Read, fail: Fail) -> None:
        super().__init__(read, fail)
        self.told: Event | None = None
        self.next = 0.0

    def draw(self, it: Shown, moment: Moment) -> None:
        events = it.events
        if self.told in events:
            events = events[events.index(self.told) + 1 :]
        text = "".join(f"{event.line()}\n" for event in events)
        self.told = it.events[-1] if it.events else None
        if time.monotonic() >= self.next:
            self.next = time.monotonic() + PLAIN_SECONDS
            text += f"{plain_line(it, moment)}\n" + (f"    {it.hint}\n" if it.hint else "")
        if text:
            write(text.encode("utf-8", "backslashreplace"))

    def close(self, summary: str) -> None:
        super().close(summary)
        if not self.thread.is_alive():
            # The last line says how it ended.
            self.next = time.monotonic() + (0 if self.read().state == ENDED else PLAIN_SECONDS)
            with contextlib.suppress(OSError):
                self.draw(self.read(), now())


def write(data: bytes) -> None:
    while data:
        data = data[os.write(OUT, data) :]


def display(read: Read, fail: Fail, is_quiet: bool, is_plain: bool) -> Display:
    """The display that fits."""
    if is_quiet:
        return Display(read, fail)
    return Screen(read, fail, is_plain) if is_screen() else PlainLines(read, fail)
