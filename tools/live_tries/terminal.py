"""A terminal for the tries: what a program draws on it, as lines of letters."""
import codecs
import contextlib
import fcntl
import os
import pty
import re
import select
import signal
import struct
import termios
import time

SEQUENCE = re.compile(r"\x1b\[([?0-9;]*)([A-Za-z])")


class Grid:
    """The letters of a screen, by what was written on it."""

    def __init__(self, columns, lines):
        self.columns, self.lines = columns, lines
        self.cells = [[" "] * columns for _ in range(lines)]
        self.row = self.column = 0
        self.rest = ""
        # Whether anything was written beside the screen; whether the other screen is shown; what was written behind.
        self.has_left, self.is_other, self.behind = False, False, None

    def write(self, text):
        text, self.rest = self.rest + text, ""
        at = 0
        while at < len(text):
            if text[at] == "\x1b":
                found = SEQUENCE.match(text, at)
                if not found:
                    self.rest = text[at:]
                    return
                self.obey(*found.groups())
                at = found.end()
            else:
                self.put(text[at])
                at += 1

    def obey(self, values, letter):
        numbers = [int(it) for it in values.split(";") if it.isdigit()]
        if letter == "H":
            self.row, self.column = (numbers[0] - 1, numbers[1] - 1) if len(numbers) == 2 else (0, 0)
        elif letter == "K":
            self.cells[self.row][self.column :] = [" "] * (self.columns - self.column)
        elif letter == "J":
            self.cells = [[" "] * self.columns for _ in range(self.lines)]
        elif values == "?1049":
            self.is_other = letter == "h"
            self.behind = None if self.is_other else ""

    def put(self, letter):
        if self.behind is not None:
            self.behind += letter
        elif letter == "\r":
            self.column = 0
        elif letter == "\n":
            self.row = min(self.row + 1, self.lines - 1)
        elif self.row < self.lines and self.column < self.columns:
            self.cells[self.row][self.column] = letter
            self.column += 1
        else:
            self.has_left = True

    def text(self):
        return "\n".join("".join(row).rstrip() for row in self.cells)


class Terminal:
    """A program in a terminal of its own, and all that was ever on its screen."""

    def __init__(self, words, columns=80, lines=24, env=None):
        self.grid = Grid(columns, lines)
        # Each screen that was shown, with the time; and all bytes.
        self.screens, self.data = [], b""
        # A letter may come in two pieces.
        self.decoder = codecs.getincrementaldecoder("utf-8")("replace")
        self.pid, self.handle = pty.fork()
        if self.pid == 0:
            with contextlib.suppress(BaseException):
                self.size(0, columns, lines)
                os.execvpe(words[0], words, env or os.environ)
            os._exit(127)
        self.size(self.handle, columns, lines)
        self.began = time.monotonic()
        self.status = None

    def size(self, handle, columns, lines):
        fcntl.ioctl(handle, termios.TIOCSWINSZ, struct.pack("HHHH", lines, columns, 0, 0))

    def resize(self, columns, lines):
        self.grid = Grid(columns, lines)
        self.size(self.handle, columns, lines)

    def look(self, seconds):
        """Reads for `seconds`, or until the program has ended."""
        end = time.monotonic() + seconds
        while (left := end - time.monotonic()) > 0:
            if not select.select([self.handle], [], [], left)[0]:
                return True
            try:
                piece = os.read(self.handle, 65_536)
            except OSError:
                return False
            if not piece:
                return False
            self.data += piece
            self.grid.write(self.decoder.decode(piece))
            self.screens.append((time.monotonic() - self.began, self.grid.text()))
        return True

    def until(self, pattern, seconds=10.0):
        """Reads until the screen has a text, and gives the screen."""
        end = time.monotonic() + seconds
        while time.monotonic() < end:
            is_there = self.look(0.05)
            if re.search(pattern, self.grid.text()):
                return self.grid.text()
            if not is_there:
                break
        raise AssertionError(f"no {pattern!r} on the screen\n{self.grid.text()}")

    def all(self, seconds=60.0):
        """Reads to the end of the program."""
        self.look(seconds)
        return self.end()

    def type(self, keys):
        os.write(self.handle, keys)

    def send(self, number):
        os.kill(self.pid, number)

    def end(self, seconds=5.0):
        """The status with which it ends, as a shell has it."""
        end = time.monotonic() + seconds
        while self.status is None and time.monotonic() < end:
            self.look(0.02)
            pid, how = os.waitpid(self.pid, os.WNOHANG)
            if pid:
                self.status = os.waitstatus_to_exitcode(how)
        if self.status is None:
            os.kill(self.pid, signal.SIGKILL)
            os.waitpid(self.pid, 0)
            raise AssertionError(f"it did not end within {seconds} s")
        self.look(0.05)
        self.close()
        return self.status

    def close(self):
        with contextlib.suppress(OSError):
            os.close(self.handle)
