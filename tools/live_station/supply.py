"""The capture as long as the station runs: opened, read, and opened again if a card or JACK ended."""
import time
from collections.abc import Callable

from tape_report.faults import Fault, NoSound, reason_of

from .board import Board
from .capture import Capture
from .events import CARD, NOTE, SAMPLES
from .lines import Lines
from .loop import Loop

# After the first of these seconds without samples they are said to be missing; after the second a card is lost, and it
# is opened again each of the third.
MISSING, SILENT, AGAIN = 0.2, 3.0, 1.0
# How many lines in which a program complains are shown in a minute.
NOTES = 10
Opened = Callable[[], tuple[Capture, int]]


class Supply:
    """Blocks of samples. `begin` is called when a capture is opened, `take` with each block, and `pause` when it
    ended.
    """

    def __init__(self, loop: Loop, board: Board, opened: Opened) -> None:
        self.loop, self.board, self.opened = loop, board, opened
        self.begin: Callable[[Capture, int], None]
        self.take: Callable[[bytes], None]
        self.pause: Callable[[], None]
        self.capture: Capture | None = None
        self.notes: Lines | None = None
        self.note, self.told, self.minute = "", 0, 0
        # Whether samples ever came, and whether they come; whether the input ended.
        self.has_come, self.comes, self.is_ended = False, False, False
        self.last, self.next = 0.0, 0.0
        self.is_held = False
        # Whether samples are missing; and what was said last of a capture that can't be opened.
        self.is_missing, self.refused = False, ""

    def open(self) -> None:
        """Opens it. A card that came before may be gone for a while."""
        capture, track = self.opened()
        self.capture, self.comes = capture, False
        self.last = time.monotonic()
        self.loop.watch(capture.descriptor, self.come)
        self.is_held = False
        if capture.notes is not None:
            self.notes = Lines(capture.notes)
            self.loop.watch(capture.notes, self.complain)
        self.begin(capture, track)

    def come(self) -> None:
        if self.capture is None:
            return
        data = self.capture.read()
        if data is None:
            return
        if not data:
            self.end()
            return
        before, self.last = self.last, time.monotonic()
        if self.is_missing:
            self.is_missing = False
            self.board.happen(SAMPLES, "", f"are back after {self.last - before:.1f} s")
        if not self.comes and self.has_come:
            self.board.happen(CARD, "", f"{self.capture.name} is back")
        self.comes = self.has_come = True
        self.take(data)

    def complain(self) -> None:
        """A line that the program complains with."""
        if self.notes is None:
            return
        for text in self.notes.come():
            self.note = " ".join(text.split())
            minute = int(time.monotonic()) // 60
            self.told = self.told + 1 if minute == self.minute else 1
            self.minute = minute
            if (self.comes or not self.has_come) and self.told <= NOTES and self.note:
                self.board.happen(NOTE, "", self.note)
        if self.notes.is_ended:
            self.loop.forget(self.notes.descriptor)

    def end(self) -> None:
        """The samples ended."""
        capture = self.capture
        assert capture is not None
        self.complain()
        how = self.close()
        told = f"{how}: {self.note}" if self.note else how
        if not capture.is_lasting:
            self.is_ended = True
        elif not self.has_come:
            raise NoSound(f"{capture.name}: {told}")
        elif self.comes:
            self.board.happen(CARD, self.board.shown.label, f"{capture.name} is lost, {told}; it is tried each second")
        self.comes = self.is_missing = False
        self.next = time.monotonic() + AGAIN
        self.pause()

    def look(self) -> None:
        """Looks after it, now and then."""
        if self.capture is None:
            if not self.is_ended and time.monotonic() >= self.next:
                self.open_again()
        elif fault := self.capture.fault():
            self.note = fault
            self.end()
        elif not self.is_held and self.has_come:
            self.look_for_samples(self.capture, time.monotonic() - self.last)

    def look_for_samples(self, capture: Capture, seconds: float) -> None:
        """Tells that none came for so long."""
        if capture.is_lasting and seconds > SILENT:
            self.note = f"no samples for {SILENT:.0f} s"
            self.end()
        elif seconds > max(MISSING, 2 * capture.apart) and self.comes and not self.is_missing:
            self.is_missing = True
            self.board.happen(SAMPLES, self.board.shown.label, f"none from {capture.name}")

    def open_again(self) -> None:
        try:
            self.note = ""
            self.open()
            self.refused = ""
        except (Fault, OSError) as fault:
            self.note = reason_of(fault)
            self.next = time.monotonic() + AGAIN
            if self.note != self.refused:
                self.refused = self.note
                self.board.happen(CARD, "", f"{self.note}; it is tried each second")

    def hold(self, is_full: bool) -> None:
        """Takes no more while who reads is full."""
        if self.capture is None or is_full == self.is_held:
            return
        self.is_held = is_full
        if is_full:
            self.loop.forget(self.capture.descriptor)
        else:
            self.last = time.monotonic()
            self.loop.watch(self.capture.descriptor, self.come)

    def close(self) -> str:
        """Ends the capture, and says how it ended."""
        if self.capture is None:
            return ""
        self.loop.forget(self.capture.descriptor)
        if self.notes is not None:
            self.loop.forget(self.notes.descriptor)
        capture, self.capture, self.notes = self.capture, None, None
        return capture.close()

