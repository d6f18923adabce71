"""The loop of the station: samples in, lines out, and what is shown of them."""
import argparse
import errno
import signal
import sys
import threading
import time
from functools import partial
from types import FrameType

from tape_report.endings import BY_SIGNAL, CAUGHT, FAILED, end_if_told, say
from tape_report.faults import reason_of
from tape_report.names import shown as shown_name
from tape_report.programs import version

from . import code, events, hints, shown
from .board import Board
from .capture import Capture
from .chain import Chain, Slicing
from .code import Code
from .level import FLOOR, Meter, levels_of
from .lines import Heard, Invented, Line, Word
from .log import Log
from .loop import Loop
from .midi import Midi
from .page import LOOPBACK, Page
from .supply import Opened, Supply
from .system import System
from .terminal import Display, display

# How often timed work is done; and how often the levels of all tracks are shown, while nothing is heard, in seconds.
LOOKED_AFTER, LEVELS_SECONDS = 0.05, 1.0
# When a reading that ended is begun again; and how long what was read at the end is waited for, in seconds.
AGAIN, END_SECONDS = 1.0, 10.0
# After these seconds without code the operator is told what to do.
HINT_SECONDS = 1.0
GIVES_WAY = 0.001
BROKEN_PIPE = BY_SIGNAL + 13
# What a pipe and a terminal answer that were closed.
GONE = (errno.EPIPE, errno.EIO, errno.ENOTTY)


class Station:
    """All that runs, from the sound to the screen."""

    def __init__(self, options: argparse.Namespace, opened: Opened) -> None:
        self.options = options
        self.loop, self.board = Loop(), Board()
        self.supply = Supply(self.loop, self.board, opened)
        self.supply.begin, self.supply.take, self.supply.pause = self.begin_reading, self.take, self.stop_reading
        self.system = System(options.system)
        self.code: Code | None = None
        self.meter: Meter | None = None
        self.chain: Chain | None = None
        self.midi: Midi | None = None
        self.page: Page | None = None
        self.log: Log | None = None
        self.display: Display | None = None
        self.capture: Capture | None = None
        self.track = options.track
        self.block, self.levels, self.next_levels = b"", [FLOOR], 0.0
        self.next_look, self.next_reading, self.ends_at = 0.0, 0.0, 0.0
        self.status: int | None = None
        self.is_begun = False

    def run(self) -> int:
        """Runs until the input has ended or nobody looks any more."""
        try:
            for number in CAUGHT:
                signal.signal(number, self.end_by)
            end_if_told()
            self.begin()
            self.is_begun = True
            while self.status is None:
                self.loop.wait(LOOKED_AFTER)
                self.balance()
                if time.monotonic() >= self.next_look:
                    self.next_look = time.monotonic() + LOOKED_AFTER
                    self.look()
            return self.status
        finally:
            self.close()

    # ---- the beginning and the end

    def end_by(self, number: int, _frame: FrameType | None) -> None:
        """Ends with the next turn of the loop: an exception in the middle of anything may get lost there. If it
        waits for its beginning, or got a signal before, it ends at once.
        """
        was_told, self.status = self.status is not None, BY_SIGNAL + number
        if was_told or not self.is_begun:
            raise SystemExit(self.status)

    def begin(self) -> None:
        options = self.options
        threading.excepthook = self.complain
        # A thread that draws or serves gives way to the samples within these seconds.
        sys.setswitchinterval(GIVES_WAY)
        if options.midi:
            told = partial(self.board.happen, events.MIDI, "")
            self.midi = Midi(self.loop, options.midi, options.limit, told)
        if options.page:
            self.page = Page(options.bind or LOOPBACK, options.page, self.board.read)
            self.board.wakes.append(self.page.wake)
        self.board.shown = shown.Shown(track=options.track)
        self.supply.open()
        self.display = display(self.board.read, self.leave, options.quiet, options.plain)
        self.display.begin()

    def begin_log(self, capture: Capture) -> None:
        """The run begins with a capture: what comes after follows that in the log."""
        if self.options.log:
            self.log = Log(self.options.log, partial(self.board.report, events.LOG))
            self.board.listeners.append(self.log.put)
        text = f"{capture.name}, track {self.options.track}, {capture.form.rate} samples a second, version {version()}"
        self.board.happen(events.BEGINS, "", text)

    def complain(self, fault: threading.ExceptHookArgs) -> None:
        """A thread ended by a fault of this tool: the others go on."""
        name = fault.thread.name if fault.thread else "a thread"
        self.board.report(events.NOTE, f"a fault of this tool, {name} has ended: {fault.exc_value!r}")

    def leave(self, fault: OSError) -> None:
        """Nobody reads standard output any more, or nothing can be written there."""
        if fault.errno in GONE:
            self.status = BROKEN_PIPE
            return
        say(f"standard output: {reason_of(fault)}")
        self.status = FAILED

    def close(self) -> None:
        """Ends all that was started, whatever happened."""
        for number in CAUGHT:
            signal.signal(number, signal.SIG_IGN)
        if self.code is not None:
            self.board.happen(events.ENDS, self.code.label, self.code.counted())
        if self.display is not None:
            self.display.close(f"{self.code.counted()}\n" if self.code else "")
        self.supply.close()
        self.leave_reading()
        if self.page is not None:
            self.page.close()
        if self.log is not None:
            self.log.close()
        self.loop.close()

    # ---- from samples to lines

    def begin_reading(self, capture: Capture, track: int) -> None:
        """A capture is opened: it is read from here on."""
        self.capture, self.track = capture, track
        self.meter = Meter(capture.form, track)
        if self.code is None:
            self.begin_log(capture)
            self.code = Code(capture.form.rate)
        self.code.rate, self.code.state = capture.form.rate, code.NONE
        self.begin_chain()
        self.board.show(source=capture.name, rate=capture.form.rate)

    def slicer(self, system: int) -> list[str]:
        options = self.options
        return Slicing(options.threshold, options.smooth, options.deep).words(system, self.track)

    def begin_chain(self) -> None:
        assert self.capture is not None and self.code is not None
        form, system = self.capture.form, self.system.slicing
        self.system.before = None
        self.chain = Chain(self.loop, form, self.slicer(system), system, self.tell)
        self.next_reading = time.monotonic() + AGAIN
        self.code.begin(None)
        if self.system.found:
            self.begin_frames(self.system.found)

    def begin_frames(self, system: int) -> None:
        """The frames are read as those of a system, and sent."""
        assert self.capture is not None and self.code is not None and self.chain is not None
        self.code.begin(system)
        self.chain.read_frames(system, self.options.limit)
        if self.midi is not None:
            self.midi.begin(self.capture.form, self.slicer(system))

    def take(self, data: bytes) -> None:
        """A block: to MIDI first."""
        if self.midi is not None:
            self.midi.put(data)
        if self.chain is not None:
            self.chain.feed.put(data)
        if self.meter is not None:
            self.meter.take(data)
        self.block = data

    def tell(self, line: Line) -> None:
        """A line of `tc`."""
        if self.code is None:
            return
        if isinstance(line, Word) and self.system.take(line) and self.system.found:
            self.board.happen(events.SYSTEM, line.label, f"{self.system.found} frames a second, by the labels")
            self.begin_frames(self.system.found)
        for happening in self.code.take(line):
            self.board.happen(happening.kind, happening.label, happening.text, happening.at)
        if isinstance(line, (Word, Heard, Invented)):
            self.board.show(labelled=time.monotonic())
        self.show_code()

    def stop_reading(self) -> None:
        """The capture ended. Of a file or of standard input what was given is read to its end."""
        if not self.supply.is_ended:
            self.leave_reading()
            return
        self.ends_at = time.monotonic() + END_SECONDS
        if self.chain is not None:
            self.chain.feed.end()
        if self.midi is not None and self.midi.feed is not None:
            self.midi.feed.end()

    def leave_reading(self) -> None:
        """Ends the pipes as they are."""
        if self.chain is not None:
            self.chain.close()
        self.chain = None
        if self.midi is not None:
            self.midi.pause()

    # ---- what has a time

    def look(self) -> None:
        """Looks after all that may have ended, and shows what has changed."""
        self.board.look()
        self.supply.look()
        if self.supply.is_missing and self.code is not None:
            self.code.lose()
        self.look_at_chain()
        if self.midi is not None and not self.ends_at:
            self.midi.tick()
        self.show_code()
        self.show_rest()

    def balance(self) -> None:
        """Takes no more samples than are read, if they come faster than that."""
        is_read = self.chain is None or not self.chain.feed.is_full
        is_sent = self.midi is None or not self.midi.is_full
        self.supply.hold(not (is_read and is_sent))

    def look_at_chain(self) -> None:
        now = time.monotonic()
        if self.ends_at:
            if self.chain is None or self.chain.is_done or now > self.ends_at:
                self.status = 0 if self.status is None else self.status
            return
        fault = self.chain.fault() if self.chain is not None else ""
        if fault and self.chain is not None:
            self.board.happen(events.READING, "", f"{fault}; it is begun again")
            self.chain.close()
            self.chain = None
        if self.chain is None and self.supply.capture is not None and now >= self.next_reading:
            self.begin_chain()

    def state(self) -> str:
        if self.ends_at:
            return shown.ENDED
        if self.supply.capture is None:
            return shown.CARD_LOST
        if not self.supply.has_come:
            return shown.WAITING
        if self.supply.is_missing:
            return shown.NO_SAMPLES
        return self.code.state if self.code else code.NONE

    def show_code(self) -> None:
        """What is known of the code."""
        it = self.code
        if it is None:
            return
        state = self.state()
        is_heard = state in (code.HEARD, code.INVENTED)
        self.board.show(
            state=state,
            label=it.label,
            direction=it.direction,
            invented=it.invented,
            system=it.system,
            speed=it.speed if is_heard else 0,
            user=it.user,
        )

    def show_rest(self) -> None:
        """What changes by itself: the level, what to do, and the ways."""
        it = self.board.shown
        if self.meter is not None:
            self.board.show(level=self.meter.now(), mark=self.meter.mark(), is_clipped=self.meter.is_clipped())
        midi = self.midi.state if self.midi else ""
        page = f"http://{self.page.host}/, {self.page.count} reading" if self.page else ""
        self.board.show(hint=self.hint(), midi=midi, page=page, log=shown_name(self.options.log or ""))
        speed = -it.speed if it.direction == "backward" else it.speed
        self.board.keep_speed(speed if it.speed else None)

    def hint(self) -> str:
        """What to do, in a line; empty if all is well."""
        it, level = self.board.shown, self.board.shown.level
        if it.state == shown.CARD_LOST:
            return hints.without_samples(it.source, self.supply.note)
        if it.state == shown.NO_SAMPLES:
            return hints.samples_missing(it.source, it.age(shown.now()))
        if it.state == shown.WAITING or self.code is None or level is None:
            return f"no samples from {it.source} yet"
        if it.state in (code.HEARD, code.INVENTED):
            return hints.with_code(self.code, self.system, level, it.is_clipped)
        if it.state == shown.ENDED:
            return ""
        if time.monotonic() - it.since < HINT_SECONDS:
            return it.hint
        return hints.without_code(self.code, self.track, level, self.all_levels())

    def all_levels(self) -> list[float]:
        """The levels of all tracks, from the last block."""
        if self.capture is not None and time.monotonic() >= self.next_levels:
            self.next_levels = time.monotonic() + LEVELS_SECONDS
            self.levels = levels_of(self.block, self.capture.form)
        return self.levels
