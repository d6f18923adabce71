"""What is shown, and what happened: kept in one place, and given to the page and the log."""
import queue
import time
from collections import deque
from collections.abc import Callable
from dataclasses import replace
from typing import Any

from .events import Event, Happening
from .shown import HISTORY_RATE, HISTORY_SECONDS, Shown

EVENTS = 100


class Board:
    """What is shown. Only the main thread changes it; others read it, and report what happened to them."""

    def __init__(self) -> None:
        self.shown = Shown()
        self.events: deque[Event] = deque(maxlen=EVENTS)
        self.listeners: list[Callable[[Event], None]] = []
        self.wakes: list[Callable[[], None]] = []
        self.reported: queue.SimpleQueue[Happening] = queue.SimpleQueue()
        self.history: deque[int | None] = deque(maxlen=HISTORY_RATE * HISTORY_SECONDS)
        self.next_kept, self.kept = time.monotonic(), 0

    def read(self) -> Shown:
        return self.shown

    def show(self, **changes: Any) -> None:
        """Shows what is new, and wakes who serves it."""
        now = replace(self.shown, **changes)
        if now.state != self.shown.state:
            now = replace(now, since=time.monotonic())
        if now == self.shown:
            return
        self.shown = now
        for wake in self.wakes:
            wake()

    def happen(self, kind: str, label: str = "", text: str = "", at: float | None = None) -> None:
        """Something happened, now if nothing else is said."""
        event = Event(time.time() if at is None else at, kind, label, text)
        self.events.append(event)
        for listener in self.listeners:
            listener(event)
        self.show(events=tuple(self.events))

    def report(self, kind: str, text: str) -> None:
        """The same, from another thread: it is shown when the main thread looks."""
        self.reported.put(Happening(kind, "", text))

    def look(self) -> None:
        """Shows what other threads reported."""
        while not self.reported.empty():
            happening = self.reported.get_nowait()
            self.happen(happening.kind, happening.label, happening.text)

    def keep_speed(self, speed: int | None) -> None:
        """Keeps the speed, as often as it is kept."""
        now = time.monotonic()
        if now < self.next_kept:
            return
        # If the machine was suspended, nothing is made up for.
        self.next_kept = max(self.next_kept + 1 / HISTORY_RATE, now)
        self.history.append(speed)
        self.kept += 1
        self.show(history=tuple(self.history), kept=self.kept)
