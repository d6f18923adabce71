"""The page for the room: a server of three paths, by a thread of its own.

`/` is the page, `/events` what it follows by server-sent events, and `/state` the same once, as JSON. A message is made
once for all readers. One that does not take it misses it, and is dropped if it takes nothing at all.
"""
import contextlib
import ipaddress
import json
import os
import selectors
import socket
import threading
import time
from collections.abc import Callable
from typing import Any

from tape_report.faults import Fault

from .reader import FOLLOWING, Reader, answer, asked, refusal
from .screen import state_text
from .shown import HISTORY_RATE, HISTORY_SECONDS, Moment, Shown, now

LOOPBACK = "127.0.0.1"
# More readers than these are refused.
MOST_READERS = 200
# The least time between messages, and how often their readers are looked at, in seconds.
APART, LOOKED_AT = 0.015, 0.5
EVENTS = 8
HTML, JSON = "text/html; charset=utf-8", "application/json"


def listening(address: str, port: int) -> socket.socket:
    """The socket of the page."""
    family = socket.AF_INET6 if ":" in address else socket.AF_INET
    try:
        return socket.create_server((address, port), family=family, backlog=64)
    except (OSError, UnicodeError) as fault:
        reason = (getattr(fault, "strerror", None) or "it is no address of this machine").lower()
        raise Fault(f"the page can't be served on {address} port {port}: {reason}") from fault


def is_loopback(address: str) -> bool:
    """Only this machine reaches it."""
    with contextlib.suppress(ValueError):
        return ipaddress.ip_address(address).is_loopback
    return address == "localhost"


def state_of(it: Shown, moment: Moment) -> dict[str, Any]:
    """The display as a message has it."""
    age = it.age(moment)
    return {
        "clock": time.strftime("%H:%M:%S", time.localtime(moment.clock)),
        "source": it.source,
        "track": it.track,
        "system": it.system,
        "state": it.state,
        "text": state_text(it, moment),
        "label": it.label,
        "age": None if age is None else round(age, 1),
        "direction": it.direction,
        "invented": it.invented,
        "speed": it.speed,
        "user": it.user,
        "level": it.level,
        "mark": it.mark,
        "cut": it.is_clipped,
        "hint": it.hint,
        "kept": it.kept,
        "last": it.history[-1] if it.history else None,
    }


def events_of(it: Shown) -> list[list[str]]:
    return [[event.clock, event.kind, event.label, event.text] for event in it.events[-EVENTS:]]


def history_of(it: Shown) -> dict[str, Any]:
    return {"kept": it.kept, "rate": HISTORY_RATE, "seconds": HISTORY_SECONDS, "speeds": it.history}


def message(data: object, kind: str = "") -> bytes:
    name = f"event: {kind}\n" if kind else ""
    return f"{name}data: {json.dumps(data, separators=(',', ':'))}\n\n".encode("ascii")


def whole_of(it: Shown, moment: Moment) -> bytes:
    """What a reader begins with."""
    return message(history_of(it), "history") + message(events_of(it), "events") + message(state_of(it, moment))


class Page:
    """The server. `read` gives what is shown, and `wake` says that this changed."""

    def __init__(self, address: str, port: int, read: Callable[[], Shown]) -> None:
        self.read, self.address, self.port = read, address, port
        self.socket = listening(address, port)
        self.socket.setblocking(False)
        with open(os.path.join(os.path.dirname(__file__), "page.html"), "rb") as file:
            self.html = file.read()
        self.woken, self.waking = os.pipe()
        os.set_blocking(self.woken, False)
        os.set_blocking(self.waking, False)
        self.selector = selectors.DefaultSelector()
        self.selector.register(self.socket, selectors.EVENT_READ)
        self.selector.register(self.woken, selectors.EVENT_READ)
        self.readers: dict[int, Reader] = {}
        self.is_over = False
        # What the last message was of, and when it went out.
        self.sent, self.sent_at = self.read(), 0.0
        self.told = self.sent.events
        self.thread = threading.Thread(target=self.work, name="page", daemon=True)
        self.thread.start()

    @property
    def host(self) -> str:
        """Where it is, as a browser needs it."""
        return f"[{self.address}]:{self.port}" if ":" in self.address else f"{self.address}:{self.port}"

    @property
    def count(self) -> int:
        return sum(reader.state == FOLLOWING for reader in list(self.readers.values()))

    def wake(self) -> None:
        with contextlib.suppress(BlockingIOError):
            os.write(self.waking, b"!")

    def close(self) -> None:
        self.is_over = True
        self.wake()
        self.thread.join(1.0)

    def work(self) -> None:
        looked_at = 0.0
        while not self.is_over:
            wait = LOOKED_AT
            if self.sent is not self.read():
                wait = max(0.0, self.sent_at + APART - time.monotonic())
            for key, events in self.selector.select(wait):
                self.called(key.fd, events)
            if self.sent is not self.read() and time.monotonic() >= self.sent_at + APART:
                self.tell()
            if time.monotonic() >= looked_at + LOOKED_AT:
                looked_at = time.monotonic()
                self.look(looked_at)
        # Those who follow get to know how it ended.
        self.tell()
        for descriptor in list(self.readers):
            self.drop(descriptor)
        self.socket.close()

    def called(self, descriptor: int, events: int) -> None:
        if descriptor == self.woken:
            with contextlib.suppress(BlockingIOError):
                os.read(self.woken, 4096)
        elif descriptor == self.socket.fileno():
            self.accept()
        elif descriptor in self.readers:
            self.serve(self.readers[descriptor], events)

    def accept(self) -> None:
        try:
            connection, _ = self.socket.accept()
        except OSError:
            # There are no descriptors left, or it went away again.
            time.sleep(APART)
            return
        reader = Reader(connection)
        self.readers[connection.fileno()] = reader
        self.selector.register(connection, selectors.EVENT_READ)
        if len(self.readers) > MOST_READERS:
            reader.give(refusal(503))
        self.settle(reader)

    def serve(self, reader: Reader, events: int) -> None:
        """Hears a reader, and gives it what it requested or did not take before."""
        if events & selectors.EVENT_READ:
            request = reader.hear()
            if request is not None:
                self.reply(reader, request)
        if events & selectors.EVENT_WRITE:
            reader.push()
            if reader.has_missed and not reader.kept and reader.state == FOLLOWING:
                reader.has_missed = False
                reader.send(whole_of(self.read(), now()))
        self.settle(reader)

    def reply(self, reader: Reader, request: bytes) -> None:
        status, path = asked(request)
        it, moment = self.read(), now()
        if status == 200 and path == "/":
            reader.give(answer(200, HTML, self.html))
        elif status == 200 and path == "/events":
            reader.follow(whole_of(it, moment))
        elif status == 200 and path == "/state":
            told = {**state_of(it, moment), "events": events_of(it)}
            reader.give(answer(200, JSON, json.dumps(told).encode("ascii") + b"\n"))
        else:
            reader.give(refusal(404 if status == 200 else status))

    def settle(self, reader: Reader) -> None:
        """Watches for what the reader can do next."""
        descriptor = reader.connection.fileno()
        if reader.is_over(time.monotonic()):
            self.drop(descriptor)
            return
        wanted = selectors.EVENT_READ | (selectors.EVENT_WRITE if reader.kept else 0)
        if self.selector.get_key(descriptor).events != wanted:
            self.selector.modify(descriptor, wanted)

    def tell(self) -> None:
        """The same message to all who follow."""
        it = self.read()
        self.sent, self.sent_at = it, time.monotonic()
        followers = [reader for reader in self.readers.values() if reader.state == FOLLOWING]
        if not followers:
            return
        data = message(state_of(it, now()))
        if it.events != self.told:
            data += message(events_of(it), "events")
        self.told = it.events
        for reader in followers:
            reader.send(data)
            if reader.kept or reader.state != FOLLOWING:
                self.settle(reader)

    def look(self, now: float) -> None:
        for descriptor, reader in list(self.readers.items()):
            if reader.is_over(now):
                self.drop(descriptor)

    def drop(self, descriptor: int) -> None:
        reader = self.readers.pop(descriptor)
        self.selector.unregister(descriptor)
        reader.connection.close()
