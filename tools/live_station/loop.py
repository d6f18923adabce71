"""Who is called when bytes come."""
import selectors
from collections.abc import Callable

Call = Callable[[], None]
# How often those are tried again who take bytes slowly, in seconds.
SLOWLY = 0.004


class Loop:
    """The descriptors that are watched, each with whom it wakes; and those who have bytes to push."""

    def __init__(self) -> None:
        self.selector = selectors.DefaultSelector()
        self.pushing: set[Call] = set()

    def watch(self, descriptor: int, call: Call) -> None:
        self.selector.register(descriptor, selectors.EVENT_READ, call)

    def forget(self, descriptor: int) -> None:
        """It may be forgotten twice, and has to be before it is closed."""
        if descriptor in self.selector.get_map():
            self.selector.unregister(descriptor)

    def is_watched(self, descriptor: int) -> bool:
        return descriptor in self.selector.get_map()

    def wait(self, seconds: float) -> None:
        """Calls those whose bytes have come, after `seconds` at most."""
        for key, _ in self.selector.select(min(seconds, SLOWLY) if self.pushing else seconds):
            # One that came before may have closed it.
            if self.is_watched(key.fd):
                key.data()
        for push in list(self.pushing):
            push()

    def close(self) -> None:
        self.selector.close()
