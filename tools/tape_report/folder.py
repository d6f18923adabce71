"""What lies under a folder: the tapes, and all that is none or could not be looked at, so that nothing is left out
without a word."""
import os
import stat

from .faults import reason_of
from .kinds import OTHER, TAPE, kind_by_name, kind_of
from .records import dataclass, field
from .source import Identity


@dataclass
class Found:
    """What lies under a folder, by the paths in it."""

    tapes: list[str] = field(default_factory=list)
    # Folders, with a slash behind their names, and files that could not be looked at, with the reason.
    closed: dict[str, str] = field(default_factory=dict)
    # Links to folders that are read under another name, with that name.
    links: dict[str, str] = field(default_factory=dict)
    # Files that have no sound by their endings, and those whose ending says nothing.
    others: list[str] = field(default_factory=list)
    unknown: list[str] = field(default_factory=list)


def sort_key(name: str) -> bytes:
    return os.fsencode(name)


def identity_of(there: os.stat_result) -> Identity:
    return there.st_dev, there.st_ino


def entries_of(path: str) -> tuple[list[os.DirEntry[str]], OSError | None]:
    """What a folder has, as far as it can be read, and why it ended early."""
    found: list[os.DirEntry[str]] = []
    fault = None
    try:
        with os.scandir(path) as entries:
            for entry in entries:
                found.append(entry)
    except OSError as why:
        fault = why
    return sorted(found, key=lambda entry: sort_key(entry.name)), fault


class Walk:
    """A way through a folder. Folders behind links come last, so that a tape has its name without them; each folder
    is read once, by its device and inode.
    """

    def __init__(self, folder: str, out: str) -> None:
        self.folder, self.found = folder, Found()
        self.links: list[str] = []
        # The folders that are read, by name; and those above, which lead back here.
        self.seen: dict[Identity, str] = {}
        self.above = identities_above(folder)
        self.out = identity_if_there(out)

    def path(self, name: str) -> str:
        return os.path.join(self.folder, name) if name else self.folder

    def all(self) -> Found:
        self.read("")
        while self.links:
            self.follow(self.links.pop(0))
        for names in (self.found.tapes, self.found.others, self.found.unknown):
            names.sort(key=sort_key)
        return self.found

    def follow(self, name: str) -> None:
        """A link to a folder."""
        here = identity_if_there(self.path(name))
        if here in self.above:
            self.found.links[name] = "a folder above"
        elif here in self.seen:
            self.found.links[name] = self.seen[here] or "the folder"
        elif here != self.out:
            self.read(name)

    def read(self, first: str) -> None:
        """A folder and all below it, but for links."""
        waiting = [first]
        while waiting:
            name = waiting.pop()
            here = identity_if_there(self.path(name))
            if here is not None and (here == self.out or here in self.seen):
                continue
            if here is not None:
                self.seen[here] = name
            entries, fault = entries_of(self.path(name))
            if fault is not None:
                self.found.closed[(name or ".") + "/"] = f"not all of it can be read: {reason_of(fault)}"
            for entry in reversed(entries):
                if self.is_folder(os.path.join(name, entry.name), entry):
                    waiting.append(os.path.join(name, entry.name))

    def is_folder(self, name: str, entry: os.DirEntry[str]) -> bool:
        """Whether it is a folder to read; what it is else is kept."""
        try:
            mode, is_link = entry.stat().st_mode, entry.is_symlink()
            if stat.S_ISDIR(mode):
                if is_link:
                    self.links.append(name)
                return not is_link
            self.take_file(name, mode)
        except OSError as fault:
            self.refuse(name, "it is a link to nothing" if is_dangling(entry) else reason_of(fault))
        return False

    def take_file(self, name: str, mode: int) -> None:
        if not stat.S_ISREG(mode):
            self.refuse(name, "it is a device, a fifo or a socket")
            return
        kind = kind_of(self.path(name))
        part = {TAPE: self.found.tapes, OTHER: self.found.others}.get(kind, self.found.unknown)
        part.append(name)

    def refuse(self, name: str, reason: str) -> None:
        """What can't be looked at. A file that has no sound by its name is none that is missing."""
        if kind_by_name(name) == OTHER:
            self.found.others.append(name)
        else:
            self.found.closed[name] = reason


def is_dangling(entry: os.DirEntry[str]) -> bool:
    return entry.is_symlink() and not os.path.exists(entry.path)


def identity_if_there(path: str) -> Identity | None:
    try:
        return identity_of(os.stat(path))
    except OSError:
        return None


def identities_above(folder: str) -> set[Identity | None]:
    """The folders in which a folder lies."""
    above, path = set(), os.path.realpath(folder)
    while path != os.path.dirname(path):
        path = os.path.dirname(path)
        above.add(identity_if_there(path))
    return above - {None}


def look_under(folder: str, out: str) -> Found:
    """What lies under a folder. What is in the output is none of it."""
    return Walk(folder, out).all()
