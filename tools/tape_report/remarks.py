"""What a run says beside its table: what lies under the folder and has no row there, and why."""
import os
from collections import Counter

from .folder import Found
from .kinds import ending_of
from .names import shown

# So many names are on a line of the summary; the file has all of them.
MOST_NAMED = 5


def counted(number: int, what: str) -> str:
    return f"{number:,} {what}" + "s" * (number != 1)


def endings_of(names: list[str]) -> str:
    """How many files there are of each ending, the most first."""
    counts = Counter(ending_of(name) or os.path.basename(name) for name in names)
    order = sorted(counts.items(), key=lambda it: (-it[1], it[0]))
    more = f" and {len(order) - MOST_NAMED} more endings" if len(order) > MOST_NAMED else ""
    return ", ".join(f"{shown(ending)} {count:,}" for ending, count in order[:MOST_NAMED]) + more


def named(names: list[str]) -> str:
    more = len(names) - MOST_NAMED
    return ", ".join(map(shown, names[:MOST_NAMED])) + (f" and {more:,} more" if more > 0 else "")


BY_ENDING, BY_PROBE = "without sound by its ending", "without sound, as ffprobe says"
UNKNOWN = "of unknown ending, not looked at"


def summary(found: Found, was_all: bool) -> list[str]:
    """The lines of the summary. What was not looked at comes first."""
    unknown, others = ([], found.others + found.unknown) if was_all else (found.unknown, found.others)
    lines = [f"{counted(len(unknown), 'file')} {UNKNOWN} (see --all): {named(unknown)}"] if unknown else []
    how = BY_PROBE if was_all else BY_ENDING.replace("its ending", "their endings" if len(others) > 1 else "its ending")
    lines += [f"{counted(len(others), 'file')} {how}: {endings_of(others)}"] if others else []
    return lines + [f"link {shown(link)}: leads to {shown(to)}, which is read once" for link, to in found.links.items()]


def whole(found: Found, was_all: bool) -> str:
    """The same for a file, with each name on a line of its own."""
    parts = [(BY_PROBE if was_all else UNKNOWN, found.unknown), (BY_PROBE if was_all else BY_ENDING, found.others)]
    lines = [f"{what}: {shown(name)}" for what, names in parts for name in names]
    lines += [f"leads to {shown(to)}, which is read once: {shown(link)}" for link, to in found.links.items()]
    lines += [f"not looked at, {why}: {shown(name)}" for name, why in found.closed.items()]
    return "".join(line + "\n" for line in lines)
