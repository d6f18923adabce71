"""What to do while nothing is heard, in a line."""
from .code import NONE, Code
from .level import FLOOR
from .system import System

# Below these levels there is nothing, and little.
SILENT, QUIET = -60.0, -40.0
# A track that is this much louder is named.
LOUDER = 12.0


def loudest(levels: list[float], track: int) -> str:
    """The other track that may be meant."""
    here = levels[track - 1] if track <= len(levels) else FLOOR
    others = [(level, number) for number, level in enumerate(levels, 1) if number != track and level > SILENT]
    level, number = max(others, default=(FLOOR, 0))
    return f" Track {number} has {level:.0f} dB." if number and level >= here + LOUDER else ""


def without_samples(source: str, note: str) -> str:
    """The card or the server is gone. It is opened again by itself."""
    if source.startswith("JACK"):
        return note if "port" in note else f"no samples from {source}: does the JACK server run?"
    return f"no samples from {source}: is its cable in, and its power on?"


def samples_missing(source: str, age: float | None) -> str:
    """An input that is open gives nothing."""
    old = "" if age is None else f"; the label is {age:.0f} s old" if age >= 1 else f"; the label is {age:.1f} s old"
    return f"no samples from {source}{old}: does it still run?"


def without_code(code: Code, track: int, level: float, levels: list[float]) -> str:
    """Nothing is heard."""
    begun = "no code" if code.state == NONE else "the code is gone"
    other = loudest(levels, track)
    if level <= SILENT:
        return f"{begun}: silence on track {track}. Is the tape running, and the cable in?{other}"
    if level <= QUIET or other:
        return f"{begun} on track {track}, level {level:.0f} dB: is it the right track?{other}"
    if code.state == NONE and code.refused and not code.words:
        return f"no code on track {track}: words came, and none had a label. Is it another frame rate?"
    return f"{begun} on track {track}, level {level:.0f} dB: is it time code?{other}"


def with_code(code: Code, system: System, level: float, is_clipped: bool) -> str:
    """Something is heard, and something may be amiss."""
    if system.doubt:
        return f"the labels are those of {system.doubt} frames a second: --system {system.doubt}?"
    if is_clipped:
        return "the sound is cut off at full scale: turn it down"
    if level <= QUIET:
        return f"the level is low, {level:.0f} dB: turn it up"
    return "the frames a second are being found" if code.system is None else ""
