"""The speed of the words of a report over time, with the breaks of the code, as a picture."""
from collections.abc import Iterable
from typing import NamedTuple

from .faults import Nothing
from .labels import LABELS_A_DAY, number_of
from .plot import Points

SPEED = """
set terminal pngcairo size 1000,380 font "sans,11"
set xlabel "seconds of tape"
set ylabel "speed, 1 is nominal"
set xrange [0:*]
set yrange [{low}:{high}]
set key outside top center horizontal reverse Left samplen 1 width 2
set grid ytics
plot "lost" using 1:({low}):(0):({high} - {low}) with vectors nohead lc rgb "#b0b0b0" lw 1 notitle, \\
     "jump" using 1:({low}):(0):({high} - {low}) with vectors nohead lc rgb "#e08a00" lw 2 title "labels jump", \\
     "forward" with points pt 7 ps 0.5 lc rgb "#1f5fbf" title "forward", \\
     "backward" with points pt 7 ps 0.5 lc rgb "#bf3f1f" title "backward", \\
     "refused" using 1:({low}) with points pt 2 ps 1.2 lw 2 lc rgb "#7f3fbf" title "refused word", \\
     "lost" using 1:({high}) with points pt 9 ps 1.4 lc rgb "#000000" title "code lost", \\
     "named" using 1:2:3 with labels left offset 0.5,1.2 font "sans,10" notitle, \\
     "last" using 1:2:3 with labels right offset -0.5,1.2 font "sans,10" notitle
"""
# Speeds that differ by less are drawn on a scale of this height.
LEAST_HEIGHT = 0.02


class Mark(NamedTuple):
    """A word of a report: where it ends, how long it is, in ticks, and its speed."""

    direction: str
    label: str
    tick: int
    length: int
    speed: float


def scale_of(speeds: list[float]) -> tuple[float, float]:
    """The speeds that a picture shows: those of the tape, with room around them."""
    low, high = min(speeds), max(speeds)
    room = max(0.12 * (high - low), (LEAST_HEIGHT - (high - low)) / 2)
    return max(0.0, low - room), high + 2 * room


def system_of(words: list[Mark]) -> int:
    """The least frames a second that the labels of a report may have."""
    return next(it for it in (24, 25, 30) if all(int(word.label[9:]) < it for word in words) or it == 30)


def is_jump(before: Mark, word: Mark, system: int) -> bool:
    """The label of a word does not go on, in time, from that of the word before it."""
    counts = {f"{system}d" if ";" in it.label else str(system) for it in (before, word)}
    if before.direction != word.direction or len(counts) > 1:
        return False
    count, way = counts.pop(), -1 if word.direction == "backward" else 1
    day, length = LABELS_A_DAY.get(count, LABELS_A_DAY["30d"]), word.length or 1
    steps = way * (number_of(count, word.label) - number_of(count, before.label)) % day
    passed = (word.tick - before.tick) / length
    return min(abs(steps - passed), abs(day + passed - steps)) > 1 + passed / 100


def speed_of_report(lines: Iterable[str], ticks_a_second: float) -> tuple[Points, str]:
    """The points of a report, and what draws them."""
    points: Points = {name: [] for name in ("forward", "backward", "refused", "lost", "jump", "named", "last")}
    words: list[Mark] = []
    for line in lines:
        parts = line.split()
        if parts[:1] == ["word"]:
            words.append(Mark(parts[1], parts[2], int(parts[10]), int(parts[12]), int(parts[14]) / 1000))
        elif parts[:1] in (["refused"], ["lost"]):
            points[parts[0]].append(f"{int(parts[4]) / ticks_a_second}\n")
    if not words:
        raise Nothing("no word in the report")
    system = system_of(words)
    for before, word in zip([words[0], *words], words):
        at = f"{word.tick / ticks_a_second} {word.speed}"
        points[word.direction].append(at + "\n")
        if is_jump(before, word, system):
            points["jump"].append(f"{word.tick / ticks_a_second}\n")
            points["named"].append(f"{at} {word.label}\n")
    first, last = words[0], words[-1]
    points["named"].insert(0, f"{first.tick / ticks_a_second} {first.speed} {first.label}\n")
    points["last"] = [f"{last.tick / ticks_a_second} {last.speed} {last.label}\n"]
    low, high = scale_of([word.speed for word in words])
    return points, SPEED.format(low=low, high=high)
