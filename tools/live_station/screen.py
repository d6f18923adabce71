"""The display as lines of a terminal: right at any size, from big digits down to a bare label."""
import time
from dataclasses import dataclass

from . import code, shown
from .digits import NO_LABEL, big, rows_of, scale_for
from .shown import Moment, Shown

GREEN, YELLOW, RED, GREY, BOLD = "32", "33", "31", "90", "1"
COLOURS = {code.HEARD: GREEN, code.INVENTED: YELLOW, code.LOST: RED, shown.CARD_LOST: RED, shown.NO_SAMPLES: RED}
# The level is drawn from here to full scale, in decibels.
LOWEST = -60.0
# The lines beside the digits: the head, the state, the level, what to do, the ways, and gaps; and events at least.
OTHER_LINES, LEAST_EVENTS = 9, 2


@dataclass(frozen=True)
class Style:
    """How a terminal is drawn on."""

    columns: int
    lines: int
    is_plain: bool = False
    has_colour: bool = True

    def in_colour(self, text: str, colour: str) -> str:
        return f"\x1b[{colour}m{text}\x1b[0m" if self.has_colour and colour and text.strip() else text


def cut(text: str, columns: int) -> str:
    """The text, in at most `columns` columns. Nothing in it moves the cursor."""
    text = "".join(letter if letter.isprintable() else "?" for letter in text)
    return text if len(text) <= columns else text[: max(0, columns - 1)] + ("~" if columns else "")


def speed_text(speed: int) -> str:
    """A speed in thousandths; 1.000 is nominal."""
    return f"{speed / 1000:.3f}"


def state_text(it: Shown, now: Moment) -> str:
    """What is known of the code, in a word."""
    seconds = max(0, int(now.steady - it.since))
    gone = f"{seconds} s" if seconds < 100 else f"{seconds // 60} min"
    return {
        shown.WAITING: "NO SAMPLES",
        shown.NO_SAMPLES: f"NO SAMPLES {gone}",
        shown.CARD_LOST: f"CARD LOST {gone}",
        shown.ENDED: "ENDED",
        code.NONE: "NO CODE",
        code.HEARD: "HEARD",
        code.INVENTED: f"INVENTED {it.invented}",
        code.LOST: f"GONE {gone}",
    }[it.state]


def state_line(it: Shown, now: Moment) -> str:
    parts = [f"{state_text(it, now):13}", f"{it.direction:8}"]
    parts.append(f"speed {speed_text(it.speed):5}" if it.speed else 11 * " ")
    parts.append(f"user {it.user}" if it.user else 13 * " ")
    parts.append(f"{it.system} frames" if it.system else "")
    return "  ".join(parts).rstrip()


def level_line(it: Shown, style: Style) -> str:
    """The level as a bar, with the mark of its peak."""
    if it.level is None or it.mark is None:
        return "level  no sound yet"
    full, empty, mark = ("#", ".", "|") if style.is_plain else ("\u2588", "\u00b7", "\u2502")
    said = f"level {it.level:5.1f} dB  "
    behind = f"  peak {it.mark:5.1f}" + (" CUT OFF" if it.is_clipped else "")
    width = min(60, style.columns - len(said) - len(behind))
    if width < 8:
        return (said + behind).strip()
    here, peak = (round(width * min(1.0, max(0.0, 1 - value / LOWEST))) for value in (it.level, it.mark))
    bar = list(here * full + (width - here) * empty)
    if peak:
        bar[min(width, max(peak, 1)) - 1] = mark
    return said + "".join(bar) + behind


def head(it: Shown, now: Moment, columns: int) -> str:
    """Where the sound comes from, and the time of day."""
    clock = time.strftime("%H:%M:%S", time.localtime(now.clock))
    left = cut(f"{it.source}  track {it.track}  {it.rate} samples a second", columns - len(clock) - 2)
    return f"{left}{clock:>{columns - len(left)}}"


def ways(it: Shown) -> str:
    """Where it goes besides."""
    told = (("MIDI", it.midi), ("page", it.page), ("log", it.log))
    return "   ".join(f"{name}: {text}" for name, text in told if text)


def digits(it: Shown, style: Style, lines: int) -> list[str]:
    """The label, as big as there is room."""
    label, colour = it.label or NO_LABEL, COLOURS.get(it.state, GREY)
    scale = 0 if style.is_plain else scale_for(style.columns - 2, lines)
    rows = big(label, scale) if scale else [label]
    left = " " * max(0, (style.columns - len(rows[0])) // 2)
    return [style.in_colour(left + row, f"{BOLD};{colour}" if not scale else colour) for row in rows]


def rows(it: Shown, style: Style, now: Moment) -> list[str]:
    """The lines of the display, from the first on: at most as many as there are."""
    columns, room = style.columns, style.lines - OTHER_LINES - LEAST_EVENTS
    if style.lines < OTHER_LINES + 2 or columns < len(NO_LABEL):
        return small(it, style, now)
    label = digits(it, style, max(1, room))
    gap = [""]
    colour = COLOURS.get(it.state, GREY)
    drawn = [style.in_colour(head(it, now, columns), GREY), *gap, *label, *gap]
    drawn.append(style.in_colour(cut(state_line(it, now), columns), colour))
    drawn.append(cut(level_line(it, style), columns))
    drawn.append(style.in_colour(cut(it.hint, columns), YELLOW))
    drawn.append(style.in_colour(cut(ways(it), columns), GREY))
    drawn += gap
    left = max(0, style.lines - len(drawn))
    drawn += [cut(event.line(), columns) for event in reversed(it.events[-left:])] if left else []
    return drawn[: style.lines]


def small(it: Shown, style: Style, now: Moment) -> list[str]:
    """If there is little room: the label, its state, the level and what to do."""
    colour = COLOURS.get(it.state, GREY)
    texts = [it.label or NO_LABEL, state_line(it, now), level_line(it, style), it.hint]
    return [style.in_colour(cut(text, style.columns), colour) for text in texts[: style.lines]]


def plain_line(it: Shown, now: Moment) -> str:
    """The display as one line, if there is no terminal."""
    clock = time.strftime("%H:%M:%S", time.localtime(now.clock))
    level = f"level {it.level:.1f} dB" if it.level is not None else ""
    speed = f"speed {speed_text(it.speed)}" if it.speed else ""
    parts = (clock, it.label, state_text(it, now).lower(), it.direction, speed)
    return " ".join(part for part in (*parts, f"user {it.user}" if it.user else "", level) if part)


__all__ = ["Style", "plain_line", "rows", "rows_of"]
