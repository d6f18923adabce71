"""Big digits of block characters: two squares above each other in a cell of the terminal."""

# Three squares wide and five high.
SHAPES = {
    "0": ("###", "# #", "# #", "# #", "###"),
    "1": (" # ", "## ", " # ", " # ", "###"),
    "2": ("###", "  #", "###", "#  ", "###"),
    "3": ("###", "  #", "###", "  #", "###"),
    "4": ("# #", "# #", "###", "  #", "  #"),
    "5": ("###", "#  ", "###", "  #", "###"),
    "6": ("###", "#  ", "###", "# #", "###"),
    "7": ("###", "  #", "  #", "  #", "  #"),
    "8": ("###", "# #", "###", "# #", "###"),
    "9": ("###", "# #", "###", "  #", "###"),
    "-": ("   ", "   ", "###", "   ", "   "),
    ":": (" ", "#", " ", "#", " "),
    ";": (" ", "#", " ", "#", "#"),
}
HIGH = 5
# The squares of a label with those between its signs: eight digits, three marks, ten gaps.
WIDE = 37
# By the upper and the lower square of a cell.
CELLS = {(False, False): " ", (True, False): "\u2580", (False, True): "\u2584", (True, True): "\u2588"}
NO_LABEL = "--:--:--:--"


def rows_of(scale: int) -> int:
    """How many lines digits of a scale take."""
    return (HIGH * scale + 1) // 2


def scale_for(columns: int, lines: int) -> int:
    """The greatest scale that fits; 0 if none does."""
    scale = columns // WIDE
    while scale and rows_of(scale) > lines:
        scale -= 1
    return scale


def big(label: str, scale: int) -> list[str]:
    """The lines of a label, each square `scale` columns wide and `scale` half lines high."""
    squares = [" ".join(SHAPES[sign][row] for sign in label) for row in range(HIGH)]
    wide = ["".join(scale * square for square in row) for row in squares]
    high = [row for row in wide for _ in range(scale)]
    if len(high) % 2:
        high.append(" " * len(wide[0]))
    return [
        "".join(CELLS[upper == "#", lower == "#"] for upper, lower in zip(high[at], high[at + 1]))
        for at in range(0, len(high), 2)
    ]
