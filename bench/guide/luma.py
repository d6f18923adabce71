"""What `luma-vitc` is to write of a few rows, by the second reading bench/luma_by_hand.py, which is slow."""
import luma_by_hand

MOST_ROWS, MOST_WIDTH = 8, 1000


def wanted(case, ended):
    """The status, the output and the note of a run that took its words, or none if it would take too long."""
    if ended.code not in (0, 3):
        return None
    system, width, height, first, rows = (int(word) for word in case.words[1:])
    fields = len(case.input) // (width * height)
    if fields * rows > MOST_ROWS or width > MOST_WIDTH:
        return None
    written = luma_by_hand.line_file(system, width, height, first, rows, case.input)
    if len(case.input) % (width * height):
        return 3, written, f"tc: refused: truncated at byte {len(case.input)}\n".encode()
    return 0, written, b""
