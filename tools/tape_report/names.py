"""Names of files as text that is valid UTF-8 and on one line, whatever bytes they have."""
import os
import re
from collections.abc import Iterable

# A backslash that could be taken for the beginning of an escape.
LIKE_AN_ESCAPE = re.compile(r"\\(?=x[0-9a-f]{2})")

# With these letters a formula begins.
FORMULAS = ("=", "+", "@")


def shown(name: str) -> str:
    """The name, with `\\xHH` for each byte that is no UTF-8 or moves the line, and for a backslash before such
    letters.
    """
    text = LIKE_AN_ESCAPE.sub(r"\\x5c", name)
    return "".join(letter if is_plain(letter) else escaped(letter) for letter in text)


def is_plain(letter: str) -> bool:
    """The letter is text: no half of a pair, no lone byte, no control, no line or paragraph separator."""
    code = ord(letter)
    return code >= 32 and not 127 <= code < 160 and not 0xD800 <= code < 0xE000 and code not in (0x2028, 0x2029)


def escaped(letter: str) -> str:
    return "".join(f"\\x{byte:02x}" for byte in os.fsencode(letter))


def plain(text: str) -> str:
    """A text of another program, of which nothing moves the line or the terminal."""
    return "".join(letter if is_plain(letter) else escaped(letter) for letter in text)


def in_cell(value: object) -> object:
    """A value of a table. A spreadsheet takes a first `=`, `+` or `@` for the beginning of a formula."""
    if isinstance(value, str) and value[:1] in FORMULAS:
        return f"\\x{ord(value[0]):02x}{value[1:]}"
    return value


def in_table(cells: Iterable[object]) -> list[object]:
    return [in_cell(value) for value in cells]
