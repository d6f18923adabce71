#!/usr/bin/env python3
"""A second reading of vertical interval code in rows of gray pixels, by the rules of docs/reference/formats.md.

    bench/luma_by_hand.py SYSTEM WIDTH HEIGHT FIRST ROWS < FIELDS > FILE    makes the line file of these fields
    bench/luma_by_hand.py --cases                                           writes rows of cases.tsv for `luma-vitc`

Each row is read by itself and slowly: every distance and every start that the page names is tried, and nothing is kept
of one for the next. Fields that are cut at the end are left out.
"""
import struct
import sys
from fractions import Fraction
from itertools import combinations, groupby

PAIRS, CELLS, LINE_TICKS, CELL_TICKS, MOST = 9, 90, 1840, 16, 20


class Row:
    """A row of pixels: the light of its parts. Places are sixteenths of a pixel."""

    def __init__(self, pixels):
        self.pixels = pixels
        self.width = len(pixels)
        self.ten_cells = 5 * self.width // 3
        self.grain = 16 * self.width // 720
        self.end = 16 * self.width + 4 * self.grain
        self.before = [0]
        for pixel in pixels:
            self.before.append(self.before[-1] + pixel)

    def light(self, place):
        """The light up to a place."""
        pixel, part = divmod(place, 16)
        if pixel >= self.width:
            return 16 * self.before[-1]
        return 16 * self.before[pixel] + part * self.pixels[pixel]

    def fall(self, before, place, behind):
        return 2 * self.light(place) - self.light(before) - self.light(behind)

    # The sharp place

    def sharp(self):
        """The place between the falling edges of the first and the ninth pair, or None where one fails."""
        dark, light = min(self.pixels), max(self.pixels)
        is_light = [2 * pixel >= dark + light for pixel in self.pixels]
        edges = [at for at in range(1, self.width) if is_light[at - 1] and not is_light[at]]
        found = edges[:1]
        while found and len(found) < PAIRS:
            found.append(next((edge for edge in edges if edge >= found[-1] + 3 * self.width // 32), None))
            if found[-1] is None:
                return None
        if not found:
            return None
        place = 16 * found[0], 16 * found[-1]
        apart, eight_tens = place[1] - place[0], 8 * self.ten_cells
        if not eight_tens * 95 // 100 <= apart + 2 * self.grain or apart > eight_tens * 105 // 100 + 2 * self.grain:
            return None
        cells = self.cells(place)
        swings = (max(0, cells[10 * pair] - cells[10 * pair + 1]) for pair in range(PAIRS))
        return place if all(512 * swing >= 3 * apart * (light - dark) for swing in swings) else None

    # The coarse place

    def falls_at_pixels(self):
        """The fall at each pixel, a cell wide on both sides. Places before the row are as its beginning."""
        cell = self.ten_cells // 10
        return [self.fall(max(16 * pixel - cell, 0), 16 * pixel, 16 * pixel + cell) for pixel in range(self.width)]

    def coarse(self):
        """The first of the best places at whole pixels, or None where nothing falls."""
        falls = self.falls_at_pixels()
        best = None
        for distance in range(8 * self.ten_cells * 95 // 100, 8 * self.ten_cells * 105 // 100 + 1, 2 * self.grain):
            behind = [(distance * pair // 8 + 8) // 16 for pair in range(PAIRS)]
            first = self.ten_cells * 95 // 1000
            while first + 89 * distance // 80 <= self.end:
                total = sum(falls[(first + 8) // 16 + pixels] for pixels in behind)
                if best is None or total > best[0]:
                    best = (total, first, first + distance)
                first += self.grain
        return best[1:] if best[0] > 0 else None

    # The fine place

    @staticmethod
    def at(place, eighths):
        """Where so many eighths of a cell of the word end."""
        first, last = place
        return max(0, 640 * first + eighths * (last - first) - 8 * (last - first)) // 640

    def fits(self, place):
        first, last = place
        return first < last and last - first <= 80 * first and first + 89 * (last - first) // 80 <= self.end

    def worth(self, place):
        """The sum of the nine falls."""
        return sum(self.pair_falls(place))

    def fine(self, place):
        step = 2 * self.grain
        for _ in range(8):
            for _ in range(6):
                place = self.best_beside(place, step)
            step //= 2
        return place

    def pair_falls(self, place):
        """The falls of the nine pairs."""
        return [
            self.fall(self.at(place, 80 * pair), self.at(place, 80 * pair + 8), self.at(place, 80 * pair + 16))
            for pair in range(PAIRS)
        ]

    def earliest(self, place):
        """The earliest place within eight cells of this one at which each pair falls half as much as nine do here."""
        apart, nine = place[1] - place[0], max(0, self.worth(place))
        for cells in range(16, -1, -1):
            first, last = (end + apart // 10 - cells * apart // 80 for end in place)
            other = (max(0, first), last)
            if all(18 * max(0, fall) >= nine for fall in self.pair_falls(other)):
                return other
        return place

    def best_beside(self, place, step):
        """The first of the best of a place and its eight neighbours."""
        first, last = place
        best, most = place, self.worth(place)
        for move in (0, -step, step):
            for other in (0, -step, step):
                beside = (first + move, last + other)
                if self.fits(beside) and self.worth(beside) > most:
                    best, most = beside, self.worth(beside)
        return best

    # What it says

    def cell(self, begin, end):
        """The light of a part, beyond that of the darkest pixel."""
        return max(0, self.light(end) - self.light(begin) - min(self.pixels) * (end - begin))

    def cells(self, place):
        """The light of the 90 cells."""
        return [self.cell(self.at(place, 8 * cell + 1), self.at(place, 8 * cell + 7)) for cell in range(CELLS)]

    def sought(self):
        """The place of a word that is sought, or None where nothing falls."""
        place = self.coarse()
        return place and self.earliest(self.fine(place))

    def code(self):
        """The place of the word, the swing and the heights of the 90 bits, or None."""
        if max(self.pixels) - min(self.pixels) < 8:
            return None
        place = self.sharp() or self.sought()
        if place is None:
            return None
        cells = self.cells(place)
        swings = [cells[10 * pair] - cells[10 * pair + 1] for pair in range(PAIRS)]
        swing = sum(swings)
        if 160 * swing < 81 * (place[1] - place[0]) or sum(72 * one >= swing for one in swings) < 7:
            return None
        return place, swing, heights_of(cells)


def heights_of(cells):
    """The heights of the bits above the threshold between the smoothed middles of the pairs."""
    middles = [cells[10 * pair] + cells[10 * pair + 1] for pair in range(PAIRS)]
    beside = [middles[0], *middles, middles[-1]]
    smoothed = [beside[pair] + 2 * beside[pair + 1] + beside[pair + 2] for pair in range(PAIRS)]
    heights = []
    for bit, light in enumerate(cells):
        pair = min(max((2 * bit - 1) // 20, 0), 7)
        before, behind = smoothed[pair], smoothed[pair + 1]
        heights.append(160 * light - (20 * pair + 21 - 2 * bit) * before - (2 * bit - 20 * pair - 1) * behind)
    return heights


def line_of(swing, heights):
    """The bits of a line, or None."""
    if heights[0] <= 0 or any(9 * abs(height) < 10 * swing for height in heights):
        return None
    return [height > 0 for height in heights]


def are_one(first, second, grain):
    """Whether two rows are read as one: each is its number, its place, its swing and its heights."""
    if second[0] - first[0] > 4 or any(abs(a - b) > 4 * grain for a, b in zip(first[1], second[1])):
        return False
    return not any(
        9 * abs(a) >= 40 * first[2] and 9 * abs(b) >= 40 * second[2] and (a > 0) != (b > 0)
        for a, b in zip(first[3], second[3])
    )


def lines_of(rows):
    """The lines of the rows of a field that are looked at."""
    grain = 16 * len(rows[0]) // 720
    found = [(number, *code) for number, code in enumerate(Row(row).code() for row in rows) if code][:MOST]
    lines = [line_of(swing, heights) for _, _, swing, heights in found]
    for first, second in combinations(found, 2):
        if are_one(first, second, grain):
            lines.append(line_of(first[2] + second[2], [a + b for a, b in zip(first[3], second[3])]))
    return [line for line in lines if line][:MOST]


def field_bytes(lines):
    """A field of a line file: the runs of each line up to its last high one."""
    written = bytes([len(lines)])
    for line in lines:
        runs = [CELL_TICKS * len(list(group)) for _, group in groupby(line)]
        runs = runs if line[-1] else runs[:-1]
        written += struct.pack(f">B{len(runs)}H", len(runs), *runs)
    return written


def line_file(system, width, height, first, rows, fields):
    """The line file of fields."""
    written = struct.pack(">4sBBHI", b"VITL", 1, system, 0, LINE_TICKS)
    for at in range(0, len(fields) - width * height + 1, width * height):
        looked_at = [fields[at + width * row : at + width * (row + 1)] for row in range(first, first + rows)]
        written += field_bytes(lines_of(looked_at))
    return written


# The cases


def word(label, user=(0,) * 8, flags=()):
    """The 90 bits of a label: nine sync pairs and nine bytes, the last of which is the check."""
    digits = [int(digit) for digit in reversed(label) if digit.isdigit()]
    bits = []
    for digit, nibble in zip(digits, user):
        bits += [1, 0] + [digit >> place & 1 for place in range(4)] + [nibble >> place & 1 for place in range(4)]
    for flag in flags:
        bits[flag] = 1
    bits += [1, 0]
    return bits + [sum(bits[place % 8 :: 8]) % 2 for place in range(82, 90)]


def drawn(bits, width=360, begin=0, cell=4, dark=50, light=200):
    """A row in cells of whole pixels, dark beside them; what does not fit is cut off."""
    row = [dark] * begin
    for bit in bits:
        row += [light if bit else dark] * cell
    return bytes((row + [dark] * width)[:width])


def shaded(bits, begin, cell, width=384, dark=50, light=200):
    """A row in cells that begin and end inside pixels: each pixel has the mean of what it covers."""
    row = []
    for pixel in range(width):
        edges = [(max(pixel, begin + bit * cell), min(pixel + 1, begin + bit * cell + cell)) for bit in range(CELLS)]
        high = sum(max(0, last - first) for bit, (first, last) in zip(bits, edges) if bit)
        row.append(int(dark + (light - dark) * high + Fraction(1, 2)))
    return bytes(row)


def spelled(data):
    """Bytes as a cell of the table has them: hexadecimal, repeated ones with their number."""
    parts = [(value, len(list(group))) for value, group in groupby(data)]
    return " ".join(f"{value:02x}*{count}" if count > 1 else f"{value:02x}" for value, count in parts) or "-"


def case(name, number, words, fields, status=0, note="-"):
    values = list(map(int, words.split()))
    return "\t".join((f"pixels/{name}-{number}", f"luma-vitc {words}", spelled(fields), str(status), note,
                      line_file(*values, fields).hex(), "-", "-"))


def cases():
    """The rows for cases.tsv."""
    ten = word("10:00:00:00")
    user = word("19:47:58:23", (1, 2, 3, 4, 5, 6, 7, 8))
    late = word("23:59:59:24", (15,) * 8)
    two_later = word("11:11:11:11", (15, 9, 9, 13, 9, 6, 15, 11))
    six_later = word("10:00:00:00", (13, 5, 5, 5, 1, 5, 5, 1))
    eight_later = word("10:00:00:00", (5, 4, 4, 7, 5, 5, 7, 7))
    black, gray = bytes([16] * 384), bytes([128] * 384)
    one = drawn(ten, 384, 12)
    rows = [
        ("a-row-is-read", "25 384 1 0 1", one),
        ("a-row-is-read", "30 384 1 0 1", drawn(user, 384, 8, dark=0, light=255)),
        ("a-row-is-read", "25 384 1 0 1", drawn(late, 384, 20, dark=90, light=110)),
        ("a-row-is-read", "25 384 1 0 1", drawn(late, 384, 8, dark=120, light=128)),
        ("a-row-is-read", "25 384 1 0 1", drawn(late, 384, 8, dark=120, light=127)),
        ("a-row-without-code-says-nothing", "25 384 1 0 1", black),
        ("a-row-without-code-says-nothing", "25 384 1 0 1", bytes([0] * 192 + [255] * 192)),
        ("a-row-without-code-says-nothing", "25 384 1 0 1", bytes([0, 255] * 192)),
        ("a-row-without-code-says-nothing", "25 384 1 0 1", bytes([0] * 48 + [255] * 4 + [0] * 332)),
        ("rows-that-are-looked-at", "25 384 4 1 2", black + one + gray + one),
        ("rows-that-are-looked-at", "25 384 4 0 4", black + one + gray + one),
        ("rows-that-are-looked-at", "25 384 2 0 1", black + one),
        ("two-rows-say-a-third-line", "25 384 2 0 2", one + drawn(ten, 384, 14)),
        ("two-rows-say-a-third-line", "25 384 2 0 2", one + drawn(user, 384, 12)),
        ("two-rows-say-a-third-line", "25 384 2 0 2", drawn(ten, 384, 4) + drawn(ten, 384, 20)),
        ("four-rows-apart-and-five", "25 384 5 0 5", one + 3 * black + one),
        ("four-rows-apart-and-five", "25 384 6 0 6", one + 4 * black + one),
        ("each-field-has-its-lines", "25 384 1 0 1", one + black + drawn(user, 384, 12)),
        ("twenty-lines-at-most", "25 384 8 0 8", 8 * one),
        ("two-rows-are-clear-together", "25 384 2 0 2", flecked(one, 100) + flecked(one, 250)),
        ("cells-that-fit-the-row", "25 360 1 0 1", drawn(ten, 360)),
        ("cells-that-fit-the-row", "25 736 1 0 1", drawn(user, 736, 10, cell=8, dark=16, light=140)),
        ("cells-that-fit-the-row", "25 720 1 0 1", drawn(user, 720, 18, cell=7, dark=16, light=140)),
        ("the-earliest-place", "25 384 1 0 1", shaded(two_later, 0, Fraction(382, 100))),
        ("the-earliest-place", "25 384 1 0 1", shaded(six_later, Fraction(3, 8), Fraction(394, 100))),
        ("the-earliest-place", "25 384 1 0 1", shaded(eight_later, Fraction(3, 8), Fraction(382, 100))),
        ("the-earliest-place", "25 384 1 0 1", shaded(eight_later, 16, Fraction(394, 100))),
        ("a-word-that-is-sought", "25 384 1 0 1", flecked_behind(drawn(ten, 384, 12, light=150), 255)),
        ("a-word-that-is-sought", "25 384 1 0 1", flecked_before(drawn(user, 384, 12), 4)),
        ("a-word-that-is-sought", "25 384 2 0 2", one + flecked_behind(drawn(ten, 384, 14, light=150), 255)),
    ]
    rows += [("the-earliest-place-of-a-word-that-is-sought", "25 384 1 0 1",
              flecked_behind(shaded(bits, begin, Fraction(cell, 100), light=150), 255))
             for bits, begin, cell in ((two_later, 0, 382), (six_later, Fraction(3, 8), 394),
                                       (eight_later, Fraction(3, 8), 382), (eight_later, 16, 394))]
    faint = word("14:43:33:09", (15,) * 8)
    faint = shaded(faint, Fraction(245376, 10240), Fraction(49920, 10240), 480, dark=200, light=212)
    rows += [("pairs-that-swing", "25 480 1 0 1", flecked_behind(faint, level)) for level in (212, 217, 218, 219, 220, 255)]
    rows += [("pairs-that-swing", "25 480 1 0 1", weakened(faint, 245376, 49920, bit, 200)) for bit in (0, 40, 80, 84)]
    rows += [("as-far-as-is-looked-at", "25 384 1 0 1", shaded(ten, Fraction(begin * 80 - pixels, 80), Fraction(pixels, 80)))
             for begin, pixels in ((12, 304), (12, 303), (12, 302), (8, 336), (8, 337), (8, 338))]
    for edge, words in enumerate(("25 4096 4096 4056 40", "30 360 1 0 1"), 1):
        yield case("the-greatest-and-the-least-field", edge, words, b"")
    counts = {}
    for name, words, fields in rows:
        counts[name] = counts.get(name, 0) + 1
        yield case(name, counts[name], words, fields)
    cuts = [(0, 0), (1, 3), (383, 3), (385, 3), (767, 3), (768, 0)]
    for number, (length, status) in enumerate(cuts, 1):
        note = f"tc: refused: truncated at byte {length}" if status else "-"
        yield case("a-field-that-is-cut", number, "25 384 1 0 1", (one + one)[:length], status, note)


def flecked(row, at):
    """The row with three cells whose levels are a fifteenth of the way from the middle of 50 and 200."""
    return row[:at] + bytes([125 + (pixel - 125) // 15 for pixel in row[at : at + 12]]) + row[at + 12 :]


def flecked_behind(row, level):
    """The row whose last pixel, behind the word, has this level."""
    return row[:-1] + bytes([level])


def weakened(row, begin, cell, bit, dark):
    """The row in which the light of a cell stands half as high above the dark. Places are 10,240ths of a pixel."""
    first, last = ((begin + cell * edge) // 10240 for edge in (bit, bit + 1))
    return row[:first] + bytes(dark + (pixel - dark) // 2 for pixel in row[first : last + 1]) + row[last + 1 :]


def flecked_before(row, at):
    """The row with a white pixel before the word."""
    return row[:at] + b"\xff" + row[at + 1 :]


def main():
    if sys.argv[1:] == ["--cases"]:
        print("# Rows of gray pixels")
        for row in cases():
            print(row)
        return 0
    try:
        values = [int(word) for word in sys.argv[1:]]
        system, width, height, first, rows = values
    except ValueError:
        print(__doc__, end="", file=sys.stderr)
        return 2
    if not (0 < width and 0 <= first and 0 < rows and first + rows <= height):
        print(__doc__, end="", file=sys.stderr)
        return 2
    sys.stdout.buffer.write(line_file(system, width, height, first, rows, sys.stdin.buffer.read()))
    return 0


if __name__ == "__main__":
    sys.exit(main())
