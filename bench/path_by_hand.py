#!/usr/bin/env python3
"""The best path of cells through a sound, a second time: by docs/reference/formats.md alone, the whole sound at once.

    bench/path_by_hand.py SYSTEM RATE [THRESHOLD [FINENESS [so-far]]] < RAW > FILE

RAW are 16-bit samples, and FILE is the interval file that `tc pcm-ltc SYSTEM RATE THRESHOLD FINENESS path` shall
write; 250 and 16 without the last words. With `so-far` it is what was written while more samples may come. With pypy it
takes a third of a millisecond a step.
"""
import array
import struct
import sys

LENGTHS = [*range(4, 25), *range(26, 49, 2), *range(52, 97, 4)]
SAME, SHORTER, LONGER, JUMP = range(4)
EARLY = 1 << 28


def toward_zero(number, by):
    """A quotient, rounded towards zero."""
    return number // by if number >= 0 else -(-number // by)


def grid(system, rate):
    """How many steps a sample has, and how many samples are summed."""
    for repeats in (8, 4, 2, 1):
        if 14 <= rate * repeats // (80 * system) <= 27:
            return repeats, 1
    for power in range(1, 13):
        if 14 <= rate // (80 * system * 2 ** power) <= 27:
            return 1, 2 ** power
    sys.exit("value 2")


def latest_means(sizes):
    """The sum of the latest 512 sizes and their number, at each."""
    total = 0
    for place, size in enumerate(sizes):
        total += size - (sizes[place - 512] if place >= 512 else 0)
        yield total, min(place + 1, 512)


def held_samples(samples, threshold):
    """Each sample clipped, and held."""
    peak, total, side = 0, 0, 0
    for sample, (size, many) in zip(samples, latest_means([abs(sample) for sample in samples])):
        most = max(size // many, min(3 * size // many, 9 * peak // 8))
        clipped = max(-most, min(most, sample))
        now = abs(clipped)
        peak += -(-(now - peak) // 4) if now > peak else -(-(-peak // 1024))
        total += now - total // 1024
        least = max(3 * max(0, peak - total // 1024) // 8, threshold)
        side = 1 if clipped >= least else -1 if clipped <= -least else side
        yield clipped, clipped + side * (total // 1024 // 2)


def on_grid(pairs, repeats, summed):
    """The sound of each step, and the held sound."""
    if summed == 1:
        return [pair for pair in pairs for _ in range(repeats)]
    pairs = list(pairs)
    return [tuple(toward_zero(sum(pair[which] for pair in pairs[first:first + summed]), summed) for which in (0, 1))
            for first in range(0, len(pairs) - summed + 1, summed)]


class Paths:
    """The best paths to each step, in each length and sign at the end: their scores, latest bits and ways back."""

    def __init__(self, held, sizes):
        self.sums, self.whole = [0], [0]
        for sound in held:
            self.sums.append(self.sums[-1] + sound)
            self.whole.append(self.whole[-1] + abs(sound))
        self.sizes = sizes
        # of each step, what a cell that begins behind it has before it: by length and the sign before, score and way
        self.starts = [[[(0, JUMP)] * 2 for _ in LENGTHS]]
        self.bits, self.best = [None], [None]
        for end in range(1, len(held) + 1):
            self.step(end)

    def start(self, end, place, sign):
        """The score of the best that comes before a cell that ends there."""
        first = end - LENGTHS[place]
        return self.starts[first][place][sign][0] if first >= 0 else -EARLY

    def worth(self, end, length, bit):
        """The held sound of the latest cell times its signs, if it ends with plus."""
        sums, first = self.sums, max(0, end - length)
        if not bit:
            return sums[end] - sums[first]
        half = length // 2
        return sums[end] - sums[max(0, end - half)] - (sums[max(0, end - length + half)] - sums[first])

    def step(self, end):
        """The best paths to one step more, and what may come before a cell behind it."""
        scores, bits, best = [], [], None
        for place, length in enumerate(LENGTHS):
            zero, one = self.worth(end, length, 0), self.worth(end, length, 1)
            pair, kinds = [], []
            for sign, times in enumerate((1, -1)):
                flat = times * zero + self.start(end, place, 1 - sign)
                turned = times * one + self.start(end, place, sign)
                pair.append(max(flat, turned))
                kinds.append(1 if turned > flat else 0)
                if best is None or pair[-1] > best[0]:
                    best = pair[-1], place, sign
            scores.append(pair)
            bits.append(kinds)
        self.bits.append(bits)
        self.best.append(best)
        self.starts.append([self.ways(scores, best[0], place, self.sizes[end - 1]) for place in range(len(LENGTHS))])

    @staticmethod
    def ways(scores, best, place, size):
        """The best way to begin a cell, for each sign before it."""
        found = []
        for sign in (0, 1):
            ways = [(scores[place][sign], SAME)]
            if place:
                ways.append((scores[place - 1][sign] - size * (LENGTHS[place] - LENGTHS[place - 1]), SHORTER))
            if place + 1 < len(LENGTHS):
                ways.append((scores[place + 1][sign] - size * (LENGTHS[place + 1] - LENGTHS[place]), LONGER))
            ways.append((best - 3 * LENGTHS[place] * size, JUMP))
            found.append(max(ways, key=lambda way: way[0]))
        return found

    def unfinished(self, count):
        """Of the latest 96 steps, the latest at which the best path lacks least of the sizes of the held sound."""
        return min(range(count, count - 96, -1), key=lambda end: self.whole[end] - self.best[end][0])

    def cells(self, end):
        """The cells of the best path to a step, the latest first: end, length, bit, sign at the end, behind a jump."""
        place, sign = self.best[end][1:]
        while end > 0:
            length, bit = LENGTHS[place], self.bits[end][place][sign]
            before = sign if bit else 1 - sign
            first = end - length
            way = self.starts[first][place][before][1] if first > 0 else JUMP
            yield end, length, bit, sign, way == JUMP
            if first <= 0:
                return
            place, sign = {SAME: (place, before), SHORTER: (place - 1, before), LONGER: (place + 1, before),
                           JUMP: self.best[first][1:]}[way]
            end = first


def decided(paths, count, ended=True):
    """The decided cells in order, each with whether it jumps."""
    cells = []
    turns = [(paths.unfinished(step), step - 800) for step in range(2048, count + 1, 1024)]
    turns += [(count, count)] if count and ended else []
    for end, limit in turns:
        done = cells[-1][0] if cells else 0
        cells += [cell for cell in reversed(list(paths.cells(end))) if done + cell[1] // 4 < cell[0] <= limit]
    before = None
    for end, length, bit, sign, jump in cells:
        begins_with = sign if not bit else 1 - sign
        jumps = jump or before is None or abs(end - length - before[0]) > length // 4 or before[1] == begins_with
        yield end, length, bit, sign, jumps
        before = end, sign


class Half:
    """What is measured of a half."""

    def __init__(self, sound, times, shorter, longer):
        steps = sound[slice(*shorter)] + sound[slice(*longer)]
        self.sum = times * sum(steps)

    def far(self, length, level):
        """How far its mean sound lies from a level on its side."""
        return abs(self.sum - length * level) // length


class Measured:
    """What is measured of a decided cell."""

    def __init__(self, sound, cell, before):
        self.end, self.length, self.bit, sign, self.jumps = cell
        self.steps = self.end - before
        first, half = self.end - self.length, self.length // 2
        last_sign = -1 if sign else 1
        first_sign = -last_sign if self.bit else last_sign
        self.first = Half(sound, first_sign, (first, first + half), (first, first + self.length - half))
        self.second = Half(sound, last_sign, (self.end - half, self.end), (self.end - self.length + half, self.end))
        self.level = max(0, self.first.sum + self.second.sum) // (2 * self.length)

    def far(self, level):
        """How far each half lies from a level."""
        return [half.far(self.length, level) for half in (self.first, self.second)]


def mean(cells):
    """The mean level of some cells."""
    return sum(cell.level for cell in cells) // len(cells)


def bends(cells, place, grain):
    """Whether the path bends at a cell."""
    if not 8 <= place < len(cells) - 8:
        return False
    usual, own = cells[place - 8].length, cells[place].length
    if any(sum(abs(cell.length - usual) >= grain for cell in cells[first:first + 6]) > 1 for first in (place - 8, place + 3)):
        return False
    times = 1 if own > usual else -1
    far, near, it, next_one, last = (max(0, times * (cell.length - usual)) // grain for cell in cells[place - 2:place + 3])
    return near > 0 and next_one > 0 and max(far, near) < it and max(next_one, last) <= it


def refused(before, cell, behind, threshold):
    """Whether a cell is too faint or does not fit, between others."""
    low, high = sorted((mean(before), mean(behind or before)))
    floor = max((1 if before[-1].bit and cell.bit else 2) * low, 2 * threshold)
    if 8 * max(0, before[-1].second.sum + cell.first.sum) < floor * (before[-1].length + cell.length):
        return True
    around = before + behind
    usual = sum(min(far, high) ** 2 for other in around for far in other.far(high)) // (2 * len(around))
    return max(cell.far(high)) ** 2 > 12 * usual + 2 * high ** 2


def broken(cells, threshold, grain):
    """Each cell, and whether code breaks in front of it."""
    for place, cell in enumerate(cells):
        before, behind = cells[max(0, place - 8):place], cells[place + 1:place + 9]
        yield cell, (cell.jumps or before and refused(before, cell, behind, threshold)) or bends(cells, place, grain)


def intervals(samples, system, rate, threshold, fineness, ended):
    """The intervals of the best path, or those that the samples bring so far."""
    repeats, summed = grid(system, rate)
    if fineness % repeats or fineness // repeats * summed < 2:
        sys.exit("value 4")
    ticks = fineness // repeats * summed
    steps = on_grid(held_samples(samples, threshold), repeats, summed)
    sound = [step[0] for step in steps]
    sizes = [size // many for size, many in latest_means([abs(step) for step in sound])]
    cells, before = [], 0
    for cell in decided(Paths([step[1] for step in steps], sizes), len(steps), ended):
        cells.append(Measured(sound, cell, before))
        before = cell[0]
    for cell, breaks in list(broken(cells, threshold, repeats))[:None if ended else -8]:
        whole, parts = cell.steps * ticks, [cell.steps * ticks]
        if cell.bit:
            half = (cell.length * ticks + 1) // 2
            breaks = breaks or whole < half + 2
            parts = [whole - min(half, whole - 2), min(half, whole - 2)]
        yield from [1, parts[0] - 1, *parts[1:]] if breaks else parts


def main(words):
    """Reads the samples and writes the file."""
    ended = words[4:] != ["so-far"]
    if not 2 <= len(words) <= (4 if ended else 5):
        sys.exit(__doc__.split("\n\n")[1])
    system, rate, threshold, fineness = (*map(int, words[:4]), *(250, 16)[len(words) - 2:])
    samples = array.array("h")
    samples.frombytes(sys.stdin.buffer.read())
    found = list(intervals(samples, system, rate, threshold, fineness, ended))
    header = b"LTCI" + bytes((1, system, 0, 0)) + struct.pack(">I", rate * fineness)
    sys.stdout.buffer.write(header + struct.pack(f">{len(found)}I", *found))


if __name__ == "__main__":
    main(sys.argv[1:])
