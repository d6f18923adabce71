"""The basic blocks and the conditional jumps of a program's functions, read from `objdump` and `nm`."""
import bisect
import re
import subprocess
from typing import NamedTuple

LINE = re.compile(r" +([0-9a-f]+):\t(.*)")
SYMBOL = re.compile(r"([0-9a-f]+) ([0-9a-f]+) [tTwW] (\S.*)")
# `bnd` and `notrack` may stand before a jump
JUMP = re.compile(r"(?:(?:bnd|notrack) )?(j[a-z]+|loop[a-z]*|call|ret)\b")
TO = re.compile(r" ([0-9a-f]+) <")
NOTHING = re.compile(r"(?:cs |data16 )*(?:nop|int3|xchg +%ax,%ax)")


class Function(NamedTuple):
    """A function: where it begins, its length, and its name."""

    at: int
    size: int
    name: str


class Block(NamedTuple):
    """A block: where it begins, how many instructions it has, and which function it is part of."""

    at: int
    length: int
    function: int


class Jump(NamedTuple):
    """A conditional jump: where it stands, what is behind it, where it leads to, and which function it is part of."""

    at: int
    behind: int
    to: int
    function: int


def said(*words):
    return subprocess.run(words, check=True, capture_output=True, text=True).stdout


def crate_of(name):
    """The crate of a function."""
    return re.split(r"::|[<> ]+", name.lstrip("<&"))[0]


def functions(program, crates):
    """The functions of these crates in the order of their places, or all if no crates are named."""
    found = {}
    for line in said("nm", "-S", "--defined-only", program).splitlines():
        row = SYMBOL.match(line)
        if row and int(row[2], 16) and (crates is None or crate_of(row[3]) in crates):
            name = re.sub(r"::<#[0-9a-f]+>", "", row[3])
            found[int(row[1], 16)] = Function(int(row[1], 16), int(row[2], 16), name)
    kept, end = [], 0
    for one in (found[at] for at in sorted(found)):
        if one.at >= end:
            kept.append(one)
            end = one.at + one.size
    return kept


def instructions(program):
    """The places of all instructions in order, and the text of each."""
    rows = (LINE.match(line) for line in said("objdump", "-d", "--no-show-raw-insn", program).splitlines())
    texts = {int(row[1], 16): row[2].strip() for row in rows if row}
    return sorted(texts), texts


def begins(order, texts):
    """Where blocks begin in the whole program: at what a jump leads to, and behind a jump or a call."""
    found = set()
    for number, at in enumerate(order):
        jump = JUMP.match(texts[at])
        if not jump:
            continue
        to = TO.search(texts[at])
        if to and jump[1] != "call":
            found.add(int(to[1], 16))
        behind = number + 1
        # what only fills up behind a jump is never reached
        while behind < len(order) and jump[1] in ("jmp", "ret") and NOTHING.match(texts[order[behind]]):
            behind += 1
        if behind < len(order):
            found.add(order[behind])
    return found


def blocks(order, texts, those):
    """The blocks of these functions, in order."""
    starts, found = begins(order, texts), []
    for number, one in enumerate(those):
        first, last = bisect.bisect_left(order, one.at), bisect.bisect_left(order, one.at + one.size)
        inside = [place for place in range(first, last) if order[place] == one.at or order[place] in starts]
        for place, end in zip(inside, inside[1:] + [last]):
            if not NOTHING.match(texts[order[place]]) or end - place > 1:
                found.append(Block(order[place], end - place, number))
    return found


def jumps(order, texts, those):
    """The conditional jumps of these functions, in order: those of two bytes and of six."""
    found = []
    for number, one in enumerate(those):
        first, last = bisect.bisect_left(order, one.at), bisect.bisect_left(order, one.at + one.size)
        for place in range(first, min(last, len(order) - 1)):
            words, to = texts[order[place]].split(), TO.search(texts[order[place]])
            behind = order[place + 1]
            if words and words[0][0] == "j" and words[0] != "jmp" and to and behind - order[place] in (2, 6):
                found.append(Jump(order[place], behind, int(to[1], 16), number))
    return found
