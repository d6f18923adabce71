"""What no run has reached: a table of functions, the code of the blocks, the jumps that went one way only, and the
places at which runs turned away from it."""
import bisect
import collections

from .blocks import JUMP, TO, crate_of


def table(program, reached):
    """A row a crate, and a row a function with blocks that no run reached, those with most instructions first."""
    crates, rows = collections.defaultdict(lambda: [0] * 5), collections.defaultdict(lambda: [0] * 5)
    for number, block in enumerate(program.blocks):
        for row in rows_of(program.functions[block.function].name, crates, rows):
            row[0] += 1
            row[1] += block.length
            row[2] += not reached[number]
            row[3] += 0 if reached[number] else block.length
    for jump, _ in one_way(program, reached):
        for row in rows_of(program.functions[jump.function].name, crates, rows):
            row[4] += 1
    head = "Blocks | Instructions | Blocks never reached | Instructions never run | Jumps that went one way |\n"
    head += "|---|---|---|---|---|---|"
    lines = [f"| Crate | {head}"]
    lines += [f"| {crate} | " + " | ".join(map(str, row)) + " |" for crate, row in sorted(crates.items())]
    lines.append("| all | " + " | ".join(str(sum(row[k] for row in crates.values())) for k in range(5)) + " |")
    lines += ["", f"| Function | {head}"]
    for name, row in sorted(rows.items(), key=lambda one: (-one[1][3], -one[1][4], one[0])):
        if row[2] or row[4]:
            lines.append(f"| `{name}` | " + " | ".join(map(str, row)) + " |")
    return "\n".join(lines)


def rows_of(name, crates, rows):
    return crates[crate_of(name)], rows[name]


def one_way(program, reached):
    """The jumps that were reached and went one way only, though the block behind the other way was reached from
    elsewhere, each with whether it was taken."""
    begun = {block.at: reached[number] for number, block in enumerate(program.blocks)}
    found = []
    for number, jump in enumerate(program.jumps):
        place = len(program.blocks) + 2 * number
        taken, passed = reached[place], reached[place + 1]
        if taken != passed and begun.get(jump.behind if taken else jump.to, 0):
            found.append((jump, bool(taken)))
    return found


def code(program, reached, part):
    """The code that no run reached of the functions whose name has this part, with where it is jumped to from."""
    lines, came, order, texts = [], collections.defaultdict(list), program.order, program.texts
    for jump in program.jumps:
        came[jump.to].append(jump.at)
    for number, block in enumerate(program.blocks):
        one = program.functions[block.function]
        if reached[number] or part not in one.name:
            continue
        start = bisect.bisect_left(order, block.at)
        sources = " ".join(f"{at:x}" for at in came[block.at])
        lines.append(f"{one.name}+{block.at - one.at:#x}:" + (f" from {sources}" if sources else ""))
        lines += [f"    {order[place]:x}  {texts[order[place]]}" for place in range(start, start + block.length)]
    for jump, taken in one_way(program, reached):
        if part in program.functions[jump.function].name:
            how = "always" if taken else "never"
            lines.append(f"{how} taken: {jump.at:x}  {texts[jump.at]}")
    return "\n".join(lines)


# Where runs turned away

# how many instructions before such a place are shown
BEFORE = 4


def ways(program):
    """To which blocks each block leads: by its jump, by its end, and into a function that it calls. Where a jump by a
    table or a call by a pointer leads is not known."""
    place = {block.at: number for number, block in enumerate(program.blocks)}
    order, texts, found = program.order, program.texts, []
    for block in program.blocks:
        end = bisect.bisect_left(order, block.at) + block.length
        last = texts[order[end - 1]]
        jump, to = JUMP.match(last), TO.search(last)
        those = [int(to[1], 16)] if jump and to else []
        is_over = jump and jump[1] in ("jmp", "ret") or last.startswith(("ud2", "hlt"))
        if not is_over and end < len(order):
            those.append(order[end])
        found.append([place[at] for at in those if at in place])
    return found


def behind(first, leads, known):
    """The blocks that can be reached from these, without those that are known."""
    found, left = set(), [number for number in first if number not in known]
    while left:
        number = left.pop()
        if number not in found:
            found.add(number)
            left += [to for to in leads[number] if to not in known]
    return found


def fronts(program, reached, part):
    """The blocks that no run reached though one came to a block that leads there, or to which nothing is known to lead;
    those with most code that only they lead to come first. Code that several lead to comes last."""
    count = len(program.blocks)
    leads, came = ways(program), collections.defaultdict(list)
    for number, those in enumerate(leads):
        for to in those:
            came[to].append(number)
    never = {number for number in range(count) if not reached[number]}
    known = set(range(count)) - never
    first = [number for number in sorted(never) if not came[number] or any(one in known for one in came[number])]
    rows, alone = [], set()
    for number in first:
        only = never - behind((one for one in first if one != number), leads, known | {number})
        alone |= only
        rows.append((sum(program.blocks[one].length for one in only), number))
    lines = []
    for size, number in sorted(rows, key=lambda row: (-row[0], row[1])):
        if part in name_of(program, number):
            lines += front(program, number, [one for one in came[number] if one in known], size)
    left = sum(program.blocks[one].length for one in never - alone)
    lines.append(f"{len(first)} places; {left} instructions more to which several of them lead")
    return "\n".join(lines)


def name_of(program, number):
    return program.functions[program.blocks[number].function].name


def front(program, number, sources, size):
    """A place, with the ends of the blocks from which runs could have come."""
    block, order, texts = program.blocks[number], program.order, program.texts
    one = program.functions[block.function]
    lines = [f"{size} instructions: {block.at:x} {one.name}+{block.at - one.at:#x}"]
    for source in sources[:3]:
        end = bisect.bisect_left(order, program.blocks[source].at) + program.blocks[source].length
        lines += [f"    {order[k]:x}  {texts[order[k]]}" for k in range(max(0, end - BEFORE), end)]
    start = bisect.bisect_left(order, block.at)
    lines += [f"  > {order[k]:x}  {texts[order[k]]}" for k in range(start, start + min(block.length, BEFORE))]
    return lines
