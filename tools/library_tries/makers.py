"""Code that is made by the library's functions, set beside what the program makes."""
import struct

from library_tries.tapes import Differs, run

SHORTEST, LONGEST = 16, 8_388_607


def shape(chance):
    """The length of the first cells and of the last ones, and the step between."""
    first = chance.choice((SHORTEST, 20, 24, 25, 40, chance.randrange(SHORTEST, 400)))
    if chance.random() < 0.5:
        return first, first, 0
    last = chance.randrange(SHORTEST, 400)
    return first, last, chance.randrange(min(first, last) // 8 + 1)


def try_made(program, made, chance, bits_of):
    """One recording, its intervals and its sound: how many intervals and samples there were."""
    count = chance.choice(("24", "25", "30", "30d"))
    label = f"{chance.randrange(24):02}:{chance.randrange(60):02}:{chance.randrange(60):02}"
    label += f"{';' if count == '30d' else ':'}{chance.randrange(2, 24):02}"
    first, last, step = shape(chance)
    frames = chance.randrange(1, 12)
    words = [program, "ltc-make", count, "forward", label, str(frames), str(first), "48000"]
    file = run(words + [str(last), str(step)], b"")[0]
    ticks = struct.unpack(f">{(len(file) - 12) // 4}I", file[12:])
    numbers = bits_of(count, label, frames)
    bits = b"".join(struct.pack("<2Q", number & (1 << 64) - 1, number >> 64) for number in numbers)
    told = [chance.choice(made), str(first), str(last), str(step)]
    found, status = run([*told, "-1", "1", "1"] + (["moved"] if chance.random() < 0.5 else []), bits)
    if status != 0 or struct.unpack(f"={len(found) // 4}I", found) != ticks:
        raise Differs(f"{' '.join(words[1:])} {last} {step}: other intervals, status {status}")
    level = chance.choice((0, 1, 9_000, 32_767))
    sound = run([program, "ltc-pcm", str(max(level, 1))], file)[0]
    wanted = sound[2:-2] if level else bytes(len(sound) - 4)
    for piece, room in ((1, 1), (7, 5), (160, 1_024), (1_000, 4_096)):
        how = [*told, str(level), str(piece), str(room)] + (["moved"] if chance.random() < 0.5 else [])
        found, status = run(how, bits)
        if status != 0 or found != wanted:
            raise Differs(f"{' '.join(how)}: other samples, status {status}")
    return len(ticks), len(wanted) // 2


def try_shapes(made):
    """Shapes and levels at their edges: how many."""
    good = (SHORTEST, LONGEST, 2)
    shapes = [(good, 0), ((LONGEST, LONGEST, LONGEST // 8), 0), ((15, 20, 0), 2), ((20, 15, 0), 2), ((16, 16, 3), 2)]
    shapes += [((LONGEST + 1, 20, 0), 2), ((20, LONGEST + 1, 0), 2), (((1 << 32) - 1, 20, 0), 2)]
    shapes += [((20, 20, 1 << 31), 2)]
    for numbers, status in shapes:
        if run([made[0], *map(str, numbers), "-1", "1", "1"], b"")[1] != status:
            raise Differs(f"a shape of {numbers} is not answered by {status}")
    for level, status in ((0, 0), (32_767, 0), (32_768, 2), (4_294_967_295, 2)):
        if run([made[0], "20", "20", "0", str(level), "1", "1"], b"")[1] != status:
            raise Differs(f"a level of {level} is not answered by {status}")
    return len(shapes) + 4


def try_makers(count, program, made, chance, bits_of):
    """Recordings at random: how many intervals and samples there were."""
    both = [try_made(program, made, chance, bits_of) for _ in range(count)]
    return sum(ticks for ticks, _ in both), sum(samples for _, samples in both)
