"""Sound that is sliced by the library's functions, set beside what the program slices it into."""
import struct

from library_tries.tapes import Differs, run

RATE = 48_000
FOLLOWS = ((), ("follow",), ("deep",))
ROOMS = ((1, 1), (7, 3), (999, 2), (1_024, 160), (1_000_000, 4_096))


def ways(chance, system):
    """Numbers of a slicer, but for its first interval, and the words of `pcm-ltc` that slice so, behind its rate."""
    follows, least = chance.randrange(3), chance.choice((1, 250, 2_000))
    fineness = chance.choice((1, 4, 16, 64))
    smooth = chance.randint(1, 16) if follows else 1
    live = chance.random() < 0.3
    words = [str(least), str(fineness), *FOLLOWS[follows]]
    words += ([str(smooth)] if follows else []) + (["live"] if live else [])
    pace = RATE * fineness // (4 * system) if live else 0
    return (follows, least * smooth, fineness, smooth, pace), words


def ticks_of(file):
    """The intervals of a file, as they lie in memory."""
    return struct.pack(f"={(len(file) - 12) // 4}I", *struct.unpack(f">{(len(file) - 12) // 4}I", file[12:]))


def try_slice(program, slicers, chance, made):
    """One sound, from its first crossing on, and from its first sample: how many intervals it has."""
    system, samples = made(chance)
    raw = struct.pack(f"<{len(samples)}h", *samples)
    numbers, words = ways(chance, system)
    told = [program, "pcm-ltc", str(system), str(RATE), *words]
    file, status = run(told, raw)
    if status != 0:
        raise Differs(f"{' '.join(told)}: status {status}")
    wanted = ticks_of(file)
    for piece, room in ROOMS:
        how = [chance.choice(slicers), *map(str, numbers), "1", str(piece), str(room)]
        found, status = run(how + (["moved"] if chance.random() < 0.5 else []), raw)
        if status != 0 or found != wanted:
            raise Differs(f"{' '.join(how)}: other intervals than {' '.join(told[1:])}, status {status}")
    if run([slicers[0], *map(str, numbers), "1", "999", "0"], raw) != (b"", 0):
        raise Differs("a room of 0 took something")
    return len(wanted) // 4


def try_track(program, slicers, chance, made, wav, path):
    """One sound as a file, from its first sample on: how many intervals it has."""
    system, samples = made(chance)
    wav(path, RATE, [samples])
    with open(path, "rb") as file:
        held = file.read()
    least, smooth, deep = chance.choice((1, 250, 2_000)), chance.randint(1, 16), chance.random() < 0.5
    told = [program, "wav-ltc", str(system), "1", str(least), str(smooth), *(["deep"] if deep else [])]
    file, status = run(told, held)
    how = [chance.choice(slicers), "2" if deep else "1", str(least * smooth), "16", str(smooth), "0", "0", "999", "7"]
    found = run(how, struct.pack(f"<{len(samples)}h", *samples))
    if status != 0 or found != (ticks_of(file), 0):
        raise Differs(f"{' '.join(how)}: other intervals than {' '.join(told[1:])}, status {status}, {found[1]}")
    return (len(file) - 12) // 4


def try_slicing(slicers):
    """Settings at their edges, and beside them: how many."""
    good = [0, 250, 16, 1, 0, 0]
    taken = ((0, 0), (0, 1), (0, 2), (1, 1), (1, 524_272), (2, 1), (2, 64), (3, 1), (3, 16), (4, 16_777_215), (5, 1))
    refused = ((0, 3), (1, 0), (1, 524_273), (2, 0), (2, 65), (3, 0), (3, 17), (4, 16_777_216), (5, 2))
    refused += tuple((place, 4_294_967_295) for place in range(6))
    for wanted, places in ((0, taken), (2, refused)):
        for place, number in places:
            numbers = [str(number if at == place else each) for at, each in enumerate(good)]
            if run([slicers[0], *numbers, "16", "2"], b"")[1] != wanted:
                raise Differs(f"a slicer of {' '.join(numbers)} is not answered by {wanted}")
    return len(taken) + len(refused)


def try_slices(count, program, slicers, chance, made, wav, path):
    """Sounds at random: how many intervals there were."""
    sliced = sum(try_slice(program, slicers, chance, made) for _ in range(count))
    return sliced + sum(try_track(program, slicers, chance, made, wav, path) for _ in range(count))
