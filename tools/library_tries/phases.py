"""Recordings in blocks of each size, at each phase, by the library's functions: a flywheel refuses no word of them."""
import struct

from library_tries.tapes import FRAME, Differs, run

HEARD, INVENTED = 1, 2
CELL, QUARTER = 16, 5_120


def try_phases(program, intervals, ticks_a_second):
    """How many ways of playing there were: sounds of two words with a silence behind, and tapes of three words."""
    rate = ticks_a_second / 80 / CELL
    ways = [("SOUND", "forward", 0, 0, 200), ("SOUND", "backward", 0, QUARTER, 200), ("SOUND", "forward", 0, QUARTER, 1_024)]
    ways += [("TAPE", way, firm, 0, 300) for way in ("forward", "backward") for firm in (0, 1, 2, 3)]
    for kind, way, firm, pace, most in ways:
        count = 2 if kind == "SOUND" else 3
        ticks = [*intervals("25", "09:59:59:24", count, way, rate=rate), CELL, CELL]
        numbers = ["25", "2", str(firm), str(pace), str(most)]
        found, status = run([program, kind, *numbers], struct.pack(f"={len(ticks)}I", *ticks))
        kinds = [frame[0] for frame in FRAME.iter_unpack(found)]
        wanted = [HEARD] * count + ([INVENTED] if pace else [])
        if status != 0 or kinds != wanted:
            raise Differs(f"phases {kind} {' '.join(numbers)} {way}: status {status}, frames {kinds} for {wanted}")
    return sum(most * (most + 1) // 2 for *_, most in ways)
