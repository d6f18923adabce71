"""Bytes of MIDI for the tries, and the lines of the labels that are read of them."""

FAULTS = ("hours", "minutes", "seconds", "frames", "dropped")
WAYS = ("forward", "backward")
OTHERS = (b"\xf8", b"\xfe", b"\x90\x40\x7f", b"\xf0\x7e\x00\x06\x01\xf7", b"\xf2\x01\x02", b"\xf7", b"\x00")


def damaged(chance, sent):
    """The bytes with others among them, and with some changed, dropped, doubled and turned around."""
    made = bytearray(sent)
    for _ in range(chance.randrange(1, 12)):
        place = chance.randrange(len(made) + 1)
        what = chance.randrange(6)
        if what == 0:
            made[place:place] = chance.choice(OTHERS)
        elif what == 1:
            made[place : place + 1] = bytes([chance.randrange(256)])
        elif what == 2:
            del made[place : place + chance.randrange(1, 20)]
        elif what == 3:
            made[place:place] = made[place : place + chance.randrange(1, 20)]
        elif what == 4:
            pieces = [made[at : at + 2] for at in range(place, min(place + 32, len(made)), 2)]
            made[place : place + 32] = b"".join(reversed(pieces))
        else:
            made[place:place] = b"\xf0\x7f\x7f\x01\x01" + bytes(chance.randrange(128) for _ in range(4)) + b"\xf7"
    return bytes(made)


def mtc_line(numbers):
    """The line of a label in the program's report, or of one that is refused."""
    kind, direction, fault, count, hours, minutes, seconds, frames, place = numbers
    way = "full" if kind == 1 else WAYS[direction]
    if fault:
        return f"refused {way} {FAULTS[fault - 1]} byte {place}"
    label = f"{hours:02}:{minutes:02}:{seconds:02}{';' if count == 3 else ':'}{frames:02}"
    return f"full {label} byte {place}" if kind == 1 else f"quarter {way} {label} byte {place}"
