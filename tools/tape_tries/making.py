"""Sound files for the tries: code of `tc ltc-make`, drawn into samples here, at any rate."""
import os
import struct
import subprocess

TOP = os.path.dirname(os.path.dirname(os.path.dirname(os.path.abspath(__file__))))
TC = os.environ.get("TC", os.path.join(TOP, "bin", "tc"))
# At this tick rate a cell of each frame rate has whole ticks.
TICKS = 9_600_000


def intervals(count, label, frames, direction="forward", rate=None):
    """The intervals of code, in ticks."""
    cell = round(TICKS / 80 / (rate or float(count.rstrip("d"))))
    words = [TC, "ltc-make", count, direction, label, str(frames), str(cell), str(TICKS)]
    made = subprocess.run(words, stdout=subprocess.PIPE, check=True).stdout
    return struct.unpack(f">{(len(made) - 12) // 4}I", made[12:])


def code(rate, ticks, lead=0, size=9000):
    """The samples of code behind `lead` samples of silence: a sample in which the code changes sides lies between
    them.
    """
    samples, side, tick, done = [0] * lead, 1, 0, 0
    for interval in ticks:
        tick += interval
        moment = tick * rate / TICKS
        whole = int(moment)
        samples += [side * size] * (whole - done)
        rest = moment - whole
        samples.append(round(side * size * (2 * rest - 1)))
        done, side = whole + 1, -side
    samples += [side * size] * 3
    return samples


def tone(count, rate, hertz=440):
    period = [round(6000 * (1 if n < rate / hertz / 2 else -1) * (n % 7) / 7) for n in range(int(rate / hertz))]
    return (period * (count // len(period) + 1))[:count]


def packed(tracks, bits):
    """The samples of tracks, by turns, in `bits` bits."""
    length = max(map(len, tracks))
    tracks = [track + [0] * (length - len(track)) for track in tracks]
    if bits == 16:
        both = [0] * (length * len(tracks))
        for number, track in enumerate(tracks):
            both[number :: len(tracks)] = track
        return struct.pack(f"<{len(both)}h", *both)
    data = bytearray(3 * length * len(tracks))
    for number, track in enumerate(tracks):
        raw = struct.pack(f"<{length}h", *track)
        data[3 * number + 1 :: 3 * len(tracks)], data[3 * number + 2 :: 3 * len(tracks)] = raw[0::2], raw[1::2]
    return bytes(data)


def wav(path, rate, tracks, bits=16, chunks=b"", behind=b""):
    """A WAV file, with chunks before its samples and behind them."""
    data = packed(tracks, bits)
    block = bits // 8 * len(tracks)
    form = struct.pack("<HHIIHH", 1, len(tracks), rate, rate * block, block, bits)
    body = (
        b"WAVE"
        + b"fmt "
        + struct.pack("<I", len(form))
        + form
        + chunks
        + b"data"
        + struct.pack("<I", len(data))
        + data
        + b"\0" * (len(data) % 2)
        + behind
    )
    with open(path, "wb") as out:
        out.write(b"RIFF" + struct.pack("<I", len(body)) + body)
    return path


def bext():
    """A chunk of BWF without a reference."""
    return b"bext" + struct.pack("<I", 602) + b"a tape".ljust(602, b"\0")


def ixml(high="0", low="0", more=""):
    """A chunk iXML that says when the file begins, in two halves."""
    text = f'<?xml version="1.0" encoding="UTF-8"?><BWFXML><SPEED>{more}'
    text += f"<TIMESTAMP_SAMPLES_SINCE_MIDNIGHT_HI>{high}</TIMESTAMP_SAMPLES_SINCE_MIDNIGHT_HI>"
    text += f"<TIMESTAMP_SAMPLES_SINCE_MIDNIGHT_LO>{low}</TIMESTAMP_SAMPLES_SINCE_MIDNIGHT_LO></SPEED></BWFXML>"
    return chunk(b"iXML", text.encode("ascii"))


def chunk(name, body):
    return name + struct.pack("<I", len(body)) + body + b"\0" * (len(body) % 2)


def chunks_in(path):
    """The chunks of a file, by their letters."""
    with open(path, "rb") as file:
        text = file.read()
    assert struct.unpack_from("<I", text, 4)[0] == len(text) - 8, "the length of the file"
    found, place = [], 12
    while place + 8 <= len(text):
        size = struct.unpack_from("<I", text, place + 4)[0]
        found.append((text[place : place + 4], text[place + 8 : place + 8 + size]))
        place += 8 + size + size % 2
    return found


def reference_in(path):
    """The TimeReference of a file, and the samples of its `data`."""
    with open(path, "rb") as file:
        text = file.read()
    at = text.index(b"bext") + 8
    data = text.index(b"data")
    size = struct.unpack_from("<I", text, data + 4)[0]
    assert struct.unpack_from("<I", text, 4)[0] == len(text) - 8, "the length of the file"
    return struct.unpack_from("<Q", text, at + 338)[0], text[data + 8 : data + 8 + size]
