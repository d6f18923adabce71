#!/usr/bin/env python3
"""A second reading of `wav-ltc`, from docs/reference/formats.md and docs/reference/sound.md alone, on whole lists and without tc.

    bench/wave_by_hand.py SYSTEM TRACK THRESHOLD [path | [SMOOTH [deep]] [live]] < FILE > INTERVALS

Writes the interval file, and on standard error what tc says of a file that is refused. The best path is that of
`bench/path_by_hand.py`.
"""

import struct
import sys

import path_by_hand

MOST_SAMPLES = 2**40
UNKNOWN = 0xFFFFFFFF
GREATEST = 16_777_215


class Refused(Exception):
    pass


def little(data):
    return int.from_bytes(data, "little")


def judged_format(body, place, track, least_rate):
    """The format in the first bytes of the chunk, or its first field that is not taken."""
    code = little(body[0:2])
    pcm = code == 1 or (code == 65534 and len(body) >= 26 and little(body[24:26]) == 1)
    tracks, rate = little(body[2:4]), little(body[4:8])
    block, bits = little(body[12:14]), little(body[14:16])
    tests = [
        (pcm, "format", 0),
        (1 <= tracks <= 64, "format", 2),
        (least_rate <= rate <= 6_250_000, "format", 4),
        (8 * block == tracks * bits, "format", 12),
        (bits in (8, 16, 24, 32), "format", 14),
        (track <= tracks, "track", 2),
    ]
    for holds, name, behind in tests:
        if not holds:
            raise Refused(name, place + behind)
    return rate, block, bits


def read_wave(data, track, least_rate):
    """The format, the samples of the track, and the fault of the end; or a fault alone."""
    end = Refused("truncated", len(data))
    if len(data) < 4:
        return None, [], end
    if data[0:4] not in (b"RIFF", b"RF64", b"BW64"):
        raise Refused("riff", 0)
    is_long = data[0:4] != b"RIFF"
    if len(data) < 12:
        return None, [], end
    if data[8:12] != b"WAVE":
        raise Refused("wave", 8)
    at, found, long_size = 12, None, None
    while True:
        if len(data) < at + 8:
            return None, [], end
        letters, size = data[at : at + 4], little(data[at + 4 : at + 8])
        body = at + 8
        if letters == b"data":
            announced = size
            if not is_long:
                if size == UNKNOWN or 0x7FFF_0000 <= size <= 0x8000_0000:
                    announced = None
                elif size == 0 and little(data[4:8]) <= at:
                    announced = None
            elif size == UNKNOWN:
                if long_size is None:
                    raise Refused("ds64", at)
                announced = long_size or None
            if found is None:
                raise Refused("format", at)
            return samples_of(data, body, announced, found, track)
        if letters == b"fmt ":
            if size < 16:
                raise Refused("format", at)
            width = min(26, size)
            if len(data) < body + width:
                return None, [], end
            found = judged_format(data[body : body + width], body, track, least_rate)
        elif letters == b"ds64" and is_long:
            if size < 16:
                raise Refused("ds64", at)
            if len(data) < body + 16:
                return None, [], end
            long_size = little(data[body + 8 : body + 16])
        at = body + size + size % 2


def samples_of(data, body, announced, found, track):
    rate, block, bits = found
    there = len(data) - body
    inside = there if announced is None else min(there, announced)
    width = bits // 8
    samples = []
    for place in range(inside // block):
        first = body + place * block + (track - 1) * width
        value = data[first : first + width]
        if bits == 8:
            samples.append(256 * (value[0] - 128))
        else:
            samples.append(int.from_bytes(value, "little", signed=True) >> (bits - 16))
    may_end = there % block == 0 if announced is None else there >= announced
    return rate, samples, None if may_end else Refused("truncated", len(data))


def intervals(samples, least, smooth, deep, piece):
    """The intervals between the crossings in sixteenths of a sample, the first one from the first sample. With a piece,
    each `piece` ticks of silence are an interval as soon as they have passed."""
    peak = total = 0
    side = None
    before = 0
    latest = 0
    for place in range(len(samples)):
        y = sum(samples[max(0, place + 1 - smooth) : place + 1])
        size = abs(y)
        if size > peak:
            peak += -((peak - size) // 4)
        else:
            peak -= -(-peak // 1024)
        total += size - total // 1024
        height = max(0, peak - total // 1024) // (4 if deep else 2)
        threshold = max(smooth * least, height)
        now = 1 if y >= threshold else -1 if y <= -threshold else None
        if now is not None and side is not None and side != now:
            # the line from the sample before to this one meets the threshold of this side there
            rise, need = now * (y - before), now * (now * threshold - before)
            tick = 1 if need <= 0 else -(-16 * need // rise)
            moment = 16 * (place - 1) + tick
            while moment - latest > (piece or GREATEST):
                yield piece or GREATEST
                latest += piece or GREATEST
            yield moment - latest
            latest = moment
        while piece and 16 * place - latest >= piece:
            yield piece
            latest += piece
        side = now or side
        before = y


def found_intervals(words, system, least, rate, samples, ended):
    """The intervals of a track, by the words behind THRESHOLD."""
    if words == ["path"]:
        return path_by_hand.intervals(samples, system, rate, least, 16, ended)
    live = words[-1:] == ["live"]
    words = words[:-1] if live else words
    smooth = int(words[0]) if words else 1
    piece = min(max(16 * rate // (4 * system), 1), GREATEST) if live else None
    return intervals(samples, least, smooth, len(words) > 1, piece)


def main():
    system, track, least = (int(word) for word in sys.argv[1:4])
    words = sys.argv[4:]
    data = sys.stdin.buffer.read()
    try:
        rate, samples, fault = read_wave(data, track, 140 * system if words == ["path"] else 1)
    except Refused as refused:
        rate, samples, fault = None, [], refused
    out = bytearray()
    if rate is not None:
        out += b"LTCI" + bytes([1, system, 0, 0]) + struct.pack(">I", 16 * rate)
        for interval in found_intervals(words, system, least, rate, samples, fault is None):
            out += struct.pack(">I", interval)
    sys.stdout.buffer.write(out)
    if fault is not None:
        sys.exit(f"tc: refused: {fault.args[0]} at byte {fault.args[1]}")


if __name__ == "__main__":
    main()
