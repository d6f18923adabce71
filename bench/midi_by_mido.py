#!/usr/bin/python3
"""Whether another program's parser finds in the bytes of `tc ltc-mtc` the messages that were sent, and `tc mtc-read` their labels.

    bench/midi_by_mido.py TC LIMIT RECORDING..

TC is the built program, each RECORDING an interval file. Each message that mido finds (Debian's package python3-mido) is a full message or a
quarter frame, all of them spell the bytes again, and the labels that are put together here are the lines of `tc mtc-read`. It is not in
the gate, since mido is none of this repository's tools.
"""
import subprocess
import sys

import mido

RATES = {0: ":", 1: ":", 2: ";", 3: ":"}


def spelled(code, hours, minutes, seconds, frames):
    return f"{hours:02}:{minutes:02}:{seconds:02}{RATES[code]}{frames:02}"


def labels(messages):
    """The lines of messages, without the places."""
    row = []
    for message in messages:
        if message.type == "sysex":
            realtime, device, one, other, hours, minutes, seconds, frames = message.data
            assert (realtime, one, other) == (0x7F, 1, 1), message
            row = []
            yield "full " + spelled(hours >> 5, hours & 31, minutes, seconds, frames)
        else:
            assert message.type == "quarter_frame", message
            row = (row + [message])[-8:]
            pieces = [m.frame_type for m in row]
            if pieces in (list(range(8)), list(range(7, -1, -1))):
                way = "forward" if pieces[0] == 0 else "backward"
                v = {m.frame_type: m.frame_value for m in row}
                parts = [v[n] + 16 * v[n + 1] for n in (0, 2, 4, 6)]
                frames, seconds, minutes, hours = parts
                yield f"quarter {way} " + spelled(hours >> 5, hours & 31, minutes, seconds, frames)


def main():
    tc, limit, *recordings = sys.argv[1:]
    for recording in recordings:
        with open(recording, "rb") as file:
            sent = subprocess.run([tc, "ltc-mtc", limit], stdin=file, stdout=subprocess.PIPE, check=True).stdout
        parser = mido.Parser()
        parser.feed(sent)
        messages = list(parser)
        assert b"".join(bytes(m.bytes()) for m in messages) == sent, f"{recording}: mido spells other bytes"
        read = subprocess.run([tc, "mtc-read"], input=sent, stdout=subprocess.PIPE, check=True).stdout.decode().splitlines()
        found = [line.rsplit(" byte ", 1)[0] for line in read[:-1]]
        assert found == list(labels(messages)), f"{recording}: other labels"
        print(f"{recording}: {len(sent)} bytes, {len(messages)} messages, {len(found)} labels")


main()
