#!/usr/bin/env python3
"""Runs the built program on damaged inputs for a while, and checks what it answers. Run by hand, never in the gate.

    bench/fuzz.py SECONDS [PROGRAM [FOLDER]]       bin/tc and /tmp/tc-fuzz if none are named

An input is one of the examples, or a file that the program makes, with some bytes changed, dropped, doubled, or put
elsewhere. A run has to end within ten seconds with a status that the command may have; its note has to be the line of
that status; and each line of a text has to be a whole line of its command. What breaks a rule is kept in FOLDER with
its words. The seed is the time; it is printed, and a run is repeated by the environment's SEED.
"""
import os
import random
import re
import subprocess
import sys
import time

TOP = os.path.dirname(os.path.dirname(os.path.abspath(__file__)))
LABEL = r"\d\d:\d\d:\d\d[:;]\d\d"
WAY = "(forward|backward)"
FIELD = r"[a-z0-9-]+"
WORD = rf"word {WAY} {LABEL} user [0-9a-f]{{8}} flags [01]{{5}} balance [01] tick \d+ length \d+ speed \d+"
REPORT = [WORD, rf"refused {WAY} {FIELD} tick \d+", r"lost interval \d+ tick \d+",
          r"end intervals \d+ words \d+ refused \d+ lost \d+ ticks \d+"]
FLIGHT = [rf"heard {WAY} {LABEL} joined [01] tick \d+", rf"invented {WAY} {LABEL} step \d+ tick \d+", r"gone tick \d+",
          r"end intervals \d+ heard \d+ invented \d+ gone \d+ ticks \d+"]
MIDI = [rf"full {LABEL} byte \d+", rf"quarter {WAY} {LABEL} byte \d+", rf"refused (full|{WAY}) {FIELD} byte \d+",
        r"end bytes \d+ full \d+ quarter \d+ refused \d+"]
LINE = rf"{LABEL} user [0-9a-f]{{8}} flags [01]{{5}} mark [01]"
FIELDS = [rf"field \d+ word {LINE}", rf"field \d+ conflict {LINE} and {LINE}", rf"field \d+ nothing (no-line|{FIELD}( \d+)?)",
          r"end fields \d+ agreed \d+ conflict \d+ nothing \d+"]
TRACE = [rf"step \d+ (waiting|locating|pulling|locked) error -?\d+ order -?\d+ loss (none|no-code|window) at {LABEL}\+\d\d",
         r"end steps \d+ losses \d+"]
NOTES = {0: r"", 3: r"tc: refused: .*\n", 7: r"tc: limit\n", 6: r"tc: out of memory\n"}


def made(program, words, data=b""):
    """What the program writes of words and an input."""
    return subprocess.run([program, *words.split()], input=data, stdout=subprocess.PIPE, stderr=subprocess.DEVNULL, check=False).stdout


def kinds(program):
    """Kinds of input: the inputs, and the commands that read them, each with the lines that it may print, if any."""
    def example(name):
        with open(os.path.join(TOP, "examples", name), "rb") as data:
            return data.read()
    recordings = [example("25-worn.ltci")[:9000], example("30d-damaged.ltci")[:20000],
                  made(program, "ltc-make 30d backward 00:01:00;02 6 20 48000 40 1")]
    recordings += [made(program, "ltc-convert 2", one) for one in recordings]
    along = [("ltc-read", REPORT), ("ltc-worn", REPORT), ("ltc-rough", REPORT), ("ltc-fly 2", FLIGHT), ("ltc-fly 255", FLIGHT),
             ("ltc-fly 2 worn", FLIGHT), ("ltc-fly 2 rough", FLIGHT),
             ("ltc-mtc 0", None), ("ltc-jam 2 20 48000", None),
             ("ltc-convert 1", None), ("ltc-convert 2", None), ("ltc-pcm 100", None),
             ("ltc-chase 25 17:17:17:17 2 1 8", TRACE), ("ltc-chase 30d 12:09:57;00 255 1795798542 1000", TRACE)]
    script = b"play,,00:00:00:00,forward,0\n,,00:00:00:01,forward,8\nlocate,00:00:02:00,,,-3\nwait,,,,\n,,00:00:00:03,backward,\n"
    return [
        (recordings, along),
        ([example("30d-damaged.mtc")], [("mtc-read", MIDI)]),
        ([example("30-damaged.vitl")], [("vitc-read", FIELDS)]),
        ([made(program, "ltc-pcm 9000", recordings[0])[:60000]], [("pcm-ltc 25 48000 1000", None), ("pcm-ltc 25 48000 100 64 follow", None)]),
        ([script, script.replace(b"\n", b"\r\n")], [("chase 25 00:00:00:00", TRACE)]),
    ]


def damaged(data, chance):
    """The data with some places hurt."""
    data = bytearray(data)
    for _ in range(chance.choice([1, 1, 2, 5, 30])):
        at = chance.randrange(len(data) + 1)
        size = chance.choice([1, 1, 2, 4, 80])
        way = chance.randrange(5)
        if way == 0:
            data[at:at + size] = bytes(chance.randrange(256) for _ in range(size))
        elif way == 1:
            del data[at:at + size]
        elif way == 2:
            data[at:at] = data[at:at + size]
        elif way == 3:
            other = chance.randrange(len(data) + 1)
            data[at:at] = data[other:other + size]
        elif at < len(data):
            data[at] ^= 1 << chance.randrange(8)
    return bytes(data[:chance.randrange(len(data) + 1)]) if chance.randrange(8) == 0 else bytes(data)


def complaint(ended, lines):
    """What is wrong with how a run ended, or nothing."""
    note = ended.stderr.decode("ascii", "replace")
    if ended.returncode not in NOTES or not re.fullmatch(NOTES[ended.returncode], note):
        return f"status {ended.returncode}, note {note!r}"
    if lines is None:
        return None
    text = ended.stdout.decode("ascii", "replace")
    if text and not text.endswith("\n"):
        return "a line is cut"
    rules = [re.compile(rule) for rule in lines]
    wrong = [line for line in text.splitlines() if not any(rule.fullmatch(line) for rule in rules)]
    if wrong:
        return f"line {wrong[0]!r}"
    if ended.returncode == 0 and not text.splitlines()[-1:][0].startswith("end "):
        return "no last line"
    return None


def main():
    seconds = float(sys.argv[1])
    program = sys.argv[2] if len(sys.argv) > 2 else os.path.join(TOP, "bin", "tc")
    folder = sys.argv[3] if len(sys.argv) > 3 else "/tmp/tc-fuzz"
    seed = int(os.environ.get("SEED", time.time()))
    chance = random.Random(seed)
    every = kinds(program)
    runs, kept, statuses, end = 0, 0, {}, time.time() + seconds
    while time.time() < end:
        inputs, commands = chance.choice(every)
        data = damaged(chance.choice(inputs), chance)
        for words, lines in commands:
            try:
                ended = subprocess.run([program, *words.split()], input=data, capture_output=True, timeout=10, check=False)
                wrong = complaint(ended, lines)
                statuses[ended.returncode] = statuses.get(ended.returncode, 0) + 1
            except subprocess.TimeoutExpired:
                # an interval is up to 33 MB of sound
                wrong = None if words.startswith("ltc-pcm") else "no end within ten seconds"
            runs += 1
            if wrong:
                kept += 1
                os.makedirs(folder, exist_ok=True)
                with open(os.path.join(folder, f"{kept:04d}"), "wb") as out:
                    out.write(data)
                print(f"{kept:04d}: tc {words}: {wrong}")
    print(f"seed {seed}: {runs} runs, statuses {dict(sorted(statuses.items()))}, {kept} kept")
    return 1 if kept else 0


if __name__ == "__main__":
    sys.exit(main())
