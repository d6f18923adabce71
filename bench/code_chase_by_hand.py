#!/usr/bin/env python3
"""Recordings through `tc ltc-chase`, against a second reading of the tables in docs/reference/formats.md.

    bench/code_chase_by_hand.py [RECORDING..]

The recordings of examples/ if none is named. The frames are those that `tc ltc-fly` prints; the draws, the chase and the
transport are computed here. Each recording is followed with the limits 0, 2 and 255, the bounds 0, 8 and 1,000, from its own
first label and from another one, in its own count and in another. It is also checked that each loss has one of
its four causes, and that if no step has one, no step after the first locked one has an error above 40 subframes.
"""
import glob
import os
import subprocess
import sys

from chase_by_hand import TC, TOP, Chase, labels_of

FACTOR, SUMMAND = 6364136223846793005, 1442695040888963407
LIMITS, BOUNDS, SEEDS = (0, 2, 255), (0, 8, 1000), (0, 1, 2**64 - 1)


def run(words, recording):
    """What a command prints of a recording."""
    with open(recording, "rb") as data:
        return subprocess.run([TC, *words], stdin=data, capture_output=True, check=False)


def frames_in(lines):
    """The frames of the lines of ltc-fly: the label and the motion of each that is no gap, and whether it goes on."""
    for line in lines:
        kind, *rest = line.split()
        if kind == "gone":
            yield None, 0, False
        elif kind in ("heard", "invented"):
            yield rest[1], {"forward": 80, "backward": -80}[rest[0]], kind == "invented" or rest[3] == "1"


def slips(seed, bound):
    """The slips of a seed."""
    state = seed
    while True:
        state = (FACTOR * state + SUMMAND) % 2**64
        yield (state >> 33) % (2 * bound + 1) - bound


def followed(labels, numbers, start, frames, seed, bound):
    """The lines of a chase over frames, with how many losses were seen, each with its cause."""
    chase = Chase(80 * len(labels), 80 * numbers[start])
    lines, lost, is_whole, locked, before = [], 0, bound <= 8, False, 0
    for i, ((label, motion, goes_on), slip) in enumerate(zip(frames, slips(seed, bound))):
        master = (numbers[label], motion) if label in numbers else None
        stays = i > 0 and master is not None and goes_on and abs(before) <= 8
        state, error, order, loss = chase.step("play" if i == 0 else "", None, master, slip)
        assert loss == "none" or not stays, (i, loss)
        is_whole = is_whole and (i == 0 or (master is not None and goes_on))
        assert not is_whole or loss == "none", i
        assert not (is_whole and locked) or (state == "locked" and abs(error) <= 40), i
        locked = locked or state == "locked"
        lost += loss != "none"
        place = f"{labels[chase.position // 80]}+{chase.position % 80:02}"
        lines.append(f"step {i + 1} {state} error {error} order {order} loss {loss} at {place}\n")
        before = slip
    lines.append(f"end steps {len(lines)} losses {lost}\n")
    return "".join(lines), lost


def main():
    recordings = sys.argv[1:] or sorted(glob.glob(os.path.join(TOP, "examples", "*.ltci")))
    days = {count: labels_of(count) for count in ("24", "25", "30", "30d")}
    numbers = {count: {label: number for number, label in enumerate(labels)} for count, labels in days.items()}
    runs = 0
    for recording in recordings:
        seen = []
        with open(recording, "rb") as data:
            system = str(data.read(6)[5])
        for limit in LIMITS:
            frames = list(frames_in(run(["ltc-fly", str(limit)], recording).stdout.decode().splitlines()))
            first = next((label for label, _, _ in frames if label), "00:00:00:00")
            own = "30d" if ";" in first else system
            other = "24" if own != "24" else "30"
            for bound in BOUNDS:
                for seed in SEEDS:
                    for count, start in ((own, first), (own, days[own][-1]), (other, days[other][0])):
                        gone_or_own = [f if count == own else (None, 0, False) for f in frames]
                        wanted, lost = followed(days[count], numbers[count], start, gone_or_own, seed, bound)
                        ran = run(["ltc-chase", count, start, str(limit), str(seed), str(bound)], recording)
                        assert (ran.returncode, ran.stderr) == (0, b""), (recording, ran.stderr)
                        assert ran.stdout.decode() == wanted, (recording, count, start, limit, seed, bound)
                        runs += 1
                        if (seed, start, count) == (1, first, own):
                            seen.append(f"{limit}/{bound}: {len(gone_or_own)} steps {lost} losses")
        print(f"{os.path.basename(recording)}, limit/bound: {'; '.join(seen)}")
    print(f"{runs} runs as the tables say, each loss with its cause")


main()
