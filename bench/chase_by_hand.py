#!/usr/bin/env python3
"""Random scripts through `tc chase`, against a second reading of the tables in docs/reference/formats.md.

    bench/chase_by_hand.py [SCRIPTS] [SEED]

Ten thousand scripts without a number.

Three scripts of four keep to the premises of the theorem on the lock: after some rows of anything a master moves steadily in
one direction, no command comes, and the transport slips by at most 8 subframes. For these it is also checked that
no row loses the lock from the first locked row on, and that the errors are within 40, 24 and then 8.
"""
import os
import random
import subprocess
import sys

TOP = os.path.dirname(os.path.dirname(os.path.abspath(__file__)))
TC = os.environ.get("TC", os.path.join(TOP, "bin", "tc"))
RATES = {"24": 24, "25": 25, "30": 30, "30d": 30}


def labels_of(count):
    """The labels of a day, as texts."""
    last = ";" if count == "30d" else ":"
    return [
        f"{h:02}:{m:02}:{s:02}{last}{f:02}"
        for h in range(24)
        for m in range(60)
        for s in range(60)
        for f in range(RATES[count])
        if not (count == "30d" and s == 0 and f < 2 and m % 10)
    ]


class Chase:
    """Chase and transport by the tables, a row a call."""

    def __init__(self, day, position):
        self.day, self.position, self.state, self.target = day, position, "waiting", 0

    def error_to(self, number):
        ahead = (80 * number - self.position) % self.day
        return ahead if 2 * ahead <= self.day else ahead - self.day

    def step(self, command, target, master, slip):
        if command == "play" and self.state in ("waiting", "locating"):
            self.state = "pulling"
        elif command == "wait":
            self.state = "waiting"
        elif command == "locate":
            self.state, self.target = "locating", target
        error, order, loss = 0, 0, "none"
        if self.state == "locating":
            error = self.error_to(self.target)
            if abs(error) <= 40:
                self.state = "waiting"
            else:
                order = max(-2560, min(2560, error))
        elif self.state == "locked" and master is None:
            self.state, loss = "pulling", "no-code"
        elif self.state in ("pulling", "locked") and master is not None:
            number, motion = master
            error = self.error_to(number)
            near = abs(error) <= 40
            if self.state == "locked" and not near:
                loss = "window"
            most = 24 if near else 1280
            order = motion + max(-most, min(most, error))
            self.state = "locked" if near else "pulling"
        self.position = (self.position + order + slip) % self.day
        return self.state, error, order, loss


def any_row(rng, labels, position):
    """A row of anything: a command, its target, a master with its motion, a slip. The master is mostly near the transport."""
    command = rng.choice(["", "", "", "play", "play", "wait", "locate"])
    target = rng.randrange(len(labels)) if command == "locate" else None
    near = (position // 80 + rng.choice([0, 0, 0, 1, -1, 30])) % len(labels)
    number = near if rng.random() < 0.9 else rng.randrange(len(labels))
    master = (number, rng.choice([80, -80])) if rng.random() < 0.8 else None
    return command, target, master, rng.choice([0, 8, -8, 9, 40, 41, -1_000_000, rng.randrange(-60, 60)])


def steady_rows(rng, labels, number, rows):
    """A master that moves steadily from a label on, with slips within the bound."""
    way = rng.choice([1, -1])
    for i in range(rows):
        yield ("play" if i == 0 else ""), None, ((number + way * i) % len(labels), 80 * way), rng.randint(-8, 8)


def fields_of(labels, row):
    command, target, master, slip = row
    number, motion = master if master else (None, 0)
    spelled = "" if slip == 0 and command else str(slip)
    return ",".join([
        command,
        "" if target is None else labels[target],
        "" if number is None else labels[number],
        {80: "forward", -80: "backward", 0: ""}[motion],
        spelled,
    ])


def main():
    scripts = int(sys.argv[1]) if len(sys.argv) > 1 else 10_000
    rng = random.Random(int(sys.argv[2]) if len(sys.argv) > 2 else 1)
    days = {count: labels_of(count) for count in RATES}
    losses, locked_rows = 0, 0
    for n in range(scripts):
        count = rng.choice(list(RATES))
        labels = days[count]
        start = rng.choice([0, len(labels) - 1, rng.randrange(len(labels))])
        chase = Chase(80 * len(labels), 80 * start)
        steady_from, steady = rng.randrange(12), []
        rows, wanted, held, lost = [], [], None, 0
        while len(rows) < steady_from or steady:
            i = len(rows)
            row = any_row(rng, labels, chase.position) if i < steady_from else steady.pop(0)
            state, error, order, loss = chase.step(*row)
            rows.append(row)
            lost += loss != "none"
            place = f"{labels[chase.position // 80]}+{chase.position % 80:02}"
            wanted.append(f"step {i + 1} {state} error {error} order {order} loss {loss} at {place}\n")
            if i > steady_from and held is not None:
                held += 1
                assert state == "locked" and loss == "none" and abs(error) <= [40, 24, 8][min(held, 2)], (n, i)
                locked_rows += 1
            elif i >= steady_from and state == "locked":
                held = 0
            if i + 1 == steady_from and n % 4:
                begins = (chase.position // 80 + rng.randint(-60, 60)) % len(labels)
                steady = list(steady_rows(rng, labels, begins, rng.randrange(1, 60)))
        wanted.append(f"end steps {len(rows)} losses {lost}\n")
        losses += lost
        script = "".join(fields_of(labels, row) + "\n" for row in rows)
        ran = subprocess.run([TC, "chase", count, labels[start]], input=script.encode(), capture_output=True, check=False)
        assert (ran.returncode, ran.stderr) == (0, b""), (n, ran.stderr, script)
        assert ran.stdout.decode() == "".join(wanted), (n, script, ran.stdout.decode(), "".join(wanted))
    print(f"{scripts} scripts as the tables say, {losses} losses outside the premises, none in {locked_rows} locked rows within them")


if __name__ == "__main__":
    main()
