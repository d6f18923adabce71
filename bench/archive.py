#!/usr/bin/env python3
"""How long `tools/archive` takes over many small tapes with 1, 2 and 4 jobs, and whether a run that is killed goes on.

    bench/archive.py [--tapes 1000] [--seconds 10] [--jobs 1 2 4]

It makes the tapes in the temporary folder (a gigabyte for a thousand of ten seconds): code of each count from another
minute on, at the head or behind silence, on one track or on the second of two; each tenth is silent, and each fiftieth
is cut short. It prints a row a run: jobs, seconds, seconds of processors, tapes a second, and how many times faster
than with the first number of jobs. Then a run with the most jobs is killed when half of the rows are there, and resumed.
It ends with status 1 if two of the tables differ. How long a run takes depends on the machine, so the gate does not run
this; GNU parallel has to be installed.
"""
import argparse
import os
import resource
import signal
import struct
import subprocess
import sys
import tempfile
import time

TOP = os.path.dirname(os.path.dirname(os.path.abspath(__file__)))
TC = os.environ.get("TC", os.path.join(TOP, "bin", "tc"))
ARCHIVE = os.path.join(TOP, "tools", "archive")
RATE = 48_000
# The counts, their frames a second, and the ticks of a cell at this rate.
COUNTS = (("24", 24, 25), ("25", 25, 24), ("30", 30, 20), ("30d", 30, 20))


def code(number, seconds):
    """The samples of a tape's code."""
    count, frames, cell = COUNTS[number % len(COUNTS)]
    label = f"{number // 60 % 24:02}:{number % 60:02}:30{';' if count == '30d' else ':'}00"
    words = [TC, "ltc-make", count, "forward", label, str(frames * seconds), str(cell), str(RATE)]
    made = subprocess.run(words, stdout=subprocess.PIPE, check=True).stdout
    return subprocess.run([TC, "ltc-pcm", "8000"], input=made, stdout=subprocess.PIPE, check=True).stdout


def sound(number, seconds):
    """The tracks of a tape, by turns, and how many they are."""
    if number % 10 == 9:
        return bytes(2 * RATE * seconds), 1
    data = bytes(2 * RATE * (number % 3)) + code(number, seconds)
    data = data[: 2 * RATE * seconds]
    if number % 4 != 1:
        return data, 1
    both = bytearray(2 * len(data))
    both[2::4], both[3::4] = data[0::2], data[1::2]
    return bytes(both), 2


def make_tape(path, number, seconds):
    data, tracks = sound(number, seconds)
    form = struct.pack("<HHIIHH", 1, tracks, RATE, 2 * tracks * RATE, 2 * tracks, 16)
    head = b"RIFF" + struct.pack("<I", 36 + len(data)) + b"WAVEfmt " + struct.pack("<I", 16) + form
    whole = head + b"data" + struct.pack("<I", len(data)) + data
    with open(path, "wb") as out:
        out.write(whole[: len(whole) // 2] if number % 50 == 25 else whole)


def make_tapes(folder, count, seconds):
    for number in range(count):
        shelf = os.path.join(folder, f"shelf {number // 100}")
        os.makedirs(shelf, exist_ok=True)
        make_tape(os.path.join(shelf, f"tape {number:04}.wav"), number, seconds)


def table_of(out):
    with open(os.path.join(out, "archive.csv"), "rb") as file:
        return file.read()


def timed(*words):
    """The seconds of a run, and those of its processors."""
    before, began = resource.getrusage(resource.RUSAGE_CHILDREN), time.monotonic()
    subprocess.run(words, stdout=subprocess.DEVNULL, check=True)
    after, ended = resource.getrusage(resource.RUSAGE_CHILDREN), time.monotonic()
    return ended - began, after.ru_utime + after.ru_stime - before.ru_utime - before.ru_stime


def rows_in(out):
    """How many tapes have their row."""
    return sum("row.json" in files for _, _, files in os.walk(os.path.join(out, "tapes")))


def killed_at(rows, *words):
    """Kills a run, with all that it started, when `rows` rows are written, and says how many were written then."""
    run = subprocess.Popen(words, stdout=subprocess.DEVNULL, stderr=subprocess.DEVNULL, start_new_session=True)
    while rows_in(words[2]) < rows and run.poll() is None:
        time.sleep(0.02)
    if run.poll() is None:
        os.killpg(run.pid, signal.SIGKILL)
    run.wait()
    return rows_in(words[2])


def main():
    words = argparse.ArgumentParser(description="times of tools/archive over many small tapes")
    words.add_argument("--tapes", type=int, default=1000)
    words.add_argument("--seconds", type=int, default=10)
    words.add_argument("--jobs", type=int, nargs="+", default=[1, 2, 4])
    options = words.parse_args()
    with tempfile.TemporaryDirectory() as room:
        folder = os.path.join(room, "tapes of this run")
        make_tapes(folder, options.tapes, options.seconds)
        print(f"{options.tapes} tapes of {options.seconds} s, {os.cpu_count()} processors", flush=True)
        print("| Jobs | Seconds | Of processors | Tapes a second | Speed-up |\n|---|---|---|---|---|", flush=True)
        tables, first = [], None
        for jobs in options.jobs:
            out = os.path.join(room, f"out {jobs}")
            wall, busy = timed(ARCHIVE, folder, out, "--jobs", str(jobs))
            first = first or wall
            tables.append(table_of(out))
            print(f"| {jobs} | {wall:.1f} | {busy:.1f} | {options.tapes / wall:.1f} | {first / wall:.2f} |", flush=True)
        out, most = os.path.join(room, "killed"), ("--jobs", str(max(options.jobs)))
        stood = killed_at(options.tapes // 2, ARCHIVE, folder, out, *most)
        has_table = os.path.exists(os.path.join(out, "archive.csv"))
        wall, _ = timed(ARCHIVE, folder, out, *most, "--resume")
        tables.append(table_of(out))
        print(f"killed with {stood} rows{' and a table' if has_table else ''}, resumed in {wall:.1f} s")
        are_equal = all(table == tables[0] for table in tables)
        text = tables[0].decode("utf-8")
        states = ", ".join(f"{text.count(f',{state},')} {state}" for state in ("code", "none", "failed", "missing"))
        told = "equal" if are_equal else "THEY DIFFER"
        print(f"{len(tables)} tables of {text.count(chr(10)) - 1} rows ({states}): {told}")
    return 0 if are_equal else 1


if __name__ == "__main__":
    sys.exit(main())
