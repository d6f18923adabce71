"""Long tapes, and many machines: silence is silence, progress moves, and a dead machine holds nobody up."""
import contextlib
import os
import re
import shutil
import signal
import socket
import struct
import subprocess
import sys
import time

from live_tries.stage import free_port, wait_for
from live_tries.terminal import Terminal
from tape_report.jobs import JOB

from . import running
from .folders import archive_of, many_tapes, table_of
from .left_out import archive
from .machines import hosts
from .making import TC, code, intervals, packed, wav
from .running import ARCHIVE, TAPE, NotTried, has, run, tape, want

RATE = 12_000


def long_silence(room, hours, before, behind):
    """Hours of silence, of which nothing is on the disk, between samples."""
    path, first, data = os.path.join(room, "long.wav"), packed([before], 16), packed([behind], 16)
    size = len(first) + 2 * RATE * 3600 * hours + len(data)
    form = struct.pack("<HHIIHH", 1, 1, RATE, 2 * RATE, 2, 16)
    with open(path, "wb") as file:
        file.write(b"RIFF" + struct.pack("<I", 36 + size) + b"WAVEfmt " + struct.pack("<I", 16) + form)
        file.write(b"data" + struct.pack("<I", size) + first)
        file.seek(44 + size - len(data))
        file.write(data)
        file.truncate(44 + size)
    return path


def try_long_silence(room):
    """A silence of 45 hours between two pieces of code is silence: no other way to read it is tried."""
    began = time.monotonic()
    one, two = (code(RATE, intervals("25", label, 10)) for label in ("10:00:00:00", "20:00:00:00"))
    out, _ = tape(long_silence(room, 45, one, two))
    assert "front end" not in out, out
    has(out, "forward  10:00:00:00 to 10:00:00:09", "forward  20:00:00:0")
    return f"in {time.monotonic() - began:.0f} s"


def try_progress(room):
    """The line of progress moves while a silence is read."""
    words = [sys.executable, TAPE, long_silence(room, 11, [], [])]
    there = Terminal(words, 100, 24, {**os.environ, "TC": os.path.abspath(TC)})
    assert there.all(120) == 1
    parts = {int(it) for it in re.findall(r": +(\d+) %", there.data.decode("utf-8", "replace"))}
    assert len(parts) >= 2 and max(parts) < 101, parts
    return f"{len(parts)} steps"


def try_dead_host(room):
    """A host that does not answer is left out, and the others finish the folder."""
    want("parallel")
    folder, alone, out = archive_of(room), os.path.join(room, "alone"), os.path.join(room, "out")
    archive(folder, alone)
    with hosts(room) as file:
        with open(file, encoding="ascii") as lines:
            first = lines.readline()
        with open(file, "a", encoding="ascii") as lines:
            # The same machine under an address at which nobody answers.
            lines.write(first.replace("127.0.0.1", "127.0.0.9"))
        told, _ = archive(folder, out, "--hosts", file, "--jobs", "2")
    has(told, "9 tapes: 7 with code, 1 without, 1 failed, 0 not read")
    assert table_of(out) == table_of(alone), "the tables differ"


DYING = """#!/bin/sh
# A way to a host that dies while it does its first job: before that it answers, and behind that nobody does. Parallel writes
# what is to be done in hexadecimal digits.
[ ! -e '{room}/died' ] || exit 255
case "$*" in
*{job}* | *{job_in_hex}*) touch '{room}/died'; exec timeout -s KILL 0.3 "$@" ;;
esac
exec "$@"
"""


def try_host_that_dies(room):
    """A host that dies in the middle of a job: the others do what it had begun, and the table is that of one."""
    want("parallel")
    folder, alone, out = archive_of(room), os.path.join(room, "alone"), os.path.join(room, "out")
    archive(folder, alone)
    dying = os.path.join(room, "dying")
    with open(dying, "w", encoding="ascii") as file:
        file.write(DYING.format(room=room, job=JOB, job_in_hex=JOB.encode().hex()))
    os.chmod(dying, 0o755)
    with hosts(room) as file:
        with open(file, encoding="ascii") as lines:
            one, two = lines.read().splitlines()
        with open(file, "w", encoding="ascii") as lines:
            lines.write(f"{one}\n{dying} {two}\n")
        told, _ = archive(folder, out, "--hosts", file, "--jobs", "1")
    has(told, "9 tapes: 7 with code, 1 without, 1 failed, 0 not read")
    assert os.path.exists(os.path.join(room, "died")), "the host got no job"
    assert table_of(out) == table_of(alone), "the tables differ"


SLURM = """ClusterName=try
SlurmctldHost={host}
SlurmUser=root
SlurmdUser=root
AuthType=auth/munge
AuthInfo=socket={room}/munge/socket
CryptoType=crypto/munge
StateSaveLocation={room}/state
SlurmdSpoolDir={room}/spool
SlurmctldPidFile={room}/ctld.pid
SlurmdPidFile={room}/d.pid
SlurmctldPort={one}
SlurmdPort={two}
ProctrackType=proctrack/linuxproc
SelectType=select/cons_tres
NodeName={host} CPUs={cpus} State=UNKNOWN
PartitionName=tapes Nodes=ALL Default=YES MaxTime=INFINITE State=UP
"""


@contextlib.contextmanager
def slurm_node(room):
    """A cluster of this machine alone, and the environment that names it."""
    host, conf = socket.gethostname().split(".")[0], os.path.join(room, "slurm.conf")
    for name in ("state", "spool"):
        os.mkdir(os.path.join(room, name))
    with open(conf, "w", encoding="ascii") as file:
        file.write(SLURM.format(host=host, room=room, one=free_port(), two=free_port(), cpus=os.cpu_count()))
    env = {**os.environ, "SLURM_CONF": conf}
    munge = os.path.join(room, "munge")
    os.mkdir(munge, 0o755)
    with open(os.path.join(munge, "key"), "wb") as file:
        file.write(os.urandom(1024))
    os.chmod(os.path.join(munge, "key"), 0o600)
    os.chmod(room, 0o755)
    paths = [f"--{name}={munge}/{name}" for name in ("socket", "pid-file", "log-file", "seed-file")]
    with contextlib.ExitStack() as ends:
        munged = ["munged", "--foreground", "--force", f"--key-file={munge}/key", *paths]
        for words in (munged, ["slurmctld", "-D", "-f", conf], ["slurmd", "-D", "-f", conf]):
            with open(os.path.join(room, f"{words[0]}.log"), "wb") as log:
                ends.callback(ended, subprocess.Popen(words, env=env, stdout=log, stderr=log))
        wait_for(lambda: "idle" in run("sinfo", "-h", "-o", "%t", env=env)[1], 30, "the node")
        yield env


def ended(process):
    process.terminate()
    process.wait()


def try_slurm(room):
    """An array of eight jobs of Slurm on one node, as the guide has it, gives the table of one run."""
    want("parallel", "slurmctld", "slurmd", "sbatch", "munged")
    if not running.is_long or os.getuid() != 0:
        raise NotTried("--long, as root")
    folder, alone, out = archive_of(room), os.path.join(room, "alone"), os.path.join(room, "out")
    archive(folder, alone)
    with slurm_node(room) as env:
        line = f"'{ARCHIVE}' --resume --part $SLURM_ARRAY_TASK_ID/8 '{folder}' '{out}'"
        words = ["sbatch", "--wait", "--array=0-7", f"--output={room}/job-%a", "--wrap", line]
        ended, told, notes = run(*words, env=env, timeout=120)
    assert ended == 0, told + notes
    archive(folder, out, "--resume")
    assert table_of(out) == table_of(alone), "the tables differ"


def try_requeued_part(room):
    """A job of an array that is killed goes on where it was when it is requeued: what it had read it reads no more."""
    want("parallel")
    folder, alone, out = many_tapes(room, 12), os.path.join(room, "alone"), os.path.join(room, "out")
    words = [ARCHIVE, "--resume", "--part", "0/2", folder, out]
    first = subprocess.Popen(words, stdout=subprocess.DEVNULL, stderr=subprocess.DEVNULL, start_new_session=True)
    wait_for(lambda: len(rows_below(out)) >= 2 or first.poll() is not None, 60, "two tapes")
    os.killpg(first.pid, signal.SIGKILL)
    first.wait()
    stood = rows_below(out)
    assert 2 <= len(stood) < 6, stood
    told, _ = archive(folder, out, "--resume", "--part", "0/2")
    has(told, "part 0/2: 6 tapes: 5 with code, 1 without")
    again = rows_below(out)
    assert len(again) == 6 and {path: again[path] for path in stood} == stood, "a tape that was done was read again"
    archive(folder, out, "--resume", "--part", "1/2")
    archive(folder, out, "--resume")
    archive(folder, alone)
    assert table_of(out) == table_of(alone), "the tables differ"


def rows_below(out):
    """When each tape's row was written."""
    found = (os.path.join(place, "row.json") for place, _, files in os.walk(out) if "row.json" in files)
    return {path: os.stat(path).st_mtime_ns for path in found}


def watched(room, name, log, script):
    """A program of this name that notes that it runs, before a line of the shell; the path with it in front."""
    bin_folder = os.path.join(room, "bin")
    os.makedirs(bin_folder, exist_ok=True)
    path = os.path.join(bin_folder, name)
    with open(path, "w", encoding="ascii") as file:
        file.write(f"#!/bin/sh\necho {name} >> '{log}'\n{script}\n")
    os.chmod(path, 0o755)
    return {**os.environ, "PATH": f"{bin_folder}:{os.environ['PATH']}"}


def try_short_streams(room):
    """A FLAC that is short is read by one run of flac, whatever is asked of it, and where flac finds a fault or is not
    there by one run of ffmpeg: both give the same report."""
    want("ffmpeg", "ffprobe", "flac")
    path, log = os.path.join(room, "tape.flac"), os.path.join(room, "log")
    for bits in (16, 24):
        made = packed([code(48_000, intervals("25", "10:00:00:00", 250))] * 2, bits)
        words = ["flac", "-s", "-f", "--endian=little", "--sign=signed", "--channels=2", f"--bps={bits}"]
        words += ["--sample-rate=48000", "--force-raw-format", "-o", path, "-"]
        subprocess.run(words, input=made, check=True)
        reports = []
        for how in (f"exec '{shutil.which('flac')}' \"$@\"", "exit 1"):
            for name in ("ffmpeg", "ffprobe"):
                watched(room, name, log, f"exec '{shutil.which(name)}' \"$@\"")
            ended, out, notes = run(TAPE, path, env=watched(room, "flac", log, how))
            assert ended == 0, notes
            has(out, "2 tracks", "heard         250 frames", "peak")
            reports.append(out)
            with open(log, encoding="ascii") as file:
                ran = file.read().split()
            os.unlink(log)
            assert ran == (["flac"] if how != "exit 1" else ["flac", "ffmpeg"]), ran
        assert reports[0] == reports[1], reports


def try_lying_flac(room):
    """A FLAC whose header tells fewer or more samples than it has is read by ffmpeg, as far as it goes."""
    want("ffmpeg", "ffprobe", "flac")
    path, log = os.path.join(room, "tape.flac"), os.path.join(room, "log")
    made = wav(os.path.join(room, "tape.wav"), 48_000, [code(48_000, intervals("25", "10:00:00:00", 100))])
    subprocess.run(["flac", "-s", "-f", "-o", path, made], check=True)
    env = watched(room, "ffmpeg", log, f"exec '{shutil.which('ffmpeg')}' \"$@\"")
    with open(path, "rb") as file:
        whole = bytearray(file.read())
    for samples in (48_000, 9_600_000):
        lying = bytearray(whole)
        lying[22:26] = struct.pack(">I", samples)
        with open(path, "wb") as file:
            file.write(lying)
        ended, out, notes = run(TAPE, path, env=env)
        assert ended == 0, notes
        has(out, "forward  10:00:00:00 to 10:00:03:24")
        assert os.path.exists(log), "flac's samples were taken"
        os.unlink(log)
