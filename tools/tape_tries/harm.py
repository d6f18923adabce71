"""Nothing that exists is harmed, and nothing half-written is left after any end but `kill -9`."""
import contextlib
import fcntl
import os
import signal
import stat
import struct
import subprocess
import sys
import time

from .making import TOP, code, intervals, wav
from .running import TAPE, NotTried, has, run, tape

sys.path.insert(0, os.path.join(TOP, "tools"))
from tape_report import targets


def plain(room, name="tape.wav"):
    """A tape of two and a half seconds, and its bytes."""
    path = wav(os.path.join(room, name), 48_000, [code(48_000, intervals("25", "10:00:00:00", 60), lead=480)])
    return path, content(path)


def content(path):
    with open(path, "rb") as file:
        return file.read()


def parts_in(room):
    return [name for name in os.listdir(room) if name.startswith(".tc-part")]


def try_name_of_a_half(room):
    """A tape whose name is that of another's half-written copy is still there after the copy is made."""
    path, before = plain(room, "z.wav.part")
    copy = os.path.join(room, "z.wav")
    tape(path, "--stamp", copy)
    assert os.path.exists(path) and content(path) == before, "the tape was destroyed"
    assert os.path.exists(copy)
    other = os.path.join(room, "page.html.part")
    with open(other, "w", encoding="ascii") as file:
        file.write("mine")
    tape(path, "--page", os.path.join(room, "page.html"))
    assert content(other) == b"mine", "a file that was nobody's was replaced"


def try_tape_itself(room):
    """The tape is refused as a target by each of its names, by force too."""
    path, before = plain(room)
    soft, hard = os.path.join(room, "soft.wav"), os.path.join(room, "hard.wav")
    os.symlink("tape.wav", soft)
    os.link(path, hard)
    for name in (path, soft, hard, os.path.join(room, ".", "tape.wav")):
        for option in ("--stamp", "--page", "--picture"):
            for force in ([], ["--force"]):
                _, notes = tape(path, option, name, *force, status=3)
                has(notes, "it is the tape itself")
    assert content(path) == before and os.path.islink(soft) and os.path.samefile(path, hard), "the tape was changed"


def traits(name):
    """What a file is, and not when it was looked at."""
    there = os.lstat(name)
    return there.st_ino, there.st_mode, there.st_size, there.st_mtime_ns, there.st_nlink


def try_targets_that_stand(room):
    """A file, a link, a fifo, a device and a folder are left as they are; a file is replaced by force."""
    path, _ = plain(room)
    there = os.path.join(room, "there.html")
    with open(there, "w", encoding="ascii") as file:
        file.write("mine")
    link, fifo, folder = (os.path.join(room, name) for name in ("link.html", "fifo", "folder"))
    os.symlink("nowhere", link)
    os.mkfifo(fifo)
    os.mkdir(folder)
    for name, said in ((there, "it exists"), (link, "it exists"), (fifo, "it is a fifo"), (folder, "it is a folder")):
        before = traits(name)
        for option in ("--page", "--stamp", "--picture"):
            _, notes = tape(path, option, name, status=3)
            has(notes, said)
        assert traits(name) == before, f"{name} was changed"
    _, notes = tape(path, "--page", folder, "--force", status=3)
    has(notes, "it is a folder")
    tape(path, "--page", there, "--force")
    assert content(there).startswith(b"<!doctype html>")
    tape(path, "--page", link, "--force")
    assert not os.path.islink(link) and not os.path.exists(os.path.join(room, "nowhere")), "written through a link"
    _, notes = tape(path, "--page", os.path.join(room, "no", "x.html"), status=3)
    has(notes, "its folder is not there")
    same = os.path.join(room, "same.html")
    _, notes = tape(path, "--page", same, "--stamp", same, status=3)
    has(notes, "two of the files to write have one name")
    assert not parts_in(room), parts_in(room)


def try_devices(room):
    """A device is still there after it was a target, also by force."""
    path, _ = plain(room)
    device = os.path.join(room, "null")
    try:
        os.mknod(device, stat.S_IFCHR | 0o666, os.makedev(1, 3))
        open(device, "wb").close()
    except OSError:
        raise NotTried("a device of one's own") from None
    for option in ("--page", "--stamp"):
        _, notes = tape(path, option, device, status=3)
        has(notes, "it is a device")
        assert stat.S_ISCHR(os.lstat(device).st_mode), "the device was replaced"
    tape(path, "--page", device, "--force")
    _, notes = tape(path, "--stamp", device, "--force", status=3)
    has(notes, "a copy is read back")
    assert stat.S_ISCHR(os.lstat(device).st_mode), "the device was replaced"


def try_mode_and_time(room):
    path, _ = plain(room)
    os.chmod(path, 0o640)
    os.utime(path, ns=(1_000_000_000_123_456_789, 1_000_000_001_987_654_321))
    copy = os.path.join(room, "copy.wav")
    tape(path, "--stamp", copy)
    there = os.stat(copy)
    assert stat.S_IMODE(there.st_mode) == 0o640 and there.st_mtime_ns == 1_000_000_001_987_654_321, there


@contextlib.contextmanager
def small_disk(room, size):
    """A disk of `size` bytes."""
    place = os.path.join(room, "disk")
    os.mkdir(place)
    if run("mount", "-t", "tmpfs", "-o", f"size={size}", "none", place)[0] != 0:
        raise NotTried("a disk of one's own (mount wants root)")
    try:
        yield place
    finally:
        run("umount", place)


def try_full_disk(room):
    """A disk that is full gives status 3, and nothing is left on it."""
    path, _ = plain(room)
    with small_disk(room, "64k") as disk:
        for option, name in (("--stamp", "copy.wav"), ("--page", "page.html")):
            with open(os.path.join(disk, "fill"), "wb") as file, contextlib.suppress(OSError):
                file.write(bytes(60 * 1024))
                file.flush()
            _, notes = tape(path, option, os.path.join(disk, name), status=3)
            has(notes, "no space left")
            assert os.listdir(disk) == ["fill"], os.listdir(disk)


def long_tape(room):
    """Code, and then silence so long that its copy takes a while; the file has no such blocks on the disk."""
    path = wav(os.path.join(room, "long.wav"), 48_000, [code(48_000, intervals("25", "10:00:00:00", 60))])
    more = 32 << 20
    with open(path, "r+b") as file:
        size = os.path.getsize(path)
        file.truncate(size + more)
        for place, value in ((4, size - 8 + more), (40, size - 44 + more)):
            file.seek(place)
            file.write(struct.pack("<I", value))
    return path


def ended_in_the_middle(room, path, copy, number):
    """Starts a copy, and sends the signal while it is half-written."""
    started = subprocess.Popen([TAPE, path, "--stamp", copy], stdout=subprocess.DEVNULL, stderr=subprocess.PIPE)
    while not parts_in(room) and started.poll() is None:
        time.sleep(0.002)
    started.send_signal(number)
    notes = started.communicate()[1].decode()
    assert "Traceback" not in notes, notes
    return started.returncode


def try_ends(room):
    """What is half-written is gone after each end but `kill -9`, and after that with the next run."""
    path, copy = long_tape(room), os.path.join(room, "copy.wav")
    for number in (signal.SIGTERM, signal.SIGINT, signal.SIGHUP, signal.SIGQUIT):
        status = ended_in_the_middle(room, path, copy, number)
        assert status == 128 + number, f"{number!r} ended it with {status}"
        assert not parts_in(room) and not os.path.exists(copy), f"{number!r} left {os.listdir(room)}"
    assert ended_in_the_middle(room, path, copy, signal.SIGKILL) == -signal.SIGKILL
    left = parts_in(room)
    assert len(left) == 1 and not os.path.exists(copy), os.listdir(room)
    tape(path, "--stamp", copy)
    assert not parts_in(room) and os.path.getsize(copy) > os.path.getsize(path), os.listdir(room)


def try_dead_and_living(room):
    """The next run takes away the half of a dead run of the same target: not that of a living one, nor of another
    target.
    """
    path, _ = plain(room)
    copy = os.path.join(room, "copy.wav")
    dead, living = (targets.beginning_of(copy) + 16 * digit for digit in "ab")
    other, like = targets.beginning_of("other.wav") + 16 * "c", targets.beginning_of(copy) + "not of this form"
    for name in (dead, living, other, like):
        open(os.path.join(room, name), "wb").close()
    with open(os.path.join(room, living), "rb") as file:
        fcntl.flock(file, fcntl.LOCK_EX)
        tape(path, "--stamp", copy)
    assert sorted(parts_in(room)) == sorted([living, other, like]), parts_in(room)
