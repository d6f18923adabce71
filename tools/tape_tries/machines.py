"""A folder worked by other machines."""
import contextlib
import getpass
import os
import socket
import subprocess
import time

from .folders import archive_of, table_of
from .running import ARCHIVE, has, run, want


@contextlib.contextmanager
def hosts(room):
    """A file of two hosts: this machine under two addresses of its own, with a server of ssh that ends with the try."""
    want("ssh", "ssh-keygen", "/usr/sbin/sshd")
    where = os.path.join(room, "ssh")
    os.mkdir(where, 0o700)
    for name in ("host", "key"):
        subprocess.run(["ssh-keygen", "-q", "-t", "ed25519", "-N", "", "-f", os.path.join(where, name)], check=True)
    with socket.socket() as free:
        free.bind(("127.0.0.1", 0))
        port = free.getsockname()[1]
    with open(os.path.join(where, "config"), "w", encoding="ascii") as file:
        file.write(
            f"Port {port}\nListenAddress 127.0.0.1\nListenAddress 127.0.0.2\n"
            f"HostKey {where}/host\nAuthorizedKeysFile {where}/key.pub\nPermitRootLogin prohibit-password\n"
            "StrictModes no\nUsePAM no\nPasswordAuthentication no\nPidFile none\nMaxStartups 100\n"
        )
    # As root the server needs an empty folder of this name, which Debian makes when it starts one.
    wants_folder = os.getuid() == 0 and not os.path.exists("/run/sshd")
    if wants_folder:
        os.mkdir("/run/sshd", 0o755)
    with open(os.path.join(where, "log"), "wb") as log:
        server = subprocess.Popen(["/usr/sbin/sshd", "-D", "-e", "-f", os.path.join(where, "config")], stderr=log)
    try:
        reach = f"ssh -p {port} -i {where}/key -F none -o UserKnownHostsFile=/dev/null"
        reach += " -o StrictHostKeyChecking=no -o LogLevel=ERROR"
        login = [f"{reach} {getpass.getuser()}@{address}" for address in ("127.0.0.1", "127.0.0.2")]
        for _ in range(100):
            if all(run(*each.split(), "true")[0] == 0 for each in login):
                break
            time.sleep(0.05)
        else:
            raise AssertionError("no way by ssh: " + open(os.path.join(where, "log"), encoding="utf-8").read())
        path = os.path.join(where, "hosts")
        with open(path, "w", encoding="ascii") as file:
            file.write("".join(each + "\n" for each in login))
        yield path
    finally:
        server.terminate()
        server.wait()
        if wants_folder:
            os.rmdir("/run/sshd")


def try_hosts(room):
    """Two hosts work a folder, and its table is that of one."""
    want("parallel")
    folder = archive_of(room)
    alone, out = os.path.join(room, "alone"), os.path.join(room, "out")
    run(ARCHIVE, folder, alone)
    with hosts(room) as file:
        ended, told, notes = run(ARCHIVE, folder, out, "--hosts", file, "--jobs", "2")
    assert ended == 0, told + notes
    has(told, "9 tapes: 7 with code, 1 without, 1 failed")
    assert table_of(out) == table_of(alone), "the tables differ"
    with open(os.path.join(out, "jobs.log"), encoding="utf-8", errors="replace") as log:
        worked = {line.split("\t")[1] for line in log.read().split("\n")[1:] if "\t" in line}
    assert all(any(address in each for each in worked) for address in ("127.0.0.1", "127.0.0.2")), worked
