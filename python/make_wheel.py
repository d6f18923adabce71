"""Makes a wheel of tc.py and lib/libtc.so.1 for pip, which calls `build_wheel`. It needs no other package, so it works
without a network:

    make lib && pip install ./python

The library lies in tc.libs/ beside tc.py, which looks there first.
"""

import base64
import hashlib
import os
import platform
import zipfile

HERE = os.path.dirname(os.path.realpath(__file__))
TOP = os.path.dirname(HERE)
NAME = "tc_timecode"
LIBRARY = os.path.join(TOP, "lib", "libtc.so.1")
# The oldest moment that a zip file can say, so that two wheels of one library are equal.
MOMENT = (1980, 1, 1, 0, 0, 0)


def version() -> str:
    with open(os.path.join(TOP, "VERSION"), encoding="utf-8") as file:
        return file.read().strip()


def tag() -> str:
    """Any Python 3, on this kind of machine."""
    return f"py3-none-linux_{platform.machine()}"


def parts() -> dict[str, bytes]:
    """What is in the wheel, by its place there."""
    if not os.path.exists(LIBRARY):
        raise FileNotFoundError(f"there is no {LIBRARY}: run make lib first")
    found = {}
    for place, path in (("tc.py", os.path.join(HERE, "tc.py")), ("tc.libs/libtc.so.1", LIBRARY)):
        with open(path, "rb") as file:
            found[place] = file.read()
    info = f"{NAME}-{version()}.dist-info/"
    about = "Linear time code, read from samples or from intervals of a tape by proved code"
    found[info + "METADATA"] = (
        f"Metadata-Version: 2.1\nName: {NAME.replace('_', '-')}\nVersion: {version()}\nSummary: {about}\n"
        "Requires-Python: >=3.10\n"
    ).encode()
    found[info + "WHEEL"] = f"Wheel-Version: 1.0\nGenerator: tc\nRoot-Is-Purelib: false\nTag: {tag()}\n".encode()
    return found


def record_of(found: dict[str, bytes], place: str) -> bytes:
    """The list of a wheel's files with their sums, of which its own line has none."""
    lines = []
    for name, held in found.items():
        told = base64.urlsafe_b64encode(hashlib.sha256(held).digest()).rstrip(b"=").decode()
        lines.append(f"{name},sha256={told},{len(held)}\n")
    return "".join([*lines, f"{place},,\n"]).encode()


def build_wheel(wheel_directory, config_settings=None, metadata_directory=None) -> str:
    """Writes the wheel, and gives its name."""
    found = parts()
    record = f"{NAME}-{version()}.dist-info/RECORD"
    found[record] = record_of(found, record)
    name = f"{NAME}-{version()}-{tag()}.whl"
    with zipfile.ZipFile(os.path.join(wheel_directory, name), "w", zipfile.ZIP_DEFLATED) as wheel:
        for place, held in found.items():
            entry = zipfile.ZipInfo(place, MOMENT)
            entry.compress_type, entry.external_attr = zipfile.ZIP_DEFLATED, 0o100644 << 16
            wheel.writestr(entry, held)
    return name


def build_sdist(sdist_directory, config_settings=None) -> str:
    raise RuntimeError("the library is built by make lib, of the repository: there is no source package for pip")
