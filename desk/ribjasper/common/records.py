"""The record of a folder: the outputs that the desk wrote there, each with the checksum of its content. A later call
replaces a file only if it still is as the desk wrote it."""
import contextlib
import hashlib
import json
import os
import sys
from typing import Iterator

from .beside import new_mode

# The file in each folder of outputs. Each line has a SHA-256 and a name as a JSON string.
RECORD = ".ribjasper-desk"
# No child inherits the file. Windows has no flag for that, and needs one that leaves bytes as they are.
FLAGS = getattr(os, "O_CLOEXEC", 0) | getattr(os, "O_BINARY", 0)
# A longer record is rewritten with only the last line of each name.
LONGEST = 1 << 20


if sys.platform == "win32":
    import msvcrt

    def lock(number: int) -> None:
        """Waits until no other process has the file locked, and locks it until it is closed."""
        msvcrt.locking(number, msvcrt.LK_LOCK, 1)

else:
    import fcntl

    def lock(number: int) -> None:
        """Waits until no other process has the file locked, and locks it until it is closed."""
        fcntl.flock(number, fcntl.LOCK_EX)


def file_checksum(path: str) -> str:
    with open(path, "rb") as file:
        return hashlib.file_digest(file, "sha256").hexdigest()


def entries(content: bytes) -> Iterator[tuple[str, str]]:
    """Names and checksums; lines that are not of this form are ignored."""
    for line in content.decode("ascii", "replace").splitlines():
        found, _, name = line.partition(" ")
        with contextlib.suppress(ValueError):
            yield json.loads(name), found


def is_own(path: str) -> bool:
    """Whether the desk wrote this file, and nobody changed it since."""
    folder, name = os.path.split(path)
    try:
        with open(os.path.join(folder, RECORD), "rb") as record:
            known = {found for other, found in entries(record.read()) if other == name}
    except OSError:
        return False
    return bool(known) and file_checksum(path) in known


def keep(path: str, content: str) -> None:
    """Adds a file to the record of its folder: the path, and the path of a file with its content. A record that cannot
    be written is no failure: the desk then asks for --force the next time."""
    folder, name = os.path.split(path)
    with contextlib.suppress(OSError):
        line = f"{file_checksum(content)} {json.dumps(name)}\n".encode("ascii")
        number = os.open(os.path.join(folder, RECORD), os.O_RDWR | os.O_CREAT | os.O_APPEND | FLAGS, new_mode())
        with open(number, "r+b", buffering=0) as record:
            # Several calls may write outputs to one folder at the same time.
            lock(number)
            known = record.read()
            if line in known.splitlines(keepends=True):
                return
            if len(known) > LONGEST:
                last = dict(entries(known))
                record.truncate(0)
                record.write(
                    b"".join(f"{found} {json.dumps(other)}\n".encode("ascii") for other, found in last.items())
                )
            record.write(line)
