"""All files that this process opens for reading. A command reads more files than its arguments name, for example the
files next to a dump. None of them may be overwritten."""
import contextlib
import os
import stat
import sys
from typing import Any, Iterator

Identity = tuple[object, ...]


class ReadFiles:
    """The identities of the regular files that were opened for reading since this object was made."""

    def __init__(self) -> None:
        self.files: dict[Identity, str] = {}


_recordings: list[ReadFiles] = []
_paused = 0


def _opened(event: str, arguments: tuple[Any, ...]) -> None:
    """Python calls this before it opens a file, in its own code and in packages."""
    if event != "open" or not _recordings or _paused:
        return
    # No error here may prevent that a file is opened.
    with contextlib.suppress(Exception):
        path, _, flags = arguments
        if isinstance(path, int) or flags & os.O_ACCMODE != os.O_RDONLY or flags & os.O_CREAT:
            return
        found = os.stat(path)
        if stat.S_ISREG(found.st_mode):
            for recording in _recordings:
                recording.files[found.st_dev, found.st_ino] = os.fsdecode(path)


_is_installed = False


def start_recording() -> ReadFiles:
    """Records the files that are opened from now on, until `stop_recording` is called."""
    global _is_installed
    if not _is_installed:
        # A hook stays for the life of the process.
        sys.addaudithook(_opened)
        _is_installed = True
    recording = ReadFiles()
    _recordings.append(recording)
    return recording


def stop_recording(recording: ReadFiles) -> None:
    with contextlib.suppress(ValueError):
        _recordings.remove(recording)


@contextlib.contextmanager
def paused() -> Iterator[None]:
    """Files that are opened within this context do not count as inputs, for example an output that exists already."""
    global _paused
    _paused += 1
    try:
        yield
    finally:
        _paused -= 1
