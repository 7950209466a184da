"""Temporary files in the folders of the outputs, until all outputs are complete; signals are delayed until then."""
import atexit
import contextlib
import errno
import io
import os
import signal
import tempfile
import threading
from typing import Any, Iterator

from .failures import writing

# Names of temporary files begin with this.
PREFIX = ".ribjasper-"
# What a user ends a command with. Windows has SIGBREAK in place of SIGHUP.
STOPS = tuple(getattr(signal, name) for name in ("SIGINT", "SIGTERM", "SIGHUP", "SIGBREAK") if hasattr(signal, name))
# The errors of a file system without hard links; EINVAL is the error of Windows for FAT.
NO_LINKS = (errno.EPERM, errno.EOPNOTSUPP, errno.ENOSYS, errno.EMLINK, errno.EXDEV, errno.EINVAL)
# Temporary files, and the process that made each: a child process does not touch them.
_waiting: dict[str, int] = {}


def sweep() -> None:
    """Removes the remaining temporary files, at the end of a command that was stopped."""
    for part, process in list(_waiting.items()):
        if process == os.getpid():
            with contextlib.suppress(OSError):
                os.unlink(part)
        _waiting.pop(part, None)


atexit.register(sweep)


@contextlib.contextmanager
def held_back() -> Iterator[None]:
    """Delays signals until the end of the block, so that they do not interrupt it."""
    if not hasattr(signal, "pthread_sigmask"):
        yield from noted()
        return
    before = signal.pthread_sigmask(signal.SIG_BLOCK, ())
    try:
        signal.pthread_sigmask(signal.SIG_BLOCK, STOPS)
        yield
    finally:
        signal.pthread_sigmask(signal.SIG_SETMASK, before)


def noted() -> Iterator[None]:
    """The same on a system that cannot hold signals back: they are noted, and raised again at the end."""
    if threading.current_thread() is not threading.main_thread():
        yield
        return
    came: list[int] = []
    before = {number: signal.signal(number, lambda number, _: came.append(number)) for number in STOPS}
    try:
        yield
    finally:
        for number, handler in before.items():
            signal.signal(number, handler)
        if came:
            signal.raise_signal(came[0])


def made_beside(folder: str, ending: str = "") -> tuple[int, str]:
    """A new file that waits in a folder, and its name."""
    with held_back():
        number, part = tempfile.mkstemp(prefix=PREFIX, suffix=ending, dir=folder)
        _waiting[part] = os.getpid()
    return number, part


def new_mode() -> int:
    """The permissions of a new file."""
    mask = os.umask(0)
    os.umask(mask)
    return 0o666 & ~mask


class WaitingFile(io.BufferedIOBase):
    """Opens the file that an output is written to; errors of the system name the output."""

    def __init__(self, name: str, file: Any) -> None:
        self.name, self._file = name, file

    def writable(self) -> bool:
        return True

    def seekable(self) -> bool:
        return True

    def write(self, content: Any) -> int:
        with writing(self.name):
            return int(self._file.write(content))

    def seek(self, place: int, whence: int = 0) -> int:
        with writing(self.name):
            self._file.seek(place, whence)
            return int(self._file.tell())

    def tell(self) -> int:
        return int(self._file.tell())

    def flush(self) -> None:
        if not self._file.closed:
            with writing(self.name):
                self._file.flush()

    def close(self) -> None:
        if not self._file.closed:
            with writing(self.name):
                self._file.close()
        super().close()


def give_name(part: str, path: str) -> None:
    """Gives a file a name that no other has."""
    try:
        os.link(part, path)
    except OSError as error:
        if error.errno not in NO_LINKS or os.path.lexists(path):
            raise
        os.rename(part, path)


def keep_folder(folder: str) -> None:
    """Brings the names in a folder to the disk, if the file system does so. Windows opens no folder."""
    if not hasattr(os, "O_DIRECTORY"):
        return
    with contextlib.suppress(OSError):
        number = os.open(folder, os.O_RDONLY | os.O_DIRECTORY)
        try:
            os.fsync(number)
        finally:
            os.close(number)


def link_or_move(path: str, kept: str) -> None:
    """Gives a file a second name, or moves it if there are no hard links."""
    try:
        os.link(path, kept)
    except OSError as error:
        if error.errno not in NO_LINKS:
            raise
        os.rename(path, kept)


def forget(part: str) -> None:
    """Removes a temporary file, if it still exists."""
    with contextlib.suppress(OSError):
        os.unlink(part)
    _waiting.pop(part, None)
