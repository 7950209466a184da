"""The meaning of the name of an output, and whether it may be written."""
import contextlib
import os
import stat
import sys

from . import read_files
from .failures import Failure, Name, Refusal, reading
from .kinds import Kind
from .records import is_own as is_own_output

# The name of standard output.
DASH = "-"
WRITABLE = stat.S_IWUSR | stat.S_IWGRP | stat.S_IWOTH


class Target:
    """The meaning of the name of an output."""

    def __init__(self, name: Name) -> None:
        self.name = os.fsdecode(name)
        self.is_dash = self.name == DASH
        if not self.is_dash and not self.name:
            raise Refusal("''", "is not the name of a file")
        with reading(self.name):
            self.found = None if self.is_dash else _found(self.name)
        # The target of the links in the name: the links remain, and the file that they name is overwritten.
        self.path = os.path.realpath(self.name)
        self.folder = os.path.dirname(self.path)

    @property
    def is_stream(self) -> bool:
        """Whether it is written to directly: standard output, a pipe, a device or a socket."""
        return self.is_dash or (self.found is not None and not stat.S_ISREG(self.found.st_mode))

    def identity(self) -> tuple[object, ...]:
        """The identity of a file, the same for all its names, also if it does not exist yet."""
        if self.is_dash:
            return (DASH,)
        if self.found is not None:
            return self.found.st_dev, self.found.st_ino
        folder, name = _found(self.folder), os.path.basename(self.path)
        # There, names that differ only in upper and lower case mostly name the same file.
        name = name.casefold() if sys.platform in ("win32", "darwin") else name
        return (folder.st_dev, folder.st_ino, name) if folder else (self.path,)

    def against(self, kind: Kind, force: bool) -> str | None:
        """The reason why it must not be written, if there is one."""
        if self.is_dash:
            return None
        if self.found is None:
            return "names a folder" if self.name.endswith(("/", os.sep)) else None
        mode = self.found.st_mode
        if stat.S_ISDIR(mode):
            return "is a directory"
        if stat.S_ISBLK(mode):
            return None if force else "is a disk or a part of one; --force writes to it"
        if not stat.S_ISREG(mode) or force:
            return None
        if not mode & WRITABLE or not os.access(self.path, os.W_OK):
            return "is write-protected; --force replaces it"
        with reading(self.name), read_files.paused():
            is_own = not kind.is_recorded or not self.found.st_size or is_own_output(self.path)
            if is_own and kind.has(self.path):
                return None
            if not is_own and kind.has(self.path):
                return "is there already, and the desk did not write it, or it was changed since; --force replaces it"
        why = (
            f"is not {kind.name}"
            if kind.can_be_known
            else f"the desk cannot know whether {kind.name} can be made again"
        )
        return f"is there already, and {why}; --force replaces it"


def _found(path: str) -> os.stat_result | None:
    try:
        return os.stat(path)
    except (FileNotFoundError, NotADirectoryError):
        return None


def standard_output() -> os.stat_result | None:
    """The file to which standard output is redirected, if it is one."""
    try:
        found = os.fstat(sys.stdout.fileno())
    except (OSError, ValueError, AttributeError):
        return None
    return found if stat.S_ISREG(found.st_mode) else None


def inputs_of(names: list[str]) -> dict[tuple[object, ...], str]:
    """The files that a call reads, without character devices, which cannot be lost."""
    found: dict[tuple[object, ...], str] = {}
    for name in names:
        # An input that cannot be used is reported when it is read.
        with contextlib.suppress(Failure, OSError):
            target = Target(name if name != DASH else f"./{DASH}")
            if target.found is None or not stat.S_ISCHR(target.found.st_mode):
                found[target.identity()] = name
    return found


def against_standard_output(inputs: dict[tuple[object, ...], str]) -> list[Failure]:
    """A refusal if standard output is redirected to a file that is also read and is not empty."""
    out = standard_output()
    read = inputs.get((out.st_dev, out.st_ino)) if out is not None and out.st_size else None
    return [] if read is None else [Refusal(read, "is an input, and standard output is written to it")]
