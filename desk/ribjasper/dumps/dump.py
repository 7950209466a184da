"""A dump: a file of blocks in one of the forms, and its subcode in the form for the library."""
import io
import os
import stat

from ..common import library
from ..common.failures import Name, Refusal, cause
from ..common.library import PACKS_A_BLOCK
from .forms import Coding, Form, subcode

# The number of bytes that are read at a time; only their subcode is kept.
READ_AT_ONCE = 1 << 23


class DumpFile:
    """A file of units after a header."""

    def __init__(self, path: Name, skip: int = 0):
        self.path = os.fsdecode(path)
        try:
            found = os.stat(self.path)
        except OSError as error:
            raise Refusal(self.path, cause(error)) from None
        if not stat.S_ISREG(found.st_mode):
            raise Refusal(self.path, "is a directory" if stat.S_ISDIR(found.st_mode) else "is not a regular file")
        self.size, self.skip = found.st_size, skip

    @property
    def content(self) -> int:
        """The number of bytes after the header."""
        return max(0, self.size - self.skip)

    def units(self, form: Form) -> int:
        """The number of whole units in this form."""
        return self.content // form.unit

    def rest(self, form: Form) -> int:
        """The number of bytes after the last whole unit."""
        return self.content % form.unit

    def read(self, start: int, length: int) -> bytes:
        """Bytes of the file, as many as there are."""
        try:
            with open(self.path, "rb") as file:
                file.seek(start)
                return file.read(length)
        except OSError as error:
            raise Refusal(self.path, cause(error)) from None

    def blocks(self, form: Form, first: int = 0, count: int | None = None) -> bytes:
        """The subcode of units, blocks of 96 bytes: raw blocks, or packs if the form has packs."""
        left = self.units(form) - first if count is None else count
        if form.blocks(left) > library.MOST_BLOCKS:
            raise Refusal(self.path, f"has more than {library.MOST_BLOCKS} blocks")
        found = io.BytesIO()
        at_once = READ_AT_ONCE // form.unit
        if form.coding is Coding.CDG:
            at_once -= at_once % PACKS_A_BLOCK
        try:
            with open(self.path, "rb") as file:
                file.seek(self.skip + first * form.unit)
                if form.is_plain():
                    content = file.read(max(0, left) * form.unit)
                    return content[: len(content) - len(content) % form.unit]
                while left > 0:
                    units = file.read(min(left, at_once) * form.unit)
                    whole = len(units) // form.unit
                    found.write(subcode(units[: whole * form.unit], form))
                    if whole < min(left, at_once):
                        break
                    left -= whole
        except OSError as error:
            raise Refusal(self.path, cause(error)) from None
        return found.getvalue()
