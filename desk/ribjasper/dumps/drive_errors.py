"""The errors that a drive reported while it read a dump: C2 errors and redumper's states of samples, in files next to
the dump. They belong to the main channel, but if this channel has errors, the subcode may have errors too."""
import os
import re
from typing import NamedTuple

from .columns import either
from .companions import C2_SIZES, SAMPLES, neighbours

# redumper's states of samples below this one are errors: the sector was skipped, or a C2 error was reported.
FIRST_GOOD_STATE = 2
AT_ONCE = 4096
_BAD_STATE = bytes(1 if state < FIRST_GOOD_STATE else 0 for state in range(256))
_BAD = re.compile(rb"[^\x00]")


class DriveErrors(NamedTuple):
    """A byte for each block of a dump, 1 if the drive reported an error in the sector; and the names of the files with
    these errors."""

    mask: bytes
    names: list[str]

    @property
    def total(self) -> int:
        return self.mask.count(1)

    def within(self, first: int, end: int) -> int:
        """The number of marked blocks from one up to another."""
        return self.mask.count(1, first, end)


def marked_units(path: str, unit: int, blocks: int, table: bytes | None) -> bytes:
    """A byte for each unit of a file, 1 if one of its bytes, translated by a table, is not zero."""
    mask = bytearray(blocks)
    with open(path, "rb") as file:
        first = 0
        while first < blocks and (content := file.read(unit * AT_ONCE)):
            if table is not None:
                content = content.translate(table)
            at = 0
            while (found := _BAD.search(content, at)) is not None:
                place = found.start() // unit
                if first + place < blocks:
                    mask[first + place] = 1
                at = (place + 1) * unit
            first += AT_ONCE
    return bytes(mask)


def unit_of(path: str, blocks: int) -> int | None:
    """The bytes of a companion file for each block, or none if the file has another length."""
    size, ending = os.path.getsize(path), os.path.splitext(path)[1].lower()
    if ending == ".state":
        # redumper's file may be longer than the subcode.
        return SAMPLES if size % SAMPLES == 0 and size // SAMPLES >= blocks else None
    return next((unit for unit in C2_SIZES if size == unit * blocks), None)


def drive_errors(path: str, blocks: int) -> DriveErrors | None:
    """The blocks of a dump with errors, from the .c2 and .state files next to it, or None if no such file fits the number
    of blocks."""
    masks, names = [], []
    for name in neighbours(path, (".c2", ".state")):
        try:
            unit = unit_of(name, blocks)
            if unit is None:
                continue
            masks.append(marked_units(name, unit, blocks, _BAD_STATE if unit == SAMPLES else None))
            names.append(os.path.basename(name))
        except OSError:
            continue
    if not masks:
        return None
    return DriveErrors(either(*masks), names)
