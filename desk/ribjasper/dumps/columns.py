"""Columns, a byte for each block or pack of a dump, and runs of neighbours. All columns are combined as big integers,
with no loop over blocks in Python; numpy would gain less than its import costs."""
import re
from typing import Callable, Iterable, NamedTuple, TypeVar

Part = TypeVar("Part")
_SET = bytes([0] + [1] * 255)


class Run(NamedTuple):
    """Neighbouring blocks or packs, the first and the last."""

    first: int
    last: int

    @property
    def length(self) -> int:
        return self.last - self.first + 1


def either(*columns: bytes) -> bytes:
    """A byte that is not zero if one of the columns is not."""
    found = 0
    for column in columns:
        found |= int.from_bytes(column, "little")
    return found.to_bytes(len(columns[0]), "little")


def both(a: bytes, b: bytes) -> bytes:
    """The bits that two columns have in common."""
    return (int.from_bytes(a, "little") & int.from_bytes(b, "little")).to_bytes(len(a), "little")


def different(a: bytes, b: bytes) -> bytes:
    """The bits in which two columns differ."""
    return (int.from_bytes(a, "little") ^ int.from_bytes(b, "little")).to_bytes(len(a), "little")


def flags(column: bytes) -> bytes:
    """A byte that is 1 if a column is not zero."""
    return column.translate(_SET)


def busy(content: bytes, unit: int) -> bytes:
    """A byte for each unit of `unit` bytes, 1 if the unit is not all zeros."""
    return flags(either(*(content[place::unit] for place in range(unit)))) if content else b""


def runs(column: bytes) -> list[Run]:
    """The runs in which a column is not zero."""
    return [Run(found.start(), found.end() - 1) for found in re.finditer(rb"[^\x00]+", column)]


def joined(parts: Iterable[Part], join: Callable[[Part, Part], Part | None]) -> list[Part]:
    """Parts in order. A part is joined with the one before it if `join` returns both as one."""
    found: list[Part] = []
    for part in parts:
        both_as_one = join(found[-1], part) if found else None
        if both_as_one is None:
            found.append(part)
        else:
            found[-1] = both_as_one
    return found


def touching(before: Run, behind: Run) -> Run | None:
    """Two runs as one if they overlap or are neighbours."""
    return Run(before.first, max(before.last, behind.last)) if behind.first <= before.last + 1 else None
