"""Maps of ddrescue: which bytes of a file were read."""
import re
from typing import Iterator, NamedTuple, Sequence

from ..common.failures import Refusal
from ..common.output import read_file
from .columns import Run, joined, touching

NUMBER = r"(0[xX][0-9a-fA-F]+|[0-9]+)"
AREA = re.compile(rf"{NUMBER}\s+{NUMBER}\s+([?*/+-])\s*")
STATUS = re.compile(rf"{NUMBER}\s+([?*/FG+-])(?:\s+[0-9]+)?\s*")
# The status of bytes that ddrescue has read.
READ = "+"


class Area(NamedTuple):
    """Bytes of a file, from the first up to the end, and whether they were read."""

    first: int
    end: int
    is_read: bool


def areas(path: str) -> list[Area]:
    """The areas of a map; refuses a file that is not a map of ddrescue."""
    lines = [line.split("#")[0] for line in read_file(path).decode("utf-8", "replace").splitlines()]
    rows = [line.strip() for line in lines if line.strip()]
    if not rows or not STATUS.fullmatch(rows[0]):
        raise Refusal(path, "is not a map of ddrescue")
    found: list[Area] = []
    for line in rows[1:]:
        area = AREA.fullmatch(line)
        if area is None:
            raise Refusal(path, f"is not a map of ddrescue: {line}")
        first, size = int(area[1], 0), int(area[2], 0)
        if found and first != found[-1].end:
            raise Refusal(
                path, f"is not a map of ddrescue: an area begins at {area[1]}, not at the end of the area before"
            )
        found.append(Area(first, first + size, area[3] == READ))
    if not found:
        raise Refusal(path, "is a map of ddrescue without any area")
    return found


def unread_units(found: Sequence[Area], skip: int, unit: int, units: int) -> list[Run]:
    """The units after the header of a file that were not completely read."""
    lost = unread_bytes(found, skip + unit * units)
    ends = ((max(0, first - skip) // unit, min(units, -(-max(0, end - skip) // unit))) for first, end in lost)
    return joined((Run(begin, stop - 1) for begin, stop in ends if begin < stop), touching)


def unread_bytes(found: Sequence[Area], size: int) -> Iterator[tuple[int, int]]:
    """The bytes of a file that were not read, including those after the end of the map."""
    for area in found:
        if not area.is_read and area.first < size:
            yield area.first, min(area.end, size)
    if found[-1].end < size:
        yield found[-1].end, size


def domain(size: int, lost: Sequence[tuple[int, int]], kind: str) -> bytes:
    """A map of a file with which ddrescue reads the lost parts again, and nothing else (its option -m): `+` is what it
    reads, from the first byte up to the end, and `-` everything else."""
    lines = [f"# Mapfile of the mended {kind}. Made by ribjasper-desk", "# current_pos  current_status  current_pass"]
    lines += ["0x00000000     +               1", "#      pos        size  status"]
    at = 0
    for first, end in [*lost, (size, size)]:
        first, end = min(first, size), min(end, size)
        for status, start, stop in (("-", at, first), ("+", first, end)):
            if stop > start:
                lines.append(f"0x{start:08X}  0x{stop - start:08X}  {status}")
        at = max(at, end)
    return "".join(f"{line}\n" for line in lines).encode()
