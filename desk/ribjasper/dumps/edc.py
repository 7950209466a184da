"""The error detection codes of data sectors (ECMA-130, and the forms of mode 2 in CD-ROM XA), for many sectors at a
time."""
import functools
from dataclasses import dataclass, field
from typing import NamedTuple, Sequence

from ..common.library import AUDIO

SYNC = b"\0" + b"\xff" * 10 + b"\0"
# x^32 + x^31 + x^16 + x^15 + x^4 + x^3 + x + 1, the lowest bit first.
POLYNOMIAL = 0xD8018001
MODE, SUBMODE = 15, 18
FORM_2 = 0x20


class EdcLayout(NamedTuple):
    """The bytes of a sector that its code covers. The code follows them."""

    first: int
    end: int
    may_be_zero: bool = False


MODE_1, MODE_2_FORM_1, MODE_2_FORM_2 = EdcLayout(0, 2064), EdcLayout(16, 2072), EdcLayout(16, 2348, may_be_zero=True)


@dataclass
class EdcCount:
    """The result of checking the EDC of data sectors: the number of sectors, the number of sectors without EDC, and the
    numbers of the sectors that have a wrong EDC or are not data sectors."""

    sectors: int = 0
    without: int = 0
    bad: list[int] = field(default_factory=list)


@functools.lru_cache(maxsize=None)
def tables() -> tuple[bytes, bytes, bytes, bytes]:
    """The four bytes, the lowest first, of the remainder of each byte."""
    remainders = []
    for byte in range(256):
        for _ in range(8):
            byte = byte >> 1 ^ (POLYNOMIAL if byte & 1 else 0)
        remainders.append(byte)
    low, second, third, high = (bytes(it >> shift & 255 for it in remainders) for shift in (0, 8, 16, 24))
    return low, second, third, high


def edc_codes(sectors: Sequence[bytes], layout: EdcLayout) -> list[bytes]:
    """The four bytes of the code of each sector, computed for all sectors at once, column by column: the state is a
    number that has the lowest bytes of all codes first, then the others."""
    content = b"".join(sector[layout.first : layout.end] for sector in sectors)
    length, many = layout.end - layout.first, len(sectors)
    state, lowest = 0, (1 << 8 * many) - 1
    of, number = tables(), int.from_bytes
    for place in range(length):
        index = ((state & lowest) ^ number(content[place::length], "little")).to_bytes(many, "little")
        state = state >> 8 * many ^ number(b"".join([index.translate(table) for table in of]), "little")
    found = state.to_bytes(4 * many, "little")
    return [bytes(four) for four in zip(*(found[start : start + many] for start in range(0, 4 * many, many)))]


def layout_of(sector: bytes) -> EdcLayout | None:
    """The place of the code in a sector; None in mode 0, whose bytes are zeros."""
    if sector[MODE] == 1:
        return MODE_1
    if sector[MODE] == 2:
        return MODE_2_FORM_2 if sector[SUBMODE] & FORM_2 else MODE_2_FORM_1
    return None


def count(content: bytes, first: int, found: EdcCount) -> None:
    """Counts whole sectors; `first` is the number of the first."""
    by_layout: dict[EdcLayout, list[tuple[int, bytes]]] = {}
    for at in range(0, len(content), AUDIO):
        sector, number = content[at : at + AUDIO], first + at // AUDIO
        found.sectors += 1
        if not sector.startswith(SYNC) or sector[MODE] > 2:
            found.bad.append(number)
        elif (layout := layout_of(sector)) is None:
            found.without += 1
        elif layout.may_be_zero and not any(sector[layout.end : layout.end + 4]):
            found.without += 1
        else:
            by_layout.setdefault(layout, []).append((number, sector))
    for layout, numbered in by_layout.items():
        for (number, sector), code in zip(numbered, edc_codes([sector for _, sector in numbered], layout)):
            if sector[layout.end : layout.end + 4] != code:
                found.bad.append(number)
    found.bad.sort()
