"""The forms in which a file stores blocks, and the subcode of its units in the form for the library."""
import binascii
import collections
import ctypes
import enum
from typing import NamedTuple

from ..common import library
from ..common.library import AUDIO as AUDIO, BLOCK, PACK, PACKS_A_BLOCK

# P and Q as drives return them: the frame, three bytes of zeros, and P in the highest bit of the last byte.
PQ = 16
FRAME, FRAME_WITHOUT_CHECK = 12, 10


class Coding(enum.Enum):
    """The encoding of the subcode of a unit."""

    RAW = "raw"  # 96 bytes, one for each symbol
    PLANAR = "planar"  # twelve bytes for each channel from P to W
    PQ = "pq"  # sixteen bytes of only P and Q
    COOKED = "cooked"  # four packs
    CDG = "cdg"  # a pack, whose parity may be missing


class Order(enum.Enum):
    """The order of the bytes of the subcode."""

    PLAIN = ""
    REVERSED = "reversed"  # the bits of each byte in reverse
    SWAPPED = "swapped"  # the bytes of each pair exchanged


class Form(NamedTuple):
    """The way in which a file stores blocks."""

    name: str
    unit: int  # bytes of the file for each of its parts
    size: int  # how many of them, at the end, are subcode
    coding: Coding
    order: Order = Order.PLAIN

    @property
    def library(self) -> int:
        """The library's number for this subcode."""
        return library.PACKS if self.is_packs() else library.RAW

    def is_packs(self) -> bool:
        return self.coding in (Coding.COOKED, Coding.CDG)

    def has_graphics(self) -> bool:
        """Whether the form has room for the channels from R to W."""
        return self.coding is not Coding.PQ

    def blocks(self, units: int) -> int:
        """The number of blocks in this number of units. In a file of packs, four units are a block."""
        return -(-units // PACKS_A_BLOCK) if self.coding is Coding.CDG else units

    def is_plain(self) -> bool:
        """Whether a file contains the blocks unchanged and nothing else."""
        return self.coding is Coding.RAW and self.order is Order.PLAIN and not self.is_in_sectors()

    def is_in_sectors(self) -> bool:
        return self.unit > self.size

    def ordered(self, order: Order) -> "Form":
        name = f"{self.name}-{order.value}" if order.value else self.name
        return self._replace(name=name, order=order)


# In the order of the trials: every sixth unit of the form pq resembles channel Q of a planar block.
PLAIN_FORMS = (
    Form("raw", BLOCK, BLOCK, Coding.RAW),
    Form("pq", PQ, PQ, Coding.PQ),
    Form("planar", BLOCK, BLOCK, Coding.PLANAR),
    Form("sector", AUDIO + BLOCK, BLOCK, Coding.RAW),
    Form("sector-pq", AUDIO + PQ, PQ, Coding.PQ),
    Form("sector-planar", AUDIO + BLOCK, BLOCK, Coding.PLANAR),
    Form("cooked", BLOCK, BLOCK, Coding.COOKED),
    Form("cooked-sector", AUDIO + BLOCK, BLOCK, Coding.COOKED),
    Form("cdg", PACK, PACK, Coding.CDG),
)
FORMS = {form.name: form for order in Order for form in (it.ordered(order) for it in PLAIN_FORMS)}
_REVERSED = bytes(int(f"{byte:08b}"[::-1], 2) for byte in range(256))
# Each byte without the bit of P.
_P_ALONE = bytes(byte & 0x7F for byte in range(256))
_NO_FRAME, _NO_CHECK = bytes(FRAME_WITHOUT_CHECK), bytes(PQ - FRAME_WITHOUT_CHECK)
_ALL_P, _NO_P = b"\xff" * FRAME, bytes(FRAME)
# The six bits of a symbol.
SYMBOLS = bytes(byte & 63 for byte in range(256))


def swapped(content: bytes) -> bytes:
    """Exchanges the bytes of each pair; an odd last byte stays."""
    pairs = bytearray(content)
    even = len(content) - len(content) % 2
    pairs[0:even:2], pairs[1:even:2] = content[1:even:2], content[0:even:2]
    return bytes(pairs)


def turned(blocks: bytes, call: str) -> bytes:
    """Converts each whole block by a call of the library that reads one block and writes one. Drops an incomplete last
    block."""
    blocks = blocks[: len(blocks) - len(blocks) % BLOCK]
    room = ctypes.create_string_buffer(max(1, len(blocks)))
    source = library.address(blocks)
    target = ctypes.addressof(room)
    each = map(
        library.call(call),
        range(source, source + len(blocks), BLOCK),
        range(target, target + len(blocks), BLOCK),
    )
    collections.deque(each, maxlen=0)
    return ctypes.string_at(room, len(blocks))


def from_planar(planar: bytes) -> bytes:
    return turned(planar, "ribjasper_block_from_planar")


def to_planar(blocks: bytes) -> bytes:
    return turned(blocks, "ribjasper_block_to_planar")


def from_pq(content: bytes) -> bytes:
    """Raw blocks from units of only P and Q. Restores the check of frames if the drive left it out."""
    rest = bytes(BLOCK - 2 * FRAME)
    without_p = content.translate(_P_ALONE)
    parts = list[bytes]()
    for start in range(0, len(content), PQ):
        behind = start + FRAME_WITHOUT_CHECK
        frame = content[start:behind]
        if frame == _NO_FRAME or without_p[behind : start + PQ] != _NO_CHECK:
            frame = content[start : start + FRAME]
        else:
            frame += (binascii.crc_hqx(frame, 0) ^ 0xFFFF).to_bytes(2, "big")
        parts += (_ALL_P if content[start + PQ - 1] & 0x80 else _NO_P, frame, rest)
    return from_planar(b"".join(parts))


def to_pq(blocks: bytes) -> bytes:
    """Units of only P and Q from raw blocks."""
    planar = to_planar(blocks)
    parts = []
    for start in range(0, len(planar), BLOCK):
        p = b"\x80" if planar[start] & 0x80 else b"\0"
        parts.append(planar[start + FRAME : start + 2 * FRAME] + bytes(3) + p)
    return b"".join(parts)


def in_order(content: bytes, order: Order) -> bytes:
    """The subcode in its plain order, or a plain one in this order: both are the same."""
    if order is Order.REVERSED:
        return content.translate(_REVERSED)
    return swapped(content) if order is Order.SWAPPED else content


def subcode(units: bytes, form: Form) -> bytes:
    """The subcode of the whole units of a part of a file: raw blocks, or blocks of four packs, with zeros at the end of
    the last."""
    units = units[: len(units) - len(units) % form.unit]
    if form.is_in_sectors():
        ends = range(form.unit, len(units) + 1, form.unit)
        units = b"".join([units[end - form.size : end] for end in ends])
    plain = in_order(units, form.order)
    if form.coding is Coding.PLANAR:
        return from_planar(plain)
    if form.coding is Coding.PQ:
        return from_pq(plain)
    if form.coding is Coding.CDG:
        return plain.translate(SYMBOLS) + bytes(-len(plain) % BLOCK)
    return plain
