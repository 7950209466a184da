"""Mends aligned readings by one call of the library, which decides and counts. This module prepares the input and reads
the output of this call."""
import ctypes
import itertools
import mmap
import re
import sys
from typing import NamedTuple

from ..common import library
from ..common.library import BLOCK, PACK, PACKS_A_BLOCK, SLOTS, MendReported
from .agreement import Packs, Shared, far_apart, packs_of_part, whole_words
from .columns import Run, busy, different, joined, runs, touching
from .readings import Laid
from .survey import has_graphics_bits

# The number of blocks that are compared at a time.
AT_ONCE = 1_000
# The number of common packs that decides whether two readings are of one disc.
ENOUGH = 2_000
_PQ = bytes(byte & 0xC0 for byte in range(256))
_NO_WORD = re.compile(bytes([library.NO_READING]) + b"+")


class Counts(NamedTuple):
    """The counts of a reading, in words: those taken from it, those ignored, and error-free ones that were lost."""

    of_reading: int
    left_out: int
    lost: int


class Mended(NamedTuple):
    """Mended readings: `content` is the packs or the blocks; `sources` has a byte for each word, the number of the
    reading it is from, 254 if readings agree, 255 if none has a codeword; and what the library counted, in words."""

    content: memoryview
    sources: bytes
    agreed: int
    none: int
    counts: list[Counts]

    def lost_words(self) -> list[Run]:
        """The words without a codeword."""
        return [Run(found.start(), found.end() - 1) for found in _NO_WORD.finditer(self.sources)]

    def lost_blocks(self) -> list[Run]:
        """The blocks that contain symbols of these words."""
        blocks = (Run(run.first // PACKS_A_BLOCK, (run.last + SLOTS - 1) // PACKS_A_BLOCK) for run in self.lost_words())
        return joined(blocks, touching)


def zeros(size: int) -> mmap.mmap:
    """At least one byte of zeros. A page of memory is not used before it is written."""
    if sys.platform == "win32":
        return mmap.mmap(-1, max(1, size))
    return mmap.mmap(-1, max(1, size), flags=mmap.MAP_PRIVATE | mmap.MAP_ANONYMOUS)


def programs_of(laid: Laid) -> mmap.mmap:
    """The programs of all readings, in order. Frees the surveys of the readings, and streams that no later reading
    needs."""
    content = zeros(laid.size * len(laid.readings))
    for number, reading in enumerate(laid.readings):
        place = memoryview(content)[laid.size * number : laid.size * (number + 1)]
        laid.fill(reading, laid.lead_in, laid.blocks, place)
        if all(other.loaded.dump is not reading.loaded.dump for other in laid.readings[number + 1 :]):
            reading.loaded.survey.forget()
            reading.loaded = reading.loaded._replace(stream=b"")
    return content


def mend_laid(laid: Laid, as_stream: bool) -> Mended:
    """The packs of readings, or their stream without a lead-in."""
    content, count = programs_of(laid), len(laid.readings)
    words = whole_words(laid.blocks - laid.lead_in)
    name = "ribjasper_mend_stream_report" if as_stream else "ribjasper_mend_report"
    size, room = laid.size * count, laid.size if as_stream else PACK * words
    out, sources, report = zeros(room), zeros(words), MendReported()
    byte = ctypes.c_uint8
    readings = (byte * len(content)).from_buffer(content)
    target, names = (byte * len(out)).from_buffer(out), (byte * len(sources)).from_buffer(sources)
    status = library.call(name)(readings, size, count, 0, target, room, names, words, report)
    if status not in (library.DONE, library.DAMAGED):
        raise ValueError(f"{name} returned the status {status}")
    totals = report.counts
    counts = [Counts(totals.of_reading[k], totals.dropped[k], report.lost[k]) for k in range(count)]
    return Mended(
        memoryview(out)[: totals.bytes], bytes(memoryview(sources)[:words]), totals.agreed, totals.none, counts
    )


def has_graphics(laid: Laid) -> bool:
    """Whether a part of any reading has a bit of R to W."""
    return any(
        has_graphics_bits(content)
        for reading in laid.readings
        for part in reading.parts
        for _, content in reading.blocks(part.first, part.end)
    )


# ---- Whether readings are of one disc.


def in_common(laid: Laid) -> dict[tuple[int, int], Shared]:
    """The packs that pairs of readings have in common, counted in parts spread over the disc until they are enough."""
    found = {pair: Shared() for pair in itertools.combinations(range(len(laid.readings)), 2)}
    blocks = laid.blocks - laid.lead_in
    for part in far_apart(-(-blocks // AT_ONCE)):
        wanted = {number for pair, own in found.items() if own.all < ENOUGH for number in pair}
        if not wanted:
            break
        first = laid.lead_in + part * AT_ONCE
        end = min(laid.blocks, first + AT_ONCE)
        packs = {number: packs_within(laid, number, first, end) for number in sorted(wanted)}
        for (a, b), own in found.items():
            if a in packs and b in packs and own.all < ENOUGH:
                own.add(packs[a], packs[b])
    return found


def packs_within(laid: Laid, number: int, first: int, end: int) -> Packs:
    """The packs of one reading in a part of the disc."""
    return packs_of_part(bytes(laid.window(laid.readings[number], first, end)), end - first)


# ---- Where two dumps differ.


def differing_blocks(a: bytes, b: bytes) -> list[Run]:
    """The blocks in which two streams differ."""
    return runs(busy(different(a, b), BLOCK))


def without_graphics(stream: bytes) -> bytes:
    """Channels P and Q of a stream."""
    return stream.translate(_PQ)
