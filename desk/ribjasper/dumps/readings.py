"""Readings of one disc, aligned by absolute times."""
from dataclasses import dataclass, field
from typing import Iterator

from ..common.failures import Refusal
from ..common.library import BLOCK
from .loading import DumpOptions, Loaded, load_raw
from .pieces import Piece
from .columns import Run
from .survey import has_graphics_bits

# The number of blocks that are read at a time.
AT_ONCE = 1 << 13
_NOTHING = bytes(BLOCK)


@dataclass
class Reading:
    """A reading and its parts, which have absolute times. `unread` blocks of the file are left out. The stream of a
    plain file is not kept; its blocks are read again."""

    loaded: Loaded
    parts: list[Piece]
    has_graphics: bool  # a bit of R to W is set
    unread: list[Run] = field(default_factory=list)
    is_beside: bool = False  # another reading of the same file has blocks of the same times
    lead_in: int = 0  # the number of its blocks before the absolute time zero

    @property
    def path(self) -> str:
        return self.loaded.path

    def blocks(self, first: int, end: int) -> Iterator[tuple[int, bytes]]:
        """The blocks of the file from `first` up to `end`, in pieces, each with the number of its first block."""
        for begin in range(first, end, AT_ONCE):
            stop = min(end, begin + AT_ONCE)
            if self.loaded.stream:
                yield begin, self.loaded.stream[BLOCK * begin : BLOCK * stop]
                continue
            content = self.loaded.dump.blocks(self.loaded.form, begin, stop - begin)
            if len(content) != BLOCK * (stop - begin):
                raise Refusal(self.path, "became shorter while it was read")
            yield begin, content

    def window(self, first: int, end: int) -> bytearray:
        """The blocks from one absolute time up to another. A missing block is zeros. If a time has two blocks, the
        first that was read counts."""
        stream = bytearray(BLOCK * (end - first))
        self.fill(first, end, memoryview(stream))
        return stream

    def fill(self, first: int, end: int, stream: memoryview) -> None:
        """Writes the blocks from one absolute time up to another over zeros."""
        filled = 0
        for part in sorted(self.parts, key=lambda it: it.time):
            move = part.shift - first
            begin, stop = max(part.first, -move), min(part.end, end - first - move)
            for free in readable(self, begin, stop):
                twice = min(free.last + 1, max(free.first, filled - move))
                for block, content in self.blocks(free.first, twice):
                    fill_gaps(stream[BLOCK * (block + move) :], content)
                for block, content in self.blocks(twice, free.last + 1):
                    at = BLOCK * (block + move)
                    stream[at : at + len(content)] = content
                filled = max(filled, free.last + 1 + move)


@dataclass
class Laid:
    """Aligned readings: the absolute time of the first block (if `has_times`), the number of blocks, and how many of
    these are lead-in. `notes` report omitted blocks; `objections` are reasons to refuse the readings."""

    readings: list[Reading]
    time: int
    blocks: int
    lead_in: int
    has_times: bool = True
    notes: list[str] = field(default_factory=list)
    objections: list[str] = field(default_factory=list)

    @property
    def size(self) -> int:
        """The bytes of the program of each reading."""
        return BLOCK * (self.blocks - self.lead_in)

    def window(self, reading: Reading, first: int, end: int) -> bytearray:
        """The blocks of a reading, by their numbers from the first aligned block."""
        return reading.window(self.time + first, self.time + end)

    def fill(self, reading: Reading, first: int, end: int, stream: memoryview) -> None:
        """Writes the blocks of a reading over zeros."""
        reading.fill(self.time + first, self.time + end, stream)


def fill_gaps(stream: memoryview, content: bytes) -> None:
    """Writes blocks over blocks of zeros, and skips the others."""
    for start in range(0, len(content), BLOCK):
        place = slice(start, start + BLOCK)
        if stream[place] == _NOTHING:
            stream[place] = content[place]


def readable(reading: Reading, begin: int, stop: int) -> list[Run]:
    """The blocks of the file from `begin` up to `stop`, without unread ones."""
    found: list[Run] = []
    for run in reading.unread:
        if run.last < begin or run.first >= stop:
            continue
        if run.first > begin:
            found.append(Run(begin, run.first - 1))
        begin = run.last + 1
    if begin < stop:
        found.append(Run(begin, stop - 1))
    return found


def read_reading(path: str, words: DumpOptions) -> Reading:
    """A reading as raw blocks, not yet aligned."""
    loaded = load_raw(path, words, "blocks of subcode to mend")
    has_graphics = has_graphics_bits(loaded.stream)
    return Reading(loaded._replace(stream=b"") if loaded.form.is_plain() else loaded, [], has_graphics)
