"""How far two readings agree: the packs that both have at the same times."""
from dataclasses import dataclass
from typing import Iterator, NamedTuple

from ..common import library
from ..common.library import PACK, PACKS_A_BLOCK, SLOTS
from .columns import both, busy, different
from .survey import has_graphics_bits


class Packs(NamedTuple):
    """The packs of a stream, and a byte for each, 1 if it is not idle."""

    content: bytes
    busy: bytes


# Readings agree if at least LEAST_PACKS packs are the same, and at least this share of the packs that both have.
LEAST_PACKS, LEAST_SHARE = 12, 0.9
# If two readings of one disc both have SOME packs in a part, some of these packs are the same. NO_CHANCE equal packs
# are no coincidence.
SOME, NO_CHANCE = 8, 4


@dataclass
class Shared:
    """The number of words in which two readings have packs that are not idle; how many of these are equal; the number
    of parts in which both have packs and none is equal; and the number in which the first has packs and none is
    equal."""

    all: int = 0
    same: int = 0
    apart: int = 0
    alone: int = 0
    words: bytes = b""  # a byte for each word of the last part, 1 where the packs are the same

    @property
    def differing(self) -> int:
        return self.all - self.same

    def add(self, one: Packs, other: Packs) -> None:
        """Counts the words of a part."""
        common = both(one.busy, other.busy)
        differing = both(common, busy(different(one.content, other.content), PACK))
        self.words = different(common, differing)
        same = sum(self.words)
        self.all += sum(common)
        self.same += same
        self.apart += not same and min(sum(one.busy), sum(other.busy)) >= SOME
        self.alone += not same and sum(one.busy) >= NO_CHANCE

    def plus(self, other: "Shared") -> "Shared":
        return Shared(self.all + other.all, self.same + other.same, self.apart + other.apart, self.alone + other.alone)

    def agrees(self) -> bool:
        return self.same >= max(LEAST_PACKS, LEAST_SHARE * self.all) and not self.apart

    def contradicts(self) -> bool:
        return bool(self.apart) or self.all >= LEAST_PACKS and not self.agrees()


def whole_words(blocks: int) -> int:
    """The number of whole words in this number of blocks."""
    return max(0, PACKS_A_BLOCK * blocks - SLOTS + 1)


def packs_of_part(stream: bytes, blocks: int) -> Packs:
    """The packs of a part of a stream, without the blocks before it."""
    if not has_graphics_bits(stream):
        words = whole_words(blocks)
        return Packs(bytes(PACK * words), bytes(words))
    content = library.packs_of_blocks(stream, library.RAW, 0)[0]
    return Packs(content, busy(content, PACK))


def far_apart(parts: int) -> Iterator[int]:
    """The numbers of parts, in an order in which neighbours are far from each other."""
    bits = max(1, (parts - 1).bit_length())
    for number in range(1 << bits):
        place = int(f"{number:0{bits}b}"[::-1], 2)
        if place < parts:
            yield place
