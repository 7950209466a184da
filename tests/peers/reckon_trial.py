#!/usr/bin/env python3
"""Computes the nine lines of `ribjasper trial` independently: reckon_trial.py SEED PICTURES

No stream is made here. The instructions of a change are counted tile by tile: by the rank of the differences of the
colours, for every picture from which the change may start. The words that scratches hit are counted from the places of
their symbols. No code is shared with the program, so the two check each other."""
import argparse
import sys
from typing import Iterable

from subcode import PLACES, words_of


def rank(values: Iterable[int]) -> int:
    """The rank of some numbers, as vectors of bits over GF(2)."""
    basis: list[int] = []
    for value in values:
        for member in basis:
            value = min(value, value ^ member)
        if value:
            basis.append(value)
    return len(basis)


def planes(tile: list[int]) -> int:
    """The number of instructions that draw a tile, or combine it with the old tile."""
    return max(1, rank(colour ^ tile[0] for colour in set(tile)))


def steps(old: list[int], new: list[int]) -> int:
    """The number of instructions that turn one tile into another."""
    if old == new:
        return 0
    return min(planes(new), planes([a ^ b for a, b in zip(old, new)]))


def tiles(window: list[list[int]]) -> list[list[int]]:
    return [
        [window[12 * row + j][6 * column + i] for j in range(12) for i in range(6)]
        for row in range(16)
        for column in range(48)
    ]


def changes(seed: int, pictures: int) -> int:
    """The number of instructions in all changes of the generated script."""
    words = words_of(seed)
    window = [[0] * 288 for _ in range(192)]
    before: list[list[int]] | None = None
    total = 0
    for _ in range(pictures):
        for _ in range(3):
            a, b = next(words), next(words)
            x, y = (a & 0xFFFF) % 288, (a >> 16) % 192
            width, height = 1 + (b & 0xFFFF) % (288 - x), 1 + (b >> 16) % (192 - y)
            for line in window[y : y + height]:
                line[x : x + width] = [b // 256 % 16] * width
        now = tiles(window)
        # The screen may first be cleared with any colour. The first picture also sets the border and both halves of the colour table.
        settings = 4 if before is None else 1
        costs = [settings + sum(steps([colour] * 72, tile) for tile in now) for colour in range(16)]
        if before is not None:
            costs.append(sum(steps(old, new) for old, new in zip(before, now)))
        total += min(costs)
        before = now
    return total


def touched(seed: int, blocks: int) -> list[int]:
    """The numbers of words with no, one, two .. symbols in the bursts of the seed."""
    symbols = 96 * blocks
    hit = bytearray(symbols)
    words = words_of(seed)
    place = 0
    while place < symbols:
        word = next(words)
        first = place + 192 + word % 64
        place = first + 1 + word // 256 % 16
        for k in range(first, min(place, symbols)):
            hit[k] = 1
    counts = [0] * 25
    for n in range(4 * blocks - 7):
        counts[sum(hit[24 * n + k] for k in PLACES)] += 1
    return counts


def main() -> int:
    parser = argparse.ArgumentParser(
        description="Computes the nine lines of `ribjasper trial` independently."
    )
    parser.add_argument("seed", type=int, metavar="SEED")
    parser.add_argument("pictures", type=int, metavar="PICTURES")
    words = parser.parse_args()
    seed, pictures = words.seed, words.pictures
    blocks = 800 * pictures + 170
    counts = touched(seed, blocks)
    for name, number in [
        ("seed", seed),
        ("pictures", pictures),
        ("blocks", blocks),
        ("packs", 4 * blocks - 7),
        ("changes", changes(seed, pictures)),
        ("one", counts[1]),
        ("two", counts[2]),
        ("bad", sum(counts[3:])),
        ("equal", pictures),
    ]:
        print(name, number)
    return 0


if __name__ == "__main__":
    sys.exit(main())
