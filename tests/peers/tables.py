#!/usr/bin/env python3
"""Computes the tables that the sources contain as numbers, and names those that differ.

The proofs show that each table is right; this script shows how the tables were made. `tables.py NAME` prints one table
in the layout of its source. `tables.py` compares all tables with the sources.
"""
import argparse
import pathlib
import re
import sys

from field64 import LOGARITHMS, POWERS, times
from subcode import REMAINDERS, remainder

ROOT = pathlib.Path(__file__).resolve().parents[2]


def sums(position: int, symbol: int) -> int:
    """The six sums of a word with one symbol: four over all symbols, two over the first four, six bits each."""
    lanes = 0
    for j in range(4):
        lanes |= times(POWERS[j * (23 - position) % 63], symbol) << 6 * j
    if position < 4:
        for j in range(2):
            lanes |= times(POWERS[j * (3 - position) % 63], symbol) << 6 * (4 + j)
    return lanes


def pairs() -> tuple[list[int], list[int]]:
    """Two lists with the index log((x + y)^-2 * xy) for x = alpha^d, y = 1: d from 1 to 23, and the logarithm of x + y."""
    differences, logs = [0] * 63, [0] * 63
    for d in range(1, 24):
        log = LOGARITHMS[POWERS[d] ^ 1]
        at = (d - 2 * log) % 63
        differences[at], logs[at] = d, log
    return differences, logs


def lanes(byte: int) -> int:
    """The bits of a byte, each in a byte of a number, the highest bit in the lowest byte."""
    return sum((byte >> 7 - k & 1) << 8 * k for k in range(8))


def line(bits: int) -> int:
    """The six bits of a line of a tile, each in one byte of a number; the leftmost pixel is in the lowest byte."""
    return sum((bits >> 5 - k & 1) << 8 * k for k in range(6))


def digits(byte: int) -> int:
    """The number in a byte of two decimal digits, or 255."""
    high, low = divmod(byte, 16)
    return 10 * high + low if max(high, low) < 10 else 255


def tables() -> dict[str, tuple[str, list[int]]]:
    """Each table with its source file and its numbers."""
    differences, logs = pairs()
    return {
        "SYNDROMES": ("rw_code/src/syndromes.rt", [sums(i, 1 << b) for i in range(24) for b in range(6)]),
        "DIFFERENCES": ("rw_code/src/correction.rt", differences),
        "SUMS": ("rw_code/src/correction.rt", logs),
        "REMAINDERS": ("bit_lists/src/check.rt", REMAINDERS),
        "HIGH_REMAINDERS": ("bit_lists/src/check.rt", [remainder(byte << 24) for byte in range(256)]),
        "LINES": ("cdg_screen/src/line_table.rt", [line(bits) for bits in range(64)]),
        "BYTES": ("disc_time/src/time.rt", [int(str(number), 16) for number in range(100)]),
        "NUMBERS": ("disc_time/src/time.rt", [digits(byte) for byte in range(256)]),
        "LANES": ("raw_subcode/src/lane_table.rt", [lanes(byte) for byte in range(256)]),
    }


def source_of(name: str, path: str) -> list[int]:
    """The numbers of a table in its source."""
    text = (ROOT / "crates" / path).read_text()
    table = re.search(r"static " + name + r": [^=]*= \[(.*?)\n\];", text, re.S)
    return [int(number, 0) for number in re.findall(r"0x[0-9a-f]+|\d+", table[1] if table else "")]


def main() -> int:
    known = tables()
    parser = argparse.ArgumentParser(
        description="Computes the tables that the sources contain as numbers, and names those that differ."
    )
    parser.add_argument("name", nargs="?", choices=known, metavar="NAME", help="print only this table")
    name = parser.parse_args().name
    if name:
        for number in known[name][1]:
            print(f"{number},")
        return 0
    differing = [name for name, (path, numbers) in known.items() if source_of(name, path) != numbers]
    for name in differing:
        print(f"{name} in crates/{known[name][0]} differs from the computed table", file=sys.stderr)
    return 1 if differing else 0


if __name__ == "__main__":
    sys.exit(main())
