#!/usr/bin/env python3
"""Writes a small raw subcode stream with all nine graphics instructions to standard output.

This script makes each pack by the rules of docs/FORMATS.md without the program, so the program can be compared with it.
With `cdg`, it writes the packs as a .cdg file instead of the stream; with `state`, the output of `ribjasper state` at the
end of the stream. With `without CODE`, the packs of one instruction are idle.
"""
import argparse
import site
import sys
from pathlib import Path

site.addsitedir(str(Path(__file__).resolve().parents[1] / "tests" / "peers"))
from field64 import power, times  # noqa: E402

# The 24 symbols of a pack.
Pack = list[int]


def generator(roots: int) -> list[int]:
    """The polynomial with the roots alpha^0 .. alpha^(roots - 1), the highest coefficient first."""
    coefficients = [1]
    for exponent in range(roots):
        root = power(exponent)
        coefficients = [a ^ times(root, b) for a, b in zip(coefficients + [0], [0] + coefficients)]
    return coefficients


def parity(symbols: list[int], count: int) -> list[int]:
    """The parity symbols that follow the symbols: the remainder of the division by the generator."""
    divisor = generator(count)
    remainder = symbols + [0] * count
    for place in range(len(symbols)):
        factor = remainder[place]
        for k, coefficient in enumerate(divisor):
            remainder[place + k] ^= times(factor, coefficient)
    return remainder[len(symbols) :]


def pack(code: int, content: list[int]) -> Pack:
    """The codeword of a graphics instruction with this content."""
    head = [9, code]
    body = content + [0] * (16 - len(content))
    word = head + parity(head, 2) + body
    return word + parity(word, 4)


IDLE = [0] * 24


def memory_preset(colour: int, repeat: int = 0) -> Pack:
    return pack(1, [colour, repeat])


def border_preset(colour: int) -> Pack:
    return pack(2, [colour])


def tile(code: int, colours: tuple[int, int], row: int, column: int, lines: list[int]) -> Pack:
    return pack(code, [*colours, row, column, *lines])


def scroll(code: int, colour: int, across: int, down: int, h: int = 0, v: int = 0) -> Pack:
    return pack(code, [colour, 16 * across + h, 16 * down + v])


def colours(code: int, table: list[int]) -> Pack:
    return pack(code, [part for colour in table for part in (colour >> 6, colour & 63)])


FACE = [
    0b001100, 0b011110, 0b111111, 0b110011, 0b110011, 0b111111,
    0b111111, 0b101101, 0b110011, 0b111111, 0b011110, 0b001100,
]
LETTERS = {
    "R": "11110 10001 10001 11110 10100 10010 10001", "I": "01110 00100 00100 00100 00100 00100 01110",
    "B": "11110 10001 10001 11110 10001 10001 11110", "J": "00111 00010 00010 00010 00010 10010 01100",
    "A": "01110 10001 10001 11111 10001 10001 10001", "S": "01111 10000 10000 01110 00001 00001 11110",
    "P": "11110 10001 10001 11110 10000 10000 10000", "E": "11111 10000 10000 11110 10000 10000 11111",
}


def letter(name: str, colours: tuple[int, int], row: int, column: int) -> list[Pack]:
    """Four tiles of a letter at twice its size."""
    small = ["00000"] * 2 + LETTERS[name].split() + ["00000"] * 3
    large = ["".join(2 * bit for bit in line + "0") for line in small for _ in range(2)]
    tiles = []
    for down in range(2):
        for right in range(2):
            lines = [int(line[6 * right :][:6], 2) for line in large[12 * down :][:12]]
            tiles.append(tile(6, colours, row + down, column + right, lines))
    return tiles


LOW = [0x000, 0xF00, 0x00F, 0xFF0, 0x0F0, 0x0FF, 0xF0F, 0xFFF]
HIGH = [0x888, 0x800, 0x080, 0x008, 0x880, 0x088, 0x808, 0x444]
# The transparency levels, which players store but do not show.
LEVELS = [0] + list(range(48, 63))


def state() -> list[str]:
    """The lines of `state` at the end of the scene."""
    lines = ["border 02", "offset 0 00"]
    for k, (colour, level) in enumerate(zip(LOW + HIGH, LEVELS)):
        lines.append(f"colour {k:02} {colour:04x} level {level:02}")
    return lines


def scene() -> list[Pack]:
    """The packs. The border has the colour of the memory, because some players draw the border into the memory."""
    packs = [memory_preset(2), border_preset(2)]
    packs.append(colours(30, LOW))
    packs.append(colours(31, HIGH))
    packs.append(pack(28, [0] * 16))
    for k, name in enumerate("RIBJASPER"):
        packs += letter(name, (2, 7), 4, 16 + 2 * k)
    for column in range(2, 48, 3):
        for row in (2, 11, 13, 15):
            packs.append(tile(6, (2, 1 + (row + column) % 15), row, column, FACE))
    for column in range(1, 49):
        packs.append(tile(38, (0, 5), 8, column, [63] * 6 + [21, 42] * 3))
    packs += [IDLE] * 20
    packs += [scroll(24, 0, 1, 0)] * 3 + [scroll(24, 0, 0, 1)] * 2 + [scroll(24, 0, 1, 2, 0, 3)]
    packs += [IDLE] * 10
    packs += [scroll(20, 2, 2, 0), scroll(20, 2, 0, 1)]
    packs += [IDLE] * 60
    packs.append(pack(28, LEVELS))
    return packs


PLACES = list(range(24))
for one, other in ((1, 18), (2, 5), (3, 23)):
    PLACES[one], PLACES[other] = other, one


def spread(packs: list[Pack]) -> bytes:
    """The program symbols that carry the packs: whole blocks, with zeros at places without a pack."""
    slots = -(-(len(packs) + 7) // 4) * 4
    symbols = bytearray(24 * slots)
    for n, word in enumerate(packs):
        for symbol, place in zip(word, PLACES):
            symbols[24 * (n + place % 8) + place] = symbol
    return bytes(symbols)


def main() -> int:
    parser = argparse.ArgumentParser(
        description="Writes a small raw subcode stream with all nine graphics instructions to standard "
        "output."
    )
    others = parser.add_subparsers(dest="other", title="other outputs")
    others.add_parser("cdg", help="the packs as a .cdg file")
    others.add_parser("state", help="the lines of `ribjasper state` at its end")
    without = others.add_parser("without", help="a stream in which one instruction is idle")
    without.add_argument("code", type=int, help="the instruction")
    arguments = parser.parse_args()
    packs = scene()
    if arguments.other == "state":
        print("\n".join(state()))
        return 0
    if arguments.other == "without":
        packs = [IDLE if word[1] == arguments.code else word for word in packs]
    sys.stdout.buffer.write(b"".join(map(bytes, packs)) if arguments.other == "cdg" else spread(packs))
    return 0


if __name__ == "__main__":
    sys.exit(main())
