"""Converts pixmaps of 300 by 216 pixels, the output of `ribjasper screen`, to text for a terminal and to PNG files."""
import os
import struct
import sys
import zlib
from pathlib import Path
from typing import Iterator

Pixel = tuple[int, int, int]

WIDTH, HEIGHT = 300, 216
HEADER = b"P6\n300 216\n255\n"
# The size of a pixel of the pixmap in the PNG file.
SCALE = 2


def rows_of(pixmap: bytes) -> list[list[Pixel]]:
    if not pixmap.startswith(HEADER) or len(pixmap) != len(HEADER) + 3 * WIDTH * HEIGHT:
        sys.exit("this is not a pixmap of 300 by 216 pixels")
    pixels = [(pixmap[at], pixmap[at + 1], pixmap[at + 2]) for at in range(len(HEADER), len(pixmap), 3)]
    return [pixels[WIDTH * y : WIDTH * (y + 1)] for y in range(HEIGHT)]


def code_of(pixel: Pixel) -> str:
    """A colour in the form that follows the codes 38 and 48 of terminals."""
    if os.environ.get("COLORTERM") in ("truecolor", "24bit"):
        return "2;{};{};{}".format(*pixel)
    red, green, blue = (round(part / 51) for part in pixel)
    return f"5;{16 + 36 * red + 6 * green + blue}"


def coloured(rows: list[list[Pixel]]) -> Iterator[str]:
    """Lines of 75 half blocks, each for four by eight pixels."""
    for y in range(0, HEIGHT, 8):
        above, below = rows[y + 2], rows[y + 6]
        cells = (f"\033[38;{code_of(above[x])};48;{code_of(below[x])}m▀" for x in range(2, WIDTH, 4))
        yield f"    {''.join(cells)}\033[0m"


def grey(rows: list[list[Pixel]]) -> Iterator[str]:
    """Lines of characters, each for six by twelve pixels."""
    for y in range(6, HEIGHT, 12):
        light = ((3 * red + 6 * green + blue) / 2551 for red, green, blue in rows[y][3::6])
        yield f"    |{''.join(' .:+#'[int(5 * part)] for part in light)}|"


def as_text(pixmap: bytes) -> str:
    """A picture in colour for a terminal, or in plain characters if the output is not a terminal."""
    is_terminal = sys.stdout.isatty() and os.environ.get("TERM", "dumb") != "dumb"
    return "\n".join((coloured if is_terminal else grey)(rows_of(pixmap)))


def scan_lines(pixmap: bytes) -> bytes:
    """The bytes of the pixels in a PNG file, before compression."""
    lines = []
    for row in rows_of(pixmap):
        lines += SCALE * [b"\0" + b"".join(SCALE * bytes(pixel) for pixel in row)]
    return b"".join(lines)


def chunk(kind: bytes, content: bytes) -> bytes:
    return struct.pack(">I", len(content)) + kind + content + struct.pack(">I", zlib.crc32(kind + content))


def as_png(pixmap: bytes) -> bytes:
    head = struct.pack(">IIBBBBB", SCALE * WIDTH, SCALE * HEIGHT, 8, 2, 0, 0, 0)
    packed = zlib.compress(scan_lines(pixmap), 9)
    return b"\x89PNG\r\n\x1a\n" + chunk(b"IHDR", head) + chunk(b"IDAT", packed) + chunk(b"IEND", b"")


def is_shown_by(pixmap: bytes, file: Path) -> bool:
    """Whether a PNG file of `as_png` shows this picture."""
    content, packed, at = file.read_bytes(), b"", 8
    while at < len(content):
        length, kind = struct.unpack(">I4s", content[at : at + 8])
        if kind == b"IDAT":
            packed += content[at + 8 : at + 8 + length]
        at += 12 + length
    return zlib.decompress(packed) == scan_lines(pixmap)
