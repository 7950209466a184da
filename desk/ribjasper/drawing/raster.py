"""The window of 288 by 192 pixels that a script draws on, and the lines of a script that change it."""
from dataclasses import dataclass, field
from typing import Iterator, NamedTuple, Sequence

from .colours import Colour

WIDTH, HEIGHT = 288, 192
# A tile, which one pack can draw.
TILE_WIDTH, TILE_HEIGHT = 6, 12
COLUMNS, ROWS = WIDTH // TILE_WIDTH, HEIGHT // TILE_HEIGHT
COLOURS = 16
BLACK = Colour(0, 0, 0)
DIGITS = "0123456789ABCDEF"
# The digit of each colour's number.
AS_DIGITS = bytes.maketrans(bytes(range(COLOURS)), DIGITS.encode())


@dataclass
class Raster:
    """The picture of the screen: the colour numbers row by row, the sixteen colours, and the number of the border."""

    rows: list[bytearray] = field(default_factory=lambda: [bytearray(WIDTH) for _ in range(HEIGHT)])
    colours: list[Colour] = field(default_factory=lambda: [BLACK] * COLOURS)
    border: int = 0

    def copy(self) -> "Raster":
        return Raster([bytearray(row) for row in self.rows], list(self.colours), self.border)

    def fill(self, number: int) -> None:
        for row in self.rows:
            row[:] = bytes([number]) * WIDTH

    def tile(self, column: int, row: int) -> list[bytes]:
        """The twelve lines of six pixels of a tile."""
        left, top = TILE_WIDTH * column, TILE_HEIGHT * row
        return [bytes(line[left : left + TILE_WIDTH]) for line in self.rows[top : top + TILE_HEIGHT]]


class Span(NamedTuple):
    """A stretch of a row of pixels."""

    left: int
    top: int
    pixels: bytes

    def line(self) -> str:
        """The line that draws it, pixel by pixel."""
        return f"row {self.left} {self.top} {self.pixels.translate(AS_DIGITS).decode()}"


def spans(before: Sequence[bytes], after: Sequence[bytes], first: int = 0) -> Iterator[Span]:
    """For each row that changes, numbered from `first`, the span from its first to its last changed pixel."""
    for top, (old, new) in enumerate(zip(before, after), first):
        if old != new:
            differ = (int.from_bytes(old, "big") ^ int.from_bytes(new, "big")).to_bytes(WIDTH, "big")
            left, right = WIDTH - len(differ.lstrip(b"\0")), len(differ.rstrip(b"\0"))
            yield Span(left, top, bytes(new[left:right]))


def span_lines(stretches: list[Span]) -> Iterator[str]:
    """The lines that draw them, with one `rect` for equal stretches of one colour below each other."""
    place = 0
    while place < len(stretches):
        left, top, pixels = stretches[place]
        height = 1
        while place + height < len(stretches) and stretches[place + height] == (left, top + height, pixels):
            height += 1
        if len(set(pixels)) == 1:
            yield f"rect {left} {top} {len(pixels)} {height} {pixels[0]}"
            place += height
        else:
            yield stretches[place].line()
            place += 1


def pixel_lines(before: list[bytearray], after: list[bytearray]) -> list[str]:
    """The lines that draw the pixels that differ: over the old ones, or over one colour if that is shorter."""
    plain = list(span_lines(list(spans(before, after))))
    if len(plain) < HEIGHT // 2:
        return plain
    whole = b"".join(after)
    most = max(set(whole), key=whole.count)
    filled = [f"fill {most}", *span_lines(list(spans([bytearray([most]) * WIDTH] * HEIGHT, after)))]
    return min(plain, filled, key=lambda lines: sum(map(len, lines)))


def lines_between(before: Raster, after: Raster) -> list[str]:
    """The lines of a script that turn one screen into another."""
    colours = [
        f"colour {number} {colour.word()}"
        for number, colour in enumerate(after.colours)
        if colour != before.colours[number]
    ]
    border = [f"border {after.border}"] * (after.border != before.border)
    return colours + border + pixel_lines(before.rows, after.rows)
