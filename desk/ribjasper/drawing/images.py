"""Images in few colours and few tiles."""
import functools
import operator
from collections import Counter
from dataclasses import dataclass
from pathlib import Path
from typing import Any, Iterator, NamedTuple, Sequence

from . import colours as colouring
from ..common.failures import Refusal, reading
from ..common.library import tile_weight
from ..common.output import package
from .colours import Colour
from .raster import COLOURS, HEIGHT, Raster, Span, TILE_HEIGHT, TILE_WIDTH, WIDTH, span_lines

Grid = list[bytearray]
# The pixels of the largest image that is read, and the distance from which on two colours are not near each other.
MOST_PIXELS = 64_000_000
FAR = 60


class Flat(NamedTuple):
    """An image in a few colours: rows of their places in a list."""

    rows: Grid
    colours: list[Colour]


@dataclass(frozen=True)
class ImageOptions:
    """How an image is read: which frame of a file with several, and whether it fills its place and is cropped, or is
    shown completely on a background in the colour of its edge."""

    frame: int | None = None
    crop: bool = False


def image_package() -> Any:
    return package("PIL.Image", "python3-pil")


def read_image(path: Path, how: ImageOptions = ImageOptions()) -> Any:
    """The image of a file in its right orientation, in red, green and blue, with black where it is transparent."""
    pictures = image_package()
    with reading(path):
        image = pictures.open(path)
        if image.width * image.height > MOST_PIXELS:
            raise Refusal(path, f"has {image.width} by {image.height} pixels; the maximum is {MOST_PIXELS:,}")
        choose_frame(image, path, how.frame)
        image = package("PIL.ImageOps", "python3-pil").exif_transpose(image)
        image = in_eight_bits(image).convert("RGBA")
    ground = pictures.new("RGBA", image.size, (0, 0, 0, 255))
    return pictures.alpha_composite(ground, image).convert("RGB")


def choose_frame(image: Any, path: Path, frame: int | None) -> None:
    """Selects a frame of a file with several frames."""
    count = getattr(image, "n_frames", 1)
    if count > 1 and frame is None:
        raise Refusal(path, f"has {count} frames; --frame N chooses one, from 1 to {count}")
    if frame is not None and frame > count:
        raise Refusal(path, f"has {count} frame{'s' * (count != 1)}, but no frame {frame}")
    if frame is not None:
        image.seek(frame - 1)


def in_eight_bits(image: Any) -> Any:
    """The same image; for 16-bit grey, which Pillow would saturate at 255, the upper eight bits of each pixel."""
    if image.mode.startswith("I"):
        return image.convert("I").point(lambda light: light * (1 / 256)).convert("L")
    return image


def fitted(image: Any, width: int, height: int, crop: bool = False) -> Any:
    """The image in this size with its proportions: complete on the colour to which most of its edge is near, or filling
    the size."""
    if image.size == (width, height):
        return image
    scale = (max if crop else min)(width / image.width, height / image.height)
    size = max(1, round(image.width * scale)), max(1, round(image.height * scale))
    scaled = image.resize(size, image_package().LANCZOS)
    left, top = (width - size[0]) // 2, (height - size[1]) // 2
    if crop:
        return scaled.crop((-left, -top, width - left, height - top))
    ground = image_package().new("RGB", (width, height), edge_colour(image))
    ground.paste(scaled, (left, top))
    return ground


def edge_colour(image: Any) -> tuple[int, int, int]:
    """The colour to which the outermost pixels are nearest."""
    right, low = image.width - 1, image.height - 1
    across = [image.getpixel((x, y)) for x in range(image.width) for y in (0, low)]
    down = [image.getpixel((x, y)) for y in range(image.height) for x in (0, right)]
    edge = Counter(colouring.near(*pixel) for pixel in across + down)
    best = most_near(edge, [colour for colour, _ in edge.most_common(64)])
    return 17 * best.red, 17 * best.green, 17 * best.blue


def most_near(edge: Counter[Colour], among: Sequence[Colour]) -> Colour:
    """The colour to which most pixels of an edge are near; the distance of the other pixels counts little."""

    def distance(colour: Colour) -> int:
        return sum(count * min(colour.far_from(other), FAR) for other, count in edge.items())

    return min(among, key=distance)


def in_colours(image: Any, most: int, dither: bool = False) -> Flat:
    """The image in at most `most` colours, chosen for it."""
    pixels = [colouring.near(*pixel) for pixel in image.getdata()]
    few = colouring.chosen(pixels, most)
    if dither:
        places = dithered(image, few)
    else:
        place_of = {colour: colouring.nearest_colour(colour, few) for colour in set(pixels)}
        places = bytes(place_of[pixel] for pixel in pixels)
    width = image.width
    return Flat([bytearray(places[at : at + width]) for at in range(0, len(places), width)], few)


def dithered(image: Any, few: Sequence[Colour]) -> bytes:
    """The places of the colours, with the error of each pixel spread over its neighbours."""
    table = [17 * part for colour in few for part in colour]
    palette = image_package().new("P", (1, 1))
    palette.putpalette(table + table[:3] * (256 - len(few)))
    return bytes(min(place, len(few) - 1) for place in image.quantize(palette=palette, dither=1).getdata())


def tiles_of(rows: Grid) -> Iterator[tuple[int, int]]:
    """The upper left pixel of each tile."""
    for top in range(0, len(rows), TILE_HEIGHT):
        for left in range(0, len(rows[0]), TILE_WIDTH):
            yield left, top


def pixels_of(rows: Grid, left: int, top: int) -> bytes:
    return b"".join(row[left : left + TILE_WIDTH] for row in rows[top : top + TILE_HEIGHT])


def put(rows: Grid, left: int, top: int, change: bytes) -> None:
    """Replaces the colours of a tile by a table."""
    for row in rows[top : top + TILE_HEIGHT]:
        row[left : left + TILE_WIDTH] = row[left : left + TILE_WIDTH].translate(change)


def simplify(flat: Flat, most_error: float) -> None:
    """Removes colours from tiles as long as that is hardly visible: each time the least important one, which the most
    similar colour replaces. A tile may end with one colour, and then needs few packs or none."""
    for left, top in tiles_of(flat.rows):
        counts = Counter(pixels_of(flat.rows, left, top))
        change, error = bytearray(range(256)), 0.0
        while len(counts) > 1:
            cost, old, new = min(
                (count * flat.colours[one].far_from(flat.colours[other]), one, other)
                for one, count in counts.items()
                for other in counts
                if other != one
            )
            error += cost
            if error > most_error * sum(counts.values()):
                break
            counts[new] += counts.pop(old)
            change = bytearray(new if place == old else place for place in change)
        put(flat.rows, left, top, bytes(change))


@functools.lru_cache(maxsize=None)
def weight(numbers: int) -> int:
    """The number of packs for a tile with the colours whose bits are set."""
    return tile_weight(frozenset(number for number in range(COLOURS) if numbers >> number & 1))


def numbered(flat: Flat, free: Sequence[int]) -> list[int]:
    """Assigns a free number to each colour, so that tiles of three and more colours need few packs."""
    sets = Counter(tuple(sorted(set(pixels_of(flat.rows, left, top)))) for left, top in tiles_of(flat.rows))
    many = {colours: count for colours, count in sets.items() if len(colours) > 2}
    numbers = list(free)

    def cost() -> int:
        bits, total = [1 << number for number in numbers], 0
        for colours, count in many.items():
            total += count * weight(functools.reduce(operator.or_, map(bits.__getitem__, colours)))
        return total

    least, is_better = cost(), bool(many)
    while is_better:
        is_better = False
        for one in range(len(flat.colours)):
            for other in range(one + 1, len(numbers)):
                numbers[one], numbers[other] = numbers[other], numbers[one]
                now = cost()
                if now < least:
                    least, is_better = now, True
                else:
                    numbers[one], numbers[other] = numbers[other], numbers[one]
    return numbers[: len(flat.colours)]


# How much each pixel of a tile may change on average for the sake of fewer colours (see `Colour.far_from`).
PLAIN = 2.0


def flat_of(image: Any, most: int = COLOURS, simple: float = PLAIN, dither: bool = False) -> Flat:
    """The image in few colours, and its tiles in even fewer; an image with no more colours than that is unchanged."""
    flat = in_colours(image, most, dither)
    if not dither and len(set(image.getdata())) > most:
        simplify(flat, simple)
    return flat


def raster_of(flat: Flat, ground: Raster, left: int, top: int, free: Sequence[int] = range(COLOURS)) -> Raster:
    """The screen after the image is drawn on another one from a pixel on; its colours get some of the free numbers."""
    numbers = numbered(flat, free)
    raster = ground.copy()
    for number, colour in zip(numbers, flat.colours):
        raster.colours[number] = colour
    table = bytes(numbers) + bytes(256 - len(numbers))
    for row, pixels in zip(raster.rows[top:], flat.rows):
        row[left : left + len(pixels)] = pixels.translate(table)
    return raster


def whole(
    path: Path,
    most: int = COLOURS,
    simple: float = PLAIN,
    dither: bool = False,
    how: ImageOptions = ImageOptions(),
    border: Colour | None = None,
) -> Raster:
    """An image that fills the window, with a border in this colour, or in the one to which most of its edge is near."""
    image = fitted(read_image(path, how), WIDTH, HEIGHT, how.crop)
    raster = raster_of(flat_of(image, most, simple, dither), Raster(), 0, 0)
    edge = bytes(raster.rows[0] + raster.rows[-1]) + b"".join(bytes((row[0], row[-1])) for row in raster.rows)
    used = sorted(set(b"".join(raster.rows)))
    if border:
        raster.border = border_number(raster, used, border)
    else:
        counts = Counter(raster.colours[number] for number in edge)
        near = most_near(counts, [raster.colours[number] for number in used])
        raster.border = next(number for number in used if raster.colours[number] == near)
    return raster


def border_number(raster: Raster, used: Sequence[int], border: Colour) -> int:
    """A colour for the border: one that the image has, a free number, or the nearest colour."""
    free = next((number for number in range(COLOURS) if number not in used), None)
    if border in [raster.colours[number] for number in used] or free is None:
        return used[colouring.nearest_colour(border, [raster.colours[number] for number in used])]
    raster.colours[free] = border
    return free


def placed_lines(flat: Flat, column: int, row: int, first: int) -> list[str]:
    """The lines that draw an image from a tile on, over any picture."""
    left, top = TILE_WIDTH * column, TILE_HEIGHT * row
    numbers = numbered(flat, range(first, COLOURS))
    colours = [f"colour {number} {colour.word()}" for number, colour in sorted(zip(numbers, flat.colours))]
    table = bytes(numbers) + bytes(256 - len(numbers))
    return colours + list(
        span_lines([Span(left, top + y, bytes(pixels.translate(table))) for y, pixels in enumerate(flat.rows)])
    )
