"""`picture`: the lines of a script that draw an image, in few colours and few tiles."""
import argparse
from pathlib import Path

from ...common import kinds
from ...common.cue_sheets import ONE_TRACK
from ...common.library import BLOCKS_A_SECOND
from ...common.output import Outputs, add_force, tell
from ...common.planning import plan
from ...common.targets import DASH
from ...common.words import Commands, number_in
from ...drawing import colours as colouring
from ...drawing.colours import Colour
from ...drawing.images import PLAIN, ImageOptions, fitted, flat_of, image_package, placed_lines, read_image, whole
from ...drawing.raster import COLOURS, COLUMNS, HEIGHT, ROWS, Raster, TILE_HEIGHT, TILE_WIDTH, WIDTH, lines_between


def colour_word(word: str) -> Colour:
    """A colour, as an argument of the command line."""
    colour = colouring.read_colour(word)
    if colour is None:
        raise argparse.ArgumentTypeError(f"{word} is not a colour like #08F or #0088FF")
    return colour


def tile_place(word: str) -> tuple[int, int]:
    """A tile of the window, as an argument of the command line."""
    try:
        column, row = map(int, word.split(","))
    except ValueError:
        raise argparse.ArgumentTypeError(f"{word} is not a place COLUMN,ROW") from None
    if not (0 <= column < COLUMNS and 0 <= row < ROWS):
        raise argparse.ArgumentTypeError(f"{word} is outside: columns are 0 to {COLUMNS - 1}, rows 0 to {ROWS - 1}")
    return column, row


def add_parser(commands: Commands) -> None:
    parser = commands.add_parser(
        "picture",
        help="turn an image into lines of a picture script",
        description="Writes lines of a picture script that draw an image. The result is as large as the window of "
        "288 by 192 pixels. It has sixteen colours that suit the image, and needs few packs. If an image has this "
        "size and no more colours, it is drawn pixel for pixel. Add a line `show READY HOLD` with the times yourself.",
    )
    parser.add_argument("image", type=Path, metavar="IMAGE")
    parser.add_argument("--colours", type=number_in(1, COLOURS), metavar="N", help="the maximum number of colours (16)")
    parser.add_argument(
        "--first",
        type=number_in(0, COLOURS - 1),
        default=0,
        metavar="K",
        help="use the colours from number K on, so that other pictures can use those before",
    )
    parser.add_argument(
        "--at",
        type=tile_place,
        metavar="COLUMN,ROW",
        help="draw the image from this tile of 6 by 12 pixels on, in its own size if there is room",
    )
    parser.add_argument(
        "--simple",
        type=float,
        default=PLAIN,
        metavar="ERROR",
        help="change the pixels of a tile so that it needs fewer packs, up to this mean squared colour error (2; 0 "
        "changes no pixel, 40 gives a coarse picture)",
    )
    parser.add_argument("--dither", action="store_true", help="mix colours from dots; this needs many packs")
    parser.add_argument(
        "--border",
        type=colour_word,
        metavar="COLOUR",
        help="the colour of the border, like #08F (the most frequent colour at the edge of the image)",
    )
    parser.add_argument(
        "--crop", action="store_true", help="scale the image so that it fills the window, and remove what is outside"
    )
    parser.add_argument(
        "--frame", type=number_in(1, 1_000_000), metavar="N", help="the frame to use if the image has several"
    )
    parser.add_argument("-o", "--output", type=Path, metavar="FILE", help="the file (standard output)")
    add_force(parser)
    parser.set_defaults(run=run)


def image_lines(arguments: argparse.Namespace) -> list[str]:
    most = min(arguments.colours or COLOURS, COLOURS - arguments.first)
    how = ImageOptions(arguments.frame, arguments.crop)
    if not arguments.at and not arguments.first:
        return lines_between(
            Raster(), whole(arguments.image, most, arguments.simple, arguments.dither, how, arguments.border)
        )
    column, row = arguments.at or (0, 0)
    image = read_image(arguments.image, how)
    room = WIDTH - TILE_WIDTH * column, HEIGHT - TILE_HEIGHT * row
    if how.crop:
        image = fitted(image, *room, crop=True)
    elif image.width > room[0] or image.height > room[1] or not arguments.at:
        scale = min(room[0] / image.width, room[1] / image.height)
        image = image.resize(
            (max(1, round(image.width * scale)), max(1, round(image.height * scale))), image_package().LANCZOS
        )
    return placed_lines(flat_of(image, most, arguments.simple, arguments.dither), column, row, arguments.first)


def packs_needed(lines: list[str]) -> int:
    """The packs that a first picture needs."""
    script = "".join(f"{line}\n" for line in [*lines, "show 00:01:00 00:01:00"])
    return plan(ONE_TRACK, script.encode(), 60 * BLOCKS_A_SECOND).rows[0].need


def run(arguments: argparse.Namespace) -> int:
    out = arguments.output or DASH
    with Outputs([arguments.image], [(out, kinds.SCRIPT)], arguments.force) as outputs:
        lines = image_lines(arguments)
        outputs.write(out, "".join(f"{line}\n" for line in lines).encode())
    packs = packs_needed(lines)
    tell(f"as a first picture it needs {packs} packs, {packs / 300:.1f} seconds")
    return 0
