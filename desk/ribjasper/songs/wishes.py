"""The options for the look of a song."""
import argparse
import os
from dataclasses import replace
from pathlib import Path

from ..common.output import read_file
from ..common.words import number_in, seconds_in
from ..drawing.lettering import DEFAULT_FONT
from ..drawing.styles import LEAST_ROWS, LEAST_SIZE, MOST_ROWS, MOST_SIZE, Style, read_style, shipped
from .document import look_in
from .encodings import known
from .scores import Look, look_of
from .song_files import companion_of, pictures_of
from .song_script import BOXES, LEAVE, Wishes

# How long before its time a line may be shown.
LONGEST_LEAD = 60
LONGEST_INTRO = 600


def add_wishes(parser: argparse.ArgumentParser) -> None:
    """Adds the options for the look of a song."""
    parser.add_argument("--title", type=Path, metavar="IMAGE", help="show this picture before the first words")
    parser.add_argument("--style", metavar="STYLE", help=f"{', '.join(shipped())}, or a file STYLE.toml (night)")
    parser.add_argument(
        "--font",
        type=Path,
        action="append",
        default=[],
        metavar="FILE",
        help=f"a font ({DEFAULT_FONT.stem}); repeat the option to name another font for letters that the first one lacks",
    )
    parser.add_argument(
        "--size",
        type=number_in(LEAST_SIZE, MOST_SIZE),
        metavar="PIXELS",
        help="the height of letters in pixels (24 to 16, or less if most lines would not fit into a row)",
    )
    parser.add_argument(
        "--rows", type=number_in(LEAST_ROWS, MOST_ROWS), metavar="N", help="the number of rows of a page (4)"
    )
    parser.add_argument(
        "--sweep",
        action="store_true",
        help="colour each word gradually while it is sung, a column of tiles (6 pixels) at a time",
    )
    parser.add_argument(
        "--lead",
        type=seconds_in(0, LONGEST_LEAD),
        metavar="SECONDS",
        help="draw each line this many seconds before it is sung (4, or more if lines would be late)",
    )
    parser.add_argument(
        "--legend", action="store_true", help="show the singers in their colours before the first words"
    )
    parser.add_argument(
        "--between",
        action="append",
        default=[],
        metavar="IMAGE",
        help="show this image, or a colour like #08F, in rests of 12 seconds and more; repeat the option for several "
        "images in turn",
    )
    parser.add_argument(
        "--intro",
        type=seconds_in(0, LONGEST_INTRO),
        default=0.0,
        metavar="SECONDS",
        help="insert this many seconds of silence at the beginning, before the sound and the pictures",
    )
    add_encoding(parser)
    parser.add_argument(
        "--missing",
        choices=(LEAVE, BOXES),
        default=LEAVE,
        help="what to do with letters that no font has: omit them, or draw a box for each (leave)",
    )
    parser.add_argument(
        "--no-rests", action="store_true", help="show no dots before a line, no pages for rests, and no last page"
    )


def encoding(word: str) -> str:
    """An encoding of texts, as an argument of the command line."""
    if not known(word):
        raise argparse.ArgumentTypeError(f"{word} is not an encoding like utf-8, windows-1251 or shift_jis")
    return word


def add_encoding(parser: argparse.ArgumentParser) -> None:
    parser.add_argument(
        "--encoding",
        type=encoding,
        metavar="NAME",
        help="the encoding of the lyrics, for example windows-1251 (guessed if it is not UTF-8)",
    )


def look_for(arguments: argparse.Namespace) -> Look:
    """The look that the studio saved next to the song, or the default look."""
    more = companion_of(arguments.song)
    return look_of(look_in(read_file(more))) if more else Look()


def style_of(arguments: argparse.Namespace, look: Look) -> Style:
    """The requested style, or otherwise the one that the studio saved; its file is in the folder of the song."""
    if arguments.style or look.style in shipped():
        return read_style(arguments.style or look.style)
    return read_style(os.fspath(arguments.song.parent / look.style))


def wishes_of(arguments: argparse.Namespace, end: int | None) -> Wishes:
    """The look from the options; options that are not given have the values that the studio saved."""
    look, folder = look_for(arguments), arguments.song.parent
    style, rows = style_of(arguments, look), arguments.rows or look.rows
    between = arguments.between or [one if one.startswith("#") else os.fspath(folder / one) for one in look.between]
    return Wishes(
        style=replace(style, rows=rows) if rows else style,
        fonts=tuple(arguments.font),
        size=arguments.size or look.size,
        sweep=arguments.sweep or look.sweep,
        title=arguments.title or (folder / look.title if look.title else None),
        end=end,
        lead=look.lead if arguments.lead is None else arguments.lead,
        legend=arguments.legend or look.legend,
        rests=look.rests and not arguments.no_rests,
        missing=arguments.missing,
        between=tuple(word if word.startswith("#") else os.path.abspath(word) for word in between),
        encoding=arguments.encoding,
        intro=arguments.intro or look.intro,
    )


def reads_of(arguments: argparse.Namespace) -> list[Path | None]:
    """The files from which a song is made."""
    look = look_for(arguments)
    own = [arguments.song.parent / name for name in (look.title, *look.between) if name and not name.startswith("#")]
    between = [Path(word) for word in arguments.between if not word.startswith("#")]
    fonts = [*arguments.font, *style_of(arguments, look).files()]
    return [arguments.song, arguments.audio, arguments.title, *own, *between, *fonts, *pictures_of(arguments.song)]
