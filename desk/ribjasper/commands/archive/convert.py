"""A dump in another form, or a part of one: raw, planar, sectors, cooked and `.cdg`."""
import argparse
import os
import re

from ...common import kinds
from ...common.failures import FOUND, Refusal, shown
from ...common.library import RAW
from ...common.output import Outputs, add_force, tell
from ...common.progress import progress
from ...common.times import CLOCK, blocks
from ...common.words import Commands
from ...dumps.conversion import Sources, converted, blocks_between, whole_packs
from ...dumps.forms import Coding, FORMS, Form
from ...dumps.loading import FORM_NAMES, Loaded, add_options, asked, form_name, read_dump
from ...dumps.pieces import pieces_of

# The form of an output, by the ending of its name, if none is named.
ENDINGS = {".raw": "raw", ".subcode": "raw", ".sub": "planar", ".bin": "sector", ".img": "sector", ".cdg": "cdg"}


def place(word: str) -> tuple[bool, int]:
    """A place of a dump, of the command line: an absolute time, or the number of a block of the file."""
    if CLOCK.fullmatch(word):
        return True, blocks(word)
    if re.fullmatch(r"[0-9]{1,9}", word):
        return False, int(word)
    raise argparse.ArgumentTypeError(f"{word} is neither a time MM:SS:FF nor the number of a block")


def block_at(loaded: Loaded, at: tuple[bool, int]) -> int:
    """The block of the file at a place. Packs have no times of their own: theirs are those from their beginning."""
    is_time, number = at
    if not is_time or loaded.form.is_packs():
        return number
    pieces = pieces_of(loaded.survey.stretches())
    if not pieces:
        raise Refusal(loaded.path, "no Q frame has a time; give --from and --to as block numbers")
    piece = next((it for it in pieces if number < it.end + it.shift), pieces[-1])
    return max(0, number - piece.shift)


def target_of(arguments: argparse.Namespace) -> Form:
    named = arguments.to_form or ENDINGS.get(os.path.splitext(arguments.output)[1].lower())
    if named is None:
        raise Refusal(
            arguments.output,
            f"its ending names no form; use one of {', '.join(ENDINGS)}, or --as with one of {FORM_NAMES}",
        )
    return FORMS[named]


def kind_of_form(target: Form) -> kinds.Kind:
    if target.coding is Coding.CDG:
        return kinds.CDG
    return kinds.IMAGE if target.is_in_sectors() else kinds.STREAM


def add_parser(commands: Commands) -> None:
    parser = commands.add_parser(
        "convert",
        help="write a dump, or a part of it, in another form",
        description="Writes a dump in another form. The output can have raw or planar blocks, the packs of a cooked "
        "dump or of a .cdg file, or only P and Q. Most forms can also have the audio of sectors. --as names the "
        "form; otherwise it follows from the ending of the output (.raw, .subcode, .sub, .bin, .img or .cdg). If the "
        "dump has only packs, the program presses blocks from them, with P and Q of a disc with one track or of a "
        "cue sheet. The exit status is 1 if some pack has no codeword.",
    )
    parser.add_argument("file", metavar="DUMP")
    parser.add_argument("-o", "--output", required=True, metavar="OUT")
    parser.add_argument("--as", dest="to_form", type=form_name, metavar="FORM", help="the form of the output")
    parser.add_argument(
        "--from",
        dest="begin",
        type=place,
        metavar="PLACE",
        help="where the part begins: a time of the disc as MM:SS:FF, or the number of a block",
    )
    parser.add_argument(
        "--to",
        dest="end",
        type=place,
        metavar="PLACE",
        help="where the part ends: the first time or block that is not written",
    )
    parser.add_argument(
        "--audio", metavar="FILE", help="take the audio of sectors from this file of raw samples or WAV file"
    )
    parser.add_argument("--silent", action="store_true", help="write sectors with silence")
    parser.add_argument("--sheet", metavar="CUE", help="take P and Q of pressed blocks from this cue sheet")
    add_options(parser)
    add_force(parser)
    parser.set_defaults(run=run)


def run(arguments: argparse.Namespace) -> int:
    target = target_of(arguments)
    inputs = [arguments.file, arguments.audio, arguments.sheet]
    with Outputs(inputs, [(arguments.output, kind_of_form(target))], arguments.force) as outputs:
        loaded = read_dump(arguments.file, asked(arguments))
        for note in loaded.notes():
            tell(f"{shown(arguments.file)}: {note}")
        if (
            not target.is_packs()
            and not loaded.form.is_packs()
            and not loaded.form.has_graphics()
            and target.has_graphics()
        ):
            tell(f"{shown(arguments.file)}: has only P and Q; the channels R to W are zeros")
        first = block_at(loaded, arguments.begin) if arguments.begin else 0
        end = min(loaded.survey.blocks, block_at(loaded, arguments.end)) if arguments.end else loaded.survey.blocks
        if first >= end:
            raise Refusal(arguments.file, f"has no block from {first} up to {end}")
        whole = first == 0 and end == loaded.survey.blocks
        loaded = whole_packs(loaded) if whole else blocks_between(loaded, first, end)
        out = outputs.open(arguments.output)
        sources = Sources(arguments.audio, arguments.silent, arguments.sheet)
        for part in progress(converted(loaded, target, sources, first), None, "parts"):
            out.write(part)
        bad = loaded.survey.total("bad") if target.is_packs() and loaded.form.library == RAW else 0
        if bad:
            tell(f"{shown(arguments.file)}: {bad} packs have no codeword and are zeros")
        return FOUND if bad else 0
