"""The damage of a dump: runs of blocks, jumps of its time, a map, and the blocks to read again."""
import argparse

from ...common import kinds
from ...common.failures import FOUND, Refusal, shown
from ...common.library import BLOCK, RAW
from ...common.output import Outputs, add_force, add_json, tell
from ...common.words import Commands
from ...dumps import again
from ...dumps.drive_errors import drive_errors
from ...dumps.damages import NAMES, damages_of, draw_map, unread_damages
from ...dumps.loading import Loaded, add_options, asked, read_dump


def add_parser(commands: Commands) -> None:
    parser = commands.add_parser(
        "damage",
        help="list the damaged places of a dump",
        description="Prints a row for each run of adjacent damaged blocks, and for each jump of the "
        "times. Blocks are numbered from 0 in the file. A word is counted in the block that completes it. A block of "
        "96 zeros is empty: drives return zeros if they give up. Empty blocks before the first and after the last "
        "block that was read are unread; they have separate rows and do not count as damage. If a file of C2 errors "
        "(.c2) or redumper's .state is next to the dump, --again also lists the sectors that it marks. The exit "
        "status is 1 if there is damage.",
    )
    parser.add_argument("file", metavar="FILE")
    add_options(parser)
    parser.add_argument("--map", metavar="FILE.png", help="also draw a map of the damage")
    parser.add_argument("--again", metavar="FILE", help="also write a list of the sectors to read again")
    parser.add_argument(
        "--again-as",
        choices=list(again.FORMATS),
        help="the format of this list: a table of sector numbers, times and reasons (the default), ranges of sector "
        "numbers or of times, a map for ddrescue -b 2048, or arguments for redumper, readcd or cdparanoia",
    )
    add_json(parser)
    add_force(parser)
    parser.set_defaults(run=run, error=parser.error)


def run(arguments: argparse.Namespace) -> int:
    if arguments.again_as and not arguments.again:
        arguments.error("--again-as needs --again")
    writes = [(arguments.map, kinds.PNG), (arguments.again, kinds.AGAIN)]
    with Outputs([arguments.file], writes, arguments.force) as outputs:
        loaded = read_dump(arguments.file, asked(arguments))
        found = damages_of(loaded)
        if arguments.again:
            outputs.write(arguments.again, list_to_read_again(loaded, arguments.again_as or "table").encode())
        table = outputs.table(NAMES, arguments.json)
        for damage in sorted([*found, *unread_damages(loaded.survey)], key=lambda it: it.first):
            table.row(damage)
        for note in loaded.notes():
            tell(f"{shown(arguments.file)}: {note}")
        if arguments.map:
            outputs.write_png(arguments.map, draw_map(loaded.survey))
        return FOUND if found or loaded.rest else 0


def list_to_read_again(loaded: Loaded, form: str) -> str:
    """The list of sectors to read again. Notes report its sources."""
    if loaded.form.library != RAW or not loaded.survey.has_q:
        raise Refusal(loaded.path, "has no Q channel, so the addresses of its sectors are unknown")
    errors = drive_errors(loaded.path, len(loaded.stream) // BLOCK)
    wanted = again.wanted(loaded, errors)
    path = shown(loaded.path)
    if errors:
        inside = errors.within(loaded.survey.first, loaded.survey.end)
        tell(f"{path}: the drive reported errors in {inside} sectors ({', '.join(map(shown, errors.names))})")
    if wanted.unplaced:
        tell(f"{path}: {wanted.unplaced} damaged runs are not in the list: no frame has their addresses")
    tell(
        f"{path}: {sum(it.last - it.first + 1 for it in wanted.parts)} sectors in {len(wanted.parts)} runs to read again"
    )
    return again.FORMATS[form](wanted)
