"""`plan`: a row for each picture of a script, and the late pictures."""
import argparse
from pathlib import Path

from ...common import kinds, latin1, times
from ...common.failures import LATE, Refusal, shown
from ...common.output import Outputs, add_force, read_file, tell, add_json
from ...common.planning import NoPlan, Plan, least_lead_in, plan, refused_lines
from ...common.times import spelled
from ...common.words import Commands
from ...drawing.charts import draw_plan
from ...songs import audio
from ...songs.recognition import check_sheet_and_script

NAMES = ("picture", "line", "ready", "hold", "need", "free", "first", "late")


def add_length(parser: argparse.ArgumentParser) -> None:
    """Adds the options for the length of the audio."""
    length = parser.add_mutually_exclusive_group(required=True)
    length.add_argument("--length", type=times.blocks, metavar="MM:SS:FF", help="how long the audio is")
    length.add_argument("--audio", type=Path, metavar="WAV", help="the audio, whose length is taken")


def audio_blocks(arguments: argparse.Namespace) -> int:
    blocks: int = audio.length(arguments.audio) if arguments.audio else arguments.length
    return blocks


def add_parser(commands: Commands) -> None:
    parser = commands.add_parser(
        "plan",
        help="list which pictures of a script are on time",
        description="Prints a row for each picture of a script, with the number of packs that it needs and the "
        "number of packs that are free for it. A second has 300 packs. The exit status is 4 if a picture is late. "
        "The last line on standard error is the `author` command of the program for this disc.",
    )
    parser.add_argument("sheet", type=Path, metavar="SHEET", help="the cue sheet of the disc")
    parser.add_argument("script", type=Path, metavar="SCRIPT", help="the picture script")
    add_length(parser)
    parser.add_argument(
        "--chart", type=Path, metavar="FILE.png", help="draw a chart of the packs that are needed and free over time"
    )
    parser.add_argument(
        "--latin-1",
        type=Path,
        metavar="FILE.cue",
        help="write the sheet with its texts in Latin-1, as players read them",
    )
    add_json(parser)
    add_force(parser)
    parser.set_defaults(run=run)


def planned(sheet: Path, script: Path, length: int) -> Plan:
    """The plan of two files, or a refusal that names the one that is wrong."""
    sheet_text, script_text = read_file(sheet), read_file(script)
    try:
        return plan(sheet_text, script_text, length)
    except NoPlan as none:
        check_sheet_and_script(sheet, sheet_text, script, script_text)
        causes = refused_lines(sheet_text, script_text, length, none)
        raise Refusal(script if none.is_of_script() else sheet, *causes) from None


def run(arguments: argparse.Namespace) -> int:
    reads = [arguments.sheet, arguments.script, arguments.audio]
    writes = [(arguments.chart, kinds.PNG), (arguments.latin_1, kinds.CUE)]
    with Outputs(reads, writes, arguments.force) as outputs:
        length = audio_blocks(arguments)
        found = planned(arguments.sheet, arguments.script, length)
        sheet = read_file(arguments.sheet)
        if arguments.latin_1:
            outputs.write(arguments.latin_1, latin1.as_latin_1(arguments.sheet, sheet))
        else:
            latin1.warn(arguments.sheet, sheet)
        table = outputs.table(NAMES, arguments.json)
        for number, row in enumerate(found.rows):
            first = spelled(row.first // 4)
            table.row(
                (
                    number,
                    row.line,
                    spelled(row.ready),
                    spelled(row.hold),
                    row.need,
                    row.free,
                    first,
                    "yes" if row.is_late else "no",
                )
            )
        if arguments.chart:
            outputs.write_png(arguments.chart, draw_plan(found))
    names = shown(str(arguments.latin_1 or arguments.sheet)), shown(str(arguments.script))
    tell(
        f"{len(found.rows)} pictures, {len(found.late())} of them late; the disc is authored by ribjasper author "
        f"--lead-in {least_lead_in(sheet, length)} --length {spelled(length)} -- {' '.join(names)}"
    )
    return LATE if found.late() else 0
