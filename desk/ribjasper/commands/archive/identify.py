"""The form of a dump, its lead-in, and its content."""
import argparse

from ...common import library
from ...common.failures import REFUSED, Refusal, shown
from ...common.output import Table, add_json, complain
from ...common.progress import progress
from ...common.words import Commands
from ...dumps.identity import identity, yes
from ...dumps.loading import DumpOptions, Unknown, add_options, asked, load_found
from ...dumps.q_disc import sessions_in
from ...dumps.sessions import notes as session_notes

NAMES = ("file", "form", "lead-in", "graphics", "texts", "q-good", "notes")


def add_parser(commands: Commands) -> None:
    parser = commands.add_parser(
        "identify",
        help="print the form, the lead-in and the contents of dumps",
        description="Prints a row for each dump. The row has its form, the number of blocks in its lead-in, whether "
        "it has graphics and texts, and the share of good Q frames. It also has notes: for example, that the end is "
        "torn, that there is a header, that blocks were not read, that other files are next to the dump, or that the "
        "disc has several sessions. If a file has no known form, a line on standard error says so.",
    )
    parser.add_argument("files", nargs="+", metavar="FILE")
    parser.add_argument(
        "-v",
        "--verbose",
        action="store_true",
        help="for each file without a known form, also print why no form fits",
    )
    add_options(parser)
    add_json(parser)
    parser.set_defaults(run=run)


def cells(path: str, words: DumpOptions, is_detailed: bool) -> tuple[object, ...]:
    """The line of a dump, or a refusal."""
    loaded = load_found(path, words)
    if isinstance(loaded, Unknown):
        complain(f"{shown(path)}: {loaded.cause}")
        for reason in loaded.against if is_detailed else ():
            complain(f"{shown(path)}: {reason}")
        return (path, "none", *"-----")
    found = identity(loaded)
    texts = any(line.split(" ", 1)[0] != "packs" for line in found.texts.splitlines())
    notes = "; ".join([*loaded.notes(), *session_notes(loaded, sessions_in(loaded))]) or "-"
    return (path, loaded.form.name, loaded.survey.lead_in, found.graphics, yes(texts), found.q_good, notes)


def run(arguments: argparse.Namespace) -> int:
    status = 0
    library.loaded()
    table = Table(NAMES, arguments.json)
    for path in progress(arguments.files, len(arguments.files), "files"):
        try:
            row = cells(path, asked(arguments), arguments.verbose)
        except Refusal as refusal:
            complain(str(refusal))
            status = REFUSED
            continue
        table.row(row)
        if row[1] == "none":
            status = REFUSED
    return status
