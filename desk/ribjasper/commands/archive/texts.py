"""The text packs of a lead-in, in the forms of other tools, and back."""
import argparse
import ctypes

from ...common import kinds, library
from ...common.failures import Refusal, shown
from ...common.library import BLOCK, PACKS_A_BLOCK, TEXT_PACK
from ...common.output import Outputs, add_force, add_json, read_file, tell, write_text
from ...common.words import Commands
from ...dumps import text_packs
from ...dumps.loading import DumpOptions, add_options, asked, load_raw
from ...dumps.text_packs import TIMES, text_packs_in

# Some tools write four bytes in front of the packs: how many follow these two, and two zeros.
HEADER = 4


def with_header(packs: bytes) -> bytes:
    return (len(packs) + 2).to_bytes(2, "big") + bytes(2) + packs


def without_header(path: str, content: bytes) -> bytes:
    """The packs of a file that has them with the four bytes in front or without; a last zero is passed over."""
    length = len(content) % TEXT_PACK
    if length in (HEADER, HEADER + 1) and int.from_bytes(content[:2], "big") + 2 in (len(content), len(content) - 1):
        content, length = content[HEADER:], length - HEADER
    if length == 1 and content[-1:] == b"\0":
        content, length = content[:-1], 0
    if length or not content:
        raise Refusal(path, f"does not consist of whole packs of {TEXT_PACK} bytes")
    return content


def lead_in_of_packs(packs: bytes) -> bytes:
    """Blocks whose symbols carry the packs again and again, without P and Q."""
    turn, room = library.call("ribjasper_text_pack_symbols"), ctypes.create_string_buffer(BLOCK // PACKS_A_BLOCK)
    slots = []
    for start in range(0, len(packs), TEXT_PACK):
        turn(packs[start : start + TEXT_PACK], room)
        slots.append(room.raw)
    count = TIMES * len(slots)
    count += -count % PACKS_A_BLOCK
    return b"".join(slots[place % len(slots)] for place in range(count))


def add_parser(commands: Commands) -> None:
    parser = commands.add_parser(
        "texts",
        help="list the CD-TEXT of a lead-in, and copy its packs to and from files of other tools",
        description="Prints the CD-TEXT of a dump's lead-in. --packs also writes its packs of 18 bytes to a file. "
        "--back does the opposite: FILE is then such a file of packs, with or without four extra bytes in front, and "
        "--blocks writes raw lead-in blocks with these packs.",
    )
    parser.add_argument("file", metavar="FILE", help="a dump; with --back, a file of packs")
    parser.add_argument(
        "--all",
        action="store_true",
        help="print a table of all languages and kinds, in UTF-8; print other data in hexadecimal digits",
    )
    parser.add_argument("--packs", metavar="OUT", help="write the packs whose CRC matches, each once, in order")
    parser.add_argument(
        "--header", action="store_true", help="with --packs, put four extra bytes in front that some tools need"
    )
    add_options(parser)
    parser.add_argument("--back", action="store_true", help="read a file of packs, not a dump")
    parser.add_argument("--blocks", metavar="OUT", help="with --back, write raw lead-in blocks with the packs")
    add_json(parser)
    add_force(parser)
    parser.set_defaults(run=run, error=parser.error)


def lead_in_of_dump(path: str, words: DumpOptions) -> bytes:
    loaded = load_raw(path, words, "lead-in")
    return loaded.stream[BLOCK * loaded.survey.first : BLOCK * loaded.survey.lead_in]


def write_all(outputs: Outputs, packs: list[bytes], as_json: bool) -> None:
    """Writes the table of the contents of packs."""
    names = {language.number: language.name for language in text_packs.languages_of(packs)}
    table = outputs.table(("language", "kind", "track", "text"), as_json)
    for said in text_packs.said(packs):
        table.row((names[said.language], said.kind, f"{said.track:02}", said.text))


def run(arguments: argparse.Namespace) -> int:
    if arguments.back and (arguments.packs or arguments.header or any(it is not None for it in asked(arguments))):
        arguments.error("--back needs --blocks")
    if arguments.blocks and not arguments.back:
        arguments.error("--blocks needs --back")
    writes = [(arguments.packs, kinds.TEXT_PACKS), (arguments.blocks, kinds.STREAM)]
    with Outputs([arguments.file], writes, arguments.force) as outputs:
        if arguments.back:
            blocks = lead_in_of_packs(without_header(arguments.file, read_file(arguments.file)))
        else:
            blocks = lead_in_of_dump(arguments.file, asked(arguments))
        found = text_packs_in(blocks)
        if not found:
            tell(f"{shown(arguments.file)}: has no text pack")
        if arguments.packs:
            packs = b"".join(found)
            outputs.write(arguments.packs, with_header(packs) if arguments.header else packs)
        if arguments.blocks:
            outputs.write(arguments.blocks, blocks)
        if arguments.all:
            write_all(outputs, found, arguments.json)
            return 0
        write_text(library.texts(blocks, len(blocks) // BLOCK), outputs.printed)
        if more := text_packs.beyond(found):
            tell(f"{shown(arguments.file)}: has more, which --all prints: {more}")
    return 0
