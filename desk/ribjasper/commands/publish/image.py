"""`image`: a disc image with its subcode, for a burner: the sectors, and their tracks for cdrdao and others."""
import argparse
import os
from pathlib import Path
from typing import Iterator

from ...common import kinds, latin1
from ...common.disc_files import SHORTEST_TRACK, cue_of, toc_of
from ...common.discs import SheetDisc, read_disc
from ...common.failures import LATE, Refusal
from ...common.library import BLOCK, PACK, PACKS_A_BLOCK, RAW, packs_of_blocks, texts
from ...common.player import Player
from ...common.output import Outputs, add_force, complain, read_file, stem_of, tell
from ...common.progress import progress
from ...common.program import author
from ...common.times import PAUSE, spelled
from ...common.words import Commands
from ...dumps.streams import open_stream
from ...songs import audio
from ...songs.tracks import FIRST_OF_AUDIO

# This picture is held through the pause, so that all other pictures are in the audio: an image has only the audio.
HOLD_THROUGH_PAUSE = b"show 00:00:20 00:02:02\n"
# The bits of the channels P and Q in a byte of a block.
P_AND_Q = bytes(byte & 0xC0 for byte in range(256))


def add_parser(commands: Commands) -> None:
    parser = commands.add_parser(
        "image",
        help="make a disc image for a burner",
        description="Makes a disc image from a cue sheet, its stream and the audio. DISC.bin has sectors of 2,448 "
        "bytes with audio and subcode, without the lead-in and the first pause. DISC.toc is for cdrdao, and DISC.cue "
        "is for other programs.",
    )
    parser.add_argument("sheet", type=Path, metavar="SHEET", help="the cue sheet of the disc")
    parser.add_argument(
        "stream", type=Path, metavar="STREAM", help="the raw stream that `author` or `press` made from this sheet"
    )
    parser.add_argument(
        "--audio", type=Path, required=True, metavar="WAV", help="the audio: 44,100 Hz, stereo, 16 bits"
    )
    parser.add_argument(
        "--hold-through-pause",
        type=Path,
        metavar="SCRIPT",
        help="make the stream again from its script, with a black picture in front that is held through the pause",
    )
    parser.add_argument("--latin-1", action="store_true", help="write the texts in Latin-1, as players read them")
    parser.add_argument(
        "-o", "--output", type=Path, required=True, metavar="DISC", help="the name of the output without an ending"
    )
    add_force(parser)
    parser.set_defaults(run=run)


def checked_program(arguments: argparse.Namespace, disc: SheetDisc) -> bytes:
    """The program of the stream: its blocks from the first pause on, as the sheet and the audio ask for."""
    stream = open_stream(arguments.stream)
    if stream.is_packs():
        raise Refusal(
            arguments.stream, "is a .cdg file, not a raw stream: `ribjasper press` makes a raw stream from it"
        )
    program = stream.content[BLOCK * stream.lead_in :]
    if len(program) != BLOCK * disc.blocks:
        length = audio.length(arguments.audio)
        raise Refusal(
            arguments.stream,
            f"has {len(program) // BLOCK} blocks, but the sheet with this audio needs "
            f"{disc.blocks}: author the stream with --length {spelled(length)}",
        )
    expected = disc.stream[BLOCK * disc.lead_in :]
    if program.translate(P_AND_Q) != expected.translate(P_AND_Q):
        number = next(
            number
            for number in range(disc.blocks)
            if program[BLOCK * number : BLOCK * (number + 1)].translate(P_AND_Q)
            != disc.block(number).translate(P_AND_Q)
        )
        raise Refusal(arguments.stream, f"was not made from this sheet: its P or Q differs at {spelled(number)}")
    return program


def loses_pictures(program: bytes) -> str | None:
    """Why pictures are not whole on the image, if the packs that begin in the pause and are not whole on it leave more
    than a black screen. What is to be done is another thing for a .cdg file that was pressed: it sends nothing earlier.
    """
    packs, _ = packs_of_blocks(program[: BLOCK * (PAUSE + 2)], RAW, 0)
    with Player() as player:
        player.draw(packs[: PACK * PACKS_A_BLOCK * PAUSE])
        if not any(player.screen()) and not any(player.colours()):
            return None
    if not any(packs[: PACK * FIRST_OF_AUDIO]):
        return (
            "the first seven packs of its .cdg file begin in the first pause, which an image does not contain: make them "
            "idle, or repeat them later in the file, as `pair` does"
        )
    return (
        "an image does not contain the first pause, so pictures that need packs from this pause will not be complete; "
        "--hold-through-pause SCRIPT adds a black picture before them"
    )


def tell_texts(arguments: argparse.Namespace, disc: SheetDisc) -> None:
    """Warns if the texts of the sheet, which the image gets, differ from those of the stream."""
    stream = open_stream(arguments.stream)
    if not stream.lead_in:
        return
    theirs, ours = (
        [line for line in texts(content[: BLOCK * lead_in], lead_in).splitlines() if not line.startswith("packs ")]
        for content, lead_in in ((stream.content, stream.lead_in), (disc.stream, disc.lead_in))
    )
    differ = [("stream", line) for line in theirs if line not in ours]
    differ += [("sheet", line) for line in ours if line not in theirs]
    if differ:
        of, line = differ[0]
        tell(
            f"{arguments.stream}: its texts differ from those of {arguments.sheet}, which {arguments.output}.toc and .cue "
            f"contain: {len(differ)} differ, for example `{line}` of the {of}"
        )


def held(arguments: argparse.Namespace, disc: SheetDisc) -> bytes:
    """The program of a stream whose script begins with a picture that is held through the pause."""
    script = read_file(arguments.hold_through_pause).removeprefix(b"\xef\xbb\xbf")
    sheet = read_file(arguments.sheet)
    length = audio.length(arguments.audio)
    stream, status, message = author(sheet, HOLD_THROUGH_PAUSE + script, disc.lead_in, length)
    if status == LATE:
        raise LatePicture(
            f"{arguments.hold_through_pause}: after a black picture is added in front: {message}, which counts the black picture"
        )
    if status:
        raise Refusal(arguments.hold_through_pause, f"after one line is added in front: {message}")
    return stream[BLOCK * disc.lead_in :]


class LatePicture(Exception):
    """A picture cannot be ready."""


def image_sectors(disc: SheetDisc, program: bytes, path: Path) -> Iterator[bytes]:
    """The sectors of the image: the audio, or silence in gaps of the sheet, and the block."""
    silent = disc.silence()
    samples = audio.sectors(path)
    silence = bytes(audio.SECTOR_AUDIO)
    for number in range(PAUSE, disc.blocks):
        sound = silence if number in silent else next(samples)
        yield sound + program[BLOCK * number : BLOCK * (number + 1)]


def warn_of_image(arguments: argparse.Namespace, disc: SheetDisc, program: bytes) -> None:
    if lost := loses_pictures(program):
        tell(f"{arguments.stream}: {lost}")
    tell_texts(arguments, disc)
    for track in disc.tracks:
        if disc.end_of(track) - track.indices[1] < SHORTEST_TRACK:
            tell(f"{arguments.sheet}: track {track.number} is shorter than four seconds; burners may refuse it")


def run(arguments: argparse.Namespace) -> int:
    reads = [arguments.sheet, arguments.stream, arguments.audio, arguments.hold_through_pause]
    names = [f"{stem_of(arguments.output)}{ending}" for ending in (".bin", ".toc", ".cue")]
    with Outputs(reads, zip(names, (kinds.IMAGE, kinds.TOC, kinds.CUE)), arguments.force) as outputs:
        return write_image(arguments, outputs, *names)


def write_image(arguments: argparse.Namespace, outputs: Outputs, binary: str, toc: str, cue: str) -> int:
    sheet = read_file(arguments.sheet)
    if arguments.latin_1:
        sheet = latin1.as_latin_1(arguments.sheet, sheet)
    else:
        latin1.warn(arguments.sheet, sheet)
    disc = read_disc(arguments.sheet, sheet, audio.length(arguments.audio))
    program = checked_program(arguments, disc)
    if arguments.hold_through_pause:
        try:
            program = held(arguments, disc)
        except LatePicture as late:
            complain(str(late))
            return LATE
    warn_of_image(arguments, disc, program)
    name = os.path.basename(binary)
    out = outputs.open(binary)
    every = image_sectors(disc, program, arguments.audio)
    for sector in progress(every, disc.blocks - PAUSE, "sectors"):
        out.write(sector)
    outputs.write(toc, toc_of(disc, name).encode())
    outputs.write(cue, cue_of(disc, name))
    tell(f"{disc.blocks - PAUSE} sectors, {spelled(disc.blocks - PAUSE)}; `cdrdao write --swap {toc}` burns them")
    return 0
