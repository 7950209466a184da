"""`pair`: a song for karaoke players: the graphics as a .cdg file, and the sound next to it."""
import argparse
from dataclasses import replace
from pathlib import Path

from ...common import kinds
from ...common.output import Outputs, add_force, stem_of, tell
from ...common.words import Commands
from ...songs.albums import sing_one, write_disc
from ...songs.finishing import PairFiles
from ...songs.sound_files import sound_of
from ...songs.tracks import as_pair
from ...songs.wishes import add_wishes, reads_of, wishes_of


def add_parser(commands: Commands) -> None:
    parser = commands.add_parser(
        "pair",
        help="make a .cdg file and its sound",
        description="Makes the two files that karaoke players need: NAME.cdg and the sound, unchanged or as MP3. The "
        ".cdg file begins with packs that clear the screen and set all colours, and it lasts as long as the sound.",
    )
    parser.add_argument("song", type=Path, metavar="SONG", help="the lyrics")
    parser.add_argument(
        "--audio", type=Path, metavar="SOUND", help="the sound (the sound next to SONG with the same name)"
    )
    add_wishes(parser)
    parser.add_argument(
        "--mp3", action="store_true", help="write the sound as MP3, with title and singer (needs ffmpeg)"
    )
    parser.add_argument("--zip", action="store_true", help="write both files as one file, NAME.zip")
    parser.add_argument("--karaoke-cd", action="store_true", help="also write a disc image, as `album` does")
    parser.add_argument(
        "-o", "--output", type=Path, required=True, metavar="NAME", help="the name of the output without an ending"
    )
    add_force(parser)
    parser.set_defaults(run=run)


def run(arguments: argparse.Namespace) -> int:
    sound = sound_of(arguments)
    name = stem_of(arguments.output)
    wishes = wishes_of(arguments, None)
    files = PairFiles(name, sound, arguments.mp3, arguments.zip, wishes.intro)
    writes = files.writes()
    disc = [f"{name}.bin", f"{name}.toc", f"{name}.cue", f"{name}.raw", f"{name}-sheet.cue"]
    if arguments.karaoke_cd:
        writes += zip(disc, (kinds.IMAGE, kinds.TOC, kinds.CUE, kinds.STREAM, kinds.CUE))
    names = files.names()
    with Outputs([*reads_of(arguments), sound], writes, arguments.force) as outputs:
        album, sung = sing_one(arguments.song, sound, wishes)
        files.write(outputs, as_pair(sung.packs), sung.sound, sung.song)
        if arguments.karaoke_cd:
            write_disc(replace(album, title=sung.song.title), [sung], outputs, disc)
    tell(f"{names}: {sung.blocks / 75:.1f} seconds")
    return 0
