"""`lyrics`: a picture script for a song: pages whose words change their colour when they are sung."""
import argparse
from dataclasses import replace
from pathlib import Path

from ...common import kinds, times
from ...common.output import Outputs, add_force, tell
from ...common.words import Commands
from ...songs import audio
from ...songs.song_files import read_song
from ...songs.song_script import best
from ...songs.wishes import add_wishes, reads_of, wishes_of


def add_parser(commands: Commands) -> None:
    parser = commands.add_parser(
        "lyrics",
        help="make a picture script from lyrics",
        description="Makes a picture script from lyrics with times. It reads LRC with times of lines or words, ASS "
        "with \\k times, UltraStar, SubRip, WebVTT and karaoke MIDI. Words change colour when they are sung, and the "
        "next lines are drawn while the last lines are still sung. No picture of the script is late. If something "
        "cannot be shown at its time, the command reports it with its line.",
    )
    parser.add_argument(
        "song", type=Path, metavar="SONG", help="the lyrics; their format is recognized by the contents of the file"
    )
    add_wishes(parser)
    parser.add_argument("--audio", type=Path, metavar="WAV", help="the audio; the script must not be longer")
    parser.add_argument("-o", "--output", type=Path, required=True, metavar="FILE", help="the script")
    add_force(parser)
    parser.set_defaults(run=run)


def run(arguments: argparse.Namespace) -> int:
    with Outputs(reads_of(arguments), [(arguments.output, kinds.SCRIPT)], arguments.force) as outputs:
        wishes = wishes_of(arguments, None)
        song = read_song(arguments.song, wishes.encoding, wishes.intro)
        for line in song.notes:
            tell(line)
        end = times.PAUSE + audio.length_with(arguments.audio, wishes.intro) if arguments.audio else None
        made = best(song, replace(wishes, end=end))
        for line in made.warnings():
            tell(line)
        outputs.write(arguments.output, made.text())
    tell(made.summary())
    return 0
