"""`album`: several songs as one disc: a list of them, and of it sheet, scripts, stream and image."""
import argparse
import os
import re
from dataclasses import replace
from pathlib import Path

from ...common import kinds
from ...common.failures import FOUND
from ...common.library import BLOCKS_A_SECOND
from ...common.output import Outputs, Table, add_force, add_json, stem_of, tell
from ...common.targets import DASH
from ...common.times import spelled
from ...common.words import Commands
from ...songs import audio

from ...songs.albums import (
    CAPACITY, NEW, NEW_PAIR, Album, check_capacity, entry_of, length_of, made_ready, quoted, read_album, sing_all, write_disc,
)  # fmt: skip
from ...songs.pairs import CDG, is_pair
from ...songs.song_files import pictures_of, read_song
from ...songs.song_script import count_of
from ...songs.wishes import add_encoding

COLUMNS = ("track", "kind", "start", "length", "left", "title", "singer", "file")
# A capacity as a word: minutes and seconds, with frames or without.
LENGTH = re.compile(r"(\d{1,2}):([0-5]\d)(?::([0-6]\d|7[0-4]))?", re.ASCII)


def capacity(word: str) -> int:
    """The blocks of a disc, as an argument of the command line."""
    found = LENGTH.fullmatch(word)
    if not found:
        raise argparse.ArgumentTypeError(f"{word} is not a time MM:SS or MM:SS:FF")
    minutes, seconds, frames = (int(part or 0) for part in found.groups())
    return BLOCKS_A_SECOND * (60 * minutes + seconds) + frames


def add_parser(commands: Commands) -> None:
    parser = commands.add_parser(
        "album",
        help="make a disc of several songs",
        description="Makes a disc of the songs in a list. It writes an image for a burner (DISC.bin, DISC.toc and "
        "DISC.cue), the subcode stream (DISC.raw), the cue sheet of this stream (DISC-sheet.cue), and a picture "
        "script for each track with lyrics (DISC-01.script and so on). A track has either lyrics and a sound, or a "
        "finished pair: a .cdg file with its sound, or a ZIP file with both. Each track begins with packs that clear "
        "the screen and set all colours, so that a player that skips to a track shows nothing of another track.",
    )
    parser.add_argument(
        "files",
        type=Path,
        nargs="+",
        metavar="FILE",
        help="the list, LIST.toml; with --new, the lyrics or pairs of all tracks",
    )
    parser.add_argument(
        "--new",
        action="store_true",
        help="write a new list with a track for each of these lyrics and the sound of the same name",
    )
    parser.add_argument(
        "--check",
        action="store_true",
        help="only print the tracks of the list, their times, and the time that is left on the disc",
    )
    parser.add_argument(
        "--capacity",
        type=capacity,
        metavar="MM:SS",
        help="how long the disc may be (79:57; a disc of 74 minutes has 74:00)",
    )
    add_encoding(parser)
    parser.add_argument(
        "-o",
        "--output",
        type=Path,
        metavar="DISC",
        help="the name of the disc without an ending; with --new, the list (standard output)",
    )
    add_json(parser)
    add_force(parser)
    parser.set_defaults(run=run, parser=parser)


def run(arguments: argparse.Namespace) -> int:
    if arguments.new:
        return begin_list(arguments)
    if len(arguments.files) > 1 or not (arguments.output or arguments.check):
        arguments.parser.error("give one list with -o DISC or --check, or the lyrics of all tracks with --new")
    album = read_album(arguments.files[0])
    if arguments.encoding:
        for track in album.tracks:
            track.wishes = replace(track.wishes, encoding=track.wishes.encoding or arguments.encoding)
    if arguments.check:
        return check(album, CAPACITY if arguments.capacity is None else arguments.capacity, arguments.json)
    name = stem_of(arguments.output)
    scripts = {number: f"{name}-{number:02}.script" for number, it in enumerate(album.tracks, 1) if not it.is_pair}
    disc_files = [f"{name}.bin", f"{name}.toc", f"{name}.cue", f"{name}.raw", f"{name}-sheet.cue"]
    disc_kinds = [kinds.IMAGE, kinds.TOC, kinds.CUE, kinds.STREAM, kinds.CUE]
    writes = [*zip(disc_files, disc_kinds), *((script, kinds.SCRIPT) for script in scripts.values())]
    with Outputs(album_reads(album), writes, arguments.force) as outputs:
        ready = [made_ready(track) for track in album.tracks]
        check_capacity(album, ready, arguments.capacity)
        sung = sing_all(album, ready)
        for number, script in scripts.items():
            outputs.write(script, sung[number - 1].made.text())
        write_disc(album, sung, outputs, disc_files)
    return 0


def album_reads(album: Album) -> list[Path | None]:
    """The files that the album is made from."""
    found: list[Path | None] = [album.path]
    for track in album.tracks:
        between = [Path(word) for word in track.wishes.between if not word.startswith("#")]
        beside = audio.sound_beside(track.lyrics) if track.is_pair and not track.sound else None
        pictures = [] if track.is_pair else pictures_of(track.lyrics)
        found += [
            track.lyrics,
            track.sound,
            beside,
            track.wishes.title,
            *between,
            *pictures,
            *track.wishes.style.files(),
        ]
    return found


def check(album: Album, most: int, as_json: bool) -> int:
    """Prints the tracks and their times. Returns the exit status: whether they fit."""
    ready = [made_ready(track) for track in album.tracks]
    table = Table(COLUMNS, as_json)
    at = 0
    for number, one in enumerate(ready, 1):
        track = one.track
        title, singer = track.title, track.singer
        if not track.is_pair:
            song = read_song(track.lyrics, track.wishes.encoding, track.treatment.later)
            title, singer = title or song.title, singer or song.performer or album.singer
        end = at + one.blocks
        left = spelled(most - end) if end <= most else f"-{spelled(end - most)}"
        kind = "pair" if track.is_pair else "lyrics"
        table.row((number, kind, spelled(at), spelled(one.blocks), left, title, singer, track.lyrics))
        at = end + album.gap
    length = length_of(album, [one.blocks for one in ready])
    left = f"{spelled(most - length)} is left" if length <= most else f"it is {spelled(length - most)} too long"
    tell(f"{count_of(len(ready), 'track')}, {spelled(length)} of {spelled(most)}: {left}")
    return 0 if length <= most else FOUND


def begin_list(arguments: argparse.Namespace) -> int:
    """Writes a list of songs, with the titles and singers of their lyrics."""
    out = arguments.output or Path(DASH)
    folder = out.parent if arguments.output else Path(".")
    with Outputs(arguments.files, [(out, kinds.ALBUM)], arguments.force) as outputs:
        songs = [(path, None if is_pair(path) else read_song(path, arguments.encoding)) for path in arguments.files]
        singers = {song.performer for _, song in songs if song}
        title, singer = "", singers.pop() if len(singers) == 1 else ""
        name = arguments.output.name if arguments.output else "LIST.toml"
        lines = NEW.format(name=name, title=title, singer=quoted(singer)[1:-1])
        for path, song in songs:
            if song is None:
                if path.suffix.lower() == CDG and not audio.sound_beside(path):
                    tell(f"{path}: no sound with this name is next to it; `sound = ...` names one")
                lines += NEW_PAIR.format(pair=quoted(os.path.relpath(path, folder)), title=quoted(path.stem))
                continue
            sound = audio.sound_beside(path)
            if not sound:
                tell(f"{path}: no sound with this name is next to it; the list names {path.with_suffix('.wav').name}")
            lines += entry_of(path, sound or path.with_suffix(".wav"), song, folder)
        outputs.write(out, lines.encode())
    return 0
