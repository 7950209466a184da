"""`look`: a page that plays a song before its film is made: sound, picture, a timeline, and keys that move the times of
the words."""
import argparse
import base64
import html
import json
import os
import re
import shutil
import struct
import zlib
from pathlib import Path
from typing import Any, Iterator

from ...common import kinds
from ...common.library import BLOCKS_A_SECOND, COLOURS, HEIGHT, PACK, PACKS_A_BLOCK, WIDTH
from ...common.output import Outputs, add_force, tell
from ...common.player import Player
from ...common.progress import progress
from ...common.web import web as web
from ...common.words import Commands
from ...songs import audio
from ...songs.albums import Sung, sing_one
from ...songs.document import names_of, plain_tags
from ...songs.song_files import open_document, read_song
from ...songs.sound_files import make_mp3, sound_of
from ...songs.tracks import as_pair
from ...songs.wishes import add_wishes, reads_of, wishes_of

FOLDER = Path(__file__).parent
# The picture is compared every three blocks, twenty-five times a second.
EVERY = 3
# A place of the page that is filled in.
PART = re.compile(r"\{\{(\w+)\}\}")


def add_parser(commands: Commands) -> None:
    parser = commands.add_parser(
        "look",
        help="make a web page that plays a song",
        description="Makes one HTML page that plays a song, with its sound and the picture that the proved player "
        "draws. A timeline shows the lines of the song, and marks those that are late. A click on a line jumps to "
        "it, keys move a line or a syllable by 0.05 seconds, and the space bar sets new times. The page saves the "
        "lyrics as LRC, with rests, ends of lines and names.",
    )
    parser.add_argument("song", type=Path, metavar="SONG", help="the lyrics")
    parser.add_argument(
        "--audio", type=Path, metavar="SOUND", help="the sound (the sound next to SONG with the same name)"
    )
    add_wishes(parser)
    parser.add_argument("-o", "--output", type=Path, required=True, metavar="PAGE.html", help="the page")
    add_force(parser)
    parser.set_defaults(run=run)


def changes_of(packs: bytes) -> Iterator[bytes]:
    """The changes of the picture, each with its block: whether colours follow; the first pixel, width and height of the
    changed rectangle; and the numbers of its colours."""
    step = PACK * PACKS_A_BLOCK * EVERY
    before, colours = bytes(WIDTH * HEIGHT), [0] * COLOURS
    with Player() as player:
        places = range(0, len(packs), step)
        for number, at in enumerate(progress(places, len(places), "pictures"), 1):
            part = packs[at : at + step]
            if not any(part):
                continue
            if player.draw(part).is_none:
                continue
            pixels, shown = player.screen(), player.colours()
            if pixels == before and shown == colours:
                continue
            left, top, right, bottom = box_of(before, pixels)
            rows = [pixels[WIDTH * y + left : WIDTH * y + right] for y in range(top, bottom)]
            head = struct.pack(
                ">IBHHH", EVERY * number, shown != colours, WIDTH * top + left, right - left, bottom - top
            )
            yield head + struct.pack(">16H", *shown) * (shown != colours) + b"".join(rows)
            before, colours = pixels, shown


def box_of(before: bytes, after: bytes) -> tuple[int, int, int, int]:
    """The smallest rectangle with all differences: left, top, right and bottom; empty if nothing differs."""
    rows = [y for y in range(HEIGHT) if before[WIDTH * y : WIDTH * (y + 1)] != after[WIDTH * y : WIDTH * (y + 1)]]
    if not rows:
        return 0, 0, 0, 0
    differ = 0
    for y in rows:
        old, new = (int.from_bytes(one[WIDTH * y : WIDTH * (y + 1)], "big") for one in (before, after))
        differ |= old ^ new
    marks = differ.to_bytes(WIDTH, "big")
    return WIDTH - len(marks.lstrip(b"\0")), rows[0], len(marks.rstrip(b"\0")), rows[-1] + 1


def song_data(sung: Sung) -> dict[str, Any]:
    """What the page knows of the song."""
    late: dict[int, str] = {}
    for warning in sung.made.warnings():
        number, _, why = warning.partition(": line ")[2].partition(" ")
        if number.isdecimal():
            late[int(number)] = why.rpartition(":")[0]
    track = sung.track
    document, intro = open_document(track.lyrics, track.wishes.encoding), track.treatment.intro
    # As it is in its file: letters that no font has, and all ends.
    song = read_song(track.lyrics, track.wishes.encoding, track.treatment.later)
    lines = [
        {
            "number": line.number,
            "voice": line.voice,
            "whole": line.is_whole,
            "open": line.is_open,
            "late": late.get(line.number, ""),
            "syllables": [
                {"text": one.text, "start": round(one.start, 3), "end": round(one.end, 3)} for one in line.syllables
            ],
        }
        for line in song.lines
    ]
    return {
        "title": song.title,
        "performer": song.performer,
        "singers": names_of(song),
        "tags": plain_tags(song),
        "others": document.others,
        "rests": [round(rest + intro, 3) for rest in document.rests],
        "inserts": [{"what": one.what, "start": one.start, "after": one.after} for one in song.inserts],
        "name": f"{track.lyrics.stem}.lrc",
        "seconds": sung.blocks / BLOCKS_A_SECOND,
        "intro": intro,
        "lines": lines,
    }


def sound_word(sung: Sung) -> str:
    """The sound for the page: MP3 if ffmpeg is installed, otherwise as on a disc."""
    if shutil.which("ffmpeg"):
        made = audio.new_file(".mp3")
        make_mp3(sung.sound, sung.song, os.fspath(made))
        return f"data:audio/mpeg;base64,{base64.b64encode(made.read_bytes()).decode()}"
    samples = b"".join(audio.sectors(sung.sound))
    return f"data:audio/wav;base64,{base64.b64encode(audio.header(len(samples)) + samples).decode()}"


def packed(content: bytes) -> str:
    return base64.b64encode(zlib.compress(content, 9)).decode()


def picture_parts(packs: bytes) -> dict[str, str]:
    """The data for the picture: its changes; and, if they are built, the library and the packs, which are preferred,
    because not every browser supports modules with 64-bit addresses."""
    parts = {"module": "", "wasm": "", "packs": "", "changes": packed(b"".join(changes_of(packs)))}
    if found := web():
        parts |= {
            "module": packed(found.script.read_bytes()),
            "wasm": packed(found.module.read_bytes()),
            "packs": packed(packs),
        }
    return parts


def page_of(sung: Sung) -> str:
    parts = picture_parts(as_pair(sung.packs)) | {
        "title": html.escape(sung.song.title or sung.track.lyrics.stem),
        "sound": sound_word(sung),
        # A `<` could end the script that contains it, so it is escaped.
        "song": json.dumps(song_data(sung)).replace("<", "\\u003c"),
        "script": (FOLDER / "look.js").read_text(encoding="utf-8"),
    }
    page = (FOLDER / "look.html").read_text(encoding="utf-8")
    return PART.sub(lambda found: parts[found[1]], page)


def run(arguments: argparse.Namespace) -> int:
    sound = sound_of(arguments)
    with Outputs([*reads_of(arguments), sound], [(arguments.output, kinds.PAGE)], arguments.force) as outputs:
        _, sung = sing_one(arguments.song, sound, wishes_of(arguments, None))
        page = page_of(sung).encode()
        outputs.write(arguments.output, page)
    tell(f"{arguments.output}: {sung.blocks / BLOCKS_A_SECOND:.1f} seconds, {len(page):,} bytes; any browser opens it")
    return 0
