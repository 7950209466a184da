"""Draws the contact sheets in docs/: the styles, a duet, the borders of an album, and lines in other alphabets. Run it where
fonts-dejavu-core, fonts-vlgothic and python3-pil are installed, and look at what it drew:

PYTHONPATH=desk:desk/tests /usr/bin/python3 desk/tests/contact_sheets.py"""
import tempfile
from pathlib import Path
from typing import Any, NamedTuple

from PIL import Image, ImageDraw

from fixtures import TOP, write_wav
from test_album import random_packs

from ribjasper.songs.albums import joined_packs, made_ready, read_album, sing_all
from ribjasper.common.library import HEIGHT, PACK, WIDTH
from ribjasper.common.player import Player
from ribjasper.common.output import png
from ribjasper.songs.song_files import read_song
from ribjasper.songs.song_script import Wishes, best
from ribjasper.drawing.styles import read_style, shipped
from ribjasper.songs.tracks import track_packs

DOCS = TOP / "docs"
SONGS = TOP / "examples" / "album"
PACKS_A_SECOND = 300
LABEL, BETWEEN = 14, 6
ALPHABETS = """[00:06.00]\u65e5\u672c\u8a9e\u306e\u6b4c\u3001 then Latin
[00:09.00]\u3072\u3089\u304c\u306a\u3068\u30ab\u30bf\u30ab\u30ca
[00:12.00]\u05e9\u05dc\u05d5\u05dd \u05e2\u05d5\u05dc\u05dd, \u05d6\u05d4 \u05e9\u05d9\u05e8
[00:15.00]\u0441\u0432\u0435\u0442 \u0438 \u03c6\u03c9\u03c2, \u00e9t\u00e9
[00:19.00]
"""


class Cell(NamedTuple):
    """A picture, and the text below it."""

    picture: bytes
    label: str


def shown(packs: bytes, seconds: list[float], label: str, before: bytes = b"") -> list[Cell]:
    """The pictures at some seconds, drawn over an earlier screen."""
    cells, done = [], 0
    with Player() as player:
        player.draw(before)
        for second in seconds:
            until = round(second * PACKS_A_SECOND)
            player.draw(packs[PACK * done : PACK * until])
            done = max(done, until)
            cells.append(Cell(player.picture(), f"{label} {second:.2f}"))
    return cells


def sheet(cells: list[Cell], columns: int) -> Any:
    wide, high = WIDTH + BETWEEN, HEIGHT + LABEL + BETWEEN
    page = Image.new("RGB", (BETWEEN + wide * columns, BETWEEN + high * -(-len(cells) // columns)), "#FFFFFF")
    pen = ImageDraw.Draw(page)
    for place, cell in enumerate(cells):
        left, top = BETWEEN + wide * (place % columns), BETWEEN + high * (place // columns)
        page.paste(Image.frombytes("RGB", (WIDTH, HEIGHT), cell.picture), (left, top))
        pen.text((left, top + HEIGHT + 1), cell.label, "#202020")
    return page.quantize(64, method=Image.Quantize.MEDIANCUT, dither=Image.Dither.NONE)


def song_packs(path: Path, wishes: Wishes) -> bytes:
    made = best(read_song(path), wishes)
    return track_packs(path, made.text(), 60 * 75)


def styles() -> list[Cell]:
    return [
        cell
        for name in shipped()
        for cell in shown(song_packs(SONGS / "morning.lrc", Wishes(read_style(name), size=20)), [5, 9.5, 15.5], name)
    ]


def duet() -> list[Cell]:
    packs = song_packs(SONGS / "duet.lrc", Wishes(read_style("night"), size=20, legend=True))
    return shown(packs, [4, 7.5, 11, 15.5, 20.2, 24.2, 31, 38.6, 47], "")


def borders(folder: Path) -> list[Cell]:
    """Both borders of an album: for a listener who plays it through, and for one who skips to the track while another
    picture is on the screen."""
    for name, seconds in (("morning", 29), ("duet", 51), ("evening", 28)):
        write_wav(folder / f"{name}.wav", 44_100 * seconds)
    tracks = "".join(
        f'[[track]]\nlyrics = "{SONGS}/{name}.lrc"\nsound = "{name}.wav"\n' for name in ("morning", "duet", "evening")
    )
    path = folder / "list.toml"
    path.write_text(f"gap = 2\n{tracks}")
    album = read_album(path)
    sung = sing_all(album, [made_ready(track) for track in album.tracks])
    packs, cells, start = joined_packs(album, sung), [], 0.0
    for number, one in enumerate(sung[:-1], 2):
        start += one.blocks / 75 + album.gap / 75
        cells += shown(packs, [start - 4, start + 0.1, start + 6], f"into track {number}")
        skipped = packs[PACK * round(start * PACKS_A_SECOND) :]
        cells += shown(skipped, [0, 0.1, 6], f"skipped to {number}", random_packs(number))
    return cells


def alphabets(folder: Path) -> list[Cell]:
    path = folder / "a.lrc"
    path.write_text(ALPHABETS, encoding="utf-8")
    return shown(song_packs(path, Wishes(read_style("black"), size=20)), [5.5, 10.5, 13.5], "")


def main() -> None:
    with tempfile.TemporaryDirectory() as name:
        folder = Path(name)
        for sheet_name, cells, columns in (
            ("styles", styles(), 3),
            ("duet", duet(), 3),
            ("album", borders(folder), 3),
            ("alphabets", alphabets(folder), 3),
        ):
            (DOCS / f"{sheet_name}.png").write_bytes(png(sheet(cells, columns)))


if __name__ == "__main__":
    main()
