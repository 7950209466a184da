"""Several songs as one disc: the list of them, its sheet, its packs and its image."""
import os
import re
import unicodedata
from dataclasses import dataclass, replace
from pathlib import Path
from typing import Any, Iterator

from . import audio
from .audio import LOUDEST, QUIETEST, Treatment
from .encodings import known
from .pairs import as_track, listed, moves, read_pair, unmoved
from ..common.cue_sheets import COPY, CueWriter
from ..common.disc_files import SHORTEST_TRACK, cue_of, toc_of
from ..common.discs import read_disc
from ..common.failures import Refusal
from ..common.library import BLOCK, BLOCKS_A_SECOND, PACK, PACKS_A_BLOCK
from ..common.output import Outputs, read_file, tell
from ..common.planning import NoPlan, least_lead_in
from ..common.program import press
from ..common.progress import progress
from ..common.times import PAUSE, spelled
from ..drawing.styles import TomlTable, read_style, read_table
from .recognition import check_list
from .song_files import read_song
from .song_script import BOXES, LEAVE, Made, Wishes, best, count_of
from .songs import Song
from .tracks import track_packs

MOST_TRACKS = 99
LONGEST_GAP = 60.0
NEW = """# An album: `ribjasper-desk album {name} -o DISC` makes a disc of it. Names of files are relative to this folder.
title = "{title}"
singer = "{singer}"
# catalogue = "4006381333931"
style = "night"
# Seconds of silence between the tracks.
gap = 2
"""
NEW_TRACK = """
[[track]]
lyrics = {lyrics}
sound = {sound}
title = {title}
singer = {singer}
# picture = "title.png"
# isrc = "GBAAA2600001"
"""
NEW_PAIR = """
[[track]]
pair = {pair}
title = {title}
singer = ""
# isrc = "GBAAA2600001"
"""
CODE = re.compile(r"[A-Z]{2}[A-Z0-9]{3}\d{7}", re.ASCII)
CATALOGUE = re.compile(r"\d{13}", re.ASCII)
PACKS_A_SECOND = PACKS_A_BLOCK * BLOCKS_A_SECOND
# A disc of 80 minutes, without its first pause; and the longest sound that a list may request, in seconds.
CAPACITY = BLOCKS_A_SECOND * (79 * 60 + 57)
LONGEST = 6000.0


def quoted(word: str) -> str:
    """A text in the syntax of TOML."""
    marks = {'"': '\\"', "\\": "\\\\"}
    spelled = (
        marks.get(letter, letter if ord(letter) >= 32 and ord(letter) != 127 else f"\\u{ord(letter):04X}")
        for letter in word
    )
    return f'"{"".join(spelled)}"'


def entry_of(lyrics: Path, sound: Path, song: Song, folder: Path) -> str:
    """The entry of a song in a list that is in a folder."""
    return NEW_TRACK.format(
        lyrics=quoted(os.path.relpath(lyrics, folder)),
        title=quoted(song.title or lyrics.stem),
        sound=quoted(os.path.relpath(sound, folder)),
        singer=quoted(song.performer),
    )


@dataclass
class ListedTrack:
    """A song of the list: its lyrics and its sound, or a finished pair; its texts; its look, and the treatment of its
    sound."""

    lyrics: Path
    sound: Path | None
    title: str
    singer: str
    code: str
    wishes: Wishes
    treatment: Treatment = Treatment()
    is_pair: bool = False


@dataclass
class Album:
    """The list: texts of the disc, blocks of silence between tracks, and the tracks."""

    path: Path
    title: str
    singer: str
    catalogue: str
    gap: int
    tracks: list[ListedTrack]


@dataclass
class Ready:
    """A track whose sound is ready, and its blocks; for a pair also its packs."""

    track: ListedTrack
    sound: Path
    blocks: int
    packs: list[bytes]


@dataclass
class Sung:
    """A track with its song, its script, if it has one, its blocks, its packs and its sound."""

    track: ListedTrack
    song: Song
    script: Made | None
    blocks: int
    packs: bytes
    sound: Path

    @property
    def made(self) -> Made:
        assert self.script
        return self.script


def read_album(path: Path) -> Album:
    try:
        table = read_table(path)
    except Refusal:
        # Only regular files can be read twice.
        if path.is_file():
            check_list(path, read_file(path))
        raise
    style = table.text("style") or "night"
    common = Wishes(read_style(style_file(path, style)), **looks(table))
    loudness = table.number("loudness", QUIETEST, LOUDEST, float)
    gap = table.number("gap", 0, LONGEST_GAP, float)
    title, singer, catalogue = (table.text(key) or "" for key in ("title", "singer", "catalogue"))
    if catalogue and not CATALOGUE.fullmatch(catalogue):
        raise Refusal(path, f"catalogue is {catalogue!r}, but must be 13 digits")
    if catalogue and check_digit(catalogue[:12]) != catalogue[12]:
        right = catalogue[:12] + check_digit(catalogue[:12])
        raise Refusal(path, f"catalogue is {catalogue!r}, whose check digit is wrong: {right} has the right one")
    tracks = [read_track(one, number, common, loudness) for number, one in enumerate(table.tables("track"), 1)]
    table.end()
    if not 1 <= len(tracks) <= MOST_TRACKS:
        raise Refusal(path, f"has {len(tracks)} tables [[track]], but a disc has 1 to {MOST_TRACKS} tracks")
    codes = [track.code for track in tracks if track.code]
    for number, track in enumerate(tracks, 1):
        if track.code and codes.count(track.code) > 1:
            raise Refusal(path, f"track {number}: another track also has isrc {track.code}")
    blocks = round((2.0 if gap is None else gap) * BLOCKS_A_SECOND)
    return Album(path, title, singer, catalogue, blocks, tracks)


def check_digit(digits: str) -> str:
    """The last digit of an EAN-13."""
    return str(-sum(int(digit) * (3 if place % 2 else 1) for place, digit in enumerate(digits)) % 10)


def style_file(beside: Path, style: str) -> str:
    return os.fspath(beside.parent / style) if style.endswith(".toml") else style


def looks(table: TomlTable) -> dict[str, Any]:
    """The options for the look in a list or a track."""
    found: dict[str, Any] = {
        "sweep": table.take("sweep", bool, "true or false"),
        "lead": table.number("lead", 0, 60, float),
        "missing": table.one_of("missing", (LEAVE, BOXES), ""),
        "encoding": table.text("encoding"),
        "between": between_of(table),
    }
    if found["encoding"] and not known(found["encoding"]):
        raise Refusal(
            table.path, f"encoding is {found['encoding']!r}, but must be an encoding like utf-8 or windows-1251"
        )
    return {key: value for key, value in found.items() if value not in (None, "", ())}


def between_of(table: TomlTable) -> tuple[str, ...]:
    """The pictures, by their whole paths, and the colours that are shown in rests."""
    words = table.take("between", (str, list), "a picture or a colour, or a list of them") or []
    words = [words] if isinstance(words, str) else words
    if not all(isinstance(word, str) for word in words):
        raise Refusal(table.path, "between must be a picture or a colour, or a list of them")
    return tuple(word if word.startswith("#") else os.path.abspath(table.path.parent / word) for word in words)


def read_track(table: TomlTable, number: int, common: Wishes, loudness: float | None) -> ListedTrack:
    lyrics, sound, pair = table.file("lyrics"), table.file("sound"), table.file("pair")
    if bool(lyrics) == bool(pair) or not (sound or pair):
        raise Refusal(table.path, f"track {number} needs lyrics and sound, or a pair")
    code = (table.text("isrc") or "").replace("-", "").upper()
    if code and not CODE.fullmatch(code):
        raise Refusal(table.path, f"track {number}: isrc is {code!r}, but must be like GBAAA2600001")
    style = table.text("style")
    wishes = replace(common, title=table.file("picture"), **looks(table))
    if style:
        wishes = replace(wishes, style=read_style(style_file(table.path, style)))
    own = table.number("loudness", QUIETEST, LOUDEST, float)
    begin, fade_in, fade_out, intro = (
        table.number(key, 0, most, float) or 0.0
        for key, most in (("begin", LONGEST), ("fade_in", 60), ("fade_out", 60), ("intro", 600))
    )
    end = table.number("end", 0, LONGEST, float)
    treatment = Treatment(begin, end, loudness if own is None else own, fade_in, fade_out, intro)
    if pair and begin:
        raise Refusal(
            table.path, f"track {number}: a pair cannot have begin, since each picture depends on earlier ones"
        )
    title, singer = table.text("title") or "", table.text("singer") or ""
    table.end()
    return ListedTrack(lyrics or pair or Path(), sound, title, singer, code, wishes, treatment, bool(pair))


def made_ready(track: ListedTrack) -> Ready:
    """A track with its sound in the form for the disc."""
    if not track.is_pair:
        assert track.sound
        sound = audio.treated(track.sound, track.treatment)
        return Ready(track, sound, audio.length(sound), [])
    pair = read_pair(track.lyrics, track.sound)
    treatment, packs = track.treatment, pair.packs
    if treatment.end is not None:
        packs = packs[: PACK * round(PACKS_A_SECOND * treatment.end)]
    packs = bytes(PACK * round(PACKS_A_SECOND * treatment.intro)) + packs.rstrip(b"\0")
    some, later = as_track(track.lyrics, packs + bytes(-len(packs) % PACK))
    if later:
        tell(
            f"{track.lyrics}: its first packs leave no room for presets, so its pictures and sound are delayed by "
            f"{1000 * later / BLOCKS_A_SECOND:.0f} milliseconds"
        )
        treatment = treatment._replace(intro=treatment.intro + later / BLOCKS_A_SECOND)
    sound = audio.treated(pair.sound, treatment)
    blocks = max(audio.length(sound), -(-len(some) // PACKS_A_BLOCK))
    return Ready(track, sound, blocks, some + [bytes(PACK)] * (PACKS_A_BLOCK * blocks - len(some)))


def length_of(album: Album, blocks: list[int]) -> int:
    """The number of blocks of the disc after its first pause."""
    return sum(blocks) + album.gap * (len(blocks) - 1)


def check_capacity(album: Album, ready: list[Ready], capacity: int | None) -> None:
    """Refuses an album that is longer than a disc, before any picture is made."""
    length = length_of(album, [one.blocks for one in ready])
    most = CAPACITY if capacity is None else capacity
    if length > most:
        asks = "" if capacity else "; --capacity MM:SS allows more, if the disc has it"
        raise Refusal(
            album.path,
            f"lasts {spelled(length)}, but the disc holds {spelled(most)}: it is {spelled(length - most)} too long{asks}",
        )


def sing(album: Album, ready: Ready) -> Sung:
    """Makes the script and the packs of a track."""
    track = ready.track
    if ready.blocks < SHORTEST_TRACK:
        tell(f"{track.sound or track.lyrics}: is shorter than four seconds; burners may refuse it")
    if track.is_pair:
        song = Song([], track.title or track.lyrics.stem, track.singer or album.singer, path=track.lyrics)
        tell(f"{track.lyrics}: a pair of {ready.blocks / BLOCKS_A_SECOND:.1f} seconds")
        return Sung(track, song, None, ready.blocks, b"".join(ready.packs), ready.sound)
    song = read_song(track.lyrics, track.wishes.encoding, track.treatment.later)
    song.title, song.performer = track.title or song.title, track.singer or song.performer or album.singer
    for line in song.notes:
        tell(line)
    made = best(song, replace(track.wishes, end=PAUSE + ready.blocks, intro=track.treatment.intro))
    for line in made.warnings():
        tell(line)
    tell(f"{track.lyrics}: {made.summary()}")
    return Sung(track, song, made, ready.blocks, track_packs(track.lyrics, made.text(), ready.blocks), ready.sound)


def sing_one(lyrics: Path, sound: Path, wishes: Wishes) -> tuple[Album, Sung]:
    """Makes a single song, as an album with one track."""
    track = ListedTrack(lyrics, sound, "", "", "", wishes, Treatment(intro=wishes.intro))
    album = Album(lyrics, "", "", "", 0, [track])
    ready = made_ready(track)
    check_capacity(album, [ready], None)
    return album, sing(album, ready)


def sing_all(album: Album, ready: list[Ready]) -> list[Sung]:
    """Makes all tracks; if one of them scrolls the screen, each track begins by undoing that."""
    sung = [sing(album, one) for one in progress(ready, len(ready), "songs")]
    if any(moves(one.packs) for one in ready):
        for track in sung:
            track.packs = b"".join(unmoved(listed(track.packs)))
    return sung


def write_disc(album: Album, sung: list[Sung], outputs: Outputs, names: list[str]) -> None:
    """Writes the image, its sheets and the stream."""
    binary, toc, cue, raw, sheet_name = names
    length = length_of(album, [one.blocks for one in sung])
    sheet = sheet_of(album, sung, os.path.basename(binary))
    try:
        lead_in = least_lead_in(sheet, length)
    except NoPlan as none:
        raise Refusal(album.path, f"cannot become a disc: {none.cause()}") from None
    stream, status, message = press(sheet, joined_packs(album, sung), lead_in, length)
    if status:
        raise Refusal(album.path, f"cannot become a disc: {message}")
    disc = read_disc(album.path, sheet, length)
    outputs.write(sheet_name, sheet)
    outputs.write(raw, stream)
    out, at = outputs.open(binary), BLOCK * (lead_in + PAUSE)
    for number, sound in enumerate(progress(joined_sound(album, sung), length, "sectors")):
        out.write(sound + stream[at + BLOCK * number : at + BLOCK * (number + 1)])
    outputs.write(toc, toc_of(disc, os.path.basename(binary)).encode())
    outputs.write(cue, cue_of(disc, os.path.basename(binary)))
    tell(
        f"{count_of(len(sung), 'track')}, {length} sectors, {spelled(length)}, lead-in {lead_in}; "
        f"{spelled(max(0, CAPACITY - length))} is left of a disc of 80 minutes; `cdrdao write --swap {toc}` burns the disc"
    )


def joined_packs(album: Album, sung: list[Sung]) -> bytes:
    """The packs of all tracks, with none between them."""
    return bytes(PACK * PACKS_A_BLOCK * album.gap).join(one.packs for one in sung)


def joined_sound(album: Album, sung: list[Sung]) -> Iterator[bytes]:
    """The sound of each block of the disc, with silence between the tracks."""
    for number, one in enumerate(sung):
        if number:
            yield from [bytes(audio.SECTOR_AUDIO)] * album.gap
        count = 0
        for count, sector in enumerate(audio.sectors(one.sound), 1):
            yield sector
        # The pictures of a pair may be longer than its sound.
        yield from [bytes(audio.SECTOR_AUDIO)] * (one.blocks - count)


def sheet_of(album: Album, sung: list[Sung], binary: str) -> bytes:
    """The cue sheet of the disc."""
    sheet = CueWriter()
    if album.catalogue:
        sheet.catalogue(album.catalogue.encode())
    add_texts_of(sheet, album, "the disc", album.title, album.singer)
    sheet.file(os.fsencode(binary), b"BINARY")
    at = 0
    for number, one in enumerate(sung, 1):
        sheet.track(number, b"AUDIO")
        add_texts_of(sheet, album, f"track {number}", one.song.title, one.song.performer)
        if one.track.code:
            sheet.isrc(one.track.code.encode())
        sheet.flags(COPY)
        if number > 1 and album.gap:
            sheet.index(0, at)
            at += album.gap
        sheet.index(1, at)
        at += one.blocks
    return sheet.content()


def add_texts_of(sheet: CueWriter, album: Album, place: str, title: str, singer: str) -> None:
    """Adds texts in Latin-1; one with other letters is left out and reported."""
    for kind, text in (("title", title), ("performer", singer)):
        plain = unicodedata.normalize("NFC", " ".join(text.replace('"', "'").split()))
        try:
            spelling = plain.encode("latin-1")
        except UnicodeEncodeError as wrong:
            tell(
                f"{album.path}: {place}: Latin-1 has no {plain[wrong.start]}, so the texts of the disc omit the "
                f"{kind} {plain}"
            )
            continue
        if plain and not sheet.text(kind, spelling):
            tell(f"{album.path}: {place}: the {kind} {plain!r} cannot be written in a sheet, and is omitted")
