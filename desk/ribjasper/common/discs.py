"""A disc and its tracks, from a cue sheet or from a dump. The library reads the sheet. The program authors a stream of
the sheet, which has the frames that each stream of this disc must have."""
import itertools
from dataclasses import dataclass
from pathlib import Path

from . import library
from .failures import Refusal
from .library import BLOCK, SheetRow
from .planning import NoPlan, Why, least_lead_in
from .program import author
from .times import PAUSE

# Four repetitions of the longest table of contents.
ROOM_FOR_TABLE = 4 * 3 * 102


@dataclass
class Track:
    """A track: its control bits; the absolute time at which each index begins (index 0 is its pause); its recording
    code, or nothing; its session; and the numbers of silent blocks before and behind it that are in no file."""

    number: int
    control: int
    indices: dict[int, int]
    code: bytes = b""
    session: int = 1
    pregap: int = 0
    postgap: int = 0

    @property
    def begin(self) -> int:
        return min(self.indices.values())


@dataclass
class Disc:
    """A disc: its tracks, the blocks of its program, its catalogue number, or nothing, and its texts by kind and track,
    track 0 being the album."""

    tracks: list[Track]
    blocks: int
    catalogue: bytes
    texts: dict[tuple[str, int], bytes]


@dataclass
class SheetDisc(Disc):
    """The disc of a cue sheet, with the stream of the sheet without pictures, and how many of its blocks are
    lead-in."""

    stream: bytes
    lead_in: int

    def end_of(self, track: Track) -> int:
        """The end of a track: the beginning of the next one, or the end of the disc."""
        return min((other.begin for other in self.tracks if other.begin > track.begin), default=self.blocks)

    def silence(self) -> set[int]:
        """The blocks whose sound is in no file: before each track with a PREGAP (of the first track, after the pause),
        and after each track with a POSTGAP."""
        befores = (range(max(track.begin, PAUSE), max(track.begin, PAUSE) + track.pregap) for track in self.tracks)
        ends = ((self.end_of(track), track.postgap) for track in self.tracks)
        behinds = (range(end - postgap, end) for end, postgap in ends)
        return {block for gap in (*befores, *behinds) for block in gap}

    def block(self, number: int) -> bytes:
        at = BLOCK * (self.lead_in + number)
        return self.stream[at : at + BLOCK]


def read_disc(path: Path, sheet: bytes, audio: int) -> SheetDisc:
    """The disc of a sheet, with this number of blocks of audio."""
    try:
        lead_in = least_lead_in(sheet, audio) + ROOM_FOR_TABLE
    except NoPlan as none:
        raise Refusal(path, none.cause()) from None
    stream, status, message = author(sheet, b"", lead_in, audio)
    if status:
        raise Refusal(path, message)
    said = library.sheet(sheet)
    if said.why:
        raise Refusal(path, NoPlan(Why.SHEET_REFUSED, said.line, said.why).cause())
    tracks = tracks_of(said.rows)
    texts = sheet_texts(sheet, tracks)
    return SheetDisc(tracks, len(stream) // BLOCK - lead_in, said.catalogue, texts, stream, lead_in)


def tracks_of(rows: list[SheetRow]) -> list[Track]:
    """The tracks of the index lines of a sheet. Two indices at one time are one, as on the disc."""
    tracks: list[Track] = []
    gaps = 0
    for _, lines in itertools.groupby(rows, key=row_track):
        first, *others = lines
        here = PAUSE + gaps + first.pregap
        times = sorted({here + row.time for row in (first, *others) if row.index})
        indices = dict(enumerate(times, 1))
        begin = PAUSE + gaps + first.time if tracks else 0
        if begin < times[0]:
            indices = {0: begin, **indices}
        code = bytes(first.isrc) if first.has_isrc else b""
        track = Track(first.track, first.control, indices, code, pregap=first.pregap, postgap=first.postgap)
        tracks.append(track)
        gaps += first.pregap + first.postgap
    return tracks


def row_track(row: SheetRow) -> int:
    number: int = row.track
    return number


def sheet_texts(sheet: bytes, tracks: list[Track]) -> dict[tuple[str, int], bytes]:
    """The texts of the album and of the tracks. The library counts tracks by their places in the sheet."""
    numbers = [0, *(track.number for track in tracks)]
    found = {
        (kind, number): library.sheet_text(sheet, which, place)
        for place, number in enumerate(numbers)
        for which, kind in enumerate(library.SHEET_TEXTS)
    }
    return {key: text for key, text in found.items() if text}
