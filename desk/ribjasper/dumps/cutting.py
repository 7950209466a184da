"""Tracks cut out of a disc image as in published lists: 2,352 bytes per sector, data tracks from index 01 on, and audio
tracks from their pauses on, moved by an offset in samples."""
import hashlib
import os
import zlib
from dataclasses import dataclass, field
from pathlib import Path
from typing import Iterator, NamedTuple, Sequence

from ..common.cue_sheets import DATA
from ..common.failures import Refusal, reading
from ..common.library import SECTOR
from ..common.output import read_file
from ..common.progress import progress
from ..common.times import PAUSE, spelled
from . import comparing, edc
from .checksums import Game, Listed, Sums
from .dump import DumpFile
from .edc import EdcCount
from .forms import AUDIO
from .loading import DumpOptions, Loaded, Unknown, load_found
from .q_disc import disc, QDisc, Source

SAMPLE = 4
AT_ONCE = 512
# No drive and no pressing moves audio by more samples than this.
MOST_OFFSET = 5 * 588
# The same in sectors.
REACH = MOST_OFFSET * SAMPLE // AUDIO


class FileSectors(NamedTuple):
    """Sectors of a file: the place of the first, the distance between them in bytes, and their number."""

    path: str
    start: int
    unit: int
    sectors: int


@dataclass
class Image:
    """Sectors of 2,352 bytes in one or more files, in order."""

    stretches: list[FileSectors]

    @property
    def sectors(self) -> int:
        return sum(it.sectors for it in self.stretches)

    def read(self, first: int, count: int) -> bytes:
        """The bytes of sectors, with zeros for missing ones."""
        parts = []
        place, left = first, count
        if place < 0:
            parts.append(bytes(AUDIO * min(left, -place)))
            place, left = 0, max(0, left + place)
        for stretch in self.stretches:
            here = min(left, stretch.sectors - place)
            if here > 0 and place < stretch.sectors:
                parts.append(self._of(stretch, place, here))
                place, left = place + here, left - here
            place -= stretch.sectors
        return b"".join([*parts, bytes(AUDIO * left)])

    def _of(self, stretch: FileSectors, first: int, count: int) -> bytes:
        with reading(stretch.path), open(stretch.path, "rb") as file:
            file.seek(stretch.start + first * stretch.unit)
            content = file.read(count * stretch.unit)
        if stretch.unit != AUDIO:
            content = b"".join([content[at : at + AUDIO] for at in range(0, len(content), stretch.unit)])
        return content.ljust(AUDIO * count, b"\0")


class CutTrack(NamedTuple):
    """A track of an image: its sectors from one up to another, and whether it is data."""

    number: int
    is_data: bool
    first: int
    end: int
    session: int = 1

    @property
    def size(self) -> int:
        return AUDIO * (self.end - self.first)


@dataclass
class CutDisc:
    """An image with its tracks, and notes on how it is cut."""

    name: str
    image: Image
    tracks: list[CutTrack]
    notes: list[str] = field(default_factory=list)
    disc: QDisc | None = None
    loaded: Loaded | None = None


class Hashed(NamedTuple):
    """A track with its checksums, and for a data track the result of its error detection codes."""

    track: CutTrack
    sums: Sums
    edc: EdcCount | None


def tracks_of_dump(loaded: Loaded) -> CutDisc:
    """The tracks of an image of sectors with subcode, by its Q channel."""
    source = Source(loaded)
    if not source.stretches:
        raise Refusal(loaded.path, "no Q frame names a track")
    found = disc(source, loaded.companions)
    image = Image([FileSectors(loaded.path, loaded.dump.skip, loaded.form.unit, loaded.survey.blocks)])
    ends = {session.number: session.lead_out for session in found.sessions}
    cut, notes = [], [f"{loaded.survey.blocks} sectors of {loaded.form.unit} bytes, cut by Q"]
    for place, track in enumerate(found.tracks):
        is_data = bool(track.control & DATA)
        begin = track.indices[1] if is_data else max(PAUSE, min(track.indices.values()))
        behind = found.tracks[place + 1] if place + 1 < len(found.tracks) else None
        is_last = behind is None or behind.session != track.session
        if behind is None or is_last:
            end = source.end_at(ends[track.session])
        else:
            end = source.block_of(min(behind.indices.values()))
        cut.append(CutTrack(track.number, is_data, source.block_of(begin), end, track.session))
    for _, before, after in source.clock.jumps():
        if source.is_in_order(after):
            notes.append(f"sectors are missing in the image between {spelled(before)} and {spelled(after.time)}")
    last = cut[-1]
    if last.end > image.sectors:
        notes.append(f"the image ends {last.end - image.sectors} sectors before the lead-out; they are read as zeros")
    return CutDisc(loaded.path, image, cut, notes + gaps(cut), found, loaded)


def gaps(tracks: Sequence[CutTrack]) -> list[str]:
    """The sectors between tracks that belong to none."""
    return [
        f"{behind.first - before.end} sectors before data track {behind.number:02} are in no track"
        for before, behind in zip(tracks, tracks[1:])
        if behind.first > before.end and behind.session == before.session
    ]


def tracks_of_sheet(path: str) -> CutDisc:
    """The tracks of files of sectors, by their cue sheet."""
    cue = comparing.read_cue(path, read_file(path))
    if cue.missing:
        raise Refusal(path, f"names the file {cue.missing}, which does not exist")
    stretches = [FileSectors(name, 0, unit, count) for name, unit, count in cue.files]
    image = Image(stretches)
    cut = []
    for place, track in enumerate(cue.tracks):
        if not track.plain:
            raise Refusal(path, f"track {track.number:02} has no index")
        begin = track.plain.get(1, min(track.plain.values())) if track.is_data else min(track.plain.values())
        behind = cue.tracks[place + 1] if place + 1 < len(cue.tracks) else None
        end = image.sectors if behind is None or not behind.plain else min(behind.plain.values())
        cut.append(CutTrack(track.number, track.is_data, begin, end, track.session))
    notes = [f"{image.sectors} sectors in {len(stretches)} file{'s' * (len(stretches) != 1)}, cut by the sheet"]
    return CutDisc(path, image, cut, notes + gaps(cut))


def sheet_beside(path: str) -> str | None:
    """The cue sheet of an image: the file itself, or the sheet of the same name next to it."""
    if path.lower().endswith(".cue"):
        return path
    stem = os.path.splitext(path)[0]
    names = (stem + ".cue", stem + ".CUE", path + ".cue")
    return next((name for name in names if os.path.isfile(name)), None)


def open_disc(path: str, words: DumpOptions = DumpOptions()) -> CutDisc:
    """An image with its tracks: sectors with subcode, whose Q channel gives the tracks, or other sectors with a
    sheet."""
    sheet, size = sheet_beside(path), DumpFile(path).size
    is_plain = path == sheet or (sheet is not None and size % AUDIO == 0 and size % SECTOR != 0)
    found = None if is_plain else load_found(path, words)
    if isinstance(found, Loaded) and found.form.is_in_sectors() and found.survey.has_q:
        return tracks_of_dump(found)
    if sheet is not None:
        return tracks_of_sheet(sheet)
    if isinstance(found, Unknown):
        raise Refusal(path, found.cause)
    raise Refusal(path, "has no sectors with Q, and no cue sheet is next to it")


def track_bytes(cut: CutDisc, track: CutTrack, offset: int = 0) -> Iterator[bytes]:
    """The bytes of a track, in parts of whole sectors. In the image, the audio of a track begins `offset` samples
    later."""
    if track.is_data or not offset:
        for first in range(track.first, track.end, AT_ONCE):
            yield cut.image.read(first, min(AT_ONCE, track.end - first))
        return
    sectors, samples = divmod(offset, AUDIO // SAMPLE)
    skipped = SAMPLE * samples
    for first in range(track.first, track.end, AT_ONCE):
        count = min(AT_ONCE, track.end - first)
        content = sound(cut, first + sectors, count + 1)
        yield content[skipped : skipped + AUDIO * count]


def sound(cut: CutDisc, first: int, count: int) -> bytes:
    """The audio of sectors, with zeros for missing ones and for data."""
    content = bytearray(cut.image.read(first, count))
    for track in cut.tracks:
        if track.is_data:
            begin, end = max(track.first, first), min(track.end, first + count)
            if begin < end:
                content[AUDIO * (begin - first) : AUDIO * (end - first)] = bytes(AUDIO * (end - begin))
    return bytes(content)


def hashed(cut: CutDisc, track: CutTrack, offset: int = 0) -> Hashed:
    """The checksums of a track, which is read once."""
    crc, size, codes = 0, 0, EdcCount() if track.is_data else None
    digests = [hashlib.new(name, usedforsecurity=False) for name in ("md5", "sha1", "sha256")]
    count = -(-(track.end - track.first) // AT_ONCE)
    for part in progress(track_bytes(cut, track, offset), count, "parts"):
        if codes is not None:
            edc.count(part, track.first + size // AUDIO, codes)
        size += len(part)
        crc = zlib.crc32(part, crc)
        for digest in digests:
            digest.update(part)
    return Hashed(track, Sums(size, f"{crc:08x}", *(digest.hexdigest() for digest in digests)), codes)


# Finding the place of a track of a list in an image: the checksum of each place follows from those of all prefixes.


def shift_tables(length: int) -> list[list[int]]:
    """For each of the four bytes of a CRC-32: its contribution after `length` zero bytes."""

    def times(matrix: list[int], value: int) -> int:
        found, place = 0, 0
        while value:
            if value & 1:
                found ^= matrix[place]
            value >>= 1
            place += 1
        return found

    # One zero bit; then each power of two of it.
    power = [0xEDB88320, *(1 << place for place in range(31))]
    result = [1 << place for place in range(32)]
    left = 8 * length
    while left:
        if left & 1:
            result = [times(power, column) for column in result]
        power = [times(power, column) for column in power]
        left >>= 1
    return [[times(result, byte << 8 * place) for byte in range(256)] for place in range(4)]


def offsets_with(content: bytes, length: int, wanted: set[int]) -> Iterator[tuple[int, int]]:
    """The places in some bytes, sample by sample, at which a part of this length has one of these CRC-32, with the
    CRC."""
    ends = (len(content) - length) // SAMPLE
    if ends < 0:
        return
    of = shift_tables(length)
    starts, crc = [0], 0
    for place in range(ends):
        crc = zlib.crc32(content[SAMPLE * place : SAMPLE * (place + 1)], crc)
        starts.append(crc)
    crc = zlib.crc32(content[:length])
    for place in range(ends + 1):
        before = starts[place]
        moved = of[0][before & 255] ^ of[1][before >> 8 & 255] ^ of[2][before >> 16 & 255] ^ of[3][before >> 24]
        if crc ^ moved in wanted:
            yield place, crc ^ moved
        at = length + SAMPLE * place
        crc = zlib.crc32(content[at : at + SAMPLE], crc)


def found_offset(cut: CutDisc, listed: Sequence[Listed]) -> int | None:
    """The offset of the audio tracks in a list, by their sizes and CRC-32: of the offsets that fit the shortest track
    (and, while there are several, the next one too), the one nearest to 0. Silence fits everywhere."""
    by_size: dict[int, set[int]] = {}
    for it in listed:
        if it.values.get("size", "").isdecimal() and "crc32" in it.values:
            by_size.setdefault(int(it.values["size"]), set()).add(int(it.values["crc32"], 16))
    found = set[int]()
    for track in sorted((track for track in cut.tracks if not track.is_data and track.size), key=lambda it: it.size):
        wanted = by_size.get(track.size)
        if not wanted or len(found) == 1:
            continue
        content = sound(cut, track.first - REACH, track.end - track.first + 2 * REACH)
        fits = {at - REACH * AUDIO // SAMPLE for at, _ in offsets_with(content, track.size, wanted)}
        found = found & fits or found or fits
    return min(found, key=lambda it: (abs(it), it)) if found else None


class Comparison(NamedTuple):
    """An image compared with a list: the disc in the list that has the most of its tracks, if there is one; the number
    of these tracks; and for each track the name of its file in the list, or the fields that differ."""

    game: Game | None
    same: int
    verdicts: list[str]


SAME, DIFFERS, NOT_LISTED = "same", "differs", "not listed"


def is_listed(track: Hashed, listed: Listed | None) -> bool:
    return listed is not None and not listed.differs(track.sums)


def compared(tracks: Sequence[Hashed], games: Sequence[Game]) -> Comparison:
    """Compares an image with the disc of a list, track by track."""

    def same(game: Game) -> int:
        return sum(is_listed(it, listed) for it, listed in zip(tracks, padded(game, len(tracks))))

    best = max(games, key=lambda it: (same(it), -abs(len(it.tracks) - len(tracks))), default=None)
    if best is None or not same(best):
        return Comparison(None, 0, [NOT_LISTED] * len(tracks))
    verdicts = []
    for it, listed in zip(tracks, padded(best, len(tracks))):
        if listed is None:
            verdicts.append(NOT_LISTED)
        else:
            differs = listed.differs(it.sums)
            verdicts.append(f"{DIFFERS}: {', '.join(differs)}" if differs else SAME)
    return Comparison(best, same(best), verdicts)


def padded(game: Game, count: int) -> list[Listed | None]:
    """The tracks of the disc of a list, as many as there are to compare."""
    found: list[Listed | None] = [*game.tracks]
    return [*found, *[None] * max(0, count - len(found))][:count]


def file_name(name: str, track: CutTrack, tracks: int) -> str:
    """The name of the file of a track in lists."""
    stem = os.path.splitext(Path(name).name)[0]
    if tracks == 1:
        return f"{stem}.bin"
    return f"{stem} (Track {track.number:0{len(str(tracks))}}).bin"
