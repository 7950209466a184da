"""The files that burners read in addition to the sectors of a disc image: its sheet, and its table of contents for
cdrdao."""
import os

from .cue_sheets import COMMANDS, COPY, FOUR_CHANNELS, PRE_EMPHASIS, CueWriter
from .discs import Disc, SheetDisc, Track
from .library import SECTOR
from .times import PAUSE, spelled

# The length of the shortest track that burners accept.
SHORTEST_TRACK = 4 * 75


def in_quotes(text: bytes) -> str:
    """A string in a file of cdrdao; bytes that are not ASCII are in octal."""
    spelled = text.replace(b"\\", b"\\\\").replace(b'"', b'\\"')
    return '"' + "".join(chr(byte) if 32 <= byte < 127 else f"\\{byte:03o}" for byte in spelled) + '"'


def toc_texts(disc: Disc, number: int, code: bytes) -> list[str]:
    """The texts of the album or of a track, for each kind that occurs anywhere: burners require it everywhere."""
    kinds = {kind for kind, _ in disc.texts}
    lines = [
        f"    {name.decode()} {in_quotes(disc.texts.get((kind, number), b''))}"
        for kind, name in COMMANDS.items()
        if kind in kinds
    ]
    if disc.catalogue or any(track.code for track in disc.tracks):
        lines.append(f"    {'ISRC' if number else 'UPC_EAN'} {in_quotes(code)}")
    if not lines:
        return []
    languages = [] if number else ["  LANGUAGE_MAP { 0 : EN }"]
    return ["CD_TEXT {", *languages, "  LANGUAGE 0 {", *lines, "  }", "}"]


def toc_track(disc: SheetDisc, track: Track, name: str) -> list[str]:
    begin, first = max(track.begin, PAUSE), track.indices[1]
    control = track.control
    lines = [
        "",
        f"// Track {track.number}",
        "TRACK AUDIO RW_RAW",
        "COPY" if control & COPY else "NO COPY",
        "PRE_EMPHASIS" if control & PRE_EMPHASIS else "NO PRE_EMPHASIS",
        "FOUR_CHANNEL_AUDIO" if control & FOUR_CHANNELS else "TWO_CHANNEL_AUDIO",
    ]
    if track.code:
        lines.append(f"ISRC {in_quotes(track.code)}")
    lines += toc_texts(disc, track.number, track.code)
    length = spelled(disc.end_of(track) - begin)
    lines.append(f"DATAFILE {in_quotes(os.fsencode(name))} #{SECTOR * (begin - PAUSE)} {length}")
    if first > begin:
        lines.append(f"START {spelled(first - begin)}")
    return lines + [f"INDEX {spelled(time - first)}" for index, time in track.indices.items() if index > 1]


def toc_of(disc: SheetDisc, name: str) -> str:
    """The table of contents for cdrdao. The first pause is not in it: a burner makes it."""
    catalogue = [f"CATALOG {in_quotes(disc.catalogue)}"] if disc.catalogue else []
    lines = ["CD_DA", *catalogue, *toc_texts(disc, 0, disc.catalogue)]
    for track in disc.tracks:
        lines += toc_track(disc, track, name)
    return "".join(f"{line}\n" for line in lines)


def write_texts(sheet: CueWriter, disc: Disc, number: int) -> None:
    for kind in COMMANDS:
        if (kind, number) in disc.texts:
            sheet.text(kind, disc.texts[kind, number])


def cue_of(disc: Disc, name: str) -> bytes:
    """A sheet of the image: tracks of sectors with subcode, with gaps in the file."""
    sheet = CueWriter()
    if disc.catalogue:
        sheet.catalogue(disc.catalogue)
    write_texts(sheet, disc, 0)
    sheet.file(os.fsencode(name), b"BINARY")
    for track in disc.tracks:
        sheet.track(track.number, b"CDG")
        sheet.flags(track.control)
        write_texts(sheet, disc, track.number)
        if track.code:
            sheet.isrc(track.code)
        for index, time in track.indices.items():
            # The first pause is not in the file.
            if index or max(time, PAUSE) < track.indices[1]:
                sheet.index(index, max(time, PAUSE) - PAUSE)
    return sheet.content()
