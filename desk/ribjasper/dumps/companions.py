"""Files that other tools write next to a dump. They contain the sessions of the disc, their tracks, and the absolute
time at which the dump begins."""
import configparser
import os
import re
import struct
from dataclasses import dataclass, field
from typing import Callable, Iterator, Sequence

from ..common.times import PAUSE

# redumper begins 45,150 sectors before that of the absolute time 00:02:00, and keeps a byte for each of the 588
# samples.
REDUMPER_START, SAMPLES = -45_000, 588
# A .c2 file has a bit for each of the 2,352 bytes of a sector, and some tools two bytes more.
C2_SIZES = (294, 296)
# The maximum number of bytes that are read from a companion file.
MOST = 1 << 22
# The point of a table of contents with the start of the lead-out.
LEAD_OUT = 0xA2
MDS_MARK = b"MEDIA DESCRIPTOR"


@dataclass
class Companions:
    """The contents of the files next to a dump: their names; the number of sessions; the first track of each session
    after the first; the absolute time of each lead-out; and the absolute time at which the dump begins, in blocks, if
    known."""

    names: list[str] = field(default_factory=list)
    sessions: int | None = None
    session_tracks: dict[int, int] = field(default_factory=dict)
    lead_outs: dict[int, int] = field(default_factory=dict)
    begin: int | None = None
    wrong: list[str] = field(default_factory=list)

    def notes(self) -> Iterator[str]:
        if self.names:
            yield f"next to it: {', '.join(self.names)}"
        yield from self.wrong


def add_state(path: str, blocks: int, found: Companions) -> None:
    """redumper's .state has the length of its dump."""
    if os.path.getsize(path) // SAMPLES >= blocks > 0 and os.path.getsize(path) % SAMPLES == 0:
        found.begin = REDUMPER_START
    else:
        found.wrong.append(f"{os.path.basename(path)} is not as long as the dump")


def add_c2(path: str, blocks: int, found: Companions) -> None:
    """C2 errors have a fixed length for each block."""
    if os.path.getsize(path) not in [unit * blocks for unit in C2_SIZES]:
        found.wrong.append(f"{os.path.basename(path)} is not as long as the dump")


def add_ccd(content: bytes, found: Companions) -> None:
    """CloneCD's sheet: its dump begins with the first sector."""
    sheet = configparser.ConfigParser(strict=False, interpolation=None)
    sheet.read_string(content.decode("utf-8", "replace"))
    found.sessions = int(sheet.get("Disc", "Sessions", fallback="1"))
    found.begin = PAUSE
    for name in sheet.sections():
        if name.startswith("Entry"):
            session, point = int(sheet[name]["Session"]), int(sheet[name]["Point"], 0)
            if session > 1 and 1 <= point <= 99:
                found.session_tracks[session] = min(point, found.session_tracks.get(session, 99))
            if point == LEAD_OUT and "PLBA" in sheet[name]:
                found.lead_outs[session] = int(sheet[name]["PLBA"]) + PAUSE


def add_cue_sheet(content: bytes, found: Companions) -> None:
    """A cue sheet: its remarks name sessions."""
    session, sessions = 1, 1
    for line in content.splitlines():
        if mark := re.match(rb"\s*REM\s+SESSION\s+(\d+)", line, re.IGNORECASE):
            session = int(mark[1])
            sessions = max(sessions, session)
        elif (track := re.match(rb"\s*TRACK\s+(\d+)", line, re.IGNORECASE)) and session > 1:
            found.session_tracks.setdefault(session, int(track[1]))
    found.sessions = max(sessions, found.sessions or 1)


def add_toc(content: bytes, found: Companions) -> None:
    """cdrdao's sheet is of one session; its dump begins with the first sector."""
    if re.search(rb"^\s*CD_(DA|ROM|ROM_XA|I)\b", content, re.MULTILINE):
        found.sessions = found.sessions or 1
        found.begin = PAUSE if found.begin is None else found.begin


def add_mds(content: bytes, found: Companions) -> None:
    """The descriptor of an image: how many sessions, and the first sector of the first."""
    if not content.startswith(MDS_MARK):
        raise ValueError("no descriptor")
    (found.sessions,) = struct.unpack_from("<H", content, 0x14)
    (at,) = struct.unpack_from("<I", content, 0x50)
    (start,) = struct.unpack_from("<i", content, at)
    found.begin = start + PAUSE


READERS: dict[str, Callable[[bytes, Companions], None]] = {
    ".ccd": add_ccd,
    ".cue": add_cue_sheet,
    ".toc": add_toc,
    ".mds": add_mds,
}


def beside_dump(path: str, blocks: int) -> Companions:
    """The contents of the companion files of a dump with this number of blocks. An unusable file is noted and
    ignored."""
    found = Companions()
    for name in neighbours(path, (".state", ".c2", *READERS)):
        ending = os.path.splitext(name)[1].lower()
        try:
            # A file is opened even if only its length counts: files that were read are never overwritten.
            with open(name, "rb") as file:
                if ending == ".state":
                    add_state(name, blocks, found)
                elif ending == ".c2":
                    add_c2(name, blocks, found)
                else:
                    READERS[ending](file.read(MOST), found)
            found.names.append(os.path.basename(name))
        except (OSError, ValueError, KeyError, struct.error, configparser.Error):
            found.wrong.append(f"{os.path.basename(name)} has no usable information")
    return found


def neighbours(path: str, endings: Sequence[str]) -> list[str]:
    """The files next to a dump that have its name with one of these endings."""
    stem = os.path.splitext(path)[0]
    names = (
        base + form for base in dict.fromkeys((stem, path)) for ending in endings for form in (ending, ending.upper())
    )
    return [name for name in names if name != path and os.path.isfile(name)]
