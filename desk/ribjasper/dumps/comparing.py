"""The differences between the table of contents, the Q channel and a cue sheet."""
import enum
import os
import re
from dataclasses import dataclass, field
from pathlib import Path
from typing import NamedTuple

from ..common.failures import Refusal
from ..common.library import AUDIO, SECTOR
from ..common.output import Table, tell
from ..common.times import PAUSE, spelled
from .q_disc import CATALOGUE, ISRC, QDisc, Source

NAMES = ("track", "what", "contents", "q", "cue", "times")
TIME = re.compile(r"(\d+):(\d\d):(\d\d)")


class TimeBase(enum.Enum):
    """The origin of the times of a sheet."""

    FILE = "file"  # where the audio of the dump begins; missing parts of the dump do not count
    DISC = "disc"  # the first sector of the disc, at the absolute time 00:02:00

    @property
    def remark(self) -> bytes:
        """The remark of a sheet that names it."""
        return b"TIMES " + self.value.upper().encode()


def time_at(source: Source, base: TimeBase, time: int) -> int:
    """The time of a sheet at an absolute time."""
    return source.in_file(time) if base is TimeBase.FILE else max(0, time - PAUSE)


@dataclass
class CueTrack:
    """A track of a cue sheet: its indexes by their times in all of its files, one after another, with and without the
    silence that is in no file; whether it is data; and its code."""

    number: int
    indices: dict[int, int] = field(default_factory=dict)
    plain: dict[int, int] = field(default_factory=dict)
    is_data: bool = False
    pregap: int = 0
    isrc: str = ""
    session: int = 1


@dataclass
class Cue:
    tracks: list[CueTrack] = field(default_factory=list)
    catalogue: str = ""
    missing: str = ""  # a file that is not there
    why_unknown: str = ""  # why the times of later files are not known
    base: TimeBase = TimeBase.FILE
    files: list[tuple[str, int, int]] = field(default_factory=list)  # with the bytes of a sector and how many there are


def blocks_of(word: str) -> int | None:
    found = TIME.fullmatch(word)
    return 75 * (60 * int(found[1]) + int(found[2])) + int(found[3]) if found else None


def named_file(folder: Path, name: str) -> tuple[str, int, int] | None:
    """A file that a sheet names, the bytes of its sectors and their number, if it exists."""
    path = folder / os.path.basename(name.replace("\\", "/"))
    try:
        size = path.stat().st_size
    except (OSError, ValueError):
        # No file has this name, for example if it contains a zero byte.
        return None
    unit = AUDIO if size % AUDIO == 0 else SECTOR
    return os.fspath(path), unit, size // unit


def read_cue(path: str, content: bytes) -> Cue:
    """The contents of a cue sheet of any tool. It may name several files and data tracks, which `author` refuses, since
    it is only compared."""
    cue, folder = Cue(), Path(path).parent
    before: int | None = 0
    length: int | None = 0
    session = 1
    for number, line in enumerate(content.decode("utf-8-sig", "replace").splitlines(), 1):
        words = line.split()
        command = words[0].upper() if words else ""
        if command == "FILE":
            before = None if before is None or length is None else before + length
            name = re.search(r'"([^"]*)"', line)
            file = named_file(folder, name[1] if name else " ".join(words[1:-1]))
            length = None if file is None else file[2]
            cue.files += [file] if file else []
            if length is None:
                cue.missing = name[1] if name else " ".join(words[1:-1])
        elif command == "CATALOG" and len(words) > 1:
            cue.catalogue = words[1]
        elif command == "REM" and len(words) > 2 and words[1].upper() == "SESSION" and words[2].isdecimal():
            session = int(words[2])
        elif command == "REM" and words[1:] == ["TIMES", TimeBase.DISC.value.upper()]:
            cue.base = TimeBase.DISC
        elif command == "TRACK" and len(words) > 1 and words[1].isdecimal():
            is_data = len(words) > 2 and words[2].upper() not in ("AUDIO", "CDG")
            cue.tracks.append(CueTrack(int(words[1]), session=session, is_data=is_data))
        elif command == "ISRC" and len(words) > 1 and cue.tracks:
            cue.tracks[-1].isrc = words[1].replace("-", "").upper()
        elif command == "PREGAP" and len(words) > 1 and cue.tracks and (time := blocks_of(words[1])) is not None:
            cue.tracks[-1].pregap = time
        elif command == "INDEX" and len(words) > 2 and cue.tracks and words[1].isdecimal():
            time = blocks_of(words[2])
            if time is None:
                raise Refusal(path, f"line {number}: {words[2]} is not a time")
            if before is None:
                cue.why_unknown = "the times of later files are not known: a file that the sheet names is missing"
            else:
                cue.tracks[-1].indices[int(words[1])] = before + time
    if not cue.tracks:
        raise Refusal(path, "has no track")
    gaps = 0
    for track in cue.tracks:
        # Silence that is in no file comes before index 01 and everything after it.
        gaps += track.pregap
        track.plain = track.indices
        track.indices = {
            index: time + gaps - (track.pregap if index == 0 else 0) for index, time in track.indices.items()
        }
    return cue


class Difference(NamedTuple):
    """The differences between the table of contents, Q and a sheet, and the origin of the times."""

    track: str
    what: str
    contents: str
    q: str
    cue: str
    times: str


def differences(source: Source, found: QDisc, cue: Cue, base: TimeBase) -> list[Difference]:
    """The differences of the album, and of each track in beginning, indexes, code and session."""
    result: list[Difference] = []

    def put(track: str, what: str, contents: str, q: str, sheet: str) -> None:
        if len({contents, q, sheet} - {"-"}) > 1 or (sheet == "-") != (q == "-"):
            is_time = what.startswith("index")
            result.append(Difference(track, what, contents, q, sheet, base.value if is_time else "-"))

    def at(time: int | None) -> str:
        return "-" if time is None else spelled(time_at(source, base, time))

    own = found.catalogue.decode("ascii", "replace") if CATALOGUE.fullmatch(found.catalogue) else "-"
    put("-", "catalog", "-", own, cue.catalogue or "-")
    by_q = {track.number: track for track in found.tracks}
    by_cue = {track.number: track for track in cue.tracks}
    for number in sorted({*by_q, *by_cue, *found.listed}):
        q, c, listed = by_q.get(number), by_cue.get(number), found.listed.get(number)
        name = f"{number:02}"
        if q is None or c is None:
            put(name, "track", "yes" if listed else "-", "yes" if q else "-", "yes" if c else "-")
            continue
        for index in sorted({*q.indices, *c.indices} | {1}):
            is_listed = listed and index == 1
            in_cue = c.indices.get(index)
            by_frames = found.by_frames.get(number) if index == 1 else q.indices.get(index)
            if index == 0 and in_cue is None and number == found.tracks[0].number:
                continue
            if index == 1 and cue.why_unknown and in_cue is None:
                continue
            put(
                name,
                f"index {index:02}",
                at(int(listed.absolute) if is_listed and listed else None),
                at(by_frames),
                "-" if in_cue is None else spelled(in_cue),
            )
        code = q.code.decode("ascii", "replace") if ISRC.fullmatch(q.code) else "-"
        put(name, "isrc", "-", code, c.isrc or "-")
        put(name, "session", "-", str(q.session), str(c.session))
    return result


def write_differences(table: Table, source: Source, found: QDisc, cue: Cue, base: TimeBase) -> bool:
    """Prints the table of differences; returns whether there are any."""
    found_rows = differences(source, found, cue, base)
    for row in found_rows:
        table.row(row)
    if cue.why_unknown:
        tell(cue.why_unknown)
    return bool(found_rows)
