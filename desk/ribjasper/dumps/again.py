"""The sectors of a disc to read again, because their subcode is damaged or missing or the drive was unsure of them: as
lists for rippers and as a map of ddrescue."""
import re
from typing import Callable, Iterable, NamedTuple, Sequence

from ..common.library import SPREAD
from ..common.times import PAUSE, spelled
from .drive_errors import DriveErrors
from .loading import Loaded
from .q_source import Source
from .columns import Run, both, either, joined, runs
from .survey import Clock

# Runs that are no further apart are read as one.
NEAR = 2
# ddrescue reads a drive in sectors of user data.
DRIVE_SECTOR = 2048
BAD_Q, LOST, EMPTY, DRIVE, MISSING = "q", "words", "empty", "drive", "missing"


class Again(NamedTuple):
    """Sectors to read again: the logical block addresses of the first and the last, and the reasons."""

    first: int
    last: int
    why: tuple[str, ...]


class Wanted(NamedTuple):
    """All sectors to read again; the sectors of the program, from the first up to the end; and the number of damaged
    blocks without a known address."""

    parts: list[Again]
    first: int
    end: int
    unplaced: int


def widened(column: bytes) -> bytes:
    """A column that is also set in the blocks over which the words of a block are spread."""
    moved = [column[step:] + bytes(step) for step in range(SPREAD + 1)]
    return either(*moved)


def wanted(loaded: Loaded, errors: DriveErrors | None = None) -> Wanted:
    """The sectors of a dump to read again. Unread blocks before and after the program are left out."""
    survey, source = loaded.survey, Source(loaded)
    unread = bytes(0 if it else 255 for it in survey.unread_column())
    reasons = {
        BAD_Q: survey.bad_frames,
        LOST: widened(survey.column("bad")),
        EMPTY: survey.empty,
        DRIVE: errors.mask if errors else bytes(survey.blocks),
    }
    found: list[tuple[int, int, str]] = []
    unplaced = 0
    for why, column in reasons.items():
        for run in runs(both(column, unread)):
            for part in timed_parts(source.clock, run):
                if part is None or part[0] < PAUSE:
                    unplaced += 1
                else:
                    found.append((part[0] - PAUSE, part[1] - PAUSE, why))
    for _, before, after in source.clock.jumps():
        if source.is_in_order(after) and after.time > before + 1:
            found.append((before + 1 - PAUSE, after.time - 1 - PAUSE, MISSING))
    times = [it.time for it in source.stretches], [it.last + it.shift + 1 for it in source.stretches]
    first, end = (min(times[0]) - PAUSE, max(times[1]) - PAUSE) if source.stretches else (0, 0)
    return Wanted(merged_runs(found), max(0, first), end, unplaced)


def timed_parts(clock: Clock, run: Run) -> list[tuple[int, int] | None]:
    """The absolute times of neighbouring blocks, in parts with consecutive times; None for a block without a time."""

    def next_one(before: tuple[int, int] | None, behind: tuple[int, int] | None) -> tuple[int, int] | None:
        return (before[0], behind[1]) if before and behind and behind[0] == before[1] + 1 else None

    times = (clock.time(block) for block in range(run.first, run.last + 1))
    return joined((None if time is None else (time, time) for time in times), next_one)


def merged_runs(parts: Iterable[tuple[int, int, str]]) -> list[Again]:
    """Parts in order; near ones are merged."""

    def near(before: Again, behind: Again) -> Again | None:
        if behind.first > before.last + NEAR + 1:
            return None
        return Again(before.first, max(before.last, behind.last), tuple(sorted({*before.why, *behind.why})))

    return joined((Again(first, last, (why,)) for first, last, why in sorted(parts)), near)


NAMES = ("first-lba", "last-lba", "from", "to", "sectors", "why")


def table(of: Wanted) -> str:
    """The addresses and times of each part, and the reasons."""
    rows: list[Sequence[object]] = [NAMES]
    for it in of.parts:
        times = spelled(it.first + PAUSE), spelled(it.last + PAUSE)
        rows.append((it.first, it.last, *times, it.last - it.first + 1, ",".join(it.why)))
    return "".join("\t".join(map(str, row)) + "\n" for row in rows)


def ddrescue(of: Wanted) -> str:
    """A map for `ddrescue -b 2048`: sectors to read again are bad areas, all others are finished."""
    lines = ["# Mapfile. Sectors to read again, of 2048 bytes", "# current_pos  current_status  current_pass"]
    lines += ["0x00000000     ?               1", "#      pos        size  status"]
    place = 0
    for it in of.parts:
        if it.first > place:
            lines.append(area(place, it.first, "+"))
        lines.append(area(it.first, it.last + 1, "-"))
        place = it.last + 1
    if of.end > place:
        lines.append(area(place, of.end, "+"))
    return "".join(f"{line}\n" for line in lines)


def area(first: int, end: int, status: str) -> str:
    return f"0x{DRIVE_SECTOR * first:08X}  0x{DRIVE_SECTOR * (end - first):08X}  {status}"


def lines(of: Wanted, spell: Callable[[int, int], str]) -> str:
    """A line for each part: its first sector, and the sector after its last."""
    return "".join(f"{spell(it.first, it.last + 1)}\n" for it in of.parts)


def span(first: int, end: int) -> str:
    """A span of cdparanoia: its first and its last sector."""
    begin, last = (re.sub(r":(\d\d)$", r".\1", spelled(time)) for time in (first, end - 1))
    return f"[{begin}]-[{last}]"


# The ways of writing a list, by name.
FORMATS: dict[str, Callable[[Wanted], str]] = {
    "table": table,
    "lba": lambda of: lines(of, lambda first, end: f"{first}-{end - 1}"),
    "msf": lambda of: lines(of, lambda first, end: f"{spelled(first + PAUSE)}-{spelled(end - 1 + PAUSE)}"),
    "ddrescue": ddrescue,
    "redumper": lambda of: lines(of, lambda first, end: f"--lba-start={first} --lba-end={end}"),
    "readcd": lambda of: lines(of, lambda first, end: f"sectors={first}-{end}"),
    "cdparanoia": lambda of: lines(of, span),
}
