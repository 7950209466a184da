"""The damage of a dump: runs of blocks, jumps of its time, and a map."""
from typing import Any, Iterator, NamedTuple

from . import damage_map
from ..common import library
from ..common.library import BLOCKS_A_SECOND
from ..common.times import spelled
from .identity import has_parity
from .loading import Loaded
from .columns import Run, either, runs
from .survey import Clock, Survey

NAMES = ("kind", "first", "last", "from", "to", "track", "bad", "corrected", "q-bad", "empty")
RUN, JUMP, UNREAD = "run", "jump", "unread"


class Damage(NamedTuple):
    """A line of the table: damaged neighbours, a jump to its first block, or blocks that were not read."""

    kind: str
    first: int
    last: int
    start: str
    end: str
    track: str
    bad: int = 0
    corrected: int = 0
    q_bad: int = 0
    empty: int = 0

    def place(self) -> str:
        """The place as text: a range of blocks, or a jump."""
        return f"jump {self.first}" if self.kind == JUMP else f"{self.first}-{self.last}"


def damaged(survey: Survey) -> bytes:
    """A byte for each block, not zero if anything is wrong with it."""
    words = (survey.column(name) for name in ("one", "two", "bad"))
    return either(*words, survey.bad_frames, survey.empty)


def run_of(survey: Survey, clock: Clock, run: Run) -> Damage:
    track = clock.track(run.first)
    q_bad, empty = survey.bad_frames, survey.empty
    return Damage(
        RUN,
        run.first,
        run.last,
        spelled(clock.time(run.first)),
        spelled(clock.time(run.last)),
        "-" if track is None else f"{track:02}",
        survey.within(run, "bad"),
        survey.corrected(run),
        sum(q_bad[run.first : run.last + 1]),
        sum(empty[run.first : run.last + 1]),
    )


def jumps(survey: Survey, clock: Clock) -> Iterator[Damage]:
    """The places at which absolute times are not consecutive: the time before and the time after each."""
    tracks = survey.column("track")
    for _, before, after in clock.jumps():
        track = f"{tracks[after.first]:02}"
        yield Damage(JUMP, after.first, after.first, spelled(before), spelled(after.time), track)


def damages(survey: Survey) -> list[Damage]:
    """All damage, in the order of the file."""
    clock = Clock(survey)
    found = [run_of(survey, clock, run) for run in runs(damaged(survey))]
    return sorted([*found, *jumps(survey, clock)], key=lambda it: (it.first, it.kind))


def unread_damages(survey: Survey) -> list[Damage]:
    """The unread blocks at both ends, which are no damage."""
    clock = Clock(survey)
    return [
        Damage(UNREAD, run.first, run.last, spelled(clock.time(run.first)), spelled(clock.time(run.last)), "-")
        for run in survey.unread()
    ]


def damages_of(loaded: Loaded) -> list[Damage]:
    """All damage of a dump. Packs without parity have no known damage."""
    return damages(loaded.survey) if loaded.form.library != library.PACKS or has_parity(loaded) else []


def worst_by_second(survey: Survey) -> bytes:
    """The worst state in each second of the file, as a number of damage_map.STATES."""
    corrected = either(survey.column("one"), survey.column("two"))
    worst = bytearray(survey.blocks)
    for state, column in (
        (damage_map.CORRECTED, corrected),
        (damage_map.Q_BAD, survey.bad_frames),
        (damage_map.BAD, survey.column("bad")),
        (damage_map.EMPTY, survey.empty),
    ):
        for run in runs(column):
            worst[run.first : run.last + 1] = bytes([state]) * (run.last - run.first + 1)
    cells = bytearray(max(worst[start : start + BLOCKS_A_SECOND]) for start in range(0, survey.blocks, BLOCKS_A_SECOND))
    for run in survey.unread():
        # A second that was read in part has the state of that part.
        first, end = -(-run.first // BLOCKS_A_SECOND), (run.last + 1) // BLOCKS_A_SECOND
        last = -(-survey.blocks // BLOCKS_A_SECOND) if run.last + 1 == survey.blocks else end
        cells[first:last] = bytes([damage_map.UNREAD]) * max(0, last - first)
    return bytes(cells)


def draw_map(survey: Survey, has_legend: bool = True) -> Any:
    """The map of a dump, a picture: a row a minute, a cell a second. Rows are marked by the absolute time of their
    first block, or without Q by its place in the file."""
    clock = Clock(survey)
    cells = worst_by_second(survey)
    firsts = range(0, survey.blocks, 60 * BLOCKS_A_SECOND)
    if clock.stretches:
        marks = ["lead-in" if clock.time(first) is None else spelled(clock.time(first)) for first in firsts]
    else:
        marks = [spelled(first) for first in firsts]
    jumped = {damage.first // BLOCKS_A_SECOND for damage in jumps(survey, clock)}
    return damage_map.draw(cells, jumped, marks, has_legend)
