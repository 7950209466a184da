"""The places of blocks that the Q frames of a reading determine: the pieces that they place, and the gaps between these
pieces."""
import bisect
from collections import Counter
from dataclasses import dataclass, field, replace
from typing import Iterable, Sequence

from ..common import library
from .columns import Run, both, joined, touching
from .pieces import FEWEST, Piece, chain_of, framed_pieces
from .readings import Reading
from .survey import Stretch, Survey

# Frames decide the place of a gap if their number is at least ENOUGH times its number of blocks. If it is at least
# PLENTY times this number, the words of the gap are not compared.
ENOUGH, PLENTY = 2, 10
# A reading is divided into PARTS equal parts. Its frames are sure if at least MOST_PARTS parts have frames; a shift
# counts only if its frames are in at least FEW_PARTS parts.
PARTS, MOST_PARTS, FEW_PARTS = 16, 12, 5
# Single frames are no stale runs if PLACES of them are each a second after the one before.
PLACES = 2
# In blocks: a gap in a stale run is shorter than a second, and a stale run has at most twenty seconds.
APART, LONGEST_STALE = 75, 1500
# Other readings rely on a shift of a reading if at least this share of its frames has it.
MAIN_SHARE = 0.9
_NOT_GOOD = bytes(kind > library.Q_OTHER for kind in range(256))
_ZERO = bytes(value == 0 for value in range(256))


@dataclass(eq=False)
class FrameGap:
    """A gap: blocks of a file, from `first` up to `end`, whose place no frame determines. `read` is the number of them
    that were read, `near` are the pieces next to the gap, `around` are the pieces of the file's main run before and
    after it, and `strays` are the shifts of single frames in it."""

    first: int
    end: int
    read: int
    near: list[Piece]
    around: list[Piece]
    strays: list[int]
    shift: int | None = None  # the place that was found
    is_busy: bool = False  # it has packs that are not idle
    agrees: bool = False  # some packs agree with those of another reading at some place
    is_part: bool = False  # it is one half of a gap whose words agreed at several places
    inner: Run | None = None  # in such a half: from the first block that agrees to the last one
    against: set[int] = field(default_factory=set)  # the places that its words contradict

    @property
    def length(self) -> int:
        """The number of its blocks, or 0 if none was read."""
        return self.end - self.first if self.read else 0

    @property
    def is_between(self) -> bool:
        return len(self.around) == 2


@dataclass(eq=False)
class Framed:
    """A reading with the pieces that its own frames place, in the order of the file, and the gaps between them."""

    reading: Reading
    unframed: bytes  # a byte for each block, 1 where it was read and has no good frame
    pieces: list[Piece] = field(default_factory=list)
    gaps: list[FrameGap] = field(default_factory=list)
    frames: Counter[int] = field(default_factory=Counter)  # of each shift in the run of the file
    widths: Counter[int] = field(default_factory=Counter)  # blocks of each shift in it
    ends: set[int] = field(default_factory=set)  # the shifts of the first and the last piece of this run
    slack: dict[Piece, int] = field(default_factory=dict)  # for each piece, its longest row of blocks without a frame
    strays: list[Stretch] = field(default_factory=list)  # frames of too few blocks for a piece
    stale: list[Run] = field(default_factory=list)  # blocks that are omitted, because such frames are wrong
    homes: set[int] = field(default_factory=set)  # the shifts of other readings with the same length
    guesses: list[int] = field(default_factory=list)  # shifts at which it begins or ends where another reading does
    is_sure: bool = False

    @property
    def blocks(self) -> int:
        return self.reading.loaded.survey.blocks

    def main(self) -> int | None:
        """The shift of the widest pieces. There is none unless nearly all frames, or both ends of the file, have it."""
        if not self.frames:
            return None
        shift = max(self.widths, key=lambda it: (self.widths[it], it))
        return shift if self.frames[shift] >= MAIN_SHARE * self.frames.total() or self.ends == {shift} else None

    def as_reading(self) -> Reading:
        """The reading with what is placed so far."""
        return replace(self.reading, parts=self.parts())

    def parts(self) -> list[Piece]:
        """The pieces, and the gaps whose place was found. Neighbours with the same shift are one part. The lead-in has
        no time, so it belongs to no part."""
        runs = [run for gap in self.gaps if (run := self.run(gap))]
        found: list[Piece] = []
        for part in sorted([*self.pieces, *runs]):
            part = part._replace(first=max(part.first, -part.shift))
            if part.first >= part.end:
                continue
            before = found[-1] if found else None
            if before and before.end == part.first and before.shift == part.shift:
                known, placed = before.known + part.known, before.placed + part.placed
                found[-1] = before._replace(end=part.end, known=known, placed=placed)
            else:
                found.append(part)
        return [part for whole in found for part in without_runs(whole, self.stale)] if self.stale else found

    def run(self, gap: FrameGap) -> Piece | None:
        """The blocks of a gap, if its place was found. Some blocks at its edge may belong to a neighbour with another
        shift: at most as many as this neighbour has in a row without a frame. These blocks are omitted."""
        if gap.shift is None:
            return None
        first, end = (gap.inner.first, gap.inner.last + 1) if gap.inner else (gap.first, gap.end)
        for piece in gap.near:
            if piece.shift == gap.shift:
                continue
            if piece.end == gap.first:
                first += self.slack[piece]
            elif piece.first == gap.end:
                end -= self.slack[piece]
        return Piece(first, end, gap.shift, 0, gap.read) if first < end else None

    def unplaced(self) -> int:
        """How many blocks that were read have no place."""
        edges = [
            (gap.first, gap.inner.first, gap.inner.last + 1, gap.end)
            for gap in self.gaps
            if gap.shift is not None and gap.inner
        ]
        outside = sum(self.unframed.count(1, it[0], it[1]) + self.unframed.count(1, it[2], it[3]) for it in edges)
        return outside + sum(gap.read for gap in self.gaps if gap.shift is None)

    def unplaced_with_graphics(self) -> int:
        """How many of these are in gaps with graphics."""
        return sum(gap.read for gap in self.gaps if gap.shift is None and gap.is_busy)

    def total(self) -> int:
        return sum(gap.read for gap in self.gaps) + sum(piece.known for piece in self.pieces)


def read_without_frame(survey: Survey) -> bytes:
    """A byte for each block, 1 where it was read and has no good frame."""
    return both(survey.column("q").translate(_NOT_GOOD), survey.empty.translate(_ZERO))


def framed(reading: Reading) -> Framed:
    """The pieces and gaps of a reading."""
    survey = reading.loaded.survey
    column, stretches = read_without_frame(survey), survey.stretches()
    found = Framed(reading, column)
    merged = framed_pieces(stretches)
    chain = widest_chain(merged)
    run, found.ends = set(chain), {piece.shift for piece in (*chain[:1], *chain[-1:])}
    for piece in run:
        found.frames[piece.shift] += piece.known
        found.widths[piece.shift] += piece.end - piece.first
    in_run: set[Piece] = set()
    own, found.strays = stretches_of(merged, stretches)
    for piece in merged:
        count = found.frames[piece.shift] if piece in run else piece.known
        parts = split(piece, own[piece], column, count, found.slack)
        found.pieces += parts
        in_run.update(parts if piece in run else ())
    found.gaps = gaps_of(found.pieces, in_run, found.strays, survey, column)
    found.is_sure = is_sure(found, in_run)
    main = found.main() if found.is_sure else None
    for gap in found.gaps:
        if gap.near == gap.around and only_shift(gap.near) == main and PLENTY * gap.length <= found.frames.total():
            gap.shift = main
    return found


def widest_chain(pieces: Sequence[Piece]) -> list[Piece]:
    """The pieces with increasing times that have the most blocks together. Blocks count, not frames, because a stale
    run may have more frames for each block than the pieces around it."""
    wide = {piece._replace(placed=piece.end - piece.first - piece.known): piece for piece in pieces}
    return [wide[piece] for piece in chain_of(list(wide))]


def stretches_of(
    pieces: Sequence[Piece], stretches: Sequence[Stretch]
) -> tuple[dict[Piece, list[Stretch]], list[Stretch]]:
    """The stretches of each piece, in the order of the file, and those of no piece."""
    own, strays, done = dict[Piece, list[Stretch]](), list[Stretch](), 0
    firsts = [stretch.first for stretch in stretches]
    for piece in pieces:
        begin, end = bisect.bisect_left(firsts, piece.first, done), bisect.bisect_left(firsts, piece.end, done)
        own[piece] = [it for it in stretches[begin:end] if it.time - it.first == piece.shift]
        strays += stretches[done:begin]
        if len(own[piece]) < end - begin:
            strays += [it for it in stretches[begin:end] if it.shift != piece.shift]
        done = end
    return own, [*strays, *stretches[done:]]


def split(
    piece: Piece, stretches: Sequence[Stretch], column: bytes, frames: int, slack: dict[Piece, int]
) -> list[Piece]:
    """The parts of a piece between its longer gaps."""
    widest = max((after.first - before.last - 1 for before, after in zip(stretches, stretches[1:])), default=0)
    if PLENTY * widest <= frames:
        slack[piece] = min(widest, APART)
        return [piece]
    found: list[Piece] = []
    longest = 0
    for stretch in stretches:
        length = stretch.last + 1 - stretch.first
        before = found[-1] if found else None
        gap = column.count(1, before.end, stretch.first) if before else 0
        if gap < APART:
            longest = max(longest, gap)
        if before and PLENTY * gap <= frames:
            found[-1] = before._replace(end=stretch.last + 1, known=before.known + length)
        else:
            found.append(Piece(stretch.first, stretch.last + 1, stretch.shift, length))
    slack.update(dict.fromkeys(found, longest))
    return found


def gaps_of(
    pieces: Sequence[Piece], run: set[Piece], strays: Sequence[Stretch], survey: Survey, column: bytes
) -> list[FrameGap]:
    """The gaps in front of pieces, between them and behind."""
    firsts = [survey.first, *(piece.end for piece in pieces)]
    ends = [*(piece.first for piece in pieces), survey.end]
    found, before = [], None
    behind, places = next_in_run(pieces, run), [stray.first for stray in strays]
    for number, (first, end) in enumerate(zip(firsts, ends)):
        if number and pieces[number - 1] in run:
            before = pieces[number - 1]
        if first < end:
            near = [*pieces[max(0, number - 1) : number], *pieces[number : number + 1]]
            around = [it for it in (before, behind[number]) if it is not None]
            own = strays[bisect.bisect_left(places, first) : bisect.bisect_left(places, end)]
            shifts = [stray.shift for stray in own]
            found.append(FrameGap(first, end, column.count(1, first, end), near, around, shifts))
    return found


def next_in_run(pieces: Sequence[Piece], run: set[Piece]) -> list[Piece | None]:
    """For each piece, and the end, the first piece of the run from there on."""
    found: list[Piece | None] = [None]
    for piece in reversed(pieces):
        found.append(piece if piece in run else found[-1])
    return found[::-1]


def without_runs(piece: Piece, runs: Sequence[Run]) -> list[Piece]:
    """The parts of a piece that remain without some runs of blocks. The first part keeps the count of frames."""
    found, first = [], piece.first
    for run in runs:
        if run.last < first or run.first >= piece.end:
            continue
        if run.first > first:
            found.append(piece._replace(first=first, end=run.first))
        first = run.last + 1
    if first < piece.end:
        found.append(piece._replace(first=first))
    return [found[0], *(it._replace(known=0, placed=0) for it in found[1:])] if found else []


def leave_out_strays(found: Sequence[Framed]) -> None:
    """Leaves out single blocks whose good frame has the time of another place, if another reading has the frame of this
    place: such a block is stale. Its neighbours without a frame may be stale too, so they are also omitted."""
    surveys = [it.reading.loaded.survey for it in found]
    parts = [it.parts() for it in found]
    for number, it in enumerate(found):
        column, runs = it.unframed, []
        for stray in it.strays:
            part = next((part for part in parts[number] if part.first <= stray.first < part.end), None)
            if part is None or part.shift == stray.shift:
                continue
            time = stray.first + part.shift
            others = [k for k in range(len(found)) if k != number]
            if any(surveys[k].absolute(time - own.shift) == time for k in others for own in parts[k] if own.has(time)):
                first, last = stray.first, stray.last
                while first > part.first and column[first - 1]:
                    first -= 1
                while last + 1 < part.end and column[last + 1]:
                    last += 1
                runs.append(Run(first, last))
        it.stale = joined(runs, touching)


def only_shift(pieces: Iterable[Piece]) -> int | None:
    """The shift that all pieces have."""
    shifts = {piece.shift for piece in pieces}
    return shifts.pop() if len(shifts) == 1 else None


def is_sure(found: Framed, run: set[Piece]) -> bool:
    """Whether the frames of a reading are enough to determine its place: most blocks have a frame, or the frames are
    scattered over the whole reading. Frames of a few stale runs are not enough."""
    survey, total = found.reading.loaded.survey, sum(piece.known for piece in found.pieces)
    # Without Q an idle block is all zeros, and seems to be unread.
    first, end = (survey.first, survey.end) if total > LONGEST_STALE else (0, survey.blocks)
    if total >= ENOUGH * sum(gap.length for gap in found.gaps) and 3 * total >= 2 * (end - first):
        return True
    main = found.main()
    single = [piece for piece in run if piece.shift == main and piece.known < FEWEST]
    if is_scattered(sorted(single), end - first):
        return True
    parts: dict[int, set[int]] = {shift: set() for shift in found.frames}
    for piece in run:
        begin, last = (PARTS * (it - first) // (end - first) for it in (piece.first, piece.end - 1))
        parts[piece.shift].update(range(begin, last + 1))
    return sum(len(own) for own in parts.values() if len(own) >= FEW_PARTS) >= MOST_PARTS


def is_scattered(single: Sequence[Piece], blocks: int) -> bool:
    """Whether single frames are at several places that are seconds apart, and span at least half of a reading."""
    places = [after for before, after in zip(single, single[1:]) if after.first - before.end >= APART]
    return len(places) >= PLACES and 2 * (single[-1].end - single[0].first) >= blocks
