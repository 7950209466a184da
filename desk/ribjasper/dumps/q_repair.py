"""Bad Q frames between good ones, if only one frame is possible; frames that were changed by design; and errors in P
and in the order of tracks and indexes."""
import ctypes
from typing import Iterator, NamedTuple

from ..common import library
from ..common.library import BLOCK, QFrame
from ..common.times import PAUSE, spelled
from .forms import to_planar
from .protection import BadFrame, Verdict, alike, judged
from .q_disc import Source, catalogue, codes
from .columns import Run, runs

NAMES = ("kind", "block", "time", "what")
FILLED, LEFT, CHANGED, DOUBTFUL, REGULAR, P_WRONG, ORDER = (
    "filled",
    "left",
    "changed",
    "doubtful",
    "regular",
    "p",
    "order",
)
# The kinds of lines after which the exit status is 1.
OPEN = (LEFT, DOUBTFUL, REGULAR, P_WRONG, ORDER)
FRAME, CHECK = 12, 2
# Good frames with the time of another place are no accident if this number of them is wrong by the same time.
FEWEST_MOVED = 4
MAY_BE_CHANGED = "may have been changed by design, as LibCrypt changes frames, but not both frames of its pair are so"


class Gap(NamedTuple):
    """Neighbouring blocks whose Q is bad, the good frames before and after them, and the frames that time and track
    allow."""

    run: Run
    frames: list[QFrame]
    why: str  # why there are none


class Finding(NamedTuple):
    kind: str
    block: int
    time: str
    what: str


def encoded(frame: QFrame) -> bytes | None:
    room = ctypes.create_string_buffer(FRAME)
    return room.raw if library.call("ribjasper_q_encode")(frame, room) == library.DONE else None


def q_bytes(block: bytes) -> bytes:
    """The twelve bytes of a raw block's Q channel."""
    return to_planar(block)[FRAME : 2 * FRAME]


def with_q(block: bytes, frame: bytes) -> bytes:
    """A raw block with another Q channel."""
    bits = int.from_bytes(frame, "big")
    return bytes(byte & 0xBF | (bits >> 95 - place & 1) << 6 for place, byte in enumerate(block))


def bits_apart(a: bytes, b: bytes) -> int:
    return (int.from_bytes(a, "big") ^ int.from_bytes(b, "big")).bit_count()


def moved(frame: QFrame, by: int) -> QFrame:
    """The frame `by` blocks after a frame of the program, in the same index of the same track."""
    time = frame.time + by if frame.index else frame.time - by
    return QFrame(frame.kind, time, frame.absolute + by, frame.control, frame.mode, frame.track, frame.index)


def program_frame(source: Source, block: int, step: int) -> tuple[int, QFrame] | None:
    """The nearest frame of the program on one side of a block, past frames with a code."""
    kinds = source.survey.column("q")
    while 0 <= block < source.survey.blocks:
        if kinds[block] == library.Q_PROGRAM:
            frame = source.frame(block)
            return (block, frame) if frame is not None else None
        if kinds[block] not in (library.Q_CATALOGUE, library.Q_ISRC):
            return None
        block += step
    return None


def gap_of(source: Source, run: Run) -> Gap:
    before, behind = program_frame(source, run.first - 1, -1), program_frame(source, run.last + 1, 1)
    if before is None or behind is None:
        return Gap(run, [], "there is no good frame directly before and after it")
    (first, a), (last, b) = before, behind
    goes_on = moved(a, last - first)
    if a.absolute + last - first != b.absolute:
        return Gap(run, [], "the time jumps within")
    if (a.track, a.index) != (b.track, b.index):
        return Gap(run, [], "a track or an index begins within")
    if (goes_on.time, a.control) != (b.time, b.control):
        return Gap(run, [], "the frames before and behind do not fit each other")
    return Gap(run, [moved(a, block - first) for block in range(run.first, run.last + 1)], "")


class Fixed(NamedTuple):
    """What q-fix found: the rows of its table, the frames to be filled in by block, and those that were changed by
    design, by the absolute time of their place."""

    rows: list[Finding]
    frames: dict[int, bytes]
    changed: dict[int, bytes]
    right: dict[int, bytes]  # what changed frames would be

    def left(self) -> int:
        """How many lines are about faults that remain."""
        return sum(row.kind in OPEN for row in self.rows)


class KnownFrames(NamedTuple):
    """The facts about bad frames before they are restored: the codes of the disc; by block, the verdict on each bad
    frame; and the frames that differ from the right ones as others do."""

    coded: list[tuple[int, dict[int, bytes]]]
    verdicts: dict[int, Verdict]
    regular: dict[int, str]


def with_code(source: Source, block: int, frame: QFrame, code: bytes, kind: int) -> bytes | None:
    text = (ctypes.c_uint8 * 13)(*code)
    return encoded(
        QFrame(kind, 0, 0, frame.control, 3 if kind == library.Q_ISRC else 2, 0, 0, 0, frame.absolute % 75, text)
    )


def nearest_frame(
    source: Source, block: int, frame: QFrame, coded: list[tuple[int, dict[int, bytes]]]
) -> tuple[bytes, int] | None:
    """Of the possible frames of a block, that of its time and those with the codes of its track, the one from which
    the bad frame differs in the fewest bits."""
    found = q_bytes(source.stream[BLOCK * block : BLOCK * (block + 1)])
    wanted = [encoded(frame)]
    if any(found):
        wanted += [
            with_code(source, block, frame, by[key], kind)
            for kind, by in coded
            for key in (frame.track, 0)
            if key in by
        ]
    each = [(candidate, bits_apart(found, candidate)) for candidate in wanted if candidate is not None]
    return min(each, key=lambda it: it[1]) if each else None


def bad_frames_of(source: Source, gaps: list[Gap]) -> list[BadFrame]:
    """The bad frames whose right values are known."""
    found = []
    for gap in gaps:
        for block, frame in zip(range(gap.run.first, gap.run.last + 1), gap.frames):
            if wanted := encoded(frame):
                own = q_bytes(source.stream[BLOCK * block : BLOCK * (block + 1)])
                found.append(BadFrame(block, frame.absolute, own, wanted))
    return found


def fixed(source: Source) -> Fixed:
    gaps = [gap_of(source, run) for run in runs(source.survey.bad_frames)]
    bad = bad_frames_of(source, gaps)
    verdicts = judged(bad)
    by_track = {track: vote.value for track, vote in codes(source).items() if vote.holds()}
    number = catalogue(source)
    coded = [(library.Q_ISRC, by_track), (library.Q_CATALOGUE, {0: number.value} if number and number.holds() else {})]
    known = KnownFrames(coded, verdicts, alike(bad, [it for it in verdicts if verdicts[it] is not Verdict.DAMAGED]))
    result = Fixed([], {}, {}, {})
    for gap in gaps:
        for block in range(gap.run.first, gap.run.last + 1):
            fill(source, gap, block, known, result)
    result.rows.extend(moved_rows(source))
    result.rows.extend(p_rows(source))
    result.rows.extend(order_rows(source))
    result.rows.sort(key=lambda row: row.block)
    return result


def fill(source: Source, gap: Gap, block: int, known: KnownFrames, result: Fixed) -> None:
    if not gap.frames:
        result.rows.append(Finding(LEFT, block, "-", gap.why))
        return
    frame = gap.frames[block - gap.run.first]
    time = spelled(frame.absolute)
    verdict = known.verdicts.get(block)
    if verdict is Verdict.CHANGED:
        found = q_bytes(source.stream[BLOCK * block : BLOCK * (block + 1)])
        result.changed[frame.absolute] = found
        if right := encoded(frame):
            result.right[frame.absolute] = right
        result.rows.append(Finding(CHANGED, block, time, found[:-CHECK].hex()))
    elif verdict is Verdict.DOUBTFUL:
        result.rows.append(Finding(DOUBTFUL, block, time, MAY_BE_CHANGED))
    elif block in known.regular:
        what = f"differs from the right frame as others do, in the bits {known.regular[block]}"
        result.rows.append(Finding(REGULAR, block, time, what))
    elif (found_frame := nearest_frame(source, block, frame, known.coded)) is None:
        result.rows.append(Finding(LEFT, block, time, "no frame can have its time"))
    else:
        result.frames[block] = found_frame[0]
        what = f"track {frame.track:02} index {frame.index:02} {spelled(frame.time)}, {found_frame[1]} bits other"
        result.rows.append(Finding(FILLED, block, time, what))


def moved_rows(source: Source) -> Iterator[Finding]:
    """Single good frames with the time of another place, if several are wrong by the same time."""
    by_distance: dict[int, list[tuple[int, int]]] = {}
    for stretch in source.clock.stretches:
        piece = next((it for it in source.pieces if it.first <= stretch.first and stretch.last < it.end), None)
        if stretch.first == stretch.last and piece is not None and stretch.shift != piece.shift:
            place = stretch.first + piece.shift
            by_distance.setdefault(stretch.shift - piece.shift, []).append((stretch.first, place))
    for distance, blocks in by_distance.items():
        if len(blocks) >= FEWEST_MOVED:
            for block, time in blocks:
                what = f"a good frame has a time {abs(distance)} blocks {'later' if distance > 0 else 'earlier'}, as others do"
                yield Finding(REGULAR, block, spelled(time), what)


def p_rows(source: Source) -> Iterator[Finding]:
    """The places where P contradicts Q. P is set in the pause before a track, for at least two seconds, and ends with
    index 01 of the track. If P is set nowhere, it has no information."""
    if not any(source.has_p(block) for block in samples(source)):
        return
    tracks, indices = source.survey.column("track"), source.survey.column("index")
    known: tuple[int, int] | None = None
    for stretch in source.stretches:
        for block in range(stretch.first, stretch.last + 1):
            now = tracks[block], indices[block]
            if known is not None and now != known and now[1] == 1 and known != (now[0], 1):
                time = source.survey.absolute(block)
                if source.has_p(block) and source.has_p(block + 1):
                    yield Finding(P_WRONG, block, spelled(time), f"P is set where index 01 of track {now[0]:02} begins")
                elif time > PAUSE and not source.has_p(block - 2):
                    yield Finding(P_WRONG, block, spelled(time), f"P is not set before index 01 of track {now[0]:02}")
            known = now


def samples(source: Source) -> list[int]:
    """Blocks directly before the music of a track, where P is set if it is set anywhere."""
    tracks, indices = source.survey.column("track"), source.survey.column("index")
    found = []
    for stretch in source.stretches:
        if len({(tracks[at], indices[at]) for at in (stretch.first, stretch.last)}) > 1:
            found += [
                at
                for at in range(stretch.first + 3, stretch.last + 1)
                if (tracks[at], indices[at]) != (tracks[at - 1], indices[at - 1])
            ]
    return [at - 3 for at in found] or [0]


def order_rows(source: Source) -> Iterator[Finding]:
    """Where a track does not follow the one before, or an index the one before it."""
    tracks, indices = source.survey.column("track"), source.survey.column("index")
    last: tuple[int, int] | None = None
    for stretch in source.stretches:
        ends = {(tracks[at], indices[at]) for at in (stretch.first, stretch.last)}
        for block in range(stretch.first, stretch.last + 1) if len(ends) > 1 else (stretch.first,):
            now = tracks[block], indices[block]
            if last is not None and now != last and not follows(last, now):
                what = f"track {now[0]:02} index {now[1]:02} comes behind track {last[0]:02} index {last[1]:02}"
                yield Finding(ORDER, block, spelled(source.survey.absolute(block)), what)
            last = now


def follows(before: tuple[int, int], behind: tuple[int, int]) -> bool:
    if before[0] == behind[0]:
        return behind[1] == before[1] + 1
    return behind[0] == before[0] + 1 and behind[1] in (0, 1)
