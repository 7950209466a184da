"""The sessions of a disc, from the lead-ins and lead-outs in its dump: tracks, and the start of each lead-out."""
import collections
import re
from typing import Iterator, Mapping, NamedTuple, Sequence

from ..common import library
from ..common.library import QFrame
from ..common.times import spelled
from .columns import joined
from .companions import Companions
from .loading import Loaded
from .pieces import TABLE
from .q_source import Source

# The track number of a lead-out, in a frame of mode 1.
LEAD_OUT_TRACK, POSITION = 0xAA, 1
# Fewer frames make no lead-in and no lead-out; frames of one that are no further apart belong together.
FEWEST, APART = 3, 75
# The maximum number of blocks of a lead-in that are read for its table of contents, and of frames of a lead-out.
MOST_OF_LEAD_IN, MOST_OF_LEAD_OUT = 20_000, 500
# The blocks from a lead-out to the music of the next session: the lead-out of the first session or of a later one, the
# next lead-in, and a pause.
FIRST_GAP, LATER_GAP = 6750 + 4500 + 150, 2250 + 4500 + 150
# The sources of the beginning of a lead-out.
BY_CONTENTS, BY_FRAMES, BY_FILE, BY_GAP, BY_END = "contents", "lead-out", "file", "gap", "end"


class Zone(NamedTuple):
    """Neighbouring blocks of a lead-in or a lead-out."""

    is_lead_in: bool
    first: int
    last: int


class Contents(NamedTuple):
    """A table of contents: its tracks, and the absolute time at which the lead-out begins."""

    tracks: dict[int, QFrame]
    end: int | None


class Session(NamedTuple):
    """A session: its first and its last track, the absolute time at which its lead-out begins, and how that is
    known."""

    number: int
    first: int
    last: int
    lead_out: int
    by: str

    @property
    def is_sure(self) -> bool:
        """Whether a frame or a file contains the start of the lead-out."""
        return self.by in (BY_CONTENTS, BY_FRAMES, BY_FILE)

    def said(self) -> str:
        tracks = f"track {self.first:02}" if self.first == self.last else f"tracks {self.first:02} to {self.last:02}"
        unsure = {BY_GAP: "by the usual gap, ", BY_END: "or later, "}.get(self.by, "")
        return f"{tracks}, lead-out {unsure}at {spelled(self.lead_out)}"


def bcd(byte: int) -> int | None:
    return 10 * (byte >> 4) + (byte & 15) if byte >> 4 < 10 and byte & 15 < 10 else None


def lead_out_of(frame: QFrame) -> int | None:
    """The beginning of the lead-out of this frame: the absolute time of the frame minus its time in the lead-out."""
    rest = bytes(frame.text)
    if frame.kind != library.Q_OTHER or frame.mode != POSITION or rest[0] != LEAD_OUT_TRACK:
        return None
    times = []
    for minute, second, place in (rest[2:5], rest[6:9]):
        parts = bcd(minute), bcd(second), bcd(place)
        if None in parts:
            return None
        times.append(4500 * (parts[0] or 0) + 75 * (parts[1] or 0) + (parts[2] or 0))
    return times[1] - times[0] if times[1] >= times[0] else None


def zones_of(blocks: Iterator[int], is_lead_in: bool) -> list[Zone]:
    """Blocks, one after another, as zones."""

    def near(before: tuple[int, int, int], behind: tuple[int, int, int]) -> tuple[int, int, int] | None:
        return (before[0], behind[1], before[2] + behind[2]) if behind[0] - before[1] <= APART else None

    found = joined(((block, block, 1) for block in blocks), near)
    return [Zone(is_lead_in, first, last) for first, last, count in found if count >= FEWEST]


def zones(source: Source) -> list[Zone]:
    """The lead-ins and lead-outs of a dump."""
    kinds = source.survey.column("q")
    table = kinds.translate(bytes(1 if kind in TABLE else 0 for kind in range(256)))
    lead_ins = zones_of((it.start() for it in re.finditer(rb"\x01", table)), True)
    other = re.finditer(re.escape(bytes([library.Q_OTHER])), kinds)
    lead_outs = zones_of((it.start() for it in other if is_lead_out(source, it.start())), False)
    return sorted([*lead_ins, *lead_outs], key=lambda it: it.first)


def is_lead_out(source: Source, block: int) -> bool:
    frame = source.frame(block)
    return frame is not None and lead_out_of(frame) is not None


def contents_of(source: Source, blocks: range) -> Contents:
    """The table of contents in these blocks, from most of its frames."""
    counted: dict[int, collections.Counter[tuple[int, int]]] = {}
    frames: dict[tuple[int, int, int], QFrame] = {}
    for block in blocks[:MOST_OF_LEAD_IN]:
        frame = source.frame(block)
        if frame is not None and frame.kind in (library.Q_TRACK, library.Q_LEAD_OUT):
            entry = int(frame.track) if frame.kind == library.Q_TRACK else 0
            value = int(frame.control), int(frame.absolute)
            counted.setdefault(entry, collections.Counter())[value] += 1
            frames.setdefault((entry, *value), frame)
    found = {entry: frames[entry, *values.most_common(1)[0][0]] for entry, values in counted.items()}
    end = found.pop(0, None)
    return Contents(found, None if end is None else int(end.absolute))


def lead_out_by_frames(source: Source, zone: Zone) -> int | None:
    """The beginning of a lead-out, from most of its frames."""
    counted = collections.Counter[int]()
    for block in range(zone.first, zone.last + 1)[:MOST_OF_LEAD_OUT]:
        if (frame := source.frame(block)) is not None and (time := lead_out_of(frame)) is not None:
            counted[time] += 1
    return counted.most_common(1)[0][0] if counted else None


class Border:
    """The blocks before the first part of the program, between two parts, or after the last: the table of contents of
    the following part, and the start of the lead-out of the previous part."""

    def __init__(self, source: Source, of: Sequence[Zone]) -> None:
        self.end = of[-1].last if of else -1
        lead_ins = [zone for zone in of if zone.is_lead_in]
        lead_outs = [zone for zone in of if not zone.is_lead_in]
        blocks = range(lead_ins[-1].first, lead_ins[-1].last + 1) if lead_ins else range(0)
        self.contents = contents_of(source, blocks)
        self.lead_out = lead_out_by_frames(source, lead_outs[0]) if lead_outs else None


class Layout:
    """The parts of the program of a dump, and the borders before, between and behind them."""

    def __init__(self, source: Source) -> None:
        self.source = source
        programs = [(it.first, it.last) for it in source.stretches]
        groups: list[list[Zone]] = [[]]
        self.parts: list[tuple[int, int]] = []
        events = sorted([(zone.first, zone) for zone in zones(source)], key=lambda it: it[0])
        for first, last in programs:
            before = [zone for at, zone in events if at < first]
            events = events[len(before) :]
            groups[-1] += before
            if self.parts and not groups[-1]:
                self.parts[-1] = self.parts[-1][0], last
            else:
                self.parts.append((first, last))
                groups.append([])
        groups[-1] += [zone for _, zone in events]
        self.borders = [Border(source, group) for group in groups]

    def part_of(self, block: int) -> int:
        """The part of the program, from 1, that a block belongs to."""
        return max(1, sum(block >= first for first, _ in self.parts))


def numbers_of(
    layout: Layout, blocks: Mapping[int, int | None], begins: Mapping[int, int], session_tracks: Mapping[int, int]
) -> dict[int, int]:
    """The session of each track: from a companion file, from the borders, or because the track begins after a lead-out
    that the table of contents names. The inputs are the first block of each track, if it was found, and the time at
    which the track begins."""
    if session_tracks:
        return {
            number: max([1, *(session for session, first in session_tracks.items() if number >= first)])
            for number in blocks
        }
    listed = {number: place for place, border in enumerate(layout.borders, 1) for number in border.contents.tracks}
    found: dict[int, int] = {}
    before = 1
    for number in sorted(blocks):
        block = blocks[number]
        session = listed.get(number, before) if block is None else layout.part_of(block)
        end = layout.borders[0].contents.end
        if session == before == 1 and end is not None and begins[number] >= end and number not in listed:
            session = 2
        before = found[number] = max(before, session)
    return found


def sessions_of(
    layout: Layout, numbers: Mapping[int, int], begins: Mapping[int, int], end: int, companions: Companions | None
) -> list[Session]:
    """The sessions of tracks whose session and beginning are known, in a dump whose program ends at a time."""
    found = []
    of = sorted(set(numbers.values()))
    for place, session in enumerate(of):
        tracks = sorted(number for number, its in numbers.items() if its == session)
        later = [begins[number] for number, its in numbers.items() if its > session]
        lead_out, by = lead_out_time(layout, session, min(later, default=None), end, companions)
        found.append(Session(session, tracks[0], tracks[-1], lead_out, by))
    return found


def lead_out_time(
    layout: Layout, session: int, following: int | None, end: int, companions: Companions | None
) -> tuple[int, str]:
    """The beginning of the lead-out of a session, and its source."""
    own = layout.borders[session - 1].contents if session <= len(layout.parts) else Contents({}, None)
    if own.end is not None and (following is None or own.end <= following):
        return own.end, BY_CONTENTS
    behind = layout.borders[session].lead_out if session <= len(layout.parts) else None
    if behind is not None:
        return behind, BY_FRAMES
    if companions is not None and session in companions.lead_outs:
        return companions.lead_outs[session], BY_FILE
    if following is None:
        return end, BY_END
    last = layout.parts[session - 1][1] if session < len(layout.parts) else None
    last_time = 0 if last is None else layout.source.survey.absolute(last) + 1
    usual = following - (FIRST_GAP if session == 1 else LATER_GAP)
    return (usual, BY_GAP) if usual >= last_time else (last_time, BY_END)


def notes(loaded: Loaded, sessions: Sequence[Session]) -> Iterator[str]:
    """The note on the sessions of a dump, if there are several."""
    if len(sessions) > 1:
        yield f"{len(sessions)} sessions: " + "; ".join(session.said() for session in sessions)
    elif loaded.companions.sessions is not None and loaded.companions.sessions > 1:
        yield f"{loaded.companions.sessions} sessions, from a file next to the dump"
