"""The disc of a dump by its Q channel and lead-in: tracks, indices, codes, texts and sessions."""
import collections
import re
from dataclasses import dataclass, field
from typing import Iterator, NamedTuple

from ..common import library
from ..common.discs import Disc, Track
from ..common.library import BLOCK, QFrame
from ..common.times import PAUSE, spelled
from . import sessions
from .companions import Companions
from .loading import Loaded
from .q_source import Source as Source
from .sessions import Layout, Session

# The number of frames of a track that are read for its control bits.
SAMPLED = 25
ISRC, CATALOGUE = re.compile(rb"[A-Z]{2}[A-Z0-9]{3}[0-9]{7}"), re.compile(rb"[0-9]{13}")


class Vote(NamedTuple):
    """The value that most frames have, the number of these frames, and the number of all frames."""

    value: bytes
    by: int
    of: int
    is_guess: bool = False  # its only frame is between two tracks

    def holds(self) -> bool:
        return 2 * self.by > self.of


@dataclass
class QDisc(Disc):
    """The disc of a dump: all contents of a sheet, and the number of frames that they come from."""

    listed: dict[int, QFrame] = field(default_factory=dict)  # the tables of contents
    end: int | None = None  # where the last lead-out begins, if a frame or a file says so
    by_frames: dict[int, int] = field(default_factory=dict)  # where index 01 of each track begins by its frames
    votes: list[str] = field(default_factory=list)  # values on which not all frames agree
    sessions: list[Session] = field(default_factory=list)
    unsure: list[str] = field(default_factory=list)  # indexes that may begin before the first frame that names them


def changes(source: Source) -> Iterator[tuple[int, int, int]]:
    """The places at which a track or an index first occurs: the block, the track and the index."""
    tracks, indices = source.survey.column("track"), source.survey.column("index")
    last = None
    for stretch in source.stretches:
        ends = {(tracks[at], indices[at]) for at in (stretch.first, stretch.last)}
        inside = range(stretch.first, stretch.last + 1) if len(ends) > 1 else (stretch.first,)
        for block in inside:
            found = tracks[block], indices[block]
            if found != last:
                yield block, *found
                last = found


def index_starts(source: Source) -> dict[int, dict[int, tuple[int, int]]]:
    """The indexes of each track that occur, each with its first block and its absolute time."""
    found: dict[int, dict[int, tuple[int, int]]] = {}
    for block, track, index in changes(source):
        time = source.survey.absolute(block)
        known = found.setdefault(track, {})
        if index not in known or time < known[index][1]:
            known[index] = block, time
    return found


def first_index(source: Source, known: dict[int, tuple[int, int]]) -> int | None:
    """The time of a track's index 01: frames of the track count from it, and frames in its pause count down to it."""
    for index, (block, time) in sorted(known.items(), reverse=True):
        frame = source.frame(block)
        if frame is not None:
            return int(time - frame.time if index else time + frame.time)
    return None


class Start(NamedTuple):
    """The start of an index: an absolute time, or up to `unsure` blocks earlier, if frames there name no index."""

    time: int
    unsure: int = 0


class Hidden(NamedTuple):
    """What frames without a time have in common with those of their track: its code, if it has one, and its control
    bits."""

    code: bytes
    control: int | None


def start_of(source: Source, known: tuple[int, int], before: Hidden, behind: Hidden) -> Start:
    """Where an index begins whose first frame with a time is known. Frames right before it that name no index belong to
    it if they have the code or the control bits of its track, and to the track before if they have those."""
    block, time = known
    earliest = latest = block
    while earliest > 0 and source.survey.absolute(earliest - 1) == library.NO_TIME:
        owner = owner_of(source.frame(earliest - 1), before, behind)
        if owner is before:
            break
        earliest -= 1
        if owner is behind:
            latest = earliest
    if earliest == 0:
        earliest = latest
    return Start(time - (block - latest), latest - earliest)


def owner_of(frame: QFrame | None, before: Hidden, behind: Hidden) -> Hidden | None:
    """The track, of two, that a frame without a time belongs to, by its code or its control bits."""
    if frame is None or frame.kind not in (library.Q_CATALOGUE, library.Q_ISRC):
        return None
    code = bytes(frame.text)[:12] if frame.kind == library.Q_ISRC else b""
    if code and before.code != behind.code and code in (before.code, behind.code):
        return before if code == before.code else behind
    if before.control != behind.control and frame.control in (before.control, behind.control):
        return before if frame.control == before.control else behind
    return None


def pause(source: Source, known: tuple[int, int], first: int, start: Start) -> Start:
    """The beginning of the pause of a track. If the frames right before it have no time, it begins where P is set,
    provided that the pause has at least two seconds; for a shorter pause, P is set before it too."""
    block, time = known
    back = 0
    while (
        block > back and source.survey.absolute(block - back - 1) == library.NO_TIME and source.has_p(block - back - 1)
    ):
        back += 1
    if back and first - time + back >= PAUSE and time - back <= start.time:
        return Start(time - back)
    return start


def most(counted: collections.Counter[bytes]) -> Vote | None:
    if not counted:
        return None
    value, count = counted.most_common(1)[0]
    return Vote(value, count, sum(counted.values()))


def codes(source: Source) -> dict[int, Vote]:
    """The recording code that most frames of each track have. A code between two tracks may belong to either. It counts
    for the second track if this track has no other code and the code is not that of the first track."""
    counts: dict[int, collections.Counter[bytes]] = {}
    between: dict[int, bytes] = {}
    for block, frame in source.frames(library.Q_ISRC):
        code = bytes(frame.text)[:12]
        before, after = source.track_near(block, -1), source.track_near(block, 1)
        if before == after and before is not None:
            counts.setdefault(before, collections.Counter())[code] += 1
        elif after is not None:
            between[after] = code
    found = {track: vote for track, counted in counts.items() if (vote := most(counted))}
    for track, code in between.items():
        if track not in found and all(vote.value != code for vote in found.values()):
            found[track] = Vote(code, 1, 1, is_guess=True)
    return found


def catalogue(source: Source) -> Vote | None:
    return most(collections.Counter(bytes(frame.text) for _, frame in source.frames(library.Q_CATALOGUE)))


def control(source: Source, known: dict[int, tuple[int, int]], end: int) -> int | None:
    """The control bits that most frames of a track have, of some that are spread over it."""
    blocks = sorted(block for block, _ in known.values())
    last = min(source.survey.end, max(blocks[0] + 1, end))
    places = {blocks[0] + (last - blocks[0]) * place // SAMPLED for place in range(SAMPLED)} | set(blocks)
    tracks = source.survey.column("track")
    own = (frame for block in places if tracks[block] == tracks[blocks[0]] and (frame := source.frame(block)))
    vote = most(collections.Counter(bytes([frame.control]) for frame in own))
    return vote.value[0] if vote else None


def last_time(source: Source) -> int:
    """The absolute time of the last block of the program that is there: frames with a code follow one with a time."""
    last = max(source.stretches, key=lambda it: it.last + it.shift)
    kinds, block = source.survey.column("q"), last.last
    while block + 1 < source.survey.blocks and kinds[block + 1] in (library.Q_CATALOGUE, library.Q_ISRC):
        block += 1
    return block + last.shift


def unescaped(text: str) -> bytes:
    """The bytes of a text as `text` writes it."""
    return re.sub(rb"\\([0-9A-Fa-f]{2})", lambda found: bytes.fromhex(found[1].decode()), text.encode())


def lead_in_texts(source: Source) -> dict[tuple[str, int], bytes]:
    blocks = source.survey.lead_in
    found = {}
    for line in library.texts(source.stream[: BLOCK * blocks], blocks).splitlines():
        kind, number, *rest = line.split(" ", 2)
        if kind != "packs":
            found[kind, int(number)] = unescaped("".join(rest))
    return found


def listed_by(layout: Layout) -> dict[int, QFrame]:
    """The tracks of all tables of contents."""
    found: dict[int, QFrame] = {}
    for border in layout.borders:
        found = border.contents.tracks | found
    return found


class Parts(NamedTuple):
    """The tracks of a dump by their numbers."""

    met: dict[int, dict[int, tuple[int, int]]]  # the indexes that were met, each with its first block and time
    begins: dict[int, int]  # where index 01 begins
    hidden: dict[int, Hidden]

    def indices(self, source: Source, number: int, unsure: list[str]) -> dict[int, int]:
        """The absolute times at which the indexes of a track begin."""
        known, first = self.met.get(number, {}), self.begins[number]
        found = {1: first}
        for index, place in known.items():
            if index == 1:
                continue
            own = self.hidden[number]
            before = self.hidden.get(number - 1, Hidden(b"", None)) if index == 0 else own
            start = start_of(source, place, before, own)
            start = pause(source, place, first, start) if index == 0 else start
            found[index] = start.time
            if start.unsure:
                earliest = spelled(start.time - start.unsure)
                unsure.append(
                    f"track {number:02}: index {index:02} begins between {earliest} and {spelled(start.time)} (absolute): "
                    "no frame there names an index"
                )
        return dict(sorted(found.items()))


def code_of(vote: Vote | None, text: bytes, name: str, votes: list[str]) -> bytes:
    """A code that most frames have, or else the texts of the lead-in. If not all frames have it, a note reports
    this."""
    if vote and vote.by < vote.of:
        votes.append(f"{name} {vote.value.decode('ascii', 'replace')} by {vote.by} of {vote.of} frames")
    return vote.value if vote and vote.holds() else text


def disc(source: Source, companions: Companions | None = None) -> QDisc:
    """All contents of a sheet, from the frames of the program, or else of the lead-in; sessions also from companion
    files."""
    layout, met, found_texts = Layout(source), index_starts(source), lead_in_texts(source)
    listed, isrc = listed_by(layout), codes(source)
    by_frames = {number: first for number, known in met.items() if (first := first_index(source, known)) is not None}
    begins = by_frames | {number: int(frame.absolute) for number, frame in listed.items()}
    votes, unsure = list[str](), list[str]()
    blocks = {number: min((block for block, _ in met.get(number, {}).values()), default=None) for number in begins}
    hidden, own_codes = dict[int, Hidden](), dict[int, bytes]()
    for number in sorted(begins):
        vote = isrc.get(number)
        code = code_of(vote, found_texts.get(("code", number), b""), f"track {number:02}: ISRC", votes)
        behind = [block for other, block in blocks.items() if other > number and block is not None]
        known, end = met.get(number, {}), min(behind, default=source.survey.end)
        bits = control(source, known, end) if known else listed[number].control
        own_codes[number] = code
        # A code that is a guess proves nothing about where the track begins.
        hidden[number] = Hidden(b"" if vote and vote.is_guess else code, bits)
    parts = Parts(met, begins, hidden)
    numbers = sessions.numbers_of(layout, blocks, begins, companions.session_tracks if companions else {})
    tracks = [
        Track(number, hidden[number].control or 0, parts.indices(source, number, unsure), own_codes[number], session)
        for number, session in sorted(numbers.items())
    ]
    whole = code_of(catalogue(source), found_texts.get(("code", 0), b""), "CATALOG", votes)
    found = sessions.sessions_of(layout, numbers, begins, last_time(source) + 1, companions)
    end = found[-1].lead_out if found else last_time(source) + 1
    end_by = end if found and found[-1].is_sure else None
    return QDisc(tracks, end, whole, found_texts, listed, end_by, by_frames, votes, found, unsure)


def sessions_in(loaded: Loaded) -> list[Session]:
    """The sessions of a dump; none if no frame names a track."""
    if loaded.form.library != library.RAW:
        return []
    source = Source(loaded)
    return disc(source, loaded.companions).sessions if source.stretches else []
