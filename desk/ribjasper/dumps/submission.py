"""The data for submissions to disc databases, from a dump of one disc."""
import dataclasses
from dataclasses import dataclass, field
from typing import Any, Iterator, NamedTuple

from ..common import library
from ..common.cue_sheets import DATA, FLAGS
from ..common.failures import Refusal
from ..common.library import BLOCK, RAW
from ..common.times import PAUSE, spelled
from . import cutting, q_repair, text_packs
from .loading import Loaded
from .protection import CHECK, check_of
from ..common.discs import Track
from .q_disc import CATALOGUE, disc, ISRC, QDisc, Source
from .sessions import BY_END, BY_GAP


class SubmittedTrack(NamedTuple):
    """A track: times are logical block addresses; checksums are of the cut track, if the dump has audio."""

    number: int
    type: str
    session: int
    isrc: str
    flags: list[str]
    pregap: int
    indexes: dict[int, int]
    length: int
    size: int | None = None
    crc32: str | None = None
    md5: str | None = None
    sha1: str | None = None
    edc_bad: int | None = None


class SubmittedSession(NamedTuple):
    number: int
    first_track: int
    last_track: int
    lead_out: int
    known_by: str


class ChangedFrame(NamedTuple):
    """A frame that was changed by design: its time and address, its bytes, and the difference of its check."""

    time: str
    lba: int
    frame: str
    check_differs: str


@dataclass
class Submission:
    file: str
    form: str
    sectors: int
    lead_in: int
    catalogue: str
    sessions: list[SubmittedSession]
    tracks: list[SubmittedTrack]
    errors: dict[str, int]
    libcrypt: list[ChangedFrame]
    other_frames: list[str]
    texts: dict[str, list[str]] = field(default_factory=dict)
    notes: list[str] = field(default_factory=list)

    def plain(self) -> dict[str, Any]:
        """The data for JSON."""
        found = dataclasses.asdict(self)
        found["sessions"] = [it._asdict() for it in self.sessions]
        found["tracks"] = [it._asdict() for it in self.tracks]
        found["libcrypt"] = [it._asdict() for it in self.libcrypt]
        return found


def errors_of(loaded: Loaded, repair: q_repair.Fixed) -> dict[str, int]:
    """Subcode errors by kind, of the blocks that were read."""
    survey = loaded.survey
    kinds = survey.column("q")[survey.first : survey.end]
    by_kind = [row.kind for row in repair.rows]
    return {
        "q-good": survey.good_frames(),
        "q-bad-check": kinds.count(library.Q_BAD_CHECK),
        "q-bad-field": kinds.count(library.Q_BAD_FIELD),
        "q-changed": by_kind.count(q_repair.CHANGED),
        "q-doubtful": by_kind.count(q_repair.DOUBTFUL),
        "q-regular": by_kind.count(q_repair.REGULAR),
        "q-can-be-filled": by_kind.count(q_repair.FILLED),
        "q-left": by_kind.count(q_repair.LEFT),
        "p-wrong": by_kind.count(q_repair.P_WRONG),
        "order-wrong": by_kind.count(q_repair.ORDER),
        "empty": sum(survey.empty),
        "unread": survey.blocks - survey.read,
        "words-one": survey.total("one"),
        "words-two": survey.total("two"),
        "words-bad": survey.total("bad"),
    }


def changed_of(source: Source, repair: q_repair.Fixed) -> list[ChangedFrame]:
    found = []
    for time, frame in sorted(repair.changed.items()):
        own = int.from_bytes(frame[-CHECK:], "big")
        right = repair.right.get(time)
        differs = own ^ (int.from_bytes(right[-CHECK:], "big") if right else check_of(frame[:-CHECK]))
        found.append(ChangedFrame(spelled(time), time - PAUSE, frame.hex(" "), f"{differs:04x}"))
    return found


def texts_in(loaded: Loaded) -> dict[str, list[str]]:
    """The texts of the lead-in by their languages."""
    survey = loaded.survey
    packs = text_packs.text_packs_in(loaded.stream[BLOCK * survey.first : BLOCK * survey.lead_in])
    names = {language.number: language.name for language in text_packs.languages_of(packs)}
    found: dict[str, list[str]] = {}
    for said in text_packs.said(packs):
        if said.kind in text_packs.TITLES.values() or said.kind == text_packs.NAMES[text_packs.GENRE]:
            found.setdefault(names[said.language], []).append(f"{said.kind} {said.track:02} {said.text}")
    return found


def hashes_of(loaded: Loaded, offset: int) -> dict[int, cutting.Hashed]:
    """The checksums of tracks, if the dump has their sectors."""
    if not loaded.form.is_in_sectors():
        return {}
    cut = cutting.tracks_of_dump(loaded)
    return {track.number: cutting.hashed(cut, track, offset) for track in cut.tracks}


def submitted_track(track: Track, end: int, hashed: cutting.Hashed | None) -> SubmittedTrack:
    first = track.indices[1]
    begin = max(min(track.indices.values()), PAUSE)
    own = SubmittedTrack(
        track.number,
        "data" if track.control & DATA else "audio",
        track.session,
        track.code.decode("ascii", "replace") if ISRC.fullmatch(track.code) else "",
        [name.decode() for bit, name in FLAGS if track.control & bit],
        max(0, first - begin),
        {index: time - PAUSE for index, time in track.indices.items() if index},
        end - first,
    )
    if hashed is None:
        return own
    sums = hashed.sums
    bad = None if hashed.edc is None else len(hashed.edc.bad)
    return own._replace(size=sums.size, crc32=sums.crc32, md5=sums.md5, sha1=sums.sha1, edc_bad=bad)


def ends_of(found: QDisc) -> Iterator[int]:
    """The end of each track: the beginning of the next one in its session, or the lead-out."""
    lead_outs = {session.number: session.lead_out for session in found.sessions}
    for track, behind in zip(found.tracks, [*found.tracks[1:], None]):
        is_last = behind is None or behind.session != track.session
        yield lead_outs[track.session] if behind is None or is_last else min(behind.indices.values())


def submission(loaded: Loaded, name: str, offset: int = 0) -> Submission:
    """All data that a database requests about a disc."""
    if loaded.form.library != RAW or not loaded.survey.has_q:
        raise Refusal(loaded.path, "has no Q channel, which describes the disc")
    source = Source(loaded)
    if not source.stretches:
        raise Refusal(loaded.path, "no Q frame names a track")
    found, repair, hashed = disc(source, loaded.companions), q_repair.fixed(source), hashes_of(loaded, offset)
    tracks = [submitted_track(track, end, hashed.get(track.number)) for track, end in zip(found.tracks, ends_of(found))]
    how = {BY_GAP: "the usual gap", BY_END: "the end of the dump"}
    sessions = [
        SubmittedSession(it.number, it.first, it.last, it.lead_out - PAUSE, how.get(it.by, it.by))
        for it in found.sessions
    ]
    other = [
        f"{row.time} {row.kind}: {row.what}" for row in repair.rows if row.kind in (q_repair.DOUBTFUL, q_repair.REGULAR)
    ]
    is_number = CATALOGUE.fullmatch(found.catalogue)
    return Submission(
        name,
        loaded.form.name,
        loaded.survey.blocks,
        loaded.survey.lead_in,
        found.catalogue.decode() if is_number else "",
        sessions,
        tracks,
        errors_of(loaded, repair),
        changed_of(source, repair),
        other,
        texts_in(loaded),
        [*loaded.notes(), *found.votes, *found.unsure],
    )


def submission_text(found: Submission) -> str:
    """The data as a text that can be pasted into a form."""
    lines = [
        f"File: {found.file}",
        f"Form: {found.form}, {found.sectors} sectors, lead-in {found.lead_in}",
        f"Catalogue number: {found.catalogue or 'none'}",
        "",
        "Sessions",
    ]
    for session in found.sessions:
        lines.append(
            f"  {session.number}: tracks {session.first_track:02} to {session.last_track:02}, lead-out at LBA "
            f"{session.lead_out} ({session.known_by})"
        )
    lines += ["", "Tracks (LBA)"]
    for track in found.tracks:
        index = ", ".join(f"index {number:02} {at}" for number, at in track.indexes.items())
        flags = f", flags {' '.join(track.flags)}" if track.flags else ""
        lines.append(
            f"  {track.number:02} {track.type}, session {track.session}, pregap {spelled(track.pregap)}, {index}, length "
            f"{spelled(track.length)}, ISRC {track.isrc or 'none'}{flags}"
        )
    hashed = [track for track in found.tracks if track.crc32]
    if hashed:
        lines += ["", "Checksums (size, CRC-32, MD5, SHA-1)"]
        for track in hashed:
            edc = "" if track.edc_bad is None else f", {track.edc_bad} sectors with a wrong EDC"
            lines.append(f"  {track.number:02} {track.size} {track.crc32} {track.md5} {track.sha1}{edc}")
    lines += ["", "Subcode errors"]
    lines += [f"  {name}: {count}" for name, count in found.errors.items()]
    lines += ["", f"LibCrypt: {len(found.libcrypt)} frames"]
    lines += [f"  {it.time} {it.lba} {it.frame} check {it.check_differs}" for it in found.libcrypt]
    if found.other_frames:
        lines += ["", "Other frames that may have been changed by design", *(f"  {it}" for it in found.other_frames)]
    for language, texts in found.texts.items():
        lines += ["", f"CD-TEXT, {language}", *(f"  {text}" for text in texts)]
    if found.notes:
        lines += ["", "Notes", *(f"  {note}" for note in found.notes)]
    return "".join(f"{line}\n" for line in lines)
