"""The sheet of a dump, from its Q channel and its lead-in, in the format of the program's `author`, of cdrdao or of
CloneCD."""
import argparse
import os
from typing import Iterator

from ...common import kinds
from ...common.cue_sheets import COMMANDS, COPY, DATA, FOUR_CHANNELS, MENTIONED, PRE_EMPHASIS, CueWriter, spelled_name
from ...common.failures import FOUND, Refusal, shown
from ...common.output import Outputs, add_force, add_json, read_file, tell
from ...common.times import PAUSE, spelled
from ...common.words import Commands, number_in
from ...dumps import comparing
from ...dumps.loading import Loaded, add_options, asked, load_raw
from ...dumps.comparing import TimeBase, time_at
from ...dumps.companions import LEAD_OUT
from ...common.discs import Track
from ...dumps.q_disc import CATALOGUE, disc, ISRC, QDisc, Source
from ...dumps.sessions import BY_GAP, Session, notes as session_notes
from ...dumps.survey import Clock

# Points of the table of contents that are no tracks.
FIRST_TRACK, LAST_TRACK = 0xA0, 0xA1


class SheetWriter:
    """A disc with the name of its audio file, the encoding of its texts, and the origin of its times."""

    def __init__(
        self, source: Source, found: QDisc, name: bytes, is_latin_1: bool, base: TimeBase = TimeBase.FILE
    ) -> None:
        self.source, self.disc, self.is_latin_1, self.base = source, found, is_latin_1, base
        self.file = spelled_name(name)

    def at(self, time: int) -> int:
        """The time of a sheet at an absolute time."""
        return time_at(self.source, self.base, time)

    def encoded(self, text: bytes) -> bytes:
        """A text of a disc, which is Latin-1, as the sheet has it."""
        return text if self.is_latin_1 else text.decode("latin-1").encode("utf-8")

    def add_texts(self, sheet: CueWriter, number: int) -> None:
        """Adds the texts of a track, or of the album. Texts that a sheet cannot contain are reported."""
        for kind in (*COMMANDS, *MENTIONED):
            text = self.disc.texts.get((kind, number))
            if text and not sheet.text(kind, self.encoded(text)):
                tell(f"the {kind} of track {number:02} cannot be written in a sheet: {text!r}")

    def add_track(self, sheet: CueWriter, track: Track) -> None:
        sheet.track(track.number, b"MODE1/2352" if track.control & DATA else b"AUDIO")
        self.add_texts(sheet, track.number)
        sheet.flags(track.control)
        if ISRC.fullmatch(track.code):
            sheet.isrc(track.code)
        first = self.at(track.indices[1])
        for index, time in track.indices.items():
            # The pause of two seconds before the file is in every disc.
            if index or self.at(time) < first:
                sheet.index(index, self.at(time))

    def cue(self) -> bytes:
        """The cue sheet. A remark has the options that `author` needs for it."""
        sheet = CueWriter()
        length = spelled(max(self.disc.blocks - PAUSE, 0))
        sheet.remark(f"ribjasper author --lead-in {self.source.survey.lead_in} --length {length}".encode())
        sheet.remark(self.base.remark)
        if CATALOGUE.fullmatch(self.disc.catalogue):
            sheet.catalogue(self.disc.catalogue)
        self.add_texts(sheet, 0)
        sheet.file(self.file, b"WAVE")
        is_of_several, session = len({track.session for track in self.disc.tracks}) > 1, 0
        for track in self.disc.tracks:
            if is_of_several and track.session != session:
                session = track.session
                sheet.remark(b"SESSION %02d" % session)
            self.add_track(sheet, track)
        return sheet.content()

    def toc(self, session: int = 1) -> bytes:
        """A sheet for cdrdao, which has one session, and whose audio file begins with the first sector of the dump."""
        lines = [b"CD_DA" if not any(track.control & DATA for track in self.disc.tracks) else b"CD_ROM"]
        if CATALOGUE.fullmatch(self.disc.catalogue):
            lines.append(b'CATALOG "%b"' % self.disc.catalogue)
        has_texts = any(self.disc.texts.get((kind, number)) for kind in COMMANDS for number in range(100))
        if has_texts:
            lines += [
                b"CD_TEXT {",
                b"  LANGUAGE_MAP { 0 : 9 }",
                b"  LANGUAGE 0 {",
                *self.toc_texts(0, b"    "),
                b"  }",
                b"}",
            ]
        tracks = [track for track in self.disc.tracks if track.session == session]
        end = next((it.lead_out for it in self.disc.sessions if it.number == session), self.disc.blocks)
        begins = [self.source.in_file(min(track.indices.values())) for track in tracks]
        ends = [*begins[1:], self.source.end_in_file(end)]
        for track, begin, end in zip(tracks, begins, ends):
            lines += [b"", b"TRACK " + (b"MODE1_RAW" if track.control & DATA else b"AUDIO")]
            lines.append(b"COPY" if track.control & COPY else b"NO COPY")
            if not track.control & DATA:
                lines.append(b"PRE_EMPHASIS" if track.control & PRE_EMPHASIS else b"NO PRE_EMPHASIS")
                lines.append(b"FOUR_CHANNEL_AUDIO" if track.control & FOUR_CHANNELS else b"TWO_CHANNEL_AUDIO")
            if ISRC.fullmatch(track.code):
                lines.append(b'ISRC "%b"' % track.code)
            if has_texts:
                lines += [b"CD_TEXT {", b"  LANGUAGE 0 {", *self.toc_texts(track.number, b"    "), b"  }", b"}"]
            word = b"DATAFILE" if track.control & DATA else b"FILE"
            lines.append(b'%b "%b" %b %b' % (word, self.file, spelled(begin).encode(), spelled(end - begin).encode()))
            first = self.source.in_file(track.indices[1])
            if first > begin:
                lines.append(b"START " + spelled(first - begin).encode())
            for index, time in track.indices.items():
                if index > 1:
                    lines.append(b"INDEX " + spelled(self.source.in_file(time) - first).encode())
        return b"".join(line + b"\n" for line in lines)

    def toc_texts(self, number: int, margin: bytes) -> Iterator[bytes]:
        for kind, command in COMMANDS.items():
            text = self.disc.texts.get((kind, number), b"")
            spelling = self.encoded(text).replace(b"\\", b"\\\\").replace(b'"', b'\\"')
            if not any(byte < 0x20 or byte == 0x7F for byte in text):
                yield b'%b%b "%b"' % (margin, command, spelling)

    def ccd(self) -> bytes:
        """A sheet of CloneCD; its image begins with the first sector."""
        sessions = [session.number for session in self.disc.sessions]
        entries = [entry for session in self.disc.sessions for entry in self.entries(session)]
        lines = ["[CloneCD]", "Version=3", "[Disc]", f"TocEntries={len(entries)}", f"Sessions={len(sessions)}"]
        lines += ["DataTracksScrambled=0", "CDTextLength=0"]
        if CATALOGUE.fullmatch(self.disc.catalogue):
            lines.append(f"CATALOG={self.disc.catalogue.decode()}")
        for session in sessions:
            first = next(track for track in self.disc.tracks if track.session == session)
            lines += [f"[Session {session}]", f"PreGapMode={int(bool(first.control & DATA))}", "PreGapSubC=0"]
        for number, (session, point, bits, (minute, second, frame)) in enumerate(entries):
            place = 4500 * minute + 75 * second + frame - PAUSE
            lines += [
                f"[Entry {number}]",
                f"Session={session}",
                f"Point=0x{point:02x}",
                "ADR=0x01",
                f"Control=0x{bits:02x}",
            ]
            lines += ["TrackNo=0", "AMin=0", "ASec=0", "AFrame=0", "ALBA=-150", "Zero=0"]
            lines += [f"PMin={minute}", f"PSec={second}", f"PFrame={frame}", f"PLBA={place}"]
        for track in self.disc.tracks:
            lines += [f"[TRACK {track.number}]", f"MODE={int(bool(track.control & DATA))}"]
            if ISRC.fullmatch(track.code):
                lines.append(f"ISRC={track.code.decode()}")
            lines += [f"INDEX {index}={time - PAUSE}" for index, time in track.indices.items() if time >= PAUSE]
        return "".join(f"{line}\r\n" for line in lines).encode()

    def entries(self, session: Session) -> Iterator[tuple[int, int, int, tuple[int, int, int]]]:
        """The entries of a table of contents: session, point, control bits, and a time or its three bytes."""
        own = [track for track in self.disc.tracks if track.session == session.number]
        yield session.number, FIRST_TRACK, own[0].control, (own[0].number, 0, 0)
        yield session.number, LAST_TRACK, own[-1].control, (own[-1].number, 0, 0)
        yield session.number, LEAD_OUT, own[-1].control, minute_second_frame(session.lead_out)
        for track in own:
            yield session.number, track.number, track.control, minute_second_frame(track.indices[1])


def minute_second_frame(time: int) -> tuple[int, int, int]:
    return time // 4500, time // 75 % 60, time % 75


def remarks(loaded: Loaded, source: Source, found: QDisc) -> Iterator[str]:
    """Remarks: facts of a disc that a sheet cannot contain, missing facts, and facts that not all frames confirm."""
    numbers = [track.number for track in found.tracks]
    missing = sorted(set(range(numbers[0], numbers[-1] + 1)) - set(numbers))
    if missing:
        yield f"the dump has no Q frame of these tracks: {' '.join(map(str, missing))}"
    for track in found.tracks:
        if track.control & DATA:
            yield f"track {track.number:02} is data, which `author` refuses"
    if found.tracks[0].indices[1] < PAUSE:
        yield "the first track begins before 00:02:00, which no sheet can express"
    yield from session_notes(loaded, found.sessions)
    for session in found.sessions:
        if not session.is_sure and session is not found.sessions[-1]:
            how = (
                "the usual gap before the next session determines it"
                if session.by == BY_GAP
                else "it follows the last frame"
            )
            yield f"no frame or file names the start of the lead-out of session {session.number}: {how}"
    yield from found.votes
    yield from found.unsure
    yield from cuts(source, found)


def cuts(source: Source, found: QDisc) -> Iterator[str]:
    """Where a part of the disc is missing in the dump."""
    begin = source.pieces[0].shift + source.survey.first
    if source.pieces[0].shift > PAUSE:
        yield f"the file begins at the absolute time {spelled(begin)}"
    for _, before, after in Clock(source.survey).jumps():
        if source.is_in_order(after):
            yield f"the time jumps from {spelled(before)} to {spelled(after.time)}"
    last = source.pieces[-1].end + source.pieces[-1].shift
    if found.end is not None and last < found.end:
        yield f"the file ends at the absolute time {spelled(last)}, before the lead-out at {spelled(found.end)}"


def add_parser(commands: Commands) -> None:
    parser = commands.add_parser(
        "sheet",
        help="write the cue sheet of a dump",
        description="Writes a cue sheet from channel Q and the lead-in of a dump. It has the tracks, indices and "
        "pauses, flags, the catalogue number, recording codes, texts and sessions. The first line of the sheet has "
        "the `author` command of the program for this sheet. If the dump does not contain a gap, the gap becomes a "
        "pause within the file. --compare compares the table of contents, channel Q and a cue sheet, and lists the "
        "differences; the exit status is 1 if there are any. Times count from the beginning of the audio in the "
        "file; with --times disc, they count from the first sector of the disc, 00:02:00. The sheet and the "
        "comparison say which.",
    )
    parser.add_argument("file", metavar="DUMP")
    parser.add_argument("-o", "--output", metavar="OUT", help="the file to write (standard output)")
    what = parser.add_mutually_exclusive_group()
    what.add_argument("--toc", action="store_true", help="write a sheet for cdrdao")
    what.add_argument("--ccd", action="store_true", help="write a sheet for CloneCD")
    what.add_argument("--compare", metavar="CUE", help="list the differences from this cue sheet, and write no sheet")
    parser.add_argument(
        "--times",
        choices=[base.value for base in TimeBase],
        help="count times from the beginning of the file's audio (the default) or of the disc; --compare counts them "
        "as its sheet does",
    )
    parser.add_argument(
        "--session", type=number_in(1, 99), metavar="N", help="with --toc, the session to write (the first)"
    )
    parser.add_argument(
        "--latin-1", action="store_true", help="write texts in Latin-1, as `author` needs them, and not in UTF-8"
    )
    add_options(parser)
    add_json(parser)
    add_force(parser)
    parser.set_defaults(run=run, error=parser.error)


def toc_session(path: str, found: QDisc, asked_for: int | None) -> int:
    """The session in a sheet for cdrdao, which can have only one."""
    numbers = [session.number for session in found.sessions]
    if asked_for is None and len(numbers) > 1:
        tell(f"{shown(path)}: the sheet describes session {numbers[0]} of {len(numbers)}; --session N writes another")
    if asked_for is not None and asked_for not in numbers:
        raise Refusal(path, f"has no session {asked_for}")
    return asked_for or numbers[0]


def read_source(path: str, loaded: Loaded) -> Source:
    source = Source(loaded)
    if not source.stretches:
        raise Refusal(path, "no Q frame names a track")
    return source


def run(arguments: argparse.Namespace) -> int:
    path = arguments.file
    if arguments.compare and arguments.output:
        arguments.error("--compare writes no sheet")
    if arguments.session and not arguments.toc:
        arguments.error("--session needs --toc")
    if arguments.times == TimeBase.DISC.value and (arguments.toc or arguments.ccd):
        arguments.error("--times needs a cue sheet or --compare")
    kind = kinds.TOC if arguments.toc else kinds.CCD if arguments.ccd else kinds.CUE
    out: str = arguments.output or "-"
    writes = [] if arguments.compare else [(out, kind)]
    with Outputs([path, arguments.compare], writes, arguments.force) as outputs:
        loaded = load_raw(path, asked(arguments), "Q channel")
        source = read_source(path, loaded)
        found = disc(source, loaded.companions)
        for remark in remarks(loaded, source, found):
            tell(f"{shown(path)}: {remark}")
        if arguments.compare:
            cue = comparing.read_cue(arguments.compare, read_file(arguments.compare))
            base = TimeBase(arguments.times) if arguments.times else cue.base
            return (
                FOUND
                if comparing.write_differences(outputs.table(comparing.NAMES, arguments.json), source, found, cue, base)
                else 0
            )
        stem = os.path.splitext(os.path.basename(path))[0]
        base = TimeBase(arguments.times or TimeBase.FILE)
        sheet = SheetWriter(source, found, os.fsencode(f"{stem}.wav"), arguments.latin_1, base)
        if any(not text.isascii() for text in found.texts.values()):
            tell(
                f"{shown(path)}: texts are written in {'Latin-1' if arguments.latin_1 else 'UTF-8; author needs --latin-1'}"
            )
        if arguments.toc:
            session = toc_session(path, found, arguments.session)
            outputs.write(out, sheet.toc(session))
        else:
            outputs.write(out, sheet.ccd() if arguments.ccd else sheet.cue())
    return 0
