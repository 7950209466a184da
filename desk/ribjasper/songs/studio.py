"""A song that is open in the studio: its files, its history and journal, its pictures, and its exports. Only one studio
can open a song, and it writes only files that belong to the song."""
import os
import sys
import threading
from pathlib import Path
from typing import Any, Callable, NamedTuple

from ..common import kinds
from ..common.failures import Failure, Refusal, failure_of
from ..common.kinds import Kind
from ..common.library import BLOCKS_A_SECOND
from ..common.output import Outputs, read_file, tell
from ..common.targets import WRITABLE
from ..drawing.styles import shipped
from . import audio, hyphens
from .albums import NEW, entry_of
from .audio import Treatment
from .document import Document, beside, document_of, toml_value
from .edits import BadEdit, Edit
from .exports import EXPORTS
from .finishing import PairFiles
from .journal import Journal, checksum, history_of, journal_of, read_journal
from .known_needs import Known
from .peaks import peaks_of
from .rehearsal import Rehearsal, Rehearsed, rehearsed
from .scores import Score, document_for, score_of, score_of_text, song_of
from .song_files import parsed_song as read_from

LYRICS = (".lrc", ".txt", ".ass", ".ssa", ".srt", ".vtt", ".kar", ".mid")
PICTURES = (".png", ".jpg", ".jpeg", ".gif", ".bmp", ".webp")
ALBUM = "album.toml"
# The names in a list of songs for the options of a look.
IN_ALBUM = {
    "style": "style",
    "title": "picture",
    "sweep": "sweep",
    "lead": "lead",
    "between": "between",
    "intro": "intro",
}
# The number of seconds for which a call waits for pictures.
PATIENCE = 120.0


if sys.platform == "win32":
    import msvcrt

    def is_locked_by_us(number: int) -> bool:
        """Locks an open file for this process; returns whether no other process has locked it."""
        os.lseek(number, 1 << 30, os.SEEK_SET)
        try:
            msvcrt.locking(number, msvcrt.LK_NBLCK, 1)
        except OSError:
            return False
        return True

else:
    import fcntl

    def is_locked_by_us(number: int) -> bool:
        """Locks an open file for this process; returns whether no other process has locked it."""
        try:
            fcntl.flock(number, fcntl.LOCK_EX | fcntl.LOCK_NB)
        except OSError:
            return False
        return True


class Lock:
    """Keeps the lyrics locked while a studio has them open."""

    def __init__(self, path: Path) -> None:
        self.path, self.number = path, -1
        self.take()

    def take(self) -> None:
        """Locks the file that currently has the name."""
        if self.number >= 0 and os.path.samestat(os.fstat(self.number), os.stat(self.path)):
            return
        number = os.open(self.path, os.O_RDONLY | getattr(os, "O_CLOEXEC", 0) | getattr(os, "O_BINARY", 0))
        if not is_locked_by_us(number):
            os.close(number)
            raise Refusal(self.path, "is open in another studio")
        self.free()
        self.number = number

    def free(self) -> None:
        if self.number >= 0:
            os.close(self.number)
            self.number = -1


class Files(NamedTuple):
    """The lyrics of a song and its sound."""

    lyrics: Path
    sound: Path


def files_of(song: Path, sound: Path | None) -> Files:
    """The files of a song that is named by its lyrics or by a folder that contains it."""
    lyrics = lyrics_in(song) if song.is_dir() else song
    if not lyrics.is_file():
        raise Refusal(lyrics, "is not a file" if lyrics.exists() else "no such file or directory")
    found = sound or audio.sound_beside(lyrics) or only_sound(lyrics.parent if song.is_dir() else None)
    if not found:
        raise Refusal(lyrics, f"has no sound with its name next to it ({', '.join(audio.ENDINGS)}); --audio names one")
    return Files(lyrics, found)


def lyrics_in(folder: Path) -> Path:
    """The lyrics in a folder: those with a journal, or the only ones."""
    found = sorted(path for path in folder.iterdir() if path.suffix.lower() in LYRICS and path.is_file())
    begun = [path for path in found if journal_of(path).exists()]
    chosen = begun if len(begun) == 1 else found
    if len(chosen) == 1:
        return chosen[0]
    names = ", ".join(path.name for path in found)
    raise Refusal(folder, f"has {len(found)} files of lyrics{f' ({names})' * bool(found)}; name one of them")


def only_sound(folder: Path | None) -> Path | None:
    """The sound in a folder, if there is only one."""
    found = [path for path in sorted(folder.iterdir()) if path.suffix.lower() in audio.ENDINGS] if folder else []
    return found[0] if len(found) == 1 else None


class Opened(NamedTuple):
    """A song as read from its files."""

    document: Document
    score: Score


def opened_from(path: Path, lyrics: bytes, more: bytes | None, encoding: str | None) -> Opened:
    """The song in some files; a text without times is a song that must still be timed."""
    song, is_lrc = read_from(path, lyrics, more, encoding)
    document = document_of(song, lyrics, more) if is_lrc else Document(song)
    if song.lines:
        return Opened(document, score_of(document))
    score = score_of_text(lyrics.decode(song.encoding), song)
    if not score.lines:
        raise Refusal(path, "has no lyrics")
    return Opened(Document(song), score)


class Job:
    """A job on the song: its name, its progress, and how it ended."""

    def __init__(self, what: str) -> None:
        self.what, self.done, self.message, self.error, self.is_over = what, 0.0, "", "", False

    def table(self) -> dict[str, Any]:
        return {
            "what": self.what,
            "done": self.done,
            "message": self.message,
            "error": self.error,
            "over": self.is_over,
        }


class Studio:
    """An open song. Every change is made by `do`, `undo` or `redo`, and is written to the journal before the call
    returns."""

    def __init__(self, files: Files, encoding: str | None = None, force: bool = False) -> None:
        self.lyrics, self.sound, self.encoding = files.lyrics, files.sound, encoding
        self.folder = self.lyrics.resolve().parent
        self.lock, self.guard = Lock(self.lyrics), threading.RLock()
        self.journal_path = journal_of(self.lyrics)
        try:
            self.open(force)
            self.seconds = audio.length(self.sound) / BLOCKS_A_SECOND
        except BaseException:
            self.lock.free()
            raise
        self.revision, self.job = 0, Job("")
        self.peaks: bytes | None = None
        self.known = Known()
        self.rehearsal = Rehearsal(self.rehearse)
        self.rehearsal.ask(self.revision, self.score)

    @property
    def score(self) -> Score:
        return self.history.score

    @property
    def is_lrc(self) -> bool:
        return self.lyrics.suffix.lower() == ".lrc"

    @property
    def target(self) -> Path:
        """The LRC file as which the song is saved."""
        return self.lyrics if self.is_lrc else self.lyrics.with_suffix(".lrc")

    @property
    def more(self) -> Path:
        return beside(self.target)

    # Opening

    def open(self, force: bool) -> None:
        """Opens the files, and continues from the journal if it belongs to them."""
        lyrics = read_file(self.lyrics)
        more = read_file(self.more) if self.is_lrc and self.more.is_file() else None
        kept = self.kept_journal(lyrics, more, force)
        self.journal = kept or Journal(lyrics, more)
        self.opened = opened_from(self.lyrics, self.journal.lyrics, self.journal.more, self.encoding)
        for line in self.opened.document.song.notes if self.opened.score.untimed == [] else ():
            tell(line)
        self.history = history_of(self.journal_path, self.opened.score, self.journal)

    def kept_journal(self, lyrics: bytes, more: bytes | None, force: bool) -> Journal | None:
        """The journal that belongs to the current files. A journal of another version of them is dropped if it contains
        nothing unsaved, or with force."""
        if not self.journal_path.exists():
            return None
        found = read_journal(self.journal_path, read_file(self.journal_path))
        sums = {self.lyrics.name: checksum(lyrics), self.more.name: checksum(more)}
        if (lyrics, more) == (found.lyrics, found.more) or self.is_lrc and sums == found.sums:
            return found
        if found.is_saved or force:
            return None
        raise Refusal(
            self.journal_path,
            f"has edits of another version of {self.lyrics.name}; --force discards these edits",
        )

    # Edits

    def do(self, edit: Edit) -> None:
        try:
            self.act(lambda: self.history.do(edit))
        except BadEdit as error:
            raise Refusal(self.lyrics, str(error)) from None

    def undo(self) -> None:
        self.act(self.history.undo)

    def redo(self) -> None:
        self.act(self.history.redo)

    def act(self, change: Callable[[], Score]) -> None:
        """Makes a change, writes it to the journal, and plans its pictures meanwhile. A change that cannot be written
        is not made."""
        with self.guard:
            before = self.history.kept()
            if change() is before.score:
                return
            self.show_score()
            try:
                self.write_journal()
            except BaseException:
                self.history.restore(before)
                self.show_score()
                raise

    def show_score(self) -> None:
        """Requests the pictures of the current score."""
        self.revision += 1
        self.rehearsal.ask(self.revision, self.score)

    def write_journal(self) -> None:
        saved = self.journal.saved or 0
        if saved > 0 and self.history.edits[:saved] != self.journal.edits[:saved]:
            # The saved state is no longer among the edits.
            self.journal.saved = -1
        self.journal.edits, self.journal.at = list(self.history.edits), self.history.at
        with Outputs([self.lyrics, self.sound], [(self.journal_path, kinds.JOURNAL)]) as outputs:
            outputs.write(self.journal_path, self.journal.content())

    def divide(self, key: int | None, language: str) -> None:
        """Proposes the syllables of a line, or of all lines whose words have no times."""
        with self.guard:
            edits: list[Edit] = []
            for line in self.score.lines:
                is_meant = line.key == key if key is not None else line.start is None
                texts = hyphens.syllables_of("".join(word.text for word in line.words), language)
                if is_meant and not line.is_whole and texts != [word.text for word in line.words]:
                    edits.append({"do": "text", "line": line.key, "texts": texts})
            if edits:
                self.do({"do": "several", "edits": edits})

    # Saving

    def check_timed(self) -> None:
        untimed = self.score.untimed
        if untimed:
            first = ", ".join(map(str, untimed[:5])) + ", .." * (len(untimed) > 5)
            raise Refusal(self.lyrics, f"lines without all times: {first}; the journal keeps all edits")

    def save(self) -> list[str]:
        """Saves the song as LRC, with a file next to it if needed. Returns the names of the saved files."""
        with self.guard:
            self.check_timed()
            lrc, more = document_for(self.score, self.opened.document, self.opened.score).files()
            if more is None and self.more.exists():
                more = b"# Belongs to the LRC file of this name, and holds what LRC cannot express.\nversion = 1\n"
            if self.score == self.opened.score and self.is_lrc:
                lrc, more = self.journal.lyrics, self.journal.more if self.journal.more is not None else more
            written = {self.target: lrc, **({self.more: more} if more is not None else {})}
            same = {path for path, content in written.items() if path.is_file() and read_file(path) == content}
            is_ours = self.is_ours()
            if locked := [path for path in written if path not in same and path.exists() and not is_writable(path)]:
                raise Refusal(locked[0], "is write-protected")
            writes: list[tuple[Path, Kind]] = [(self.target, kinds.LYRICS), (self.more, kinds.LYRICS_MORE)]
            writes = [one for one in writes if one[0] in written and one[0] not in same]
            with Outputs([self.sound], writes, is_ours) as outputs:
                for path, _ in writes:
                    outputs.write(path, written[path])
            if self.is_lrc:
                self.lock.take()
            self.journal.saved = self.history.at
            self.journal.sums = {self.target.name: checksum(lrc), self.more.name: checksum(more)}
            self.write_journal()
            return [path.name for path in written]

    def is_ours(self) -> bool:
        """Whether the LRC file and the file next to it are unchanged since this studio opened or saved them. Only then
        they may be overwritten without the rules for all outputs."""
        sums = {path.name: checksum(read_file(path) if path.is_file() else None) for path in (self.target, self.more)}
        opened = {self.target.name: checksum(self.journal.lyrics), self.more.name: checksum(self.journal.more)}
        if sums == self.journal.sums or self.is_lrc and sums == opened:
            return True
        if self.is_lrc:
            raise Refusal(self.target, "was changed by another program since it was opened here")
        return False

    def export(self, ending: str) -> list[str]:
        """Writes the song for other programs, in the format of this ending; what the format cannot express is noted."""
        with self.guard:
            self.check_timed()
            if ending not in EXPORTS:
                raise Refusal(self.lyrics, f"the studio cannot export to {ending}")
            song = song_of(self.score, self.opened.document.song)
            out = export_name(self.lyrics, ending)
            content = EXPORTS[ending](song)
            with Outputs([self.lyrics, self.sound], [(out, kinds.EXPORT)]) as outputs:
                outputs.write(out, content.encode())
            return [out.name, *dict.fromkeys(song.notes)]

    # Finishing

    def rehearse(self, revision: int, score: Score) -> Rehearsed:
        return rehearsed(revision, score, self.opened.document.song, self.sound, self.known)

    def ready(self) -> Rehearsed:
        """The pictures of the current song, if all of it is timed and it can be drawn."""
        with self.guard:
            self.check_timed()
            revision = self.revision
        made = self.rehearsal.wait(revision, PATIENCE)
        if made is None or made.error or made.song is None:
            raise Refusal(self.lyrics, made.error if made and made.error else "its pictures are not ready")
        return made

    def treated(self) -> Path:
        return audio.treated(self.sound, Treatment(intro=self.score.look.intro))

    def pair_files(self, is_mp3: bool, is_packed: bool) -> PairFiles:
        name = self.lyrics.with_suffix("")
        source, intro = self.sound, self.score.look.intro
        return PairFiles(os.fspath(name), source, is_mp3, is_packed, intro)

    def make_pair(self, job: Job, is_mp3: bool = False, is_packed: bool = False) -> None:
        made = self.ready()
        job.done = 0.5
        files = self.pair_files(is_mp3, is_packed)
        names = files.names()
        assert made.song
        with Outputs([self.lyrics, self.sound], files.writes()) as outputs:
            files.write(outputs, made.packs, self.treated(), made.song)
        job.message = f"{names}: {made.blocks / BLOCKS_A_SECOND:.1f} seconds"

    def add_to_album(self, job: Job) -> None:
        """Adds the song to the list in its folder, or begins one. The lyrics in the list are saved first."""
        self.save()
        path = self.folder / ALBUM
        with self.guard:
            song = song_of(self.score, self.opened.document.song)
            entry = entry_of(self.target.resolve(), self.sound.resolve(), song, self.folder) + self.look_rows()
            before = read_file(path).decode() if path.exists() else ""
            begin = before or NEW.format(name=ALBUM, title="", singer="")
            if entry.splitlines()[2] in before.splitlines():
                job.message = f"{ALBUM} already contains this song"
                return
            # The entries of the list remain, so it may have been changed by hand.
            with Outputs([self.lyrics, self.sound], [(path, kinds.ALBUM)], True) as outputs:
                outputs.write(path, (begin + entry).encode())
        job.message = f"{ALBUM} now contains the song; `ribjasper-desk album {ALBUM} -o DISC` makes the disc"

    def look_rows(self) -> str:
        """The look of the song as rows of its entry."""
        table = self.score.look.table()
        rows = {IN_ALBUM[name]: value for name, value in table.items() if name in IN_ALBUM}
        return "".join(f"{name} = {toml_value(value)}\n" for name, value in rows.items())

    def begin_job(self, what: str, work: Callable[[Job], None]) -> None:
        """Starts a job in a separate thread, one at a time."""
        with self.guard:
            if self.job.what and not self.job.is_over:
                raise Refusal(self.lyrics, f"{self.job.what} is still being made")
            self.job = job = Job(what)

        def run() -> None:
            try:
                work(job)
            except Exception as error:
                lines = (error if isinstance(error, Failure) else failure_of(error, self.lyrics)).lines
                job.error = "; ".join(lines)
            job.done, job.is_over = 1.0, True

        threading.Thread(target=run, name=what, daemon=True).start()

    # Data for the page

    def state(self) -> dict[str, Any]:
        with self.guard:
            score, journal = self.score, self.journal
            return {
                "revision": self.revision,
                "name": self.lyrics.name,
                "target": self.target.name,
                "seconds": self.seconds,
                "title": score.title,
                "performer": score.performer,
                "singers": list(score.singers),
                "look": score.look.table(),
                "pictures": [one._asdict() for one in score.pictures],
                "rests": list(score.rests),
                "lines": [table_of(line) for line in score.lines],
                "undo": self.history.at,
                "redo": len(self.history.edits) - self.history.at,
                "saved": journal.saved == self.history.at
                or journal.saved is None
                and self.is_lrc
                and not self.history.at,
                "untimed": score.untimed,
            }

    def choices(self) -> dict[str, Any]:
        """The choices that the page offers to a user."""
        names = sorted(path.name for path in self.folder.iterdir())
        styles = [name for name in names if name.endswith(".toml") and is_style(self.folder / name)]
        return {
            "styles": [*shipped(), *styles],
            "images": [name for name in names if name.lower().endswith(PICTURES)],
            "exports": list(EXPORTS),
            "languages": hyphens.languages(),
        }

    def sound_peaks(self) -> bytes:
        with self.guard:
            if self.peaks is None:
                self.peaks = peaks_of(self.sound)
            return self.peaks

    def close(self) -> None:
        self.rehearsal.end()
        self.lock.free()


def is_writable(path: Path) -> bool:
    """Whether a file may be overwritten; its permissions count for the administrator too."""
    return bool(path.stat().st_mode & WRITABLE) and os.access(path, os.W_OK)


def export_name(lyrics: Path, ending: str) -> Path:
    """The name of an export; a name that equals that of the lyrics gets an additional word."""
    out = lyrics.with_suffix(ending)
    return out if out.name.lower() != lyrics.name.lower() else lyrics.with_name(f"{lyrics.stem}-export{ending}")


def is_style(path: Path) -> bool:
    try:
        return b"[[voice]]" in path.read_bytes()[: 1 << 16]
    except OSError:
        return False


def table_of(line: Any) -> dict[str, Any]:
    return {
        "key": line.key,
        "voice": line.voice,
        "whole": line.is_whole,
        "open": line.until is not None,
        "page": line.new_page,
        "words": [{"text": one.text, "start": one.start, "end": one.end, "voice": one.voice} for one in line.words],
    }


def export_song(lyrics: Path, ending: str, encoding: str | None, out: Path | None, force: bool) -> list[str]:
    """Writes a song for other programs, with the edits in its journal; returns names and notes."""
    content = read_file(lyrics)
    more_path = beside(lyrics) if lyrics.suffix.lower() == ".lrc" else None
    more = read_file(more_path) if more_path and more_path.is_file() else None
    opened = opened_from(lyrics, content, more, encoding)
    score, journal = opened.score, journal_of(lyrics)
    if journal.exists():
        found = read_journal(journal, read_file(journal))
        if (found.lyrics, found.more) == (content, more):
            score = history_of(journal, score, found).score
    if score.untimed:
        raise Refusal(lyrics, f"line {score.untimed[0]} has no time yet")
    name = out or export_name(lyrics, ending)
    song = song_of(score, opened.document.song)
    written = EXPORTS[ending](song)
    with Outputs([lyrics, more_path, journal], [(name, kinds.EXPORT)], force) as outputs:
        outputs.write(name, written.encode())
    return [f"{name}: {len(score.lines)} lines", *dict.fromkeys(song.notes)]
