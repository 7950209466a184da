"""The pictures of a score during editing: its packs, its late rows, and notes; made in the background, always from the
newest score."""
import threading
from dataclasses import dataclass, field, replace
from pathlib import Path
from typing import Any, Callable

from ..common.failures import Failure, failure_of
from ..common.library import BLOCKS_A_SECOND
from ..common.times import PAUSE
from ..drawing.styles import read_style, shipped
from . import audio
from .audio import Treatment
from .known_needs import Known
from .pages import Placed
from .scores import Look, Score, song_of
from .song_files import clip
from .song_script import Made, Wishes, best
from .songs import Song
from .tracks import as_pair, track_packs


@dataclass
class Late:
    """A row that cannot be shown at its time: the number of its line, the problem, and the delay in seconds."""

    line: int
    what: str
    seconds: float


@dataclass
class Rehearsed:
    """The result for a score: the packs of its .cdg file, the late rows, notes, and the reason if there are no
    packs."""

    revision: int
    packs: bytes = b""
    late: list[Late] = field(default_factory=list)
    notes: list[str] = field(default_factory=list)
    summary: str = ""
    error: str = ""
    blocks: int = 0
    song: Song | None = None

    def table(self) -> dict[str, Any]:
        """All results except the packs."""
        late = [{"line": one.line, "what": one.what, "seconds": one.seconds} for one in self.late]
        return {
            "revision": self.revision,
            "late": late,
            "notes": self.notes,
            "summary": self.summary,
            "error": self.error,
            "seconds": self.blocks / BLOCKS_A_SECOND,
        }


def wishes_for(look: Look, folder: Path, end: int) -> Wishes:
    """The options for a script that follow from the look of a score; its files are in the folder of the song."""
    style = read_style(look.style if look.style in shipped() else str(folder / look.style))
    return Wishes(
        style=replace(style, rows=look.rows) if look.rows else style,
        size=look.size,
        sweep=look.sweep,
        title=folder / look.title if look.title else None,
        end=end,
        lead=look.lead,
        legend=look.legend,
        rests=look.rests,
        between=tuple(one if one.startswith("#") else str(folder / one) for one in look.between),
        intro=look.intro,
    )


def late_of(made: Made) -> list[Late]:
    """The late rows of a song, line by line."""
    found: list[Late] = []

    def add(placed: Placed, what: str, blocks: int = 0) -> None:
        if placed.letters:
            found.append(Late(placed.letters.line.number, what, round(blocks / BLOCKS_A_SECOND, 2)))

    for placed in made.lateness.cut:
        add(placed, "cut")
    for placed in made.lateness.lost:
        add(placed, "lost")
    for placed, blocks in made.lateness.drawn_late.items():
        add(placed, "drawn", blocks)
    for placed, blocks in made.lateness.lit_late.items():
        if placed not in made.lateness.drawn_late:
            add(placed, "lit", blocks)
    return found


def rehearsed(revision: int, score: Score, like: Song, sound: Path, known: Known | None = None) -> Rehearsed:
    """The packs of a score with its sound, or the reason why there are none."""
    try:
        return score_pictures(revision, score, like, sound, known)
    except Exception as error:
        lines = (error if isinstance(error, Failure) else failure_of(error, like.path)).lines
        return Rehearsed(revision, error="; ".join(lines))


def score_pictures(revision: int, score: Score, like: Song, sound: Path, known: Known | None) -> Rehearsed:
    """The pictures of a score, or a failure."""
    look = score.look
    song = song_of(score, like)
    song.shift(look.intro)
    clip(song)
    blocks = audio.length(audio.treated(sound, Treatment(intro=look.intro)))
    if not song.lines:
        return Rehearsed(revision, blocks=blocks, summary="no line has a time yet")
    made = best(song, wishes_for(look, like.path.parent, PAUSE + blocks), known)
    packs = as_pair(track_packs(like.path, made.text(), blocks))
    return Rehearsed(revision, packs, late_of(made), made.maker.notes, made.summary(), "", blocks, song)


class Rehearsal:
    """Makes the packs of the newest score in a separate thread."""

    def __init__(self, make: Callable[[int, Score], Rehearsed]) -> None:
        self.make, self.changed = make, threading.Condition()
        self.wanted: tuple[int, Score] | None = None
        self.done: Rehearsed | None = None
        self.is_over = False
        self.thread = threading.Thread(target=self.run, name="rehearsal", daemon=True)
        self.thread.start()

    def ask(self, revision: int, score: Score) -> None:
        with self.changed:
            self.wanted = revision, score
            self.changed.notify_all()

    def run(self) -> None:
        while True:
            with self.changed:
                while not self.wanted and not self.is_over:
                    self.changed.wait()
                if self.is_over or not self.wanted:
                    return
                (revision, score), self.wanted = self.wanted, None
            made = self.make(revision, score)
            with self.changed:
                self.done = made
                self.changed.notify_all()

    def wait(self, revision: int, seconds: float) -> Rehearsed | None:
        """The result for a revision or a later one; None if that takes longer."""
        with self.changed:
            self.changed.wait_for(lambda: self.is_over or bool(self.done and self.done.revision >= revision), seconds)
            return self.done if self.done and self.done.revision >= revision else None

    def end(self) -> None:
        with self.changed:
            self.is_over = True
            self.changed.notify_all()
