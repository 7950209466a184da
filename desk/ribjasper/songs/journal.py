"""The journal of a song that is edited: the files that it was opened from, all edits, and the number of edits that are
not undone. The journal is next to the song, and a studio that is opened again continues from it."""
import base64
import hashlib
import json
from dataclasses import dataclass, field
from pathlib import Path
from typing import Any, NamedTuple

from ..common.failures import Refusal
from .edits import BadEdit, Edit, edited
from .scores import Score

ENDING = ".studio"
VERSION = 1
# The beginning of a journal.
MARK = '{"ribjasper-studio": '


def journal_of(song: Path) -> Path:
    """The journal of a song; its name begins with the whole name of the song's file."""
    return song.with_name(song.name + ENDING)


def checksum(content: bytes | None) -> str | None:
    return None if content is None else hashlib.sha256(content).hexdigest()


class Kept(NamedTuple):
    """A copy of a history."""

    scores: list[Score]
    edits: list[Edit]
    at: int

    @property
    def score(self) -> Score:
        return self.scores[self.at]


class History:
    """The score that was opened, the edits, and the score after each edit. Nothing is changed in place: undo and redo
    only choose another score."""

    def __init__(self, first: Score) -> None:
        self.scores, self.edits, self.at = [first], list[Edit](), 0

    @property
    def first(self) -> Score:
        return self.scores[0]

    @property
    def score(self) -> Score:
        return self.scores[self.at]

    def do(self, edit: Edit) -> Score:
        """The score after one more edit; edits that were undone are forgotten."""
        made = edited(self.score, edit)
        if made != self.score:
            self.scores[self.at + 1 :] = [made]
            self.edits[self.at :] = [edit]
            self.at += 1
        return made

    def kept(self) -> Kept:
        return Kept(list(self.scores), list(self.edits), self.at)

    def restore(self, kept: Kept) -> None:
        self.scores, self.edits, self.at = list(kept.scores), list(kept.edits), kept.at

    def undo(self) -> Score:
        self.at = max(0, self.at - 1)
        return self.score

    def redo(self) -> Score:
        self.at = min(len(self.edits), self.at + 1)
        return self.score

    def go(self, at: int) -> Score:
        """Goes to the score after this number of edits."""
        self.at = max(0, min(len(self.edits), at))
        return self.score


@dataclass
class Journal:
    """The contents of a journal: the lyrics and the file next to them when they were opened; the edits, and the number
    of edits that are not undone; the number of edits at the last save, and the checksums of the saved files."""

    lyrics: bytes
    more: bytes | None
    edits: list[Edit] = field(default_factory=list)
    at: int = 0
    saved: int | None = None
    sums: dict[str, str | None] = field(default_factory=dict)

    def content(self) -> bytes:
        """The journal as a file: a table for the opened files, one for each edit, and one for the current position."""
        files = [None if one is None else base64.b64encode(one).decode() for one in (self.lyrics, self.more)]
        head = {"ribjasper-studio": VERSION, "lyrics": files[0], "more": files[1]}
        last = {"at": self.at, "saved": self.saved, "sums": self.sums}
        return "".join(f"{json.dumps(one)}\n" for one in (head, *self.edits, last)).encode()

    @property
    def is_saved(self) -> bool:
        """Whether nothing would be lost without the journal."""
        return self.at == (self.saved if self.saved is not None else 0)


def read_journal(path: Path, content: bytes) -> Journal:
    """The journal in a file."""
    try:
        head, *edits, last = (checked_table(json.loads(row)) for row in content.decode().splitlines())
        if head["ribjasper-studio"] != VERSION:
            raise Refusal(path, f"is the journal of another version ({head['ribjasper-studio']})")
        more = head["more"]
        return Journal(
            base64.b64decode(head["lyrics"]),
            None if more is None else base64.b64decode(more),
            edits,
            int(last["at"]),
            None if last["saved"] is None else int(last["saved"]),
            {str(name): one for name, one in checked_table(last["sums"]).items()},
        )
    except (ValueError, KeyError, TypeError) as error:
        raise Refusal(path, f"is not a journal of the studio: {error}") from None


def checked_table(value: object) -> dict[str, Any]:
    if not isinstance(value, dict):
        raise TypeError("a table is missing")
    return value


def history_of(path: Path, first: Score, journal: Journal) -> History:
    """The history in a journal, for the score that was opened."""
    history = History(first)
    try:
        for edit in journal.edits:
            history.do(edit)
    except BadEdit as error:
        raise Refusal(path, f"has an edit that cannot be made: {error}") from None
    if len(history.edits) != len(journal.edits):
        raise Refusal(path, "has an edit that changes nothing")
    history.go(journal.at)
    return history
