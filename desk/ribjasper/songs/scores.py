"""A song during editing: an immutable score, whose words may have no times yet. Two scores with the same content are
equal, and a score without changes reproduces the files from which it was opened."""
import re
from dataclasses import dataclass, field
from typing import Any, Iterable, NamedTuple

from ..drawing.styles import LEAST_ROWS, LEAST_SIZE, MOST_ROWS, MOST_SIZE
from .document import Document
from .lrc import TAG
from .songs import FIRST, LONGEST_WORD, Insert, Line, Song, Syllable, open_line, song_time

# A row of a plain text that names a part of the song and is not sung.
HEADING = re.compile(r"\[[^\[\]]*\]|\([^()]*\)\s*:")


@dataclass(frozen=True)
class Word:
    """A syllable or a word, with spaces around it; its times are seconds of the sound, or None before it is timed."""

    text: str
    start: float | None = None
    end: float | None = None
    voice: int = FIRST

    @property
    def is_timed(self) -> bool:
        return self.start is not None


@dataclass(frozen=True)
class ScoreLine:
    """A line: a number that it keeps through all edits, its words, whether it has one time for all of them, the time
    until which it stays if its end is a guess, and whether a page begins with it."""

    key: int
    words: tuple[Word, ...]
    is_whole: bool = False
    until: float | None = None
    new_page: bool = False

    @property
    def text(self) -> str:
        return "".join(word.text for word in self.words).strip()

    @property
    def voice(self) -> int:
        return self.words[0].voice

    @property
    def start(self) -> float | None:
        return self.words[0].start

    @property
    def is_timed(self) -> bool:
        """Whether all its words have times."""
        return all(word.is_timed for word in self.words)


class Picture(NamedTuple):
    """A picture or a colour between verses; without a time, it follows the line that begins at `after`."""

    what: str
    start: float | None
    after: float


@dataclass(frozen=True)
class Look:
    """The look of a song, with the options of the commands; pictures are names in the folder of the song."""

    style: str = "night"
    rows: int | None = None
    size: int | None = None
    sweep: bool = False
    lead: float | None = None
    legend: bool = False
    rests: bool = True
    title: str = ""
    between: tuple[str, ...] = ()
    intro: float = 0.0

    def table(self) -> dict[str, Any]:
        """The values that are not the defaults, as TOML and JSON hold them."""
        plain = Look()
        found = {name: getattr(self, name) for name in self.__dataclass_fields__}
        return {
            name: list(value) if isinstance(value, tuple) else value
            for name, value in found.items()
            if value != getattr(plain, name)
        }


@dataclass(frozen=True)
class Score:
    """Everything in a song that can be edited."""

    lines: tuple[ScoreLine, ...]
    title: str = ""
    performer: str = ""
    singers: tuple[str, ...] = ()
    pictures: tuple[Picture, ...] = ()
    rests: tuple[float, ...] = ()
    look: Look = field(default_factory=Look)

    def place_of(self, key: int) -> int:
        """The place of the line with a key; a KeyError if there is none."""
        for place, line in enumerate(self.lines):
            if line.key == key:
                return place
        raise KeyError(f"there is no line {key}")

    @property
    def untimed(self) -> list[int]:
        """The numbers of the lines in which some words have no times."""
        return [number for number, line in enumerate(self.lines, 1) if not line.is_timed]


# The limits of the numbers in a look, as in the options of the commands.
RANGES = {"rows": (LEAST_ROWS, MOST_ROWS), "size": (LEAST_SIZE, MOST_SIZE), "lead": (0, 60), "intro": (0, 600)}


def look_of(table: dict[str, Any]) -> Look:
    """The look in a table; missing and invalid values are the defaults."""
    found = {name: value for name, value in table.items() if value is not None and fits(name, value)}
    return Look(**{name: tuple(value) if isinstance(value, list) else value for name, value in found.items()})


def fits(name: str, value: Any) -> bool:
    """Whether a value is valid for a look. Files are named by their names in the folder of the song."""
    if name in RANGES:
        least, most = RANGES[name]
        kinds = (int,) if name in ("rows", "size") else (int, float)
        return type(value) in kinds and least <= value <= most
    if name == "between":
        return isinstance(value, (list, tuple)) and all(isinstance(one, str) and is_own_name(one) for one in value)
    if name in ("style", "title"):
        return isinstance(value, str) and (is_own_name(value) or name == "title" and not value)
    return name in ("sweep", "legend", "rests") and isinstance(value, bool)


def is_own_name(name: str) -> bool:
    """Whether a name is the name of a file in the folder of the song, or a colour."""
    return bool(name) and not any(mark in name for mark in "/\\\0") and name not in (".", "..")


def score_of(document: Document) -> Score:
    """The score of a song that was read from a file."""
    song = document.song
    lines = tuple(
        ScoreLine(
            number,
            tuple(Word(one.text, one.start, one.end, one.voice) for one in line.syllables),
            line.is_whole,
            line.until,
            line.new_page,
        )
        for number, line in enumerate(song.lines, 1)
    )
    pictures = tuple(Picture(one.what, one.start, one.after) for one in song.inserts)
    singers, rests = tuple(song.singers), tuple(document.rests)
    return Score(lines, song.title, song.performer, singers, pictures, rests, look_of(document.look))


def split_words(text: str) -> list[str]:
    """A text word by word, each with the blanks behind it."""
    words: list[str] = []
    for letter in text:
        is_behind = bool(words and words[-1].strip()) and words[-1][-1].isspace()
        if not words or is_behind and not letter.isspace():
            words.append("")
        words[-1] += letter
    return words


def score_of_text(text: str, song: Song) -> Score:
    """The score of a text without times: a line for each row that is sung. A page begins after an empty row."""
    lines: list[ScoreLine] = []
    is_new_page = False
    for row in (row.strip() for row in text.splitlines()):
        if not row:
            is_new_page = bool(lines)
        elif not TAG.match(row) and not HEADING.fullmatch(row):
            words = tuple(Word(one) for one in split_words(row))
            lines.append(ScoreLine(len(lines) + 1, words, new_page=is_new_page))
            is_new_page = False
    return Score(tuple(lines), song.title, song.performer)


def filled(words: Iterable[Word]) -> list[Syllable]:
    """Words as syllables of a song; those without times are placed at the end of those with times."""
    made, now = list[Syllable](), 0.0
    for word in words:
        start = now if word.start is None else word.start
        end = start if word.end is None else word.end
        made.append(Syllable(word.text, start, end, word.voice))
        now = end
    return made


def song_of(score: Score, like: Song) -> Song:
    """The song of a score, whose lines have the numbers of the score, without lines whose first word has no time."""
    lines = [
        Line(number, filled(one.words), one.is_whole, written(one), one.until, one.new_page)
        for number, one in enumerate(score.lines, 1)
        if one.start is not None
    ]
    lines.sort(key=lambda line: line.start)
    inserts = [Insert(0, one.what, one.start, one.after) for one in score.pictures]
    singers = list(score.singers)
    return Song(
        lines,
        score.title,
        score.performer,
        singers,
        path=like.path,
        tags=dict(like.tags),
        inserts=inserts,
        encoding=like.encoding,
    )


def written(line: ScoreLine) -> str:
    return "" if line.start is None else f"[{song_time(line.start)}]"


def document_for(score: Score, opened: Document, first: Score) -> Document:
    """The document that saves a score. The score that was opened is saved as the files from which it was opened."""
    if score == first:
        return opened
    return Document(song_of(score, opened.song), list(score.rests), opened.others, look=score.look.table())


def last_end(start: float, following: float | None) -> float:
    """The estimated end of the last word of a line that begins at a time."""
    last = start + LONGEST_WORD
    return last if following is None else max(start, min(last, following))


def opened_line(words: tuple[Word, ...], following: float | None) -> tuple[tuple[Word, ...], float | None]:
    """The words of a line with one time and without an end, and the time until which it remains."""
    line = open_line(Line(0, filled(words), True), following)
    last, end = line.syllables[-1], round(line.end, 3)
    until = end if line.until == line.end else line.until
    return (*words[:-1], Word(last.text, words[-1].start, end, last.voice)), until
