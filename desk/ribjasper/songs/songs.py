"""Lyrics with their times: lines, syllables and voices, the same for every kind of file."""
import re
import unicodedata
from dataclasses import dataclass, field
from pathlib import Path

# The maximum length of the last word of a line, in seconds, if the file does not have it. A line whose words have no
# times changes its colour by at most SLOWEST_LETTERS letters a second, and is sung until the next line if that begins
# within ten seconds.
LONGEST_WORD = 3.0
SLOWEST_LETTERS, SHORTEST_SWEEP = 12.0, 1.0
LONGEST_LINE = 10.0
# The number of letters of a text in a message about a line, and the number of messages of a song.
LONGEST_MESSAGE, MOST_MESSAGES = 300, 100
# The voices: up to four singers, and all of them together.
FIRST, SECOND, THIRD, FOURTH, BOTH = range(5)
SINGERS = 4
# The names in files for voices of several singers.
TOGETHER = {"both", "all", "duet", "together", "d", "tutti", "chorus", "choir", "alle", "beide"}


@dataclass
class Syllable:
    """A text that is sung at one time, in seconds of the audio; spaces around it belong to the text."""

    text: str
    start: float
    end: float
    voice: int = FIRST


@dataclass
class Line:
    """A line of lyrics: its syllables, in order; its number in the file; whether it has one time for all of its words;
    its time as the file spells it; if its end is a guess, the time until which it stays on the screen, although all of
    it is lit; and whether a page begins with it."""

    number: int
    syllables: list[Syllable]
    is_whole: bool = False
    written: str = ""
    until: float | None = None
    new_page: bool = False

    @property
    def start(self) -> float:
        return self.syllables[0].start

    @property
    def end(self) -> float:
        """The time at which all of it is lit."""
        return self.syllables[-1].end

    @property
    def stays(self) -> float:
        """The time until which the line counts as sung."""
        return max(self.end, self.until or 0.0)

    @property
    def is_open(self) -> bool:
        """Whether its end is a guess."""
        return self.until is not None

    @property
    def text(self) -> str:
        return "".join(syllable.text for syllable in self.syllables).strip()

    @property
    def voice(self) -> int:
        return self.syllables[0].voice


@dataclass
class Insert:
    """A picture or a colour between verses: the number of its line, its text in the file, and a time if it has one;
    otherwise it follows the previous line of lyrics."""

    number: int
    what: str
    start: float | None = None
    after: float = 0.0


@dataclass
class Song:
    """Lines in the order of their times; title, performer, singers and all other tags of the file; pictures between
    verses; notes for the user; and faults that keep the song from being used."""

    lines: list[Line]
    title: str = ""
    performer: str = ""
    singers: list[str] = field(default_factory=list)
    notes: list[str] = field(default_factory=list)
    faults: list[str] = field(default_factory=list)
    path: Path = Path("the lyrics")
    tags: dict[str, str] = field(default_factory=dict)
    inserts: list[Insert] = field(default_factory=list)
    encoding: str = "utf-8"

    @property
    def voices(self) -> int:
        """The number of voices with their own colours; both voices of a duet have the colours of two."""
        used = {syllable.voice for line in self.lines for syllable in line.syllables}
        most = max(used - {BOTH}, default=FIRST)
        return 1 + max(most, SECOND if BOTH in used else FIRST)

    @property
    def has_both(self) -> bool:
        """Whether all singers sing some of it together."""
        return any(syllable.voice == BOTH for line in self.lines for syllable in line.syllables)

    def note(self, number: int, what: str) -> None:
        """Adds a note about a line that is unusual and is used nevertheless."""
        self.notes.append(f"{self.path}: line {number} {shortened(what)}")

    def fault(self, number: int, what: str) -> None:
        """Adds an error that prevents the use of the song."""
        self.faults.append(f"line {number}: {shortened(what)}")

    def voice_of(self, name: str, number: int) -> int:
        """The voice of a singer, numbered in order of appearance; a name with two singers means both."""
        name = name.strip()
        if not name:
            return FIRST
        if name.lower() in TOGETHER:
            return BOTH
        if name not in self.singers:
            if sum(bool(re.search(rf"(?<!\w){re.escape(one)}(?!\w)", name)) for one in self.singers) > 1:
                return BOTH
            self.singers.append(name)
            if len(self.singers) == SINGERS + 1:
                self.note(number, f"has a fifth singer, {name}; there are only four colours, so {name} has the fourth")
        return min(self.singers.index(name), SINGERS - 1)

    def shift(self, seconds: float) -> None:
        """Moves all times; words before the beginning of the audio are left to `clip`."""
        if not seconds:
            return
        for line in self.lines:
            line.until = None if line.until is None else line.until + seconds
            for syllable in line.syllables:
                syllable.start, syllable.end = syllable.start + seconds, syllable.end + seconds
        for insert in self.inserts:
            insert.after += seconds
            insert.start = None if insert.start is None else insert.start + seconds


def shortened(text: str) -> str:
    """A text for a message; a long text without its middle."""
    return (
        text if len(text) <= LONGEST_MESSAGE else f"{text[: LONGEST_MESSAGE // 2]} .. {text[-LONGEST_MESSAGE // 2 :]}"
    )


def first_of_many(messages: list[str], most: int, rest: str) -> list[str]:
    """The first messages, and the number of others."""
    more = len(messages) - most
    return messages if more <= 0 else [*messages[:most], rest.format(more)]


def letters_in(text: str) -> int:
    """The length of a text for a singer, in letters: a character of a script without an alphabet counts as three."""
    return sum(3 if unicodedata.east_asian_width(letter) in "WF" else not letter.isspace() for letter in text)


def open_line(line: Line, following: float | None) -> Line:
    """A line with one time and no known end: it is lit as fast as its letters may be sung."""
    start = line.start
    longest = max(SHORTEST_SWEEP, letters_in(line.text) / SLOWEST_LETTERS)
    end = start + longest if following is None else min(start + longest, following)
    line.syllables[-1].end = max(start, end)
    line.until = following if following is not None and following - start < LONGEST_LINE else line.end
    return line


def seconds(minutes: str, whole: str, part: str | None) -> float:
    return 60 * int(minutes) + int(whole) + (float(f"0.{part}") if part else 0.0)


def song_time(time: float) -> str:
    """A time in the spelling of lyrics."""
    return f"{int(time) // 60:02}:{time % 60:05.2f}"
