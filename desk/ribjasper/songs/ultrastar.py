"""Lyrics as UltraStar files: notes in beats, whose syllables are sung."""
import itertools
import math
import re
from dataclasses import dataclass, field

from .songs import BOTH, FIRST, Line, SECOND, Song, Syllable, song_time

HEADER = re.compile(r"#(\w+):(.*)")
NOTE = re.compile(r"([:*FRG])\s*(-?\d{1,9})\s+(-?\d{1,9})\s+(-?\d{1,9})(?: (.*))?$")
BREAK = re.compile(r"-\s*(-?\d{1,9})?(?:\s+(-?\d{1,9}))?\s*$")
TEMPO = re.compile(r"B\s+(-?\d{1,9})\s+(\S+)\s*$")
PLAYER = re.compile(r"#?P\s*([123])\s*$")
VOICES = {"1": FIRST, "2": SECOND, "3": BOTH}
# A beat in the file is a quarter of a beat of the music.
BEATS = 4
# The mark for holding the previous syllable.
HELD = "~"
# The greatest number of beats per minute, and of milliseconds before the first beat, in a file.
FASTEST, LONGEST_GAP = 100_000, 10_000_000


@dataclass
class Beats:
    """Turns beats into seconds; the tempo may change at some beats, which are in order."""

    beats_a_minute: float = 0.0
    gap: float = 0.0
    base: int = 0
    changes: list[tuple[int, float]] = field(default_factory=list)

    def seconds(self, beat: int) -> float:
        """The time of a beat: the sum of the lengths of the earlier beats, each with its tempo."""
        time, until = self.gap / 1000, self.base + beat
        tempos = [(0, self.beats_a_minute), *(change for change in self.changes if 0 < change[0] < until)]
        for (first, tempo), (following, _) in itertools.pairwise([*tempos, (until, 0.0)]):
            time += 60 * (following - first) / (BEATS * tempo)
        return time


def read_ultrastar(text: str, song: Song) -> None:
    clock, voice, is_relative, line = Beats(), FIRST, False, Line(0, [])
    names: dict[str, str] = {}

    def close() -> None:
        nonlocal line
        if any(syllable.text.strip() for syllable in line.syllables):
            line.written = song_time(line.start)
            song.lines.append(line)
        line = Line(0, [])

    rows = list(enumerate(text.splitlines(), 1))
    clock.changes = sorted(change for number, row in rows if (change := tempo_of(song, row, number)))
    for number, row in rows:
        if player := PLAYER.match(row):
            close()
            voice, clock.base = VOICES[player[1]], 0
        elif header := HEADER.match(row):
            name, value = header[1].upper(), header[2].strip()
            song.title = value if name == "TITLE" else song.title
            song.performer = value if name == "ARTIST" else song.performer
            is_relative = is_relative or name == "RELATIVE" and value.upper() == "YES"
            if name in ("BPM", "GAP"):
                set_clock(song, clock, name, value, number)
            song.tags.setdefault(name.lower(), value)
            if name in ("P1", "P2", "DUETSINGERP1", "DUETSINGERP2"):
                names[name[-1]] = value
        elif note := NOTE.match(row):
            if clock.beats_a_minute <= 0:
                song.fault(number, "a note comes before a line #BPM")
                return
            line.number = line.number or number
            start, end = (clock.seconds(int(note[2]) + after) for after in (0, int(note[3])))
            add_syllable(line, note[5] or "", start, end, voice)
        elif found := BREAK.match(row):
            close()
            clock.base += int(found[2] or found[1] or 0) if is_relative else 0
        elif row.strip() == "E":
            break
        elif row.strip() and not TEMPO.match(row):
            song.note(number, f"is not a note, and is omitted: {row.strip()}")
    close()
    song.singers = [names.get("1", ""), names.get("2", "")] if names else []
    song.lines = merged_voices(song.lines)


def tempo_of(song: Song, row: str, number: int) -> tuple[int, float] | None:
    """The beat and the tempo of a line `B beat tempo`."""
    found = TEMPO.match(row)
    if not found:
        return None
    tempo = decimal_of(found[2])
    if not 1 <= tempo <= FASTEST:
        song.fault(number, f"the tempo {found[2]} is not a number of beats a minute")
        return None
    return int(found[1]), tempo


def decimal_of(word: str) -> float:
    try:
        return float(word.replace(",", "."))
    except ValueError:
        return math.nan


def set_clock(song: Song, clock: Beats, name: str, value: str, number: int) -> None:
    amount = decimal_of(value)
    if name == "BPM" and 1 <= amount <= FASTEST:
        clock.beats_a_minute = amount
    elif name == "GAP" and abs(amount) <= LONGEST_GAP:
        clock.gap = amount
    else:
        song.fault(number, f"#{name} is {value}, but must be a number in its range")


def add_syllable(line: Line, text: str, start: float, end: float, voice: int) -> None:
    """Adds a note; a note whose text is only a mark for holding, or empty, extends the previous one."""
    if text.strip() in (HELD, "") and line.syllables:
        line.syllables[-1].end = end
        line.syllables[-1].text += " " * (text != text.rstrip())
    else:
        line.syllables.append(Syllable(text.replace(HELD, ""), start, end, voice))


def merged_voices(lines: list[Line]) -> list[Line]:
    """The lines sorted by their times; a line that both sing at the same time is a line of both."""
    lines = sorted(lines, key=lambda one: one.start)
    kept: list[Line] = []
    firsts: dict[tuple[float, str], Line] = {}
    for line in lines:
        same = firsts.setdefault((line.start, line.text), line)
        if same.voice != line.voice:
            for syllable in same.syllables:
                syllable.voice = BOTH
        else:
            kept.append(line)
    return kept
