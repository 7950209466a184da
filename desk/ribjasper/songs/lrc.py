"""Lyrics as LRC files: `[mm:ss.xx]` before a line, `<mm:ss.xx>` or `[mm:ss.xx]` before a word inside it."""
import re
from collections import Counter
from dataclasses import dataclass

from .songs import BOTH, FIRST, FOURTH, LONGEST_WORD, Insert, Line, SECOND, Song, Syllable, THIRD, open_line, seconds

TAG = re.compile(r"\[([a-zA-Z#]+):([^\]]*)\]\s*$")
STAMP = re.compile(r"\[(\d{1,6}):(\d{1,6})(?:[.:](\d{1,6}))?\]\s*")
WORD = re.compile(r"[<\[](\d{1,6}):(\d{1,6})(?:[.:](\d{1,6}))?[>\]]")
OFFSET = re.compile(r"[+-]?\d{1,9}")
# Marks before a line for a man, a woman and both, or for one of up to four voices; they hold for the next lines too.
MARK = re.compile(r"([MFD]|v[1-4]|[vV]oice ?[1-4]):\s*")
MARKED = {"M": FIRST, "F": SECOND, "D": BOTH, "1": FIRST, "2": SECOND, "3": THIRD, "4": FOURTH}
# Tags for a picture between verses.
INSERTS = ("image", "picture", "colour", "color")


@dataclass
class Stamped:
    """A line of an LRC file at one of its times: the pieces of text, each with its own time if it has one."""

    number: int
    written: str
    start: float
    parts: list[tuple[float | None, str]]
    voice: int

    def is_empty(self) -> bool:
        return not any(text.strip() for _, text in self.parts)


def read_lrc(text: str, song: Song) -> None:
    """Reads LRC. A time without text is a rest; `[singer:Name]` names the singer of the following lines."""
    stamped: list[Stamped] = []
    offset, voice = 0.0, FIRST
    for number, line in enumerate(text.splitlines(), 1):
        line = line.strip()
        starts, rest = stamps_of(line)
        tag = TAG.match(rest)
        if tag and (not starts or tag[1].lower() in INSERTS):
            kind, value = tag[1].lower(), tag[2].strip()
            song.title = value if kind == "ti" else song.title
            song.performer = value if kind == "ar" else song.performer
            if kind == "offset":
                offset = offset_of(value, song, number)
            elif kind == "singer":
                voice = song.voice_of(value, number)
            elif kind in INSERTS:
                after = stamped[-1].start if stamped else 0.0
                song.inserts.append(Insert(number, value, starts[0][0] if starts else None, after))
            else:
                song.tags.setdefault(kind, value)
            continue
        if mark := MARK.match(rest) or MARK.match(WORD.sub("", rest).strip()):
            voice, rest = MARKED[mark[1][-1]], rest.replace(mark[0], "", 1)
        if starts:
            stamped += [
                Stamped(number, written, start, line_pieces(rest, start - starts[0][0]), voice)
                for start, written in starts
            ]
        elif line:
            song.note(number, f"has no time and is omitted: {line}")
    tell_order(song, stamped)
    stamped.sort(key=lambda one: one.start)
    for one, following in zip(stamped, later_ones(stamped)):
        if not one.is_empty():
            add_line(song, one, following, offset)
    for insert in song.inserts:
        insert.after -= offset
        insert.start = None if insert.start is None else insert.start - offset


def later_ones(stamped: list[Stamped]) -> list[Stamped | None]:
    """For each line, the first one with a later time."""
    found: list[Stamped | None] = []
    following: Stamped | None = None
    for place in range(len(stamped) - 1, -1, -1):
        if place + 1 < len(stamped) and stamped[place + 1].start > stamped[place].start:
            following = stamped[place + 1]
        found.append(following)
    return found[::-1]


def tell_order(song: Song, stamped: list[Stamped]) -> None:
    """Notes each line that is earlier than the previous one, or at the same time; a line with several times may be
    earlier."""
    counts = Counter(one.number for one in stamped)
    once = [one for one in stamped if counts[one.number] == 1 and not one.is_empty()]
    for before, one in zip(once, once[1:]):
        if one.start < before.start:
            song.note(
                one.number,
                f"is at {one.written}, before line {before.number} at {before.written}; lines are sung in "
                "the order of the times",
            )
        elif one.start == before.start and one.voice == before.voice:
            song.note(one.number, f"is at the same time as line {before.number}, {one.written}")


def offset_of(value: str, song: Song, number: int) -> float:
    if OFFSET.fullmatch(value):
        return int(value) / 1000
    song.fault(number, f"the offset {value} is not a number of milliseconds")
    return 0.0


def stamps_of(line: str) -> tuple[list[tuple[float, str]], str]:
    """The times in front of a line, their spelling, and the rest of the line."""
    starts, at = [], 0
    while stamp := STAMP.match(line, at):
        starts.append((seconds(*stamp.groups()), stamp[0].rstrip()))
        at = stamp.end()
    return starts, line[at:]


def line_pieces(rest: str, later: float) -> list[tuple[float | None, str]]:
    """The pieces of a line; for a line with several times, the times of its words are moved accordingly."""
    parts: list[tuple[float | None, str]] = []
    at, time = 0, None
    for word in WORD.finditer(rest):
        parts.append((time, rest[at : word.start()]))
        time, at = seconds(*word.groups()) + later, word.end()
    parts.append((time, rest[at:]))
    return [part for place, part in enumerate(parts) if place or part[1].strip()]


def add_line(song: Song, one: Stamped, following: Stamped | None, offset: float) -> None:
    """Adds a line. A time without text behind it is its end; the time of another line only bounds it."""
    starts = [one.start if time is None else time for time, _ in one.parts]
    last = starts[-1] + LONGEST_WORD
    ends = [*starts[1:], last if following is None else max(starts[-1], min(last, following.start))]
    syllables = [
        Syllable(text, start - offset, end - offset, one.voice)
        for (_, text), start, end in zip(one.parts, starts, ends)
    ]
    is_whole = all(time is None for time, _ in one.parts)
    sung = [syllable for syllable in syllables if syllable.text.strip()]
    line = Line(one.number, sung, is_whole, one.written)
    if is_whole and following and following.is_empty():
        line.syllables[-1].end = following.start - offset
    elif is_whole:
        open_line(line, None if following is None else following.start - offset)
    song.lines.append(line)
