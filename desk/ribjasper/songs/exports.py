"""A song as SubRip, ASS and UltraStar, for other programs. What a format cannot express is reported."""
from typing import Callable

from .songs import BOTH, FIRST, FOURTH, SECOND, THIRD, Line, Song

# The beats per minute with which a note of UltraStar begins at a hundredth of a second; a beat in the file is a quarter
# of a beat of the music.
TEMPO = 1500
ASS_HEAD = """[Script Info]
Title: {title}
ScriptType: v4.00+
PlayResX: 640
PlayResY: 480

[V4+ Styles]
Format: Name, Fontname, Fontsize, PrimaryColour, SecondaryColour, OutlineColour, BackColour, Bold, Italic, Underline, \
StrikeOut, ScaleX, ScaleY, Spacing, Angle, BorderStyle, Outline, Shadow, Alignment, MarginL, MarginR, MarginV, Encoding
Style: Default,Sans,36,&H0000A5FF,&H00FFFFFF,&H00000000,&H00000000,0,0,0,0,100,100,0,0,1,2,0,2,20,20,20,1

[Events]
Format: Layer, Start, End, Style, Name, MarginL, MarginR, MarginV, Effect, Text
"""


def hundredths(time: float) -> int:
    return max(0, round(100 * time))


def clock_with_hours(units: int, a_second: int, digits: int, point: str, hour_digits: int) -> str:
    whole, part = divmod(units, a_second)
    return f"{whole // 3600:0{hour_digits}}:{whole // 60 % 60:02}:{whole % 60:02}{point}{part:0{digits}}"


class Spelling:
    """Letters of a song in a format; those with a special meaning there are replaced, with a note."""

    def __init__(self, song: Song, kind: str, instead: dict[str, str]) -> None:
        self.song, self.kind, self.instead = song, kind, instead

    def spelled(self, text: str, place: str) -> str:
        plain = "".join(" " if letter.splitlines() == [""] else letter for letter in text)
        done = "".join(self.instead.get(letter, letter) for letter in plain)
        if done != plain:
            self.song.notes.append(
                f"{self.song.path}: {place} has letters that {self.kind} cannot express; other letters replace them"
            )
        return done

    def of_line(self, line: Line, text: str) -> str:
        return self.spelled(text, f"line {line.number}")


def ordered(song: Song) -> list[Line]:
    return sorted((line for line in song.lines if line.text), key=lambda line: line.start)


def as_srt(song: Song) -> str:
    """Each line with its beginning and its end, in thousandths; SubRip has neither times of words nor voices."""
    letters = Spelling(song, "SubRip", {"<": "\u2039", ">": "\u203a", "{": "(", "}": ")"})
    cues = []
    for number, line in enumerate(ordered(song), 1):
        times = (clock_with_hours(max(0, round(1000 * time)), 1000, 3, ",", 2) for time in (line.start, line.end))
        cues.append(f"{number}\n{' --> '.join(times)}\n{letters.of_line(line, line.text).strip()}\n")
    return "\n".join(cues)


def voices_first(lines: list[Line]) -> list[Line]:
    """The lines, with the first line of each voice in front, because programs number voices in the order of the
    file."""
    first: dict[int, Line] = {}
    for line in lines:
        first.setdefault(line.voice, line)
    front = [first[voice] for voice in sorted(first)]
    return front + [line for line in lines if not any(line is one for one in front)]


def as_ass(song: Song) -> str:
    """Words with `\\k`, in hundredths of a second; a line with a single time has no `\\k`."""
    letters = Spelling(song, "ASS", {"{": "(", "}": ")", "\\": "/"})
    names = Spelling(song, "ASS", {",": ";", "\\": "/"})
    lines = ordered(song)
    has_names = any(line.voice != FIRST for line in lines) or bool(song.singers)
    events = []
    for line in voices_first(lines):
        name = names.spelled(name_of(song, line.voice), "a singer") if has_names else ""
        times = (clock_with_hours(hundredths(time), 100, 2, ".", 1) for time in (line.start, line.end))
        text = letters.of_line(line, line.text) if line.is_whole else timed(line, letters)
        events.append(f"Dialogue: 0,{','.join(times)},Default,{name},0,0,0,,{text}\n")
    return ASS_HEAD.format(title=letters.spelled(song.title, "the title")) + "".join(events)


def name_of(song: Song, voice: int) -> str:
    if voice == BOTH:
        return "both"
    return (song.singers[voice] if voice < len(song.singers) else "") or f"Voice {voice + 1}"


def timed(line: Line, letters: Spelling) -> str:
    """Each word with its duration; the time between two words belongs to neither."""
    text, now = "", hundredths(line.start)
    parts = line.syllables
    for one, following in zip(parts, [*parts[1:], None]):
        start = max(now, hundredths(one.start))
        end = max(start, hundredths(one.end))
        if following:
            end = min(end, max(start, hundredths(following.start)))
        text += f"{{\\k{start - now}}}" * (start > now)
        text += f"{{\\k{end - start}}}{letters.of_line(line, one.text)}"
        now = end
    return text


def as_ultrastar(song: Song) -> str:
    """Notes without pitches, in hundredths of a second. A line that all sing is a line of both singers."""
    letters = Spelling(song, "UltraStar", {"~": "\u223c"})
    lines = ordered(song)
    head = [f"#TITLE:{letters.spelled(song.title, 'the title').strip()}"]
    head += [f"#ARTIST:{letters.spelled(song.performer, 'the performer').strip()}", f"#BPM:{TEMPO}", "#GAP:0"]
    if any(line.voice in (THIRD, FOURTH) for line in lines):
        song.notes.append(
            f"{song.path}: UltraStar has two voices; the third and fourth singers share the voices of the first two"
        )
    if all(line.voice == FIRST for line in lines):
        return "\n".join([*head, *notes_of(lines, letters), "E", ""])
    for number, voice in ((1, FIRST), (2, SECOND)):
        head.append(f"#P{number}:{letters.spelled(name_of(song, voice), 'a singer')}")
    parts = []
    for number, voices in ((1, (FIRST, THIRD, BOTH)), (2, (SECOND, FOURTH, BOTH))):
        own = [line for line in lines if line.voice in voices]
        parts += [f"P{number}", *notes_of(own, letters)]
    return "\n".join([*head, *parts, "E", ""])


def notes_of(lines: list[Line], letters: Spelling) -> list[str]:
    """The notes of some lines, with a break before each line except the first."""
    rows: list[str] = []
    for line in lines:
        if rows:
            rows.append(f"- {hundredths(line.start)}")
        for one in line.syllables:
            start = hundredths(one.start)
            length = max(0, hundredths(one.end) - start)
            rows.append(f": {start} {length} 0 {letters.of_line(line, one.text)}")
    return rows


EXPORTS: dict[str, Callable[[Song], str]] = {".srt": as_srt, ".ass": as_ass, ".txt": as_ultrastar}
