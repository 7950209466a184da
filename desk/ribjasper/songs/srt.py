"""Lyrics as SubRip files: stretches of time with lines of text."""
import re

from .songs import Line, Song, Syllable

TIME = r"(\d{1,6}):(\d{1,6}):(\d{1,6})[,.](\d{1,6})"
TIMES = re.compile(rf"[^\S\n]*{TIME}\s*-->\s*{TIME}")
# Marks for the appearance of a text.
MARKS = re.compile(r"<[^<>]*>|\{[^{}]*\}")


def read_srt(text: str, song: Song) -> None:
    """Reads SubRip. The lines of a stretch are sung one after another, each in proportion to its letters."""
    lines = text.splitlines()
    for number, line in enumerate(lines, 1):
        found = TIMES.match(line)
        if found:
            start, end = srt_time(found.groups()[:4]), srt_time(found.groups()[4:])
            texts = [(number + 1 + place, MARKS.sub("", one).strip()) for place, one in enumerate(below(lines, number))]
            add_texts(song, [(place, one) for place, one in texts if one], start, end, line.split("-->")[0].strip())
        elif "-->" in line:
            song.fault(number, f"{line.strip()} is not a time like 00:00:12,500 --> 00:00:15,000")
    song.lines.sort(key=lambda one: one.start)


def srt_time(parts: tuple[str, ...]) -> float:
    hours, minutes, whole, thousandths = parts
    return 3600 * int(hours) + 60 * int(minutes) + int(whole) + float(f"0.{thousandths}")


def below(lines: list[str], number: int) -> list[str]:
    """The lines of text up to the next empty line."""
    end = next((place for place in range(number, len(lines)) if not lines[place].strip()), len(lines))
    return lines[number:end]


def add_texts(song: Song, texts: list[tuple[int, str]], start: float, end: float, written: str) -> None:
    letters = sum(len(text) for _, text in texts)
    for number, text in texts:
        until = start + (end - start) * len(text) / letters
        song.lines.append(Line(number, [Syllable(text, start, until)], True, written))
        start, letters, end = until, letters - len(text), end
