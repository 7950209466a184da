"""Lyrics as WebVTT files: cues with lines of text, which may contain times of words and names of voices."""
import re

from .songs import FIRST, Line, Song, Syllable
from .srt import add_texts, below

TIME = r"(?:(\d{1,6}):)?(\d{1,2}):(\d{1,2})[.,](\d{1,6})"
TIMES = re.compile(rf"\s*{TIME}[ \t]+-->[ \t]+{TIME}")
STAMP = re.compile(rf"<{TIME}>")
VOICE = re.compile(r"<v(?:\.[^\s>]*)?\s+([^<>]*)>")
MARKS = re.compile(r"<[^<>]*>")
ESCAPES = (
    ("&lt;", "<"),
    ("&gt;", ">"),
    ("&nbsp;", " "),
    ("&lrm;", "\u200e"),
    ("&rlm;", "\u200f"),
    ("&amp;", "&"),
)
# Blocks without lyrics.
NO_CUES = re.compile(r"(NOTE|STYLE|REGION)(\s|$)")


def read_vtt(text: str, song: Song) -> None:
    """Reads WebVTT. Times of words are used; the lines of cues without them are sung one after another."""
    lines = text.splitlines()
    is_block = False
    for number, line in enumerate(lines, 1):
        if not line.strip():
            is_block = False
        elif NO_CUES.match(line) and (number == 1 or not lines[number - 2].strip()):
            is_block = True
        elif not is_block and (found := TIMES.match(line)):
            add_cue(song, number, below(lines, number), vtt_time(found.groups()[:4]), vtt_time(found.groups()[4:]))
        elif not is_block and "-->" in line:
            song.fault(number, f"{line.strip()} is not a time like 00:12.500 --> 00:15.000")
    song.lines.sort(key=lambda one: one.start)


def vtt_time(parts: tuple[str, ...]) -> float:
    hours, minutes, whole, thousandths = parts
    return 3600 * int(hours or 0) + 60 * int(minutes) + int(whole) + float(f"0.{thousandths}")


def plain_text(text: str) -> str:
    text = MARKS.sub("", text)
    for escape, letter in ESCAPES:
        text = text.replace(escape, letter)
    return text


def add_cue(song: Song, number: int, texts: list[str], start: float, end: float) -> None:
    written, sung = spelled_of(start), start
    is_timed = any(STAMP.search(text) for text in texts)
    voice, rows = FIRST, list[tuple[int, str, int]]()
    for place, text in enumerate(texts, number + 1):
        if found := VOICE.search(text):
            voice = song.voice_of(plain_text(found[1]), place)
        rows.append((place, text, voice))
    if not is_timed:
        kept = [(place, plain_text(text).strip(), one) for place, text, one in rows]
        before = len(song.lines)
        add_texts(song, [(place, text) for place, text, _ in kept if text], start, end, written)
        for line, (_, _, one) in zip(song.lines[before:], (it for it in kept if it[1])):
            for syllable in line.syllables:
                syllable.voice = one
        return
    cue: list[Line] = []
    for place, text, one in rows:
        line, at = Line(place, [], False, written), 0
        for stamp in STAMP.finditer(text):
            line.syllables.append(Syllable(plain_text(text[at : stamp.start()]), sung, sung, one))
            sung, at = vtt_time(stamp.groups()), stamp.end()
        line.syllables.append(Syllable(plain_text(text[at:]), sung, end, one))
        # A line that begins with a time has no text before it.
        if len(line.syllables) > 1 and not line.syllables[0].text.strip():
            del line.syllables[0]
        cue.append(line)
    every = [syllable for line in cue for syllable in line.syllables]
    for syllable, following in zip(every, every[1:]):
        syllable.end = following.start
    for line in cue:
        line.syllables = [syllable for syllable in line.syllables if syllable.text.strip()]
        if line.syllables:
            song.lines.append(line)


def spelled_of(time: float) -> str:
    return f"{int(time) // 3600:02}:{int(time) // 60 % 60:02}:{time % 60:06.3f}"
