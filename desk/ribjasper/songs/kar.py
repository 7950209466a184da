"""Lyrics as karaoke MIDI files (.kar, .mid): texts among the music, each at its time."""
import io
from typing import Any, Callable

from ..common.failures import Refusal
from ..common.output import package
from .songs import LONGEST_WORD, Line, Song, Syllable, song_time

# The prefix of a text that begins a new line or page, and the prefix of a text that is not sung.
NEW_LINE, TAG = ("/", "\\", "\r", "\n"), "@"
# Turns all texts of a file into letters.
Decode = Callable[[list[bytes]], list[str]]


def read_kar(content: bytes, song: Song, decode: Decode) -> None:
    """The texts of the kind `lyrics`, or else those of the kind `text`, as old files have them."""
    texts = midi_texts(content, song, decode)
    lyrics = [(time, text) for time, kind, text in texts if kind == "lyrics"]
    plain = [(time, text) for time, kind, text in texts if kind == "text"]
    titles = [text[2:].strip() for _, text in plain if text.startswith("@T")]
    song.title, song.performer = ([*titles, "", ""])[:2]
    sung = [(time, text) for time, text in plain if not text.startswith(TAG)]
    if sum(bool(text.strip()) for _, text in lyrics) >= sum(bool(text.strip()) for _, text in sung):
        sung = lyrics
    add_lines(song, sung)


def midi_texts(content: bytes, song: Song, decode: Decode) -> list[tuple[float, str, str]]:
    """All texts with their seconds and their kinds."""
    mido: Any = package("mido", "python3-mido")
    found, now = list[tuple[float, str, bytes]](), 0.0
    try:
        for message in mido.MidiFile(file=io.BytesIO(content)):
            now += message.time
            if message.is_meta and message.type in ("lyrics", "text"):
                found.append((now, message.type, message.text.encode("latin-1")))
    except (OSError, EOFError, ValueError, LookupError, TypeError, OverflowError) as error:
        raise Refusal(song.path, f"is not a readable MIDI file: {str(error) or 'it ends too early'}") from None
    texts = decode([text for _, _, text in found])
    return [(time, kind, text) for (time, kind, _), text in zip(found, texts)]


def add_lines(song: Song, sung: list[tuple[float, str]]) -> None:
    line: list[Syllable] = []
    starts = [time for time, _ in sung][1:] + [None]
    for (time, text), following in zip(sung, starts):
        body = text.lstrip("/\\\r\n")
        if text.startswith(NEW_LINE):
            close(song, line)
            line = []
        if body.strip():
            end = time + LONGEST_WORD if following is None else min(following, time + LONGEST_WORD)
            line.append(Syllable(body.rstrip("\r\n"), time, end))
        if body and body.endswith(("\r", "\n")):
            close(song, line)
            line = []
    close(song, line)


def close(song: Song, line: list[Syllable]) -> None:
    if line:
        song.lines.append(Line(len(song.lines) + 1, line, written=song_time(line[0].start)))
