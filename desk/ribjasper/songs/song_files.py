"""Reads the lyrics of a song from files of all kinds."""
import contextlib
import re
from pathlib import Path
from typing import Callable

from ..common.failures import Refusal
from ..common.output import read_file
from .ass import read_ass
from .document import Document, apply, beside, document_of, pictures_in
from .encodings import UTF_8, Guess, decodes, encoding_of, shown_name
from .kar import read_kar
from .lrc import read_lrc
from .songs import MOST_MESSAGES, Song, first_of_many
from .srt import TIMES, read_srt
from .ultrastar import read_ultrastar
from .vtt import read_vtt

EVENTS = re.compile(r"^\[Events\]", re.MULTILINE | re.IGNORECASE)
NOTES = re.compile(r"^[:*]\s*-?\d+\s+\d+\s+-?\d+", re.MULTILINE)
STRETCH = re.compile("^" + TIMES.pattern, re.MULTILINE)
PICTURE = re.compile(r"\[(?:image|picture):([^\]\n\0]+)\]", re.IGNORECASE)
WEB_VTT = re.compile(r"\ufeff?WEBVTT(\s|$)")
# The length of the longest disc in seconds; the greatest number of letters in a line, and of lines in a song.
LONGEST_SONG = 99 * 60
MOST_LETTERS, MOST_LINES = 2_000, 10_000


def encoding_for(content: bytes, song: Song, asked: str | None) -> str:
    """The encoding of a text, which is reported if it is not UTF-8; a guess is reported as a guess."""
    if asked:
        if not decodes(content, asked):
            raise Refusal(song.path, f"is not encoded as {asked}: {why_not(content, asked)}")
        return asked
    guess: Guess | None = encoding_of(content)
    if guess is None:
        where = why_not(content, "utf-8")
        raise Refusal(song.path, f"is not UTF-8 ({where}), and its encoding cannot be guessed; --encoding names it")
    if not decodes(content, guess.name):
        raise Refusal(song.path, f"is not encoded as {shown_name(guess.name)}: {why_not(content, guess.name)}")
    if guess.is_guess:
        song.notes.append(
            f"{song.path}: is read as {shown_name(guess.name)}, a guess; --encoding names another encoding"
        )
    elif guess.name not in UTF_8:
        song.notes.append(f"{song.path}: is read as {shown_name(guess.name)}")
    return guess.name


def why_not(content: bytes, name: str) -> str:
    """The place at which a text is not valid in an encoding."""
    try:
        content.decode(name)
    except UnicodeDecodeError as wrong:
        return f"line {content[: wrong.start].count(10) + 1}, byte {wrong.start}"
    except UnicodeError as wrong:
        return str(wrong)
    return "?"


def read_song(path: Path | str, encoding: str | None = None, later: float = 0.0) -> Song:
    """The song of a file: karaoke MIDI, ASS, UltraStar, SubRip, WebVTT or LRC, recognized by its content. `later` is
    added to all times of the file, in seconds. Times are in seconds of the sound. The encoding is detected if it is
    None. Raises Refusal, with all faults of the file at once."""
    path = Path(path)
    content, more = read_file(path), companion_of(path)
    song, _ = parsed_song(path, content, read_file(more) if more else None, encoding)
    song.shift(later)
    clip(song)
    if not song.lines:
        raise Refusal(path, "no line has a time like [00:12.50], and there are no events, notes or stretches of time")
    return song


def open_document(path: Path, encoding: str | None = None) -> Document:
    """The lyrics of a file as a document that can be edited and saved as LRC."""
    content, more = read_file(path), companion_of(path)
    toml = read_file(more) if more else None
    song, is_lrc = parsed_song(path, content, toml, encoding)
    return document_of(song, content, toml) if is_lrc else Document(song)


def companion_of(path: Path) -> Path | None:
    """The file next to an LRC with the contents that LRC cannot express, if it exists."""
    found = beside(path)
    return found if path.suffix.lower() == ".lrc" and found.is_file() else None


def parsed_song(path: Path, content: bytes, toml: bytes | None, encoding: str | None) -> tuple[Song, bool]:
    """The song in a file, and whether the file is LRC."""
    song, is_lrc = Song([], path=path), False
    if content.startswith(b"MThd"):
        read_kar(content, song, lambda texts: decoded_texts(texts, song, encoding))
    else:
        song.encoding = encoding_for(content, song, encoding)
        text = content.decode(song.encoding)
        kinds = ((WEB_VTT, read_vtt), (EVENTS, read_ass), (NOTES, read_ultrastar), (STRETCH, read_srt))
        reader: Callable[[str, Song], None] = next((one for mark, one in kinds if is_of_kind(mark, text)), read_lrc)
        reader(text, song)
        is_lrc = reader is read_lrc
        if is_lrc and toml is not None:
            apply(song, text, toml, beside(path))
    put_in_order(song)
    song.notes = first_of_many(song.notes, MOST_MESSAGES, f"{path}: there are {{}} more notes like these")
    if song.faults:
        raise Refusal(path, *first_of_many(song.faults, MOST_MESSAGES, "there are {} more faults"))
    return song, is_lrc


def pictures_of(path: Path) -> list[Path]:
    """The files that belong to lyrics: the file next to an LRC, and the pictures that lyrics of any kind may name. Only
    regular files are read."""
    if not path.is_file():
        return []
    more = companion_of(path)
    found = [more] if more else []
    with contextlib.suppress(Refusal, OSError):
        names = PICTURE.findall(read_file(path).decode("utf-8", "surrogateescape"))
        found += [path.parent / name.strip() for name in names if not name.strip().startswith("#")]
    if more:
        with contextlib.suppress(Refusal, OSError):
            found += [path.parent / what for what in pictures_in(read_file(more))]
    return found


def is_of_kind(mark: re.Pattern[str], text: str) -> bool:
    """Whether a text is of a kind: WebVTT by its first line, others by any line."""
    return bool(mark.match(text) if mark is WEB_VTT else mark.search(text))


def decoded_texts(texts: list[bytes], song: Song, encoding: str | None) -> list[str]:
    """The texts of a MIDI file, which all have one encoding."""
    song.encoding = encoding_for(b"\n".join(texts), song, encoding)
    return [text.decode(song.encoding, "replace") for text in texts]


def put_in_order(song: Song) -> None:
    """Sorts the lines by their times; lines whose words go back in time, or exceed the length of a disc, are errors."""
    song.lines.sort(key=lambda line: line.start)
    if len(song.lines) > MOST_LINES:
        song.faults = [f"there are {len(song.lines):,} sung lines; the maximum is {MOST_LINES:,}"]
        return
    for line in song.lines:
        if len(line.text) > MOST_LETTERS:
            song.fault(line.number, f"it has {len(line.text):,} letters; the maximum is {MOST_LETTERS:,}")
        starts = [syllable.start for syllable in line.syllables]
        if starts != sorted(starts):
            song.fault(line.number, f"a word begins before the word in front of it: {line.text}")
        elif line.end < line.start:
            song.fault(line.number, f"it ends before it begins: {line.text}")
        elif line.end > LONGEST_SONG:
            song.fault(line.number, f"is at {line.written}, but a disc ends after {LONGEST_SONG // 60} minutes")
        for syllable in line.syllables:
            syllable.end = max(syllable.start, syllable.end)


def clip(song: Song) -> None:
    """Moves words before the beginning of the audio to its beginning, or drops them if they would be over by then."""
    kept = []
    for line in song.lines:
        if line.end <= 0:
            song.note(
                line.number,
                f"at {line.written} would be sung before the audio begins, and is omitted: {line.text}",
            )
            continue
        if line.start < 0:
            song.note(
                line.number,
                f"at {line.written} would begin {-line.start:.2f} seconds before the audio, and "
                f"begins with it: {line.text}",
            )
            for syllable in line.syllables:
                syllable.start, syllable.end = max(0.0, syllable.start), max(0.0, syllable.end)
        kept.append(line)
    song.lines = kept
