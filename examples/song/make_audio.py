#!/usr/bin/env python3
"""Writes the audio of a song: chords, a bass, and a note at the time of each syllable of the lyrics. The audio lasts one
minute for song.lrc, and otherwise until five seconds after the last word.

make_audio.py OUT.wav [LYRICS]"""
import argparse
import functools
import itertools
import math
import operator
import site
import sys
import wave
from array import array
from pathlib import Path
from typing import Iterator, NamedTuple

# Use the package of this checkout, even if another one is installed.
site.addsitedir(str(Path(__file__).resolve().parents[2] / "desk"))

from ribjasper.songs.song_files import read_song  # noqa: E402
from ribjasper.songs.songs import Song  # noqa: E402

HERE = Path(__file__).resolve().parent

RATE, SECONDS, LAST = 44_100, 60, 5
BEAT = 60 / 108
BAR = 4 * BEAT
# Two bars for each chord, in semitones from the note of 440 Hz.
CHORDS = ((-9, -5, -2), (-14, -10, -7), (-12, -9, -5), (-16, -12, -9))
# The tune, with a phrase for each line of the song.
PHRASES = (
    (3, 3, 7, 5, 3, 5, 7, 5, 3, 0),
    (0, 0, 3, 2, 0, 2, 3, 2, -2),
    (3, 3, 7, 5, 3, 7, 7, 8, 7),
    (7, 7, 5, 3, 5, 3, 2, 0, -2, 0),
    (10, 8, 7, 8, 10, 12, 10, 7),
    (8, 7, 5, 7, 8, 7, 5, 3, 5),
    (10, 8, 7, 8, 10, 12, 10, 7),
    (8, 7, 5, 3, 3, 2, 3, 2, 3),
    (0, 2, 3, 7, 7, 8, 7, 5),
    (5, 3, 5, 3, 2, 3, 2, 3),
)


class Note(NamedTuple):
    """A note: its beginning and length in seconds, pitch in semitones, loudness, and position from 0 (left) to 1 (right)."""

    start: float
    length: float
    pitch: int
    loud: float
    side: float


def wave_table(overtones: tuple[float, ...]) -> list[float]:
    """One period of a tone, with 1,024 samples."""
    return [sum(part * math.sin(2 * math.pi * (number + 1) * at / 1024) for number, part in enumerate(overtones))
            for at in range(1024)]


TONE = wave_table((1.0, 0.35, 0.2, 0.08))


@functools.lru_cache(maxsize=None)
def samples(length: float, pitch: int, loud: float) -> list[int]:
    """A note that begins at full level and fades."""
    step = 1024 * 440 * 2 ** (pitch / 12) / RATE
    count = int(RATE * length)
    attack, release = RATE // 100, RATE // 20
    return [int(loud * TONE[int(at * step) & 1023] * min(1.0, at / attack, (count - at) / release))
            for at in range(count)]


def tune(song: Song) -> Iterator[Note]:
    for line, phrase in zip(song.lines, itertools.cycle(PHRASES)):
        for number, syllable in enumerate(line.syllables):
            length = min(syllable.end - syllable.start, 2.0)
            yield Note(syllable.start, length, phrase[number % len(phrase)], 9_000, 0.5)


def chords(seconds: int) -> Iterator[Note]:
    bars = int(seconds / BAR)
    for bar in range(bars):
        chord = CHORDS[bar // 2 % len(CHORDS)] if bar < bars - 1 else CHORDS[0]
        for beat in range(4):
            start = bar * BAR + beat * BEAT
            for number, pitch in enumerate(chord):
                side = (0.2, 0.5, 0.8)[number]
                yield Note(start + number * BEAT / 3, BEAT / 3, pitch + 12 * (beat % 2), 4_000, side)
        yield Note(bar * BAR, BAR * 0.9, chord[0] - 12, 6_000, 0.5)


def mixed(notes: list[Note], seconds: int) -> "array[int]":
    """The samples of the left and the right channel, alternating."""
    sides = [[0] * (RATE * seconds) for _ in range(2)]
    for note in notes:
        at = int(RATE * note.start)
        for side, part in zip(sides, (1 - note.side, note.side)):
            tone = samples(note.length, note.pitch, note.loud * part)
            side[at : at + len(tone)] = map(operator.add, side[at : at + len(tone)], tone)
    sound = array("h", bytes(4 * RATE * seconds))
    for place, side in enumerate(sides):
        sound[place::2] = array("h", side[: RATE * seconds])
    return sound


def main() -> None:
    parser = argparse.ArgumentParser(description="Writes the audio of a song.")
    parser.add_argument("out", metavar="OUT.wav")
    parser.add_argument("lyrics", metavar="LYRICS", type=Path, nargs="?", help="song.lrc")
    arguments = parser.parse_args()
    song = read_song(arguments.lyrics or HERE / "song.lrc")
    seconds = SECONDS if not arguments.lyrics else math.ceil(song.lines[-1].end) + LAST
    sound = mixed([*chords(seconds), *tune(song)], seconds)
    if sys.byteorder == "big":
        sound.byteswap()
    with wave.open(arguments.out, "wb") as file:
        file.setparams((2, 2, RATE, 0, "NONE", ""))
        file.writeframes(sound.tobytes())


if __name__ == "__main__":
    main()
