"""The sound of a song as a file next to its graphics."""
import argparse
import os
import shutil
import stat
import subprocess
import time
import zipfile
from pathlib import Path

from . import audio
from ..common.failures import Missing, Refusal, reading
from ..common.beside import new_mode
from ..common.output import Outputs
from .songs import Song

# The options for an MP3 of a song: 192 kilobits per second, with tags in the form that most players read.
MP3_FORM = ["-vn", "-c:a", "libmp3lame", "-b:a", "192k", "-id3v2_version", "3", "-f", "mp3"]
COPIED_AT_ONCE = 1 << 20


def sound_of(arguments: argparse.Namespace) -> Path:
    with reading(arguments.song):
        # Missing lyrics are reported before a missing sound.
        os.stat(arguments.song)
    sound = arguments.audio or audio.sound_beside(arguments.song)
    if not sound:
        endings = ", ".join(audio.ENDINGS)
        raise Refusal(arguments.song, f"has no sound with its name next to it ({endings}); --audio names one")
    return Path(sound)


def write_sound(outputs: Outputs, name: str, sound: Path, song: Song, ending: str) -> None:
    """Writes the sound under a name with this ending: unchanged, or converted by ffmpeg."""
    if sound.suffix.lower() != ending:
        convert_sound(sound, song, outputs.path(name), ending)
        return
    out = outputs.open(name)
    with open(sound, "rb") as file:
        while part := file.read(COPIED_AT_ONCE):
            out.write(part)


def convert_sound(sound: Path, song: Song, out: str, ending: str) -> None:
    """Writes the sound in the form of an ending, with its title and singer."""
    if ending == ".mp3":
        make_mp3(sound, song, out)
        return
    forms = {
        ".ogg": "ogg",
        ".opus": "opus",
        ".flac": "flac",
        ".m4a": "ipod",
        ".aiff": "aiff",
        ".aif": "aiff",
        ".wav": "wav",
    }
    if ending not in forms:
        raise Refusal(
            song.path, f"a changed sound cannot be written with the ending '{ending}'; --mp3 writes it as MP3"
        )
    audio.run_ffmpeg(sound, ["-y", "-i", os.fspath(sound), "-vn", "-f", forms[ending], out])


def make_mp3(sound: Path, song: Song, out: str) -> None:
    """Writes the sound as MP3, with its title and singer."""
    if not shutil.which("ffmpeg"):
        raise Missing("this needs the program ffmpeg (apt-get install ffmpeg); without --mp3 the sound stays as it is")
    tags = [
        word
        for key, text in (("title", song.title), ("artist", song.performer))
        if text
        for word in ("-metadata", f"{key}={text}")
    ]
    words = ["ffmpeg", "-v", "error", "-nostdin", "-y", "-i", os.fspath(sound), *tags, *MP3_FORM, out]
    done = subprocess.run(words, stdin=subprocess.DEVNULL, capture_output=True)
    if done.returncode:
        why = done.stderr.decode(errors="replace").strip().splitlines()
        raise Refusal(sound, f"ffmpeg ended with {done.returncode}: {why[-1] if why else 'it printed no message'}")


def write_zip(outputs: Outputs, name: str, packs: bytes, sound: Path, song: Song, ending: str) -> None:
    """Writes both files into one, under the name of the pair."""
    stem = Path(name).stem
    with zipfile.ZipFile(outputs.path(name), "w", zipfile.ZIP_DEFLATED) as together:
        graphics = zipfile.ZipInfo(f"{stem}.cdg", time.localtime(time.time())[:6])
        graphics.external_attr, graphics.compress_type = (stat.S_IFREG | new_mode()) << 16, zipfile.ZIP_DEFLATED
        together.writestr(graphics, packs)
        if sound.suffix.lower() != ending:
            made = audio.new_file(ending)
            convert_sound(sound, song, os.fspath(made), ending)
            sound = made
        together.write(sound, f"{stem}{ending}")
