"""A film of pictures and sound, which ffmpeg makes."""
import contextlib
import os
import subprocess
import tempfile
from pathlib import Path
from typing import IO, Iterator, NamedTuple

from ..common.failures import Missing, Name, Refusal
from ..common.library import HEIGHT, WIDTH

# x264 omits frames that depend on later ones, and long searches for motion: tiles change in place.
PLAIN_SEARCH = "bframes=0:me=dia:subme=0:trellis=0"
# Frames are small: more threads take longer and use more processors.
READING = ["-threads", "1", "-filter_threads", "1"]
CODING = ["-threads", "2"]


class FilmForm(NamedTuple):
    """The sound of a film, its frames per second, the factor of its pictures, and whether each pixel is kept."""

    sound: Path | None
    rate: int = 25
    scale: int = 3
    is_lossless: bool = False


def film_words(form: FilmForm, out: str) -> list[str]:
    """The call of ffmpeg, which reads frames from its standard input."""
    size, scale = f"{WIDTH}x{HEIGHT}", form.scale
    coding = (
        ["-c:v", "libx264rgb", "-qp", "0"]
        if form.is_lossless
        else ["-preset", "veryfast", "-x264-params", PLAIN_SEARCH, "-crf", "16", "-pix_fmt", "yuv420p"]
    )
    sound = ["-i", os.fspath(form.sound), "-map", "0:v", "-map", "1:a"] if form.sound else []
    frames = ["-f", "rawvideo", "-pix_fmt", "rgb24", "-s", size, "-r", str(form.rate), "-i", "pipe:0"]
    larger = ["-vf", f"scale=iw*{scale}:ih*{scale}:flags=neighbor"]
    return [
        "ffmpeg",
        "-v",
        "error",
        "-y",
        *READING,
        *frames,
        *sound,
        *larger,
        *CODING,
        *coding,
        "-movflags",
        "+faststart",
        out,
    ]


@contextlib.contextmanager
def film_of(form: FilmForm, name: Name, part: str) -> Iterator[IO[bytes]]:
    """The input of an ffmpeg that makes a film of the frames written to it; a failure names the output."""
    with tempfile.TemporaryFile() as said:
        try:
            ffmpeg = subprocess.Popen(film_words(form, part), stdin=subprocess.PIPE, stderr=said)
        except FileNotFoundError:
            raise Missing("this needs the program ffmpeg (apt-get install ffmpeg)") from None
        assert ffmpeg.stdin is not None
        try:
            yield ffmpeg.stdin
        except BrokenPipeError:
            pass
        finally:
            with contextlib.suppress(BrokenPipeError):
                ffmpeg.stdin.close()
            status = ffmpeg.wait()
        if status:
            said.seek(0)
            why = said.read().decode(errors="replace").strip().splitlines()
            raise Refusal(name, f"ffmpeg ended with {status}: {why[-1] if why else 'it printed no message'}")
