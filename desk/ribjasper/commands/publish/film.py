"""`film`: a video of the pictures of a stream or a `.cdg` file, and a page of stills."""
import argparse
import contextlib
import math
import shutil
from pathlib import Path
from typing import Any, IO, NamedTuple

from ...common import kinds
from ...common.failures import Refusal
from ...common.library import HEIGHT, WIDTH
from ...common.output import Outputs, add_force, package, tell
from ...common.progress import progress
from ...common.words import Commands, number_in
from ...dumps.streams import Stream, open_stream
from ...songs import audio
from ...songs.films import FilmForm, film_of

# A picture that is shown for at least this number of seconds gets a place on a page of stills.
LEAST_SHOWN = 0.2
MOST_STILLS = 1_000
# A sound that is shorter than the pictures by no more seconds is as long as they are.
SHORT_SOUND = 1.0
# The size of a still in pixels, the line below it, and the gap between them.
STILL_WIDTH, STILL_HEIGHT, LABEL, BETWEEN = WIDTH // 2, HEIGHT // 2, 14, 8


def add_parser(commands: Commands) -> None:
    parser = commands.add_parser(
        "film",
        help="make a video of the pictures of a stream",
        description="Makes a video of the pictures of a raw stream, an image or a .cdg file, synchronous with its "
        "audio. --stills makes a page of pictures instead or as well. The proved player draws the pictures, and "
        "ffmpeg makes the video.",
    )
    parser.add_argument("stream", type=Path, metavar="STREAM", help="a raw stream, an image DISC.bin, or a .cdg file")
    parser.add_argument("-o", "--output", type=Path, metavar="OUT.mp4", help="the video")
    parser.add_argument("--audio", type=Path, metavar="WAV", help="the audio of the video")
    parser.add_argument("--rate", type=number_in(1, 75), default=25, metavar="N", help="frames in a second (25)")
    parser.add_argument(
        "--scale",
        type=number_in(1, 8),
        default=3,
        metavar="N",
        help="enlarge the picture by this factor (3: 900 by 648 pixels)",
    )
    parser.add_argument(
        "--lossless", action="store_true", help="keep each pixel unchanged; fewer programs play such videos"
    )
    parser.add_argument(
        "--stills",
        type=Path,
        metavar="OUT.png",
        help="write a page with each picture that is shown for at least a fifth of a second, and its time",
    )
    parser.add_argument(
        "--every", type=float, metavar="SECONDS", help="put a picture on this page every SECONDS seconds"
    )
    add_force(parser)
    parser.set_defaults(run=run, parser=parser)


def audio_seconds(path: Path | None) -> float:
    """How long an audio is; 0 if there is none, or if only ffmpeg could measure it and is not installed."""
    if not path:
        return 0
    wave = audio.wave_of(path)
    if wave and wave.channels and wave.bits >= 8 and wave.rate:
        return wave.size / (wave.channels * (wave.bits // 8) * wave.rate)
    return audio.frames(path) / audio.RATE if shutil.which("ffmpeg") else 0


class Still(NamedTuple):
    """A picture, and the second at which it first appears."""

    second: float
    picture: bytes


class Stills:
    """The pictures of a page of stills: those that are shown for a while, or one at regular times."""

    def __init__(self, rate: int, every: float | None):
        self.rate, self.every = rate, every
        self.kept: list[Still] = []
        self.number, self.since, self.last = 0, 0, b""

    def see(self, picture: bytes) -> None:
        if self.every:
            if self.number >= len(self.kept) * self.every * self.rate:
                self.kept.append(Still(self.number / self.rate, picture))
        elif picture != self.last:
            self.close()
            self.since, self.last = self.number, picture
        self.number += 1

    def close(self) -> None:
        """Keeps the last picture if it was shown long enough."""
        if not self.every and self.number - self.since >= LEAST_SHOWN * self.rate:
            self.kept.append(Still(self.since / self.rate, self.last))


def stills_page(stills: list[Still]) -> Any:
    """The pictures in rows, each with its time below it."""
    images = package("PIL.Image", "python3-pil")
    pens = package("PIL.ImageDraw", "python3-pil")
    columns = min(8, max(1, math.ceil(math.sqrt(len(stills)))))
    wide, high = STILL_WIDTH + BETWEEN, STILL_HEIGHT + LABEL + BETWEEN
    rows = -(-len(stills) // columns)
    page = images.new("RGB", (BETWEEN + wide * columns, BETWEEN + high * rows), "#FFFFFF")
    pen = pens.Draw(page)
    for place, still in enumerate(stills):
        left, top = BETWEEN + wide * (place % columns), BETWEEN + high * (place // columns)
        image = images.frombytes("RGB", (WIDTH, HEIGHT), still.picture)
        page.paste(image.resize((STILL_WIDTH, STILL_HEIGHT), images.BOX), (left, top))
        minutes, seconds = divmod(still.second, 60)
        pen.text((left, top + STILL_HEIGHT + 1), f"{int(minutes):02}:{seconds:05.2f}", "#202020")
    return page


def show_all(stream: Stream, arguments: argparse.Namespace, count: int, out: IO[bytes] | None, stills: Stills) -> None:
    for picture in progress(stream.frames(arguments.rate, count), count, "frames"):
        if out:
            out.write(picture)
        stills.see(picture)
    stills.close()


def run(arguments: argparse.Namespace) -> int:
    if not (arguments.output or arguments.stills):
        arguments.parser.error("-o or --stills is needed")
    if arguments.every is not None and arguments.every <= 0:
        arguments.parser.error("--every needs a number above 0")
    reads = [arguments.stream, arguments.audio]
    writes = [(arguments.output, kinds.FILM), (arguments.stills, kinds.PNG)]
    with Outputs(reads, writes, arguments.force) as outputs:
        stream = open_stream(arguments.stream)
        pictures, sound = stream.seconds(), audio_seconds(arguments.audio)
        if arguments.audio and 0 < sound < pictures - SHORT_SOUND:
            tell(f"{arguments.audio}: the sound ends {pictures - sound:.1f} seconds before the pictures")
        seconds = max(pictures, sound)
        count = max(1, math.ceil(seconds * arguments.rate))
        stills = Stills(arguments.rate, arguments.every)
        with contextlib.ExitStack() as open_film:
            out = None
            if arguments.output:
                form = FilmForm(arguments.audio, arguments.rate, arguments.scale, arguments.lossless)
                part = outputs.path(arguments.output, ".mp4")
                out = open_film.enter_context(film_of(form, arguments.output, part))
            show_all(stream, arguments, count, out, stills)
        if arguments.stills:
            if len(stills.kept) > MOST_STILLS:
                raise Refusal(
                    arguments.stills, f"would have {len(stills.kept)} pictures; use --every SECONDS for fewer"
                )
            outputs.write_png(arguments.stills, stills_page(stills.kept))
    tell(f"{seconds:.1f} seconds, {count} frames, {len(stills.kept)} stills")
    return 0
