"""What the tests of the desk share: paths and installed tools, calls of the desk and of the program, a folder for each
test, and streams, sheets and audio as inputs."""
import contextlib
import functools
import importlib.util
import io
import os
import random
import shutil
import signal
import subprocess
import sys
import tempfile
import unittest
import wave
from pathlib import Path
from typing import Any, Callable, NamedTuple, TypeVar

from ribjasper import main
from ribjasper.common import library, output, program as programs
from ribjasper.drawing.lettering import DEFAULT_FONT

# A shell that starts the tests in the background makes them ignore signals, but the tested programs must receive them.
for number in (signal.SIGINT, signal.SIGTERM, signal.SIGHUP):
    if signal.getsignal(number) is signal.SIG_IGN:
        signal.signal(number, signal.SIG_DFL)

TOP = Path(__file__).resolve().parent.parent.parent
DESK = TOP / "desk" / "ribjasper-desk"
HELLO = TOP / "examples" / "hello.cue", TOP / "examples" / "hello.script"
SONG = TOP / "examples" / "song"
BLOCK, SECTOR, AUDIO, PACK = 96, 2448, 2352, 24
PAUSE = 150
# The numbers of blocks in the lead-in and in the program of the example stream.
LEAD_IN, PROGRAM_BLOCKS = 30, 1800
# A lead-in with room for the texts of any sheet in the tests.
ROOMY_LEAD_IN = 60

Test = TypeVar("Test", bound=Callable[..., object])
Word = str | bytes | Path | int


def found_program() -> str | None:
    try:
        return programs.program()
    except output.Missing:
        return None


def has(*names: str) -> bool:
    """Whether the library is there and has these functions."""
    try:
        return all(library.call(name) for name in names)
    except output.Missing:
        return False


def needs(module: str, package: str) -> Callable[[Test], Test]:
    return unittest.skipUnless(importlib.util.find_spec(module), f"{package} is not installed")


PROGRAM = found_program()
CALLS = "ribjasper_survey", "ribjasper_texts", "ribjasper_mend_report", "ribjasper_block_text_packs"
needs_library = unittest.skipUnless(PROGRAM and has(*CALLS), "lib/ or the program is not built (make library, make)")
needs_plan = unittest.skipUnless(has("ribjasper_plan"), "lib/ is not built, or has no ribjasper_plan")
needs_program = unittest.skipUnless(PROGRAM, "the program is not built (make)")
needs_pillow = needs("PIL", "python3-pil")
needs_font = unittest.skipUnless(DEFAULT_FONT.exists(), "fonts-dejavu-core is not installed")
needs_ffmpeg = unittest.skipUnless(shutil.which("ffmpeg"), "ffmpeg is not installed")
needs_cdrdao = unittest.skipUnless(shutil.which("cdrdao"), "cdrdao is not installed")


class FolderTest(unittest.TestCase):
    """A test with a folder of its own."""

    def setUp(self) -> None:
        self.folder = Path(tempfile.mkdtemp(prefix="ribjasper-test-"))
        self.addCleanup(shutil.rmtree, self.folder)

    def write(self, name: str, content: str | bytes) -> Path:
        path = self.folder / name
        os.makedirs(path.parent, exist_ok=True)
        path.write_bytes(content.encode() if isinstance(content, str) else content)
        return path


class Ran(NamedTuple):
    """The exit status of a command, and what it printed."""

    status: int
    out: str
    errors: str

    def cells(self) -> list[list[str]]:
        """The cells of each line of a table."""
        return [line.split("\t") for line in self.out.splitlines()]

    def rows(self) -> list[dict[str, str]]:
        """The lines of a table, by the names in its first line."""
        names, *rows = self.cells()
        return [dict(zip(names, row)) for row in rows]


def desk(*words: Word, **options: Any) -> Ran:
    """Runs a command of the desk: in this process, or with process options in a new one."""
    if options:
        ran = subprocess.run([sys.executable, DESK, *map(word, words)], capture_output=True, **options)
        return Ran(ran.returncode, text(ran.stdout), text(ran.stderr))
    out, errors = (io.TextIOWrapper(io.BytesIO(), "utf-8", "surrogateescape", write_through=True) for _ in range(2))
    with contextlib.redirect_stdout(out), contextlib.redirect_stderr(errors):
        status = main.main([os.fsdecode(word(it)) for it in words])
    return Ran(status, *(text(stream.buffer.getvalue()) for stream in (out, errors)))  # type: ignore[attr-defined]


def word(it: Word) -> str | bytes:
    return os.fspath(it) if isinstance(it, (bytes, Path)) else str(it)


def text(printed: bytes) -> str:
    return printed.decode(errors="surrogateescape")


def program(*words: Word, stdin: bytes = b"", statuses: tuple[int, ...] = (0,)) -> bytes:
    """The output of the program."""
    assert PROGRAM is not None
    ran = subprocess.run([PROGRAM, *map(str, words)], input=stdin, capture_output=True)
    if ran.returncode not in statuses:
        raise subprocess.CalledProcessError(ran.returncode, ran.args, ran.stdout, ran.stderr)
    return ran.stdout


@functools.lru_cache(maxsize=None)
def hello() -> bytes:
    """The stream of the examples: 30 lead-in blocks and 1,800 program blocks."""
    return program("author", "--lead-in", LEAD_IN, "--length", "00:22:00", "--", *HELLO)


@functools.lru_cache(maxsize=None)
def hello_packs() -> bytes:
    return program("convert", "--lead-in", LEAD_IN, stdin=hello())


def author(sheet: bytes, length: str, folder: Path, lead_in: int = ROOMY_LEAD_IN) -> bytes:
    """The stream of a sheet without pictures."""
    (folder / "a.cue").write_bytes(sheet)
    (folder / "a.script").write_bytes(b"")
    return program("author", "--lead-in", lead_in, "--length", length, "--", folder / "a.cue", folder / "a.script")


def author_files(sheet: Path, script: Path, length: str, out: Path) -> Path:
    """The stream of a sheet and a script, as a file."""
    out.write_bytes(program("author", "--lead-in", ROOMY_LEAD_IN, "--length", length, "--", sheet, script))
    return out


def blocks(stream: bytes) -> list[bytes]:
    return [stream[start : start + BLOCK] for start in range(0, len(stream), BLOCK)]


def as_sectors(stream: bytes) -> bytes:
    """Each block after the audio of its sector."""
    return b"".join(bytes(AUDIO) + block for block in blocks(stream))


def with_burst(stream: bytes, block: int, count: int, seed: int = 1, first: int = 0) -> bytes:
    """A stream with `count` wrong symbols in a row, from a symbol of a block on."""
    changed, chance = bytearray(stream), random.Random(seed)
    for place in range(BLOCK * block + first, BLOCK * block + first + count):
        changed[place] ^= chance.randrange(1, 64)
    return bytes(changed)


def with_bad_q(stream: bytes, block: int) -> bytes:
    """A stream in which one bit of a Q frame is flipped."""
    changed = bytearray(stream)
    changed[BLOCK * block + 11] ^= 0x40
    return bytes(changed)


def with_zeros(stream: bytes, first: int, last: int) -> bytes:
    """A stream in which a drive gave up from one block to another."""
    return stream[: BLOCK * first] + bytes(BLOCK * (last - first + 1)) + stream[BLOCK * (last + 1) :]


def without(stream: bytes, first: int, last: int) -> bytes:
    """A stream with some blocks missing."""
    return stream[: BLOCK * first] + stream[BLOCK * (last + 1) :]


def write_wav(path: Path, frames: int, rate: int = 44_100, channels: int = 2, width: int = 2) -> Path:
    """A WAV file in which all samples differ."""
    with wave.open(os.fspath(path), "wb") as file:
        file.setparams((channels, width, rate, 0, "NONE", ""))
        samples = bytes(number * 7 % 251 for number in range(min(frames, 44_100) * channels * width))
        for _ in range(frames // 44_100):
            file.writeframes(samples)
        file.writeframes(samples[: frames % 44_100 * channels * width])
    return path


class Screen(NamedTuple):
    """Red, green and blue of the 300 by 216 pixels of a screen."""

    pixels: bytes

    def at(self, x: int, y: int) -> tuple[int, int, int]:
        """A pixel of the window of 288 by 192."""
        place = 3 * (300 * (y + 12) + x + 6)
        return self.pixels[place], self.pixels[place + 1], self.pixels[place + 2]


def screen(stream: Path, block: int, *form: Word, lead_in: int = ROOMY_LEAD_IN) -> Screen:
    """The screen at a block of the program, from the command `screen`."""
    time = f"{block // 4500:02}:{block // 75 % 60:02}:{block % 75:02}"
    pixmap = program("screen", "--lead-in", lead_in, *form, "--at", time, "--", stream)
    return Screen(pixmap[15:])
