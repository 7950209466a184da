#!/usr/bin/env python3
"""Prints the times of slow commands of the desk: `report` for a hundred dumps, `lyrics` for a song of four minutes,
`film` for forty seconds of it, and `picture` for a photo. One column is the processor time of the desk and of all
processes that it starts, for example ffmpeg; the other is the elapsed time, both in seconds. Each time is the minimum of
RUNS runs (the environment variable, or three). --desk measures another desk, for example that of another checkout.
--keep stores the files that the commands write in a folder, so that they can be compared."""
from __future__ import annotations

import argparse
import math
import os
import random
import shutil
import subprocess
import sys
import tempfile
import time
from collections.abc import Callable
from pathlib import Path
from typing import NamedTuple

TOP = Path(__file__).resolve().parent.parent
PROGRAM, LIBRARY = TOP / "bin" / "ribjasper", TOP / "lib" / "libribjasper.so.0"
RUNS = int(os.environ.get("RUNS", "3"))
DUMPS, LINES, FILMED = 100, 60, 40
PHOTO = (1600, 1200)
SHEET = 'FILE "a.wav" WAVE\nTRACK 01 AUDIO\nINDEX 01 00:00:00\n'
WORDS = "silver road that spins in the light and music runs between notes where nobody looks for a page of words".split()


class Took(NamedTuple):
    """The processor time and the elapsed time of a run, in seconds."""

    processor: float
    clock: float


class Row(NamedTuple):
    """A measured command: its name, a description of its input, and its words, in which OUT is the output."""

    command: str
    description: str
    words: list[str]


def lyrics() -> str:
    """A song of four minutes with a time for each word."""
    chance, lines = random.Random(1), ["[ti:A Song to Measure]", "[ar:The Bench]"]
    for number in range(LINES):
        at, words = 8.0 + 3.8 * number, chance.choices(WORDS, k=chance.randrange(5, 9))
        line = "".join(f"<{clock(at + 3.2 * k / len(words))}>{word} " for k, word in enumerate(words))
        lines.append(f"[{clock(at)}]{line}<{clock(at + 3.2)}>")
    return "\n".join(lines) + "\n"


def clock(second: float) -> str:
    return f"{int(second // 60):02}:{second % 60:05.2f}"


def photo(path: Path) -> None:
    """Writes a pixmap of soft colours with noise, like a photo."""
    wide, high = PHOTO
    chance, grain = random.Random(2), int.from_bytes(bytes([15]) * 3 * wide, "big")
    waves = [(chance.uniform(1, 9), chance.uniform(1, 9), chance.uniform(0, 6)) for _ in range(3)]
    with open(path, "wb") as file:
        file.write(b"P6\n%d %d\n255\n" % PHOTO)
        for y in range(high):
            if y % 8 == 0:
                soft = bytes(int(120 + 110 * math.sin(a * x / wide + b * y / high + c)) for x in range(wide) for a, b, c in waves)
            noise = chance.getrandbits(24 * wide) & grain
            file.write((int.from_bytes(soft, "big") + noise).to_bytes(3 * wide, "big"))


def program(words: list[str], out: Path) -> Path:
    """Runs the program, and writes its output to a file."""
    with open(out, "wb") as file:
        subprocess.run([PROGRAM, *words], stdin=subprocess.DEVNULL, stdout=file, check=True)
    return out


def dumps(work: Path) -> Path:
    """Makes a hundred dumps of a megabyte, all scratched except the first."""
    folder, script = work / "dumps", work / "pictures"
    folder.mkdir()
    script.write_bytes(subprocess.run([PROGRAM, "gen", "--seed", "1", "--pictures", "12"], capture_output=True, check=True).stdout)
    first = program(["author", "--lead-in", "0", "--length", "02:10:00", "--", str(work / "sheet"), str(script)], folder / "000.raw")
    for number in range(1, DUMPS):
        program(["scratch", "--lead-in", "0", "--seed", str(number), "--", str(first)], folder / f"{number:03}.raw")
    return folder


def rows(work: Path, desk: Callable[..., list[str]]) -> list[Row]:
    """Makes the inputs of the measured commands, and returns the commands."""
    (work / "sheet").write_text(SHEET)
    (work / "song.lrc").write_text(lyrics())
    photo(work / "photo.ppm")
    script = work / "song.script"
    subprocess.run(desk("lyrics", "song.lrc", "-o", "song.script"), cwd=work, check=True, stderr=subprocess.DEVNULL)
    stream = program(["author", "--lead-in", "0", "--length", "04:10:00", "--", str(work / "sheet"), str(script)], work / "song.raw")
    (work / "part.raw").write_bytes(stream.read_bytes()[: 96 * (150 + 75 * FILMED)])
    dumps(work)
    found = [
        Row("report", f"{DUMPS} dumps of a megabyte", desk("report", "dumps", "--quiet", "-o", "OUT")),
        Row("lyrics", f"a song of {LINES} lines", desk("lyrics", "song.lrc", "-o", "OUT.script")),
        Row("picture", "a photo of 1,600 by 1,200", desk("picture", "photo.ppm", "-o", "OUT.script")),
    ]
    if shutil.which("ffmpeg"):
        found.insert(2, Row("film", f"{FILMED} seconds of the song", desk("film", "part.raw", "-o", "OUT.mp4")))
    return found


def run(words: list[str], work: Path) -> Took:
    """Runs a command and measures it."""
    began = time.monotonic()
    ran = subprocess.Popen(words, cwd=work, stdin=subprocess.DEVNULL, stdout=subprocess.DEVNULL, stderr=subprocess.PIPE)
    assert ran.stderr is not None
    message = ran.stderr.read().decode(errors="replace")
    _, status, used = os.wait4(ran.pid, 0)
    ran.returncode = os.waitstatus_to_exitcode(status)
    if ran.returncode:
        raise ValueError(f"ends with {ran.returncode}: {message.strip()}")
    return Took(used.ru_utime + used.ru_stime, time.monotonic() - began)


def measured(row: Row, work: Path, keep: Path | None) -> str:
    """Runs a command RUNS times, and returns its line of the table."""
    took = []
    for number in range(RUNS):
        name = next(word for word in row.words if word.startswith("OUT"))
        out = work / f"{row.command}{number}{Path(name).suffix}"
        took.append(run([word.replace(name, out.name) for word in row.words], work))
    if keep and out.is_file():
        keep.mkdir(exist_ok=True)
        shutil.copy(out, keep / f"{row.command}{out.suffix}")
    return f"| `{row.command}` | {row.description} | {min(took).processor:.1f} | {min(it.clock for it in took):.1f} |"


def main() -> int:
    parser = argparse.ArgumentParser(description="Prints the times of slow commands of the desk.")
    parser.add_argument("--desk", type=Path, default=TOP / "desk" / "ribjasper-desk", help="the desk to measure")
    parser.add_argument("--keep", type=Path, metavar="FOLDER", help="store one output of each command here")
    arguments = parser.parse_args()
    python = "/usr/bin/python3" if os.access("/usr/bin/python3", os.X_OK) else sys.executable
    if not PROGRAM.exists() or not LIBRARY.exists():
        print("desk: skipped, there is no bin/ribjasper or no lib/libribjasper.so.0 (make, make library)")
        return 0
    if subprocess.run([python, "-c", "import PIL"], stderr=subprocess.DEVNULL).returncode:
        print("desk: skipped, there is no Pillow (python3-pil)")
        return 0
    # Python stores its compiled files, as it does for a user.
    os.environ.pop("PYTHONDONTWRITEBYTECODE", None)
    os.environ.setdefault("RIBJASPER_LIBRARY", str(LIBRARY))
    os.environ.setdefault("RIBJASPER_PROGRAM", str(PROGRAM))
    failed = False
    with tempfile.TemporaryDirectory() as folder:
        found = rows(Path(folder), lambda *words: [python, str(arguments.desk.resolve()), *words])
        machine = f"load {os.getloadavg()[0]:.1f}, {os.cpu_count()} processors"
        print(f"Seconds of the desk and of the processes that it starts, the minimum of {RUNS} runs; {machine}.\n")
        print("| Command | Input | Processor time | Elapsed time |\n|---|---|---|---|", flush=True)
        for row in found:
            try:
                print(measured(row, Path(folder), arguments.keep), flush=True)
            except ValueError as error:
                print(f"{row.command}: {error}", file=sys.stderr)
                failed = True
    return 1 if failed else 0


if __name__ == "__main__":
    sys.exit(main())
