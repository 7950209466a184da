#!/usr/bin/env python3
"""A tour of all commands on one disc: demo.py [FOLDER]. It authors the stream of a cue sheet and a picture script, and
reads texts, pictures and packs from it, also from scratched readings. The files remain in FOLDER (default: demo/).

The tour runs bin/ribjasper. If this is not built yet, it compiles the program without proving it, once for all calls."""
from __future__ import annotations

import argparse
import os
import shutil
import subprocess
import sys
import tempfile
import threading
from pathlib import Path
from typing import Callable, Iterable, NamedTuple

from pictures import as_png, as_text, is_shown_by

TOP = Path(__file__).resolve().parent.parent
# The program that `make` built, or otherwise the program of the gate.
PROGRAMS = [TOP / "bin" / "ribjasper", TOP / "crates" / "ribjasper" / "out" / "ribjasper"]
# The size of a unit in the files of each kind, in bytes.
UNITS = {".raw": 96, ".sub": 96, ".cdg": 24, ".ppm": 15 + 3 * 300 * 216, ".save": 65_045}


class Call(NamedTuple):
    """A call of the program: its words, the files of demo/ that it reads, and the file that it writes."""

    output: str
    words: str
    inputs: tuple[str, ...] = ()
    status: int = 0

    def line(self) -> str:
        names = f" -- {' '.join(self.inputs)}" if self.inputs else ""
        return f"ribjasper {self.words}{names} >{self.output}"


class Built:
    """The program, already built."""

    def __init__(self, program: Path) -> None:
        print(f"The program is {program.relative_to(TOP)}.")
        self.program = program

    def run(self, call: Call) -> tuple[int, str]:
        names = ["--", *call.inputs] if call.inputs else []
        with open(call.output, "wb") as out:
            words = [str(self.program), *call.words.split(), *names]
            ran = subprocess.run(words, stdin=subprocess.DEVNULL, stdout=out, stderr=subprocess.PIPE, text=True)
        return ran.returncode, ran.stderr

    def end(self) -> None:
        pass


class Tried:
    """The program as compiled by one call of `rt try`, which runs the calls in order, each as a case.

    A call reads its inputs from pipes, so earlier calls can write these inputs."""

    def __init__(self, calls: list[Call]) -> None:
        if not shutil.which("rt"):
            sys.exit("There is neither bin/ribjasper nor the command rt of the Rattle kit.")
        print("There is no bin/ribjasper yet: 'rt try' compiles the program, but does not prove it ('make' does).")
        print("This takes half a minute on an idle machine.", flush=True)
        self.folder = tempfile.TemporaryDirectory(prefix="ribjasper-")
        folder = Path(self.folder.name)
        (folder / "cases").mkdir()
        for number, call in enumerate(calls):
            pipes = self.pipes_of(call)
            for pipe in pipes:
                os.mkfifo(pipe)
            case = folder / "cases" / self.name_of(number)
            case.touch()
            words = [*call.words.split(), *["--"] * bool(pipes), *pipes]
            case.with_suffix(".args").write_text("".join(f"{word}\n" for word in words))
        # The number of finished calls, and the length of their output.
        self.count, self.printed = 0, 0
        self.output = open(folder / "output", "wb")
        trial = ["rt", "try", "--seconds", "110", "--cases", str(folder / "cases")]
        self.trying = subprocess.Popen(trial, cwd=TOP / "crates" / "ribjasper", stdin=subprocess.DEVNULL,
                                       stdout=self.output, stderr=subprocess.PIPE, text=True)

    @staticmethod
    def name_of(number: int) -> str:
        return f"call{number:02}"

    def pipes_of(self, call: Call) -> list[str]:
        return [f"{self.folder.name}/{place}-{call.output}" for place in range(len(call.inputs))]

    def run(self, call: Call) -> tuple[int | str, str]:
        for pipe, name in zip(self.pipes_of(call), call.inputs):
            threading.Thread(target=self.feed, args=(pipe, read(name)), daemon=True).start()
        messages = []
        assert self.trying.stderr is not None
        for line in self.trying.stderr:
            if line.startswith("case="):
                break
            messages.append(line)
        else:
            sys.exit("".join(messages) + "rt try ended before the tour")
        self.keep(call)
        status = line.partition("status=")[2].split()
        return int(status[0]) if status else line.strip(), "".join(messages)

    @staticmethod
    def feed(pipe: str, content: bytes) -> None:
        with open(pipe, "wb") as to:
            to.write(content)

    def keep(self, call: Call) -> None:
        """Writes the output of the call to its file, without the line feed that `rt try` adds."""
        output = Path(self.output.name).read_bytes()
        content = output[self.printed :].partition(f"== {self.name_of(self.count)}\n".encode())[2]
        self.count, self.printed = self.count + 1, len(output)
        unit = UNITS.get(Path(call.output).suffix, 1)
        Path(call.output).write_bytes(content[: len(content) - len(content) % unit])

    def end(self) -> None:
        self.trying.terminate()
        self.trying.wait()


def read(name: str) -> bytes:
    """The bytes of a file in the working folder."""
    return Path(name).read_bytes()


def lines(name: str) -> list[str]:
    return read(name).decode().splitlines()


def print_rows(rows: Iterable[str]) -> None:
    print("".join(f"   {row}\n" for row in rows), end="")


def check(is_true: bool, fact: str) -> None:
    """Prints a fact, or ends the tour if it is false."""
    if not is_true:
        sys.exit(f"   This is false: {fact}")
    print_rows([fact])


def picture(name: str) -> None:
    print(as_text(read(name)))


def show_screen() -> None:
    picture("hello.ppm")
    Path("screen.png").write_bytes(as_png(read("hello.ppm")))
    readme = TOP / "docs" / "screen.png"
    check(is_shown_by(read("hello.ppm"), readme), "demo/screen.png: the picture of the README")


def damaged(content: bytes, start: int) -> bytes:
    """A reading with 25 destroyed bytes in a row."""
    return content[:start] + b"\x15" * 25 + content[start + 25 :]


def packs(content: bytes) -> list[bytes]:
    return [content[start : start + 24] for start in range(0, len(content), 24)]


def graphics(name: str) -> int:
    return sum(pack[0] == 9 for pack in packs(read(name)))


def show_thin() -> None:
    before, after = graphics("twice.cdg"), graphics("thin.cdg")
    check(after < before == 2 * graphics("clean.cdg"), f"{before} graphics packs before, {after} after")


def show_card() -> None:
    picture("card.ppm")
    print_rows(lines("card.txt")[:4])


# The files that no call writes, with the functions that make them.
MADE: dict[str, Callable[[], bytes]] = {
    "hello.cue": lambda: (TOP / "examples" / "hello.cue").read_bytes(),
    "hello.script": lambda: (TOP / "examples" / "hello.script").read_bytes(),
    "first.raw": lambda: damaged(read("hello.raw"), 60_000),
    "second.raw": lambda: damaged(read("hello.raw"), 90_000),
    "song.cdg": lambda: read("clean.cdg")[24 * 593 :],
    "twice.cdg": lambda: b"".join(2 * pack for pack in packs(read("clean.cdg"))),
    "begun.raw": lambda: read("hello.raw")[: 96 * 555],
    "rest.raw": lambda: read("hello.raw")[96 * 555 :],
    "short.raw": lambda: b"\1" * 17 + bytes(192 - 17),
}


class Step(NamedTuple):
    """A step of the tour: its calls, and a function that shows their outputs."""

    title: str
    calls: list[Call]
    show: Callable[[], object]


N = "--lead-in 30"
STEPS = [
    Step(
        "author: the subcode of examples/hello.cue with the pictures of examples/hello.script",
        [Call("hello.raw", f"author {N} --length 00:22:00", ("hello.cue", "hello.script"))],
        lambda: check(len(read("hello.raw")) == 96 * 1830, "demo/hello.raw: 1,830 blocks"),
    ),
    Step(
        "text: the CD-TEXT of its lead-in",
        [Call("hello.txt", f"text {N}", ("hello.raw",))],
        lambda: print_rows(lines("hello.txt")),
    ),
    Step(
        "screen: the picture at 00:07:10, the third letter",
        [Call("hello.ppm", f"screen {N} --at 00:07:10", ("hello.raw",))],
        show_screen,
    ),
    Step(
        "q: the Q channel, here the table of contents and the first block of the audio",
        [Call("frames.txt", f"q {N}", ("hello.raw",))],
        lambda: print_rows(lines("frames.txt")[place] for place in (0, 3, 6, 9, 12, 180)),
    ),
    Step(
        "scratch and check: bursts of wrong symbols, as on a scratched disc",
        [
            Call("scratched.raw", f"scratch {N} --seed 7", ("hello.raw",)),
            Call("check.txt", f"check {N}", ("scratched.raw",)),
        ],
        lambda: print_rows(lines("check.txt")),
    ),
    Step(
        "convert: the packs of the scratched stream, as a .cdg file for a player",
        [
            Call("hello.cdg", f"convert {N}", ("scratched.raw",)),
            Call("clean.cdg", f"convert {N}", ("hello.raw",)),
        ],
        lambda: check(read("hello.cdg") == read("clean.cdg"), "the packs of the stream without scratches"),
    ),
    Step(
        "screen and state at 00:17:00 of the scratched stream, the test card",
        [
            Call("card.ppm", f"screen {N} --at 00:17:00", ("scratched.raw",)),
            Call("card.txt", f"state {N} --at 00:17:00", ("scratched.raw",)),
        ],
        show_card,
    ),
    Step(
        "merge: two readings with 25 bytes destroyed in each; neither has all packs, but both together do",
        [
            Call("first.cdg", f"convert {N}", ("first.raw",), status=1),
            Call("second.cdg", f"convert {N}", ("second.raw",), status=1),
            Call("both.cdg", f"merge {N}", ("first.raw", "second.raw")),
        ],
        lambda: check(read("both.cdg") == read("clean.cdg"), "the packs of the stream without damage"),
    ),
    Step(
        "press: the .cdg file of a song on the disc of its cue sheet, synchronous with the audio",
        [
            Call("pressed.raw", f"press {N} --length 00:22:00", ("hello.cue", "song.cdg")),
            Call("pressed.cdg", f"convert {N}", ("pressed.raw",)),
        ],
        lambda: check(packs(read("pressed.cdg"))[593:] == packs(read("song.cdg")), "the packs of the file"),
    ),
    Step(
        "thin: packs that change nothing become idle; here the file has each pack twice",
        [Call("thin.cdg", "thin", ("twice.cdg",))],
        show_thin,
    ),
    Step(
        "save and resume: a checkpoint after seven seconds, and a picture from it and the rest of the stream",
        [
            Call("begun.save", f"save {N}", ("begun.raw",)),
            Call("resumed.ppm", "resume --at 00:17:00", ("begun.save", "rest.raw")),
        ],
        lambda: check(read("resumed.ppm") == read("card.ppm"), "the test card of step 7"),
    ),
    Step(
        "planar and raw: to the form that some drives return, and back",
        [
            Call("hello.sub", "planar", ("hello.raw",)),
            Call("back.raw", "raw", ("hello.sub",)),
        ],
        lambda: check(read("back.raw") == read("hello.raw"), "the same blocks as in demo/hello.raw"),
    ),
    Step(
        "gen and trial: a script from a number, authored, scratched, corrected and compared",
        [
            Call("gen.script", "gen --seed 42 --pictures 1"),
            Call("trial.txt", "trial --seed 42 --pictures 1"),
        ],
        lambda: print_rows([*lines("gen.script")[-1:], *lines("trial.txt")]),
    ),
    Step(
        "Three equal wrong symbols in one word cannot be corrected: convert reports the word and writes zeros",
        [Call("short.cdg", "convert --lead-in 0", ("short.raw",), status=1)],
        lambda: check(read("short.cdg") == bytes(24), "24 zeros"),
    ),
]


def run(program: Built | Tried, call: Call) -> None:
    print(f"   $ {call.line()}", flush=True)
    for name in call.inputs:
        if name in MADE:
            Path(name).write_bytes(MADE[name]())
    status, message = program.run(call)
    if message:
        print_rows([f"{message.strip()} (status {status})"])
    if status != call.status:
        sys.exit(f"   The exit status is {status} instead of {call.status}")


def main() -> int:
    parser = argparse.ArgumentParser(description="A tour of all commands on one disc.")
    parser.add_argument("folder", nargs="?", type=Path, default=TOP / "demo", help="default: demo/")
    folder = parser.parse_args().folder.resolve()
    folder.mkdir(exist_ok=True)
    os.chdir(folder)
    print("A tour of the commands. Its inputs are the cue sheet and the picture script of examples/, and the stream of them.")
    built = [program for program in PROGRAMS if program.exists()]
    calls = [call for step in STEPS for call in step.calls]
    program: Built | Tried = Built(built[0]) if built else Tried(calls)
    try:
        for number, step in enumerate(STEPS, 1):
            print(f"\n{number}. {step.title}")
            for call in step.calls:
                run(program, call)
            step.show()
    finally:
        program.end()
    guide = "docs/GUIDE.md, for publishers, archivists and player makers"
    print(f"\nThe files are in {folder}. Next, read {guide}.")
    return 0


if __name__ == "__main__":
    sys.exit(main())
