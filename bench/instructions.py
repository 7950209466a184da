#!/usr/bin/env python3
"""Counts the instructions of each command with valgrind, on inputs of 4 MB: instructions.py [--check | --write]

Other processes do not change the number of instructions, so a program has the same counts on any machine. Without an
option, the script prints a table. If rustc is installed, the table also has the counts of the plain program
(bench/reference.rs). `--check` compares the counts with bench/instructions.tsv, and fails if a command needs more than
3 % more. `--write` overwrites that file."""
from __future__ import annotations

import argparse
import os
import re
import shutil
import subprocess
import sys
import tempfile
from pathlib import Path
from typing import NamedTuple, Sequence

TOP = Path(__file__).resolve().parent.parent
PROGRAM = TOP / "bin" / "ribjasper"
COUNTS_FILE = Path(__file__).resolve().parent / "instructions.tsv"
# The greatest allowed ratio to the stored count.
SHARE = 1.03
BLOCKS = 41_664
END = "08:53:45"
LATE = "08:53:25"


class Row(NamedTuple):
    """A command, the names of its inputs, and a description of them."""

    words: str
    inputs: tuple[str, ...]
    description: str

    @property
    def name(self) -> str:
        return f"{self.words.split()[0]}, {self.description}"


ROWS = (
    Row("convert --lead-in 0", ("clean",), "clean"),
    Row("convert --lead-in 0", ("damaged",), "a wrong symbol in each block"),
    Row("convert --lead-in 0", ("authored",), "authored"),
    Row("convert --lead-in 0", ("scratched",), "scratched"),
    Row("check --lead-in 0", ("authored",), "authored"),
    Row("check --lead-in 0", ("scratched",), "scratched"),
    Row(f"screen --lead-in 0 --at {LATE}", ("authored",), "authored"),
    Row(f"state --lead-in 0 --at {LATE}", ("authored",), "authored"),
    Row("q --lead-in 0", ("authored",), "authored"),
    Row("text --lead-in 40000", ("authored",), "authored"),
    Row("planar", ("authored",), "authored"),
    Row("raw", ("planar",), "planar"),
    Row("scratch --lead-in 0 --seed 1", ("authored",), "authored"),
    Row(f"author --lead-in 0 --length {END}", ("sheet", "script"), "50 pictures"),
    Row(f"author --lead-in 0 --length {END}", ("sheet", "shows"), "2,000 `show` lines"),
    Row(f"author --lead-in 0 --length {END}", ("sheet", "fills"), "6 MiB of `fill` lines"),
    Row(f"press --lead-in 0 --length {END}", ("sheet", "song"), "a `.cdg` file"),
    Row("merge --lead-in 0", ("authored", "authored"), "two clean readings"),
    Row("merge --lead-in 0", ("scratched", "again"), "two scratched readings"),
    Row("thin", ("whole",), "a `.cdg` file"),
    Row("save --lead-in 0", ("authored",), "authored"),
    Row(f"resume --at {LATE}", ("begun", "rest"), "authored"),
    Row("trial --seed 1 --pictures 50", (), "50 pictures"),
)
# The environment of the measured runs, which a program reads when it starts. The C library has several functions for copying
# and clearing, and chooses by the processor. These settings select the functions that every processor can run, so the counts
# are equal on all processors.
ENVIRONMENT = {"PATH": "/usr/bin:/bin", "GLIBC_TUNABLES": "glibc.cpu.hwcaps=-AVX2,-AVX512F,-AVX512VL,-ERMS,-FSRM"}
# For these commands, the plain program reads only the name and the last option.
WITH_OPTION = ("screen", "state", "scratch", "text", "author", "press", "resume")


def time_text(block: int) -> str:
    """A block as MM:SS:FF."""
    return f"{block // 4500:02}:{block // 75 % 60:02}:{block % 75:02}"


def ran(words: Sequence[str], files: Sequence[Path]) -> subprocess.CompletedProcess[bytes]:
    """Runs a command. A single input is its standard input; two inputs are passed by name."""
    named = ["--", *map(str, files)] if len(files) > 1 else []
    with open(files[0] if len(files) == 1 else os.devnull, "rb") as file:
        return subprocess.run([*words, *named], env=ENVIRONMENT, stdin=file, capture_output=True)


def inputs(work: Path) -> dict[str, Path]:
    """Makes the inputs of all commands."""
    files: dict[str, Path] = {}

    def put(name: str, content: bytes) -> None:
        files[name] = work / name
        files[name].write_bytes(content)

    def make(name: str, words: str, *names: str) -> None:
        put(name, ran([str(PROGRAM), *words.split()], [files[it] for it in names]).stdout)

    put("clean", bytes(96 * BLOCKS))
    put("damaged", (bytes(95) + b"\x05") * BLOCKS)
    put("sheet", b'FILE "a.wav" WAVE\nTRACK 01 AUDIO\nINDEX 01 00:00:00\n')
    put("shows", "".join(f"show {time_text(20 * k + 10)} {time_text(20 * k + 20)}\n" for k in range(2000)).encode())
    put("fills", b"fill 1\n" * 900_000 + b"show 08:00:00 08:00:00\n")
    make("script", "gen --seed 1 --pictures 50")
    make("authored", f"author --lead-in 0 --length {END}", "sheet", "script")
    make("scratched", "scratch --lead-in 0 --seed 1", "authored")
    make("again", "scratch --lead-in 0 --seed 2", "authored")
    make("planar", "planar", "authored")
    make("whole", "convert --lead-in 0", "authored")
    put("song", files["whole"].read_bytes()[24 * 593 :])
    authored = files["authored"].read_bytes()
    put("half", authored[: 96 * 1000])
    put("rest", authored[96 * 1000 :])
    make("begun", "save --lead-in 0", "half")
    return files


def instructions(words: Sequence[str], files: Sequence[Path]) -> int:
    """The number of instructions of a run."""
    valgrind = ["valgrind", "--tool=cachegrind", "--cache-sim=no", "--cachegrind-out-file=/dev/null"]
    report = ran([*valgrind, *words], files).stderr.decode(errors="replace")
    found = re.search(r"I +refs: +([0-9,]+)", report)
    if found is None:
        raise ValueError(f"valgrind reports no count: {report[-300:]}")
    return int(found[1].replace(",", ""))


def reference(work: Path) -> Path | None:
    """Builds the plain program, if possible."""
    program = work / "reference"
    how = ["rustc", "-O", "--edition", "2021", "-o", str(program), str(TOP / "bench" / "reference.rs")]
    if shutil.which("rustc") is None or subprocess.run(how).returncode:
        return None
    return program


def plain_words(program: Path, words: str) -> list[str]:
    """The words of the plain program that correspond to a command."""
    name, *options = words.split()
    if name == "trial":
        return [str(program), name, options[1], options[3]]
    return [str(program), name, *(options[-1:] if name in WITH_OPTION else [])]


def stored() -> dict[str, int]:
    """The counts in the file."""
    lines = (line.split("\t") for line in COUNTS_FILE.read_text().splitlines())
    return {name: int(count) for name, count in lines}


def increases(counts: dict[str, int]) -> list[str]:
    """The commands that need too many instructions, in words."""
    before = stored()
    errors = [f"{name} is not in {COUNTS_FILE.name}" for name in counts if name not in before]
    for name, count in counts.items():
        if name in before and count > SHARE * before[name]:
            change = f"{count / before[name] - 1:+.1%}"
            errors.append(f"{name} needs {count:,} instructions; the stored count is {before[name]:,} ({change})")
    return errors


def report(errors: Sequence[str]) -> int:
    """Prints errors. Returns the exit status."""
    for line in errors:
        print(f"instructions: {line}", file=sys.stderr)
    if not errors:
        print(f"instructions: no command needs more than 3 % more instructions than in {COUNTS_FILE.name}")
    return 1 if errors else 0


def main() -> int:
    parser = argparse.ArgumentParser(description="Counts the instructions of each command with valgrind.")
    what = parser.add_mutually_exclusive_group()
    what.add_argument("--check", action="store_true", help=f"compare with {COUNTS_FILE.name}, and fail if a count is more than 3 %% higher")
    what.add_argument("--write", action="store_true", help=f"overwrite {COUNTS_FILE.name}")
    arguments = parser.parse_args()
    for tool, exists in (("valgrind", shutil.which("valgrind")), ("bin/ribjasper", PROGRAM.exists())):
        if not exists:
            print(f"instructions: skipped, there is no {tool}")
            return 0
    with tempfile.TemporaryDirectory() as folder:
        files = inputs(Path(folder))
        inputs_of = {row: [files[it] for it in row.inputs] for row in ROWS}
        counts = {row: instructions([str(PROGRAM), *row.words.split()], inputs_of[row]) for row in ROWS}
        if arguments.write:
            COUNTS_FILE.write_text("".join(f"{row.name}\t{count}\n" for row, count in counts.items()))
            return 0
        if arguments.check:
            return report(increases({row.name: count for row, count in counts.items()}))
        program = reference(Path(folder))
        print("| Command | Input | Our program (millions) | Plain program (millions) | Plain program / our program |")
        print("|---|---|---|---|---|")
        for row, count in counts.items():
            plain = instructions(plain_words(program, row.words), inputs_of[row]) if program else None
            cells = (f"{plain / 1e6:.1f}", f"{plain / count:.2f}") if plain else ("-", "-")
            print(f"| `{row.words.split()[0]}` | {row.description} | {count / 1e6:.1f} | {cells[0]} | {cells[1]} |")
    return 0


if __name__ == "__main__":
    sys.exit(main())
