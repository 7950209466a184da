#!/usr/bin/env python3
"""Prints the table of bench/README.md: the processor time and the maximum memory of each command on inputs of 40 MB.

The table has the times of our program, of a plain program, and the limit, in milliseconds, and their ratios. The limit is
the time that `cat` needs for the same number of bytes: half of its time per byte for each byte that our program reads, and
half for each byte that it writes. Each time is the user and system time of one process, the minimum of RUNS runs (the
environment variable, or nine). The runs of a row alternate and use the same kind of pipes. The plain program is
bench/reference.rs, unverified Rust that does the work of some commands. It is built if rustc is installed, and its output
must be equal to ours.

The work that dominates the time of each command:

- `convert`, `check`, `screen`, `state`, `save`, `resume`: collecting the 24 symbols of each word and testing its
  syndromes, for four words per block (in an authored stream nearly all blocks are idle). If each block has a wrong
  symbol: the correction.
- `merge`: the words of two streams. `q`: the check and the text of one line per block. `planar`, `raw`: moving bits.
- `scratch`: copying. `thin`: drawing.
- `author`, `press`, `trial`: writing blocks, and for `author` also planning the pictures.
- Long scripts: for 20,000 `show` lines without a change, the comparison of each picture with the previous one; for
  64 MiB of `fill` lines, the grammar.
"""
from __future__ import annotations

import hashlib
import os
import shutil
import subprocess
import sys
import tempfile
import time
from pathlib import Path
from typing import NamedTuple, Sequence

TOP = Path(__file__).resolve().parent.parent
PROGRAM = TOP / "bin" / "ribjasper"
BLOCKS = 416_640
RUNS = int(os.environ.get("RUNS", "9"))
# The commands that the plain program knows.
PLAIN = (
    "convert", "check", "screen", "state", "q", "text", "planar", "raw", "scratch", "author", "press", "thin", "trial",
    "merge", "save", "resume",
)


class Run(NamedTuple):
    """The processor time of a run in seconds, the number of bytes that it wrote, and its status."""

    seconds: float
    written: int
    status: int


def named(files: Sequence[str]) -> list[str]:
    """The words that pass several files by name. A single file is standard input."""
    return ["--", *files] if len(files) > 1 else []


def through_pipes(words: list[str], files: Sequence[str]) -> Run:
    """Runs a command from a pipe to a pipe. It reads two inputs by name."""
    feed = None
    if len(files) < 2:
        feed = subprocess.Popen(["cat", files[0] if files else os.devnull], stdout=subprocess.PIPE)
    source = feed.stdout if feed else subprocess.DEVNULL
    work = subprocess.Popen([*words, *named(files)], stdin=source, stdout=subprocess.PIPE, stderr=subprocess.DEVNULL)
    sink = subprocess.Popen(["wc", "-c"], stdin=work.stdout, stdout=subprocess.PIPE)
    for pipe in (work.stdout, feed and feed.stdout):
        if pipe:
            pipe.close()
    _, status, used = os.wait4(work.pid, 0)
    work.returncode = os.waitstatus_to_exitcode(status)
    count = int(sink.communicate()[0])
    if feed:
        feed.wait()
    return Run(used.ru_utime + used.ru_stime, count, work.returncode)


def peak(words: list[str], files: Sequence[str]) -> int:
    """The maximum memory of a run in KB, measured every millisecond."""
    most = 0
    with open(files[0] if files else os.devnull) as given:
        work = subprocess.Popen([*words, *named(files)], stdin=given, stdout=subprocess.DEVNULL,
                                stderr=subprocess.DEVNULL)
        while work.poll() is None:
            try:
                status = Path(f"/proc/{work.pid}/status").read_text()
            except OSError:
                break
            if "VmHWM:" in status:
                most = max(most, int(status.split("VmHWM:")[1].split()[0]))
            time.sleep(0.001)
        work.wait()
    return most


def best(runs: Sequence[tuple[list[str], Sequence[str]]]) -> list[float]:
    """The minimum time of each of these runs, which alternate, so that other load affects all of them."""
    times = [[through_pipes(words, files).seconds for words, files in runs] for _ in range(RUNS)]
    return [min(column) for column in zip(*times)]


def reference(work: Path) -> str | None:
    """Builds the plain program, if possible."""
    program = work / "reference"
    how = ["rustc", "-O", "--edition", "2021", "-o", str(program), str(TOP / "bench" / "reference.rs")]
    if shutil.which("rustc") is None or subprocess.run(how, check=False).returncode:
        return None
    return str(program)


def plain_words(program: str | None, words: str) -> list[str] | None:
    """The words of the plain program that correspond to a command; None if it cannot do this work."""
    command, *options = words.split()
    if program is None or command not in PLAIN:
        return None
    if command == "trial":
        return [program, command, options[1], options[3]]
    if command in ("screen", "state", "scratch", "text", "author", "press", "resume"):
        return [program, command, options[-1]]
    return [program, command]


def written(words: list[str], files: Sequence[str]) -> str:
    """A digest of the output of a run."""
    with open(files[0] if files else os.devnull) as given:
        ran = subprocess.run([*words, *named(files)], stdin=given, stdout=subprocess.PIPE, stderr=subprocess.DEVNULL)
    return hashlib.sha256(ran.stdout).hexdigest()


def ribjasper(words: str) -> list[str]:
    return [str(PROGRAM), *words.split()]


def output_file(words: str, files: Sequence[str], path: Path) -> str:
    """Writes the output of a command to a file, and returns its name."""
    with open(files[0] if files else os.devnull) as given, open(path, "wb") as out:
        subprocess.run([*ribjasper(words), *named(files)], stdin=given, stdout=out, stderr=subprocess.DEVNULL)
    return str(path)


def inputs(work: Path) -> dict[str, str]:
    """Makes the inputs of all commands."""
    clean = work / "clean.raw"
    clean.write_bytes(bytes(96 * BLOCKS))
    damaged = work / "damaged.raw"
    damaged.write_bytes((bytes(95) + b"\x05") * BLOCKS)
    sheet = work / "sheet"
    sheet.write_text('FILE "a.wav" WAVE\nTRACK 01 AUDIO\nINDEX 01 00:00:00\n')
    files = {"clean": str(clean), "damaged": str(damaged), "sheet": str(sheet)}
    files["script"] = output_file("gen --seed 1 --pictures 500", [], work / "script")
    files["authored"] = output_file("author --lead-in 0 --length 88:53:45", [files["sheet"], files["script"]], work / "authored")
    files["scratched"] = output_file("scratch --lead-in 0 --seed 1", [files["authored"]], work / "scratched")
    files["again"] = output_file("scratch --lead-in 0 --seed 2", [files["authored"]], work / "again")
    files["planar"] = output_file("planar", [files["authored"]], work / "planar")
    whole = Path(output_file("convert --lead-in 0", [files["authored"]], work / "whole.cdg"))
    files["cdg"] = str(whole)
    song = work / "song.cdg"
    song.write_bytes(whole.read_bytes()[14232:])
    files["song"] = str(song)
    files["saved"] = output_file("save --lead-in 0", [files["authored"]], work / "saved")
    half = work / "half.raw"
    half.write_bytes(Path(files["authored"]).read_bytes()[: 96 * 1000])
    files["begun"] = output_file("save --lead-in 0", [str(half)], work / "begun")
    halved = work / "halved.raw"
    halved.write_bytes(Path(files["authored"]).read_bytes()[: 96 * 200_000])
    files["halved"] = str(halved)
    rest = work / "rest.raw"
    rest.write_bytes(Path(files["authored"]).read_bytes()[96 * 1000 :])
    files["rest"] = str(rest)
    shows = work / "shows"
    shows.write_text("".join(f"show {time_text(20 * k + 10)} {time_text(20 * k + 20)}\n" for k in range(20_000)))
    files["shows"] = str(shows)
    fills = work / "fills"
    fills.write_text("fill 1\n" * ((2**26 - 23) // 7) + "show 80:00:00 80:00:00\n")
    files["fills"] = str(fills)
    return files


def time_text(block: int) -> str:
    """A block as MM:SS:FF."""
    return f"{block // 4500:02}:{block // 75 % 60:02}:{block % 75:02}"


# The bytes that `cat` copies to measure the limit.
COPIED = 96 * BLOCKS
CLEAN = 24 * (4 * BLOCKS - 7)
AUTHORED = 96 * 400_170
# The commands, the names of their inputs, a description, and the size of the output if it is known.
ROWS: list[tuple[str, list[str], str, int | None]] = [
    ("convert --lead-in 0", ["clean"], "clean", CLEAN),
    ("convert --lead-in 0", ["damaged"], "a wrong symbol in each block", CLEAN),
    ("convert --lead-in 0", ["authored"], "authored, mostly idle", None),
    ("convert --lead-in 0", ["scratched"], "a scratched disc", None),
    ("check --lead-in 0", ["authored"], "authored", None),
    ("check --lead-in 0", ["scratched"], "a scratched disc", None),
    ("screen --lead-in 0 --at 88:53:25", ["authored"], "authored", 194_415),
    ("state --lead-in 0 --at 88:53:25", ["authored"], "authored", None),
    ("q --lead-in 0", ["authored"], "authored", None),
    ("text --lead-in 400000", ["authored"], "authored", None),
    ("planar", ["authored"], "authored", AUTHORED),
    ("raw", ["planar"], "planar", AUTHORED),
    ("scratch --lead-in 0 --seed 1", ["authored"], "authored", AUTHORED),
    ("author --lead-in 0 --length 88:53:45", ["sheet", "script"], "a script of 500 pictures", AUTHORED),
    ("author --lead-in 0 --length 88:53:45", ["sheet", "shows"], "20,000 `show` lines without a change", AUTHORED),
    ("author --lead-in 0 --length 88:53:45", ["sheet", "fills"], "64 MiB of `fill` lines", AUTHORED),
    ("press --lead-in 0 --length 88:53:45", ["sheet", "song"], "a `.cdg` file as long as the audio", AUTHORED),
    ("merge --lead-in 0", ["authored", "authored"], "two clean readings", None),
    ("merge --lead-in 0", ["scratched", "again"], "two scratched readings", None),
    ("thin", ["cdg"], "a `.cdg` file", None),
    ("save --lead-in 0", ["halved"], "half of an authored stream", 65_045),
    ("save --lead-in 0", ["authored"], "authored", 65_045),
    ("resume --at 88:53:25", ["begun", "rest"], "authored", 194_415),
    ("trial --seed 1 --pictures 500", [], "500 pictures", None),
]


def milliseconds(seconds: float | None) -> str:
    return "-" if seconds is None else f"{1e3 * seconds:.1f}"


def plain_run(program: str | None, words: str, given: Sequence[str]) -> list[str] | None:
    """The words of the plain program, if it does this work; its output must be the same."""
    other = plain_words(program, words)
    if other is not None and written(other, given) != written(ribjasper(words), given):
        raise ValueError("the plain program has another output")
    return other


def limit(copied: float, given: Sequence[str], out: int) -> float:
    """The time to read and write these bytes, if copying COPIED bytes takes `copied`."""
    return copied * (sum(os.path.getsize(it) for it in given) + out) / (2 * COPIED)


def row(program: str | None, what: str, words: str, given: Sequence[str], size: int | None, copy: str) -> str:
    """Measures a command, after a check of its output. Returns the line of the table."""
    ran = through_pipes(ribjasper(words), given)
    if ran.status > 1 or ran.written == 0 or (size is not None and ran.written != size):
        raise ValueError(f"wrote {ran.written} bytes with status {ran.status}")
    other = plain_run(program, words, given)
    runs: list[tuple[list[str], Sequence[str]]] = [(ribjasper(words), given), (["cat"], [copy])]
    if other:
        runs.append((other, given))
    took, copied, *rest = best(runs)
    minimum = limit(copied, given, ran.written) if given else None
    plain = rest[0] if rest else None
    ratio = "-" if plain is None else f"{plain / took:.2f}"
    memory = f"{peak(ribjasper(words), given) / 1024:.1f}"
    cells = [f"`{words.split()[0]}`", what, milliseconds(minimum), milliseconds(took),
             "-" if minimum is None else f"{took / minimum:.2f}", milliseconds(plain), ratio, memory]
    return f"| {' | '.join(cells)} |"


def main() -> int:
    if not PROGRAM.exists():
        subprocess.run([TOP / "tools" / "build" / "build.sh"], check=True)
    failed = False
    with tempfile.TemporaryDirectory() as folder:
        files = inputs(Path(folder))
        program = reference(Path(folder))
        machine = f"load {os.getloadavg()[0]:.1f}, {os.cpu_count()} processors"
        print(f"Processor time in milliseconds, the minimum of {RUNS} runs; {machine}.\n")
        print("| Command | Input | Limit | Our program | Our time / limit | Plain program | Plain time / our time | Memory (MB) |")
        print("|---|---|---|---|---|---|---|---|", flush=True)
        for words, names, what, size in ROWS:
            try:
                print(row(program, what, words, [files[name] for name in names], size, files["clean"]), flush=True)
            except ValueError as error:
                print(f"{words}: {error}", file=sys.stderr)
                failed = True
    return 1 if failed else 0


if __name__ == "__main__":
    sys.exit(main())
