#!/usr/bin/env python3
"""Counts the code that runs when a command runs: way_of.py [--files] [--program PROGRAM] WORDS .. <INPUT
Compares it with tools/check/way_of.tsv: way_of.py --check | --write

Valgrind reports the crate, the module and the name of each function that ran, including functions that are called through a
trait. PROGRAM must be built without inlining. Without --program, tools/build/build_crate.py builds it, right after the gate.
For each crate, the output has four numbers: the functions that ran, their lines with their clauses, their files, and the lines
of these files. --files lists the files. The depth is the length of the longest chain of calls. Functions of the kit do not
count, and neither do laws, which do nothing.

--check counts the code that runs for `convert` and `author` with the example's disc, and fails if a count is more than 2 %
above way_of.tsv. --write updates that file."""
from __future__ import annotations

import argparse
import re
import shutil
import site
import subprocess
import sys
import tempfile
from collections import defaultdict
from functools import cache
from pathlib import Path
from typing import NamedTuple

TOP = Path(__file__).resolve().parents[2]
site.addsitedir(str(TOP / "tools" / "shared"))
site.addsitedir(str(TOP / "tools" / "build"))
from build_crate import NOT_PROVED, link  # noqa: E402
from rattle import graph, items  # noqa: E402

COUNTS_FILE = Path(__file__).resolve().with_suffix(".tsv")
# The greatest allowed ratio to a stored count.
SHARE = 1.02
# A line of callgrind's report that names a running or a called function: its number, and at its first occurrence its name.
NAMED = re.compile(r"(c?)fn=\((\d+)\)(?: (\S.*))?$")
# The type arguments at the end of the name of a generic function.
TYPES = re.compile(r"(::)?<.*")
# A parameter that the function cannot change: a shared reference, or a number.
UNCHANGED = re.compile(r"&self|\w+: (&(?!mut\b).*|[ui]\d+|usize|bool)")


class Counts(NamedTuple):
    """The code that ran: functions, their lines, their files, and the longest chain of calls."""

    functions: int
    lines: int
    files: int
    depth: int


# A function of the repository: its file, and its first and last line.
Place = tuple[Path, int, int]
# The functions that ran, by file: the first and last line of each.
Ran = dict[Path, set[tuple[int, int]]]


class Calls:
    """The calls of a run, from callgrind's report: the names of functions by their numbers, and the functions that each called."""

    def __init__(self, report: str) -> None:
        self.names: dict[str, str] = {}
        self.called: dict[str, set[str]] = defaultdict(set)
        caller = ""
        for line in report.splitlines():
            if found := NAMED.match(line):
                is_called, number, name = found.groups()
                if name:
                    self.names[number] = name
                if is_called:
                    self.called[caller].add(number)
                else:
                    caller = number
                    self.called[caller] |= set()


def calls(program: Path, words: list[str], stream: Path | None = None) -> Calls:
    """The calls of a run of a program. Its input is `stream`, or otherwise the input of this script."""
    with tempfile.TemporaryDirectory() as folder:
        report = Path(folder) / "report"
        call = ["valgrind", "-q", "--tool=callgrind", f"--callgrind-out-file={report}", str(program), *words]
        with open(stream or "/dev/null", "rb") as file:
            subprocess.run(call, stdin=file if stream else None, stdout=subprocess.DEVNULL)
        return Calls(report.read_text(errors="replace"))


def place_of(symbol: str) -> tuple[Path, str, str] | None:
    """The file of a function, the type or trait that it belongs to, and its name. None for functions of the kit or made by the
    compiler."""
    crate, *segments = TYPES.sub("", symbol.split("'")[0]).split("::")
    folder = TOP / "crates" / crate / "src"
    if not segments or not folder.is_dir():
        return None
    file = folder / ("main.rt" if (folder / "main.rt").exists() else "lib.rt")
    while (folder / f"{segments[0]}.rt").exists() and len(segments) > 1:
        file, folder = folder / f"{segments[0]}.rt", folder / segments[0]
        segments = segments[1:]
    # The name of a closure, or of another part of a function, is the name of the function, a plus and a suffix.
    owner = segments[-2] if len(segments) > 1 else ""
    return file, owner, segments[-1].partition("+")[0]


def parameters(head: str) -> tuple[list[str], str]:
    """The parameters of a function, and the text after them. `head` begins after the name of the function."""
    depth, found, start = 0, [], 0
    opening = head.index("(", closing(head) if head.startswith("<") else 0)
    for at in range(opening, len(head)):
        depth += (head[at] in "([<") - (head[at] in ")]" or head[at] == ">" and head[at - 1] not in "-=")
        if depth == 1 and head[at] in "(,":
            found.append(head[start:at])
            start = at + 1
        elif depth == 0:
            found.append(head[start:at])
            return [it.strip() for it in found[1:] if it.strip()], head[at + 1 :]
    raise ValueError(f"the parameters do not end: {head[:80]}")


def closing(head: str) -> int:
    """The index of the end of the type parameters at the beginning of a head."""
    depth = 0
    for at, letter in enumerate(head):
        depth += (letter == "<") - (letter == ">" and head[at - 1] not in "-=")
        if depth == 0:
            return at
    raise ValueError(f"the type parameters do not end: {head[:80]}")


def is_law(lines: list[str], at: int, name: str) -> bool:
    """Whether a function is a law: it returns nothing, and cannot change any of its parameters."""
    head = " ".join(line.strip() for line in lines[at : at + 12]).partition(f"fn {name}")[2]
    found, rest = parameters(head)
    return not rest.lstrip().startswith("->") and all(UNCHANGED.fullmatch(it) for it in found)


def end_of(lines: list[str], at: int) -> int:
    """The last line of the function that begins at a line."""
    indent = " " * (len(lines[at]) - len(lines[at].lstrip()))
    if lines[at].endswith("{}"):
        return at
    return next(k for k in range(at + 1, len(lines)) if lines[k].startswith((indent + "}", indent + "{}")))


def line_of(lines: list[str], owner: str, name: str) -> int | None:
    """The line of the head of a function. Its owner is a type; a type followed by the name of a trait; or `Any` followed by the
    name of a trait."""
    for item in items(lines):
        is_owner = owner.startswith(item.owner or "-") or item.is_of_trait and owner.startswith("Any")
        if item.kind == "fn" and item.name == name and (is_owner if owner else not item.owner):
            return item.at
    return None


@cache
def lookup(symbol: str) -> Place | None:
    """The file and the lines of a function of the repository; None for other functions and for laws. A method may be in another
    file of the crate than its type."""
    place = place_of(symbol)
    if place is None:
        return None
    first, owner, name = place
    others = sorted(first.parent.rglob("*.rt")) if owner else []
    for file in (first, *(it for it in others if it != first)):
        lines = file.read_text().splitlines()
        at = line_of(lines, owner, name)
        if at is not None:
            return None if is_law(lines, at, name) else (file, at, end_of(lines, at))
    return None


def functions_of(run: Calls) -> Ran:
    """The functions of the repository that ran, by file."""
    found: Ran = defaultdict(set)
    for name in run.names.values():
        if place := lookup(name):
            found[place[0]].add(place[1:])
    return found


def depth_of(run: Calls) -> int:
    """The number of functions of the repository in the longest chain of calls. A part of a function does not count as a call."""
    known: dict[str, tuple[int, Place | None]] = {}

    def below(number: str) -> tuple[int, Place | None]:
        if number not in known:
            known[number] = 0, None  # ends recursive chains
            place = lookup(run.names.get(number, ""))
            under = [below(it) for it in run.called[number]]
            deepest, first = max(under, key=lambda it: it[0], default=(0, None))
            known[number] = (deepest + int(place is not None and place != first), place or first)
        return known[number]

    sys.setrecursionlimit(10_000)
    return max((below(it)[0] for it in list(run.called)), default=0)


def counts(files: Ran, depth: int = 0) -> Counts:
    functions = [lines for functions_of_file in files.values() for lines in functions_of_file]
    return Counts(len(functions), sum(last - first + 1 for first, last in functions), len(files), depth)


def sizes(files: Ran) -> str:
    """The numbers of the functions that ran, of their lines, of their files, and of the lines of these files, as a text."""
    found = counts(files)
    file_lines = sum(len(file.read_text().splitlines()) for file in files)
    return f"{found.functions} functions of {found.lines:,} lines, in {found.files} files of {file_lines:,}"


def print_run(run: Calls, lists_files: bool) -> None:
    found = functions_of(run)
    for crate in graph():
        inside = {file: lines for file, lines in found.items() if file.is_relative_to(TOP / "crates" / crate)}
        if inside:
            print(f"{crate}: {sizes(inside)}")
        for file in sorted(inside) if lists_files else ():
            print(f"    {len(inside[file]):3} of {file.relative_to(TOP)}")
    print(f"all: {sizes(found)}; the depth is {depth_of(run)}")


def measure(program: Path, work: Path) -> dict[str, Counts]:
    """The counts for `author` and `convert` with the example's disc."""
    sheet, script, stream = (TOP / "examples" / "hello.cue", TOP / "examples" / "hello.script", work / "stream")
    author = ["author", "--lead-in", "30", "--length", "00:22:00", "--", str(sheet), str(script)]
    stream.write_bytes(subprocess.run([str(program), *author], stdout=subprocess.PIPE, check=True).stdout)
    runs = {"author": calls(program, author), "convert": calls(program, ["convert", "--lead-in", "30"], stream)}
    return {name: counts(functions_of(run), depth_of(run)) for name, run in runs.items()}


def stored() -> dict[str, Counts]:
    """The counts in the file."""
    lines = (line.split("\t") for line in COUNTS_FILE.read_text().splitlines()[1:])
    return {name: Counts(*map(int, numbers)) for name, *numbers in lines}


def write(found: dict[str, Counts]) -> None:
    """Writes the counts to the file."""
    lines = [("command", *Counts._fields), *((name, *map(str, numbers)) for name, numbers in found.items())]
    COUNTS_FILE.write_text("".join("\t".join(line) + "\n" for line in lines))


def increases(found: dict[str, Counts]) -> list[str]:
    """The counts that are too far above the stored counts, in words."""
    before = stored()
    return [
        f"{name} runs {now} {what.replace('depth', 'calls deep')}, and {COUNTS_FILE.name} has {old}"
        for name, numbers in found.items()
        for what, now, old in zip(Counts._fields, numbers, before[name])
        if now > old * SHARE
    ]


def build(folder: Path) -> Path | None:
    """Builds the program without inlining, over the libraries that the gate has proved. Returns None if they are missing."""
    program, object_file = folder / "ribjasper", folder / "ribjasper.o"
    words = [
        str(TOP / "tools" / "build" / "build_crate.py"),
        "ribjasper",
        "--gate",
        "--program",
        str(object_file),
        "--opt-level",
        "0",
    ]
    ran = subprocess.run(words, capture_output=True, text=True)
    if ran.returncode == NOT_PROVED:
        return None
    if ran.returncode:
        sys.exit(f"way_of: the program was not built: {(ran.stdout + ran.stderr)[-600:]}")
    link(program, object_file)
    return program


def check(program: Path, work: Path, writes: bool) -> int:
    """Measures two commands, and writes the counts to the file or compares them with it. Returns the exit status."""
    found = measure(program, work)
    for name, numbers in found.items():
        print(f"way_of: {name}: " + ", ".join(f"{number:,} {what}" for what, number in numbers._asdict().items()))
    if writes:
        write(found)
        return 0
    errors = increases(found)
    for line in errors:
        print(f"way_of: {line}", file=sys.stderr)
    return 1 if errors else 0


def main() -> int:
    parser = argparse.ArgumentParser(description="Counts the code that runs when a command runs.")
    parser.add_argument("--files", action="store_true", help="list the files")
    parser.add_argument("--program", type=Path, help="the program, built without inlining")
    parser.add_argument("--check", action="store_true", help=f"compare the counts of two commands with {COUNTS_FILE.name}")
    parser.add_argument("--write", action="store_true", help=f"overwrite {COUNTS_FILE.name}")
    parser.add_argument("words", nargs=argparse.REMAINDER, help="the words of the command")
    arguments = parser.parse_args()
    if arguments.check and (shutil.which("valgrind") is None or not COUNTS_FILE.exists()):
        print(f"way_of: skipped, there is no valgrind or no {COUNTS_FILE.name}")
        return 0
    with tempfile.TemporaryDirectory(prefix="ribjasper-way-") as work:
        program = arguments.program or build(Path(work))
        if program is None:
            print("way_of: skipped, since the libraries of the gate are missing (make check)")
            return 0
        if arguments.check or arguments.write:
            return check(program, Path(work), arguments.write)
        run = calls(program, arguments.words)
        if not functions_of(run):
            print(f"way_of: no function of the repository ran in {program}", file=sys.stderr)
            return 1
        print_run(run, arguments.files)
    return 0


if __name__ == "__main__":
    sys.exit(main())
