#!/usr/bin/env python3
"""Checks the names and the lengths of lines of the code: check_names.py [TOP]

The script reports:
- a definition whose name is in the public specs of two crates;
- a type (a struct, an enum, a trait, or a record of definitions) whose name is in two crates;
- a line of code, clause, definition or proof over 110 columns, except comments, proof hints and imports, which `rt fmt`
  lays out;
- a public item or a definition that is not used anywhere else in the code. The crate `surface` uses the public calls.
"""
import argparse
import functools
import os
import re
import site
import sys
from collections import Counter, defaultdict
from pathlib import Path
from typing import Iterator

TOP = Path(__file__).resolve().parents[2]
site.addsitedir(str(TOP / "tools" / "shared"))
import rattle  # noqa: E402

LIMIT = 110
KINDS = ("src", "specs", "proofs")
TYPES = ("struct", "enum", "trait", "union")
WORD = re.compile(r"[A-Za-z_][A-Za-z0-9_'?!]*")
NO_CODE_LINE = re.compile(r"\s*(?:ghost )?(?:pub )?use |\s*#\[tactic|\s*//|\s*--")
# The types whose names may be in two crates, each with the reason. There may be at most five.
SHARED_TYPES: dict[str, str] = {}
# Items that nothing uses, with the reason why they are allowed.
ALLOWED = {
    "main": "the program's entry",
}

# The places of each name: a file and the number of a line.
Places = dict[str, list[tuple[Path, int]]]


@functools.cache
def texts(kind: str) -> dict[Path, list[str]]:
    """The lines of each file of one kind (src, specs or proofs). The working folder is the repository."""
    return {path: path.read_text().splitlines() for path in rattle.files(kind, top=Path())}


def crate_of(path: Path) -> str:
    return path.parts[1]


def definitions(of_types: bool = False) -> Places:
    """The places of each public definition of specs, or of each type in specs."""
    found: Places = defaultdict(list)
    for path, lines in texts("specs").items():
        for it in rattle.definitions(lines):
            if it.is_type if of_types else it.is_public:
                found[it.name].append((path, it.at + 1))
    return found


def types() -> Places:
    """The places of each type of the code and of each record of definitions."""
    found = definitions(of_types=True)
    for path, lines in texts("src").items():
        for it in rattle.items(lines):
            if it.kind in TYPES and not it.is_inner:
                found[it.name].append((path, it.at + 1))
    return {name: places for name, places in found.items() if name not in SHARED_TYPES}


def items() -> Iterator[tuple[str, Path, int]]:
    """The place of each public item of the code, without tests."""
    for path, lines in texts("src").items():
        if crate_of(path) in ("ribjasper_c", "ribjasper_web"):
            continue  # these functions are called from C and by web/ribjasper.mjs
        yield from ((it.name, path, it.at + 1) for it in rattle.items(lines) if it.is_public)


def uses() -> Counter[str]:
    """How often each word occurs in the code, the definitions and the proofs."""
    count: Counter[str] = Counter()
    for kind in KINDS:
        for lines in texts(kind).values():
            count.update(word for line in lines if not line.strip().startswith(("//", "--")) for word in WORD.findall(line))
    return count


def place(path: Path, number: int) -> str:
    return f"{path}:{number}"


def duplicates(found: Places) -> Iterator[str]:
    for name, places in sorted(found.items()):
        if len({crate_of(path) for path, _ in places}) > 1:
            yield f"{name} is defined at {' and '.join(place(*it) for it in places)}"


def long_lines() -> Iterator[str]:
    for kind in KINDS:
        for path, lines in texts(kind).items():
            for number, line in enumerate(lines, 1):
                if len(line) > LIMIT and not NO_CODE_LINE.match(line):
                    yield f"{place(path, number)} has {len(line)} columns"


def unused(found: Places) -> Iterator[str]:
    count = uses()
    for name, places in sorted(found.items()):
        # The type and each line of a definition contain its own name.
        path, number = places[0]
        lines = texts("specs")[path]
        own = sum(WORD.findall(line).count(name) for line in lines if line.startswith((name, "abbrev pub " + name,
                  "unfoldable pub " + name, "pub record " + name, "pub data " + name)))
        if count[name] <= own:
            yield f"{name} ({place(path, number)}) is used nowhere"
    for name, path, number in items():
        if count[name] <= 1 and name not in ALLOWED:
            yield f"{name} ({place(path, number)}) is called nowhere"


def main() -> int:
    parser = argparse.ArgumentParser(description="Checks the names and the lengths of lines of the code.")
    parser.add_argument("top", nargs="?", type=Path, default=TOP, help="the repository (default: this one)")
    os.chdir(parser.parse_args().top)
    found = definitions()
    errors = sorted({*duplicates(found), *duplicates(types())}) + [*long_lines(), *unused(found)]
    if len(SHARED_TYPES) > 5:
        errors.append(f"SHARED_TYPES has {len(SHARED_TYPES)} types, and at most five are allowed")
    for line in errors:
        print(f"check_names: {line}", file=sys.stderr)
    return 1 if errors else 0


if __name__ == "__main__":
    sys.exit(main())
