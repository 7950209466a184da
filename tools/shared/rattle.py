"""Reads the crates of the repository and their sources, line by line."""
import re
from collections.abc import Iterator
from pathlib import Path
from typing import NamedTuple

TOP = Path(__file__).resolve().parents[2]
ITEM = re.compile(
    r'(?P<indent>\s*)(?P<seen>pub(?:\(\w+\))? )?(?:extern "C" )?(?:const )?'
    r"(?P<kind>fn|struct|enum|union|trait|static|const) (?P<name>\w+)"
)
BLOCK = re.compile(r"(?:impl(?:<.*?>)? (?P<trait>.*? for )?(?P<type>\w+)|pub trait (?P<own>\w+))")
DEFINITION = re.compile(r"(?P<how>abbrev pub|unfoldable pub|pub record|pub data|abbrev|unfoldable|record|data) (?P<name>[^\s:({]+)")
IMPORT = re.compile(r"(?:ghost )?(?:pub )?use Rattle\.(\S+?)\.\{(.*)\};?$")

# The names that a line imports, each with its module and its name in that module.
Names = dict[str, tuple[str, str]]


class Item(NamedTuple):
    """An item of the code: its kind and name, the type or trait that it belongs to, and its line."""

    kind: str
    name: str
    owner: str
    # Whether it is marked `pub`, whether it belongs to a trait or to an implementation of one, and whether its line is indented.
    is_public: bool
    is_of_trait: bool
    is_inner: bool
    at: int


class Definition(NamedTuple):
    """A definition, a record or a data type, and its line."""

    name: str
    is_public: bool
    is_type: bool
    at: int


def graph(top: Path = TOP) -> dict[str, list[str]]:
    """The crates of the repository, lowest first, each with the crates of the repository that it uses."""
    below: dict[str, list[str]] = {}
    for line in (top / "crates.txt").read_text().splitlines():
        name, colon, rest = line.split("#")[0].partition(":")
        if colon:
            below[name.split()[0]] = rest.split()
    return {name: [it for it in rest if it in below] for name, rest in below.items()}


def files(kind: str, crate: str = "*", top: Path = TOP) -> list[Path]:
    """The files of one crate or of all crates: code (`src`), definitions (`specs`) or proofs (`proofs`)."""
    return sorted((top / "crates").glob(f"{crate}/{kind}/**/*.{'rt' if kind == 'src' else 'antt'}"))


def items(lines: list[str]) -> Iterator[Item]:
    """The items of a file of code."""
    owner, is_of_trait = "", False
    for at, line in enumerate(lines):
        if block := BLOCK.match(line):
            owner, is_of_trait = block["type"] or block["own"], not block["type"] or bool(block["trait"])
        elif line == "}":
            owner, is_of_trait = "", False
        if found := ITEM.match(line):
            is_inner = bool(found["indent"])
            yield Item(found["kind"], found["name"], owner * is_inner, found["seen"] == "pub ", is_of_trait, is_inner, at)


def definitions(lines: list[str]) -> Iterator[Definition]:
    """The definitions of a file of specs or proofs."""
    for at, line in enumerate(lines):
        if found := DEFINITION.match(line):
            how = found["how"].split()
            yield Definition(found["name"], "pub" in how, not {"record", "data"}.isdisjoint(how), at)


def imported(line: str) -> Names:
    """The names that a `use` line imports from the logic."""
    found = IMPORT.match(line.strip())
    names: Names = {}
    for part in found[2].split(",") if found else []:
        there, _, here = part.strip().partition(" as ")
        names[(here or there).strip()] = (found[1] if found else "", there.strip())
    return names
