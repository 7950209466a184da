#!/usr/bin/env python3
"""Prints a Markdown list of the wrong bodies in crates/*/wrong-bodies: list_wrong_bodies.py [TOP]

The first line of each edit is `# NOTICE | REFUSED`: what a user would notice, and what refuses the edit in addition to the
proof of its crate. `tried:` before the second part means that the row or test was run on the wrong body and failed.
"""
import argparse
import re
from itertools import groupby
from pathlib import Path
from typing import Iterator, NamedTuple

TOP = Path(__file__).resolve().parents[2]
LINE = re.compile(r"# (?P<notice>[^|]+) \| (?P<refused>[^|]+)")
HEAD = """# Wrong bodies that the gate does not try

A wrong body is an edit of the code that breaks a contract, so the checker must refuse it. The gate tries the edits in
`must-fail/`. `tools/check/try_wrong_bodies.py` tries those in `wrong-bodies/`: before a release all of them, and with
`--by-function` in every `make check` those that name their function. *The contract alone* means that no row or test is known
to refuse the edit. *Tried* means that the row or test was run on the wrong body and failed."""


class WrongBody(NamedTuple):
    """An edit in wrong-bodies/: its crate, its name, and its first line."""

    crate: str
    name: str
    line: str

    def parts(self) -> tuple[str, str] | None:
        """What a user would notice, and what refuses the edit."""
        found = LINE.fullmatch(self.line)
        return (found["notice"], found["refused"]) if found else None


def wrong_bodies(top: Path) -> list[WrongBody]:
    """All edits in wrong-bodies/, by crate and name."""
    edits = sorted(top.glob("crates/*/wrong-bodies/*.edit"))
    return [WrongBody(edit.parents[1].name, edit.stem, edit.read_text().partition("\n")[0]) for edit in edits]


def page(bodies: list[WrongBody]) -> Iterator[str]:
    """The lines of the list."""
    yield HEAD
    for crate, of_crate in groupby(bodies, key=lambda body: body.crate):
        yield f"\n## `{crate}`\n\n| Wrong body | A user would notice | Refused by |\n|---|---|---|"
        for body in of_crate:
            notice, refused = body.parts() or ("?", "?")
            yield f"| `{body.name}` | {notice} | {refused} |"


def main() -> None:
    parser = argparse.ArgumentParser(description="Writes the list of wrong bodies to standard output.")
    parser.add_argument("top", nargs="?", type=Path, default=TOP, help="the repository (default: this one)")
    print("\n".join(page(wrong_bodies(parser.parse_args().top))))


if __name__ == "__main__":
    main()
