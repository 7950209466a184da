#!/usr/bin/env python3
"""Checks the edits that make the wrong bodies which the checker must refuse: check_edits.py [TOP]

The old text of each edit must occur exactly once in the file that the edit names; otherwise the edit would not make its change.
If an edit has several steps, each applies to the result of the earlier ones. The gate tries the edits of `must-fail/`, and
tools/check/try_wrong_bodies.py those of `wrong-bodies/`.

The first line of each edit of `wrong-bodies/` states what a user would notice and what refuses the edit. If it names a row or a
test, the named file must have this row or test. tools/write/list_wrong_bodies.py makes a list of these lines.
"""
import argparse
import re
import site
import sys
from pathlib import Path
from typing import Iterator

TOP = Path(__file__).resolve().parents[2]
site.addsitedir(str(TOP / "tools" / "write"))
from list_wrong_bodies import wrong_bodies  # noqa: E402

KEYS = ("file", "old", "new")
FOLDERS = ("must-fail", "wrong-bodies")
# A file of rows or tests, and a row or a test in it.
WITNESS = re.compile(r"`([\w.]+)`: `([\w-]+)`")
WITNESSES = ("crates/rows/data/*.rows", "crates/call_tests/src/*.rt", "tests/*/*", "desk/tests/*.py")


def steps(edit: Path) -> Iterator[tuple[str | None, str | None, str]]:
    """The file, old text and new text of each step of an edit, in order."""
    step: dict[str, str | None] = {}
    for line in edit.read_text().splitlines():
        key, separator, text = line.partition(": ")
        if not separator or key not in KEYS:
            continue
        step[key] = text
        if key == "new":
            yield step.get("file"), step.get("old"), text
            step = {"file": step.get("file")}


def errors_of_edit(edit: Path) -> Iterator[str]:
    """The errors of an edit, as texts that follow its name."""
    crate, count = edit.parent.parent, 0
    texts: dict[str, str] = {}
    for name, old, new in steps(edit):
        count += 1
        if name is None or not (crate / name).is_file():
            yield f"names the missing file {name}"
            return
        if not old:
            yield f"has no old text for {name}"
            return
        text = texts.get(name) or (crate / name).read_text()
        if text.count(old) != 1:
            yield f"replaces a text that occurs {text.count(old)} times in {name}: {old}"
        texts[name] = text.replace(old, new, 1)
    if count == 0:
        yield "replaces nothing"


def has_witness(file: Path, witness: str) -> bool:
    """Whether a file has this row or this function."""
    pattern = rf"^row {witness}$" if file.suffix == ".rows" else rf"\b{witness}\("
    return re.search(pattern, file.read_text(), re.MULTILINE) is not None


def errors_of_first_lines(top: Path) -> Iterator[str]:
    """The edits of wrong-bodies/ without a first line, and the missing rows and tests that first lines name."""
    files = {file.name: file for pattern in WITNESSES for file in top.glob(pattern)}
    for body in wrong_bodies(top):
        parts = body.parts()
        if not parts:
            yield f"{body.crate}/{body.name} has no first line `# NOTICE | REFUSED`"
        for name, witness in WITNESS.findall(parts[1] if parts else ""):
            if name not in files or not has_witness(files[name], witness):
                yield f"{body.crate}/{body.name} names {witness} of {name}, which is missing"


def main() -> int:
    parser = argparse.ArgumentParser(description="Checks the edits that make the wrong bodies.")
    parser.add_argument("top", nargs="?", type=Path, default=TOP, help="the repository (default: this one)")
    top = parser.parse_args().top
    edits = sorted(edit for folder in FOLDERS for edit in top.glob(f"crates/*/{folder}/*.edit"))
    errors = [f"{edit.relative_to(top)} {error}" for edit in edits for error in errors_of_edit(edit)]
    errors += errors_of_first_lines(top)
    for line in errors:
        print(f"check_edits: {line}", file=sys.stderr)
    return 1 if errors or not edits else 0


if __name__ == "__main__":
    sys.exit(main())
