#!/usr/bin/env python3
"""Tests the example lines in the tables of docs/FORMATS.md with the reasons why a cue sheet or a script is refused:
try_refusals.py PROGRAM. Each line must be refused for its reason, after each of a few beginnings that are accepted."""
import argparse
import site
import subprocess
import sys
import tempfile
from pathlib import Path

site.addsitedir(str(Path(__file__).resolve().parents[2] / "tools" / "shared"))
from formats import FORMATS, bare, quoted, reasons  # noqa: E402

FILE, TRACK, INDEX = 'FILE "a.wav" WAVE', "TRACK 01 AUDIO", "INDEX 01 00:00:00"
SHEET = [FILE, TRACK, INDEX]
# What may precede the example of each kind of text.
BEGINNINGS: dict[str, list[list[str]]] = {
    "cue": [[], [FILE], [FILE, TRACK], SHEET, [FILE, TRACK, 'TITLE "One"'], [FILE, TRACK, "INDEX 01 00:01:00"]],
    "script": [[]],
}


def message_of(program: str, sheet: list[str], script: list[str]) -> str:
    """The error message of the program for a sheet and a script."""
    with tempfile.TemporaryDirectory() as folder:
        names = []
        for name, lines in (("sheet", sheet), ("script", script)):
            names.append(f"{folder}/{name}")
            Path(names[-1]).write_text("".join(f"{line}\n" for line in lines))
        words = [program, "author", "--lead-in", "0", "--length", "00:10:00", "--", *names]
        ran = subprocess.run(words, stdin=subprocess.DEVNULL, stdout=subprocess.DEVNULL, stderr=subprocess.PIPE, text=True)
        return ran.stderr.strip()


def is_refused(program: str, kind: str, why: str, example: str) -> bool:
    for beginning in BEGINNINGS[kind]:
        lines = [*beginning, example]
        texts = (lines, []) if kind == "cue" else (SHEET, lines)
        if message_of(program, *texts) == f"refused {kind} {len(lines)} {why}":
            return True
    return False


def main() -> int:
    parser = argparse.ArgumentParser(
        description="Tests the example lines in the tables of docs/FORMATS.md with the reasons why a cue sheet or a "
        "script is refused."
    )
    parser.add_argument("program", metavar="PROGRAM", help="the program to test")
    program = parser.parse_args().program
    count, wrong = 0, 0
    for kind, table in reasons(FORMATS.read_text()).items():
        for why, examples, _ in table:
            for example in quoted(examples):
                count += 1
                if not is_refused(program, kind, bare(why), example):
                    wrong += 1
                    print(f"try_refusals: {example} is not refused with {why}", file=sys.stderr)
    if count < 20:
        sys.exit(f"try_refusals: there are only {count} examples")
    return 1 if wrong else 0


if __name__ == "__main__":
    sys.exit(main())
