#!/usr/bin/env python3
"""Writes the manual pages of section 3 from the comments of include/ribjasper.h.

    library_page.py                  writes the page of the whole library to standard output
    library_page.py --call NAME      writes the page of one call to standard output
    library_page.py --into FOLDER    writes a page for each call into a folder"""
import argparse
import re
import sys
from pathlib import Path

TOP = Path(__file__).resolve().parents[2]
# An optional comment that begins a line, and the lines up to the next empty line or such comment.
PARTS = re.compile(r"^(?:/\*(.*?)\*/\n)?((?:(?!/\*|\n)[^\n]*\n)*)", re.M | re.S)
# Lines that only the compiler needs, and a word that only the compiler needs.
GUARDS = re.compile(r'^(#if|#el|#endif|#include|#define RIBJASPER_(H$|NODISCARD)|RIBJASPER_NODISCARD$|extern "C"|\}$)')
FOR_COMPILERS = "RIBJASPER_NODISCARD "
# The first line of the description of one or more parameters in a comment.
PARAMETER = re.compile(r"^ {5}[a-z_]\w*(?:, [a-z_]\w*)*: ")
CALL = re.compile(r"\b(ribjasper_\w+)\(")


def roff(text: str) -> str:
    """A line of text for a manual page."""
    line = text.replace("\\", "\\e").replace("-", "\\-")
    return f"\\&{line}" if line.startswith((".", "'")) else line


def paragraphs(comment: str) -> list[str]:
    """A comment as paragraphs of a manual page. Indented lines describe parameters; each description begins a new line."""
    out: list[str] = []
    in_list = False
    for line in comment.strip("\n").rstrip().splitlines():
        text = line.strip()
        if not text:
            out.append(".PP")
            continue
        if PARAMETER.match(line):
            out.append(".br")
            in_list = True
        elif in_list and not line.startswith("     "):
            out.append(".PP")
            in_list = False
        out.append(roff(text))
    return out


def entry(comment: str, code: str) -> list[str]:
    """A part of the header: its declarations and its description."""
    lines = [line.replace(FOR_COMPILERS, "") for line in code.splitlines() if not GUARDS.match(line)]
    description = [".RS", *paragraphs(comment), ".RE"] if comment else []
    if not lines:
        return description
    return [".PP", ".nf", "\\fB" + roff(lines[0]), *map(roff, lines[1:]), "\\fR", ".fi", *description]


def page(header: str, version: str) -> str:
    parts = PARTS.findall(header)
    out = [
        '.\\" Written by tools/write/library_page.py from include/ribjasper.h.',
        f'.TH RIBJASPER 3 "" "Ribjasper {version}" "Library calls"',
        ".SH NAME",
        "ribjasper \\- the proved player of CD subcode graphics, for programs in C and C++",
        ".SH LIBRARY",
        "libribjasper (\\-lribjasper, or pkg\\-config \\-\\-cflags \\-\\-libs ribjasper)",
        ".SH SYNOPSIS",
        ".B #include <ribjasper.h>",
        ".SH DESCRIPTION",
        *paragraphs(parts[0][0]),
        ".SH CALLS",
    ]
    for comment, code in parts[1:]:
        out += entry(comment, code)
    out += [".SH LICENCE", "MIT or Apache-2.0, at your option: 2026 The Ribjasper authors."]
    out += [".SH SEE ALSO", ".BR ribjasper (1)"]
    return "\n".join(out) + "\n"


def calls(header: str) -> dict[str, tuple[str, str]]:
    """The comment and the declaration of each call."""
    found: dict[str, tuple[str, str]] = {}
    for comment, code in PARTS.findall(header)[1:]:
        name = CALL.search(code)
        if name and comment:
            found[name.group(1)] = (comment, code)
    return found


def call_page(name: str, comment: str, code: str, version: str) -> str:
    """The page of one call."""
    lines = [line.replace(FOR_COMPILERS, "") for line in code.splitlines() if not GUARDS.match(line)]
    first = re.split(r"(?<=[.:]) ", " ".join(comment.split()), maxsplit=1)[0].rstrip(".:")
    out = [
        '.\\" Written by tools/write/library_page.py from include/ribjasper.h.',
        f'.TH {name.upper()} 3 "" "Ribjasper {version}" "Library calls"',
        ".SH NAME",
        f"{name} \\- {roff(first[0].lower() + first[1:])}",
        ".SH LIBRARY",
        "libribjasper (\\-lribjasper, or pkg\\-config \\-\\-cflags \\-\\-libs ribjasper)",
        ".SH SYNOPSIS",
        ".nf",
        ".B #include <ribjasper.h>",
        ".PP",
        *(f"\\fB{roff(line)}\\fR" for line in lines),
        ".fi",
        ".SH DESCRIPTION",
        *paragraphs(comment),
        ".SH SEE ALSO",
        ".BR ribjasper (3),",
        "which has the rules of all calls: threads, pointers, failures and memory.",
    ]
    return "\n".join(out) + "\n"


def main() -> int:
    parser = argparse.ArgumentParser(description="Writes the manual pages of the library's calls.")
    what = parser.add_mutually_exclusive_group()
    what.add_argument("--call", metavar="NAME", help="write the page of this call to standard output")
    what.add_argument("--into", metavar="FOLDER", type=Path, help="write a page for each call into this folder")
    options = parser.parse_args()
    header = (TOP / "include" / "ribjasper.h").read_text()
    version = (TOP / "VERSION").read_text().strip()
    if options.into:
        for name, (comment, code) in calls(header).items():
            (options.into / f"{name}.3").write_text(call_page(name, comment, code, version))
    elif options.call:
        if options.call not in calls(header):
            parser.error(f"unknown call {options.call}")
        sys.stdout.write(call_page(options.call, *calls(header)[options.call], version))
    else:
        sys.stdout.write(page(header, version))
    return 0


if __name__ == "__main__":
    sys.exit(main())
