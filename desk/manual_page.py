#!/usr/bin/env python3
"""Writes the desk's page of the manual to standard output, from what its parser knows."""
import argparse
import sys
from typing import Iterator

from build_wheel import WRITTEN
from ribjasper.main import parser

FILES = r"""
.SH OUTPUTS
An output that is a file which the call reads, or another output of the call, is refused, also through links.
A file that is there already is replaced if it is of the kind that the command writes; other files are replaced with
.B \-\-force
alone. A file is replaced as a whole once all outputs of the call are written; if anything fails before, all of them stay
as they were. A pipe, a character device and a socket are written to, a disk with
.B \-\-force
alone; a symbolic link stays, and
.B \-
is standard output; a table that the command prints goes to standard error then.
.SH ENVIRONMENT
.TP
.B RIBJASPER_LIBRARY
the shared library, in place of the one that is installed
.TP
.B RIBJASPER_PROGRAM
the program
.BR ribjasper (1),
in place of the one that is installed
.SH LICENCE
MIT or Apache-2.0, at your option: 2026 The Ribjasper authors.
.SH SEE ALSO
.BR ribjasper (1),
.BR ribjasper (3)
""".strip().splitlines()


def roff(text: str) -> str:
    """A line of text for a manual page."""
    line = text.replace("\\", "\\e").replace("-", "\\-")
    return f"\\&{line}" if line.startswith((".", "'")) else line


def wanted(action: argparse.Action) -> str:
    """How the value of an option, or an argument, is called."""
    if action.nargs == 0:
        return ""
    choices = "{" + ",".join(map(str, action.choices)) + "}" if action.choices else ""
    name = action.metavar if isinstance(action.metavar, str) else choices or action.dest.upper()
    return f"{name} .." if action.nargs == "+" else f"[{name}]" if action.nargs == "?" else name


def option(action: argparse.Action, of: argparse.ArgumentParser) -> list[str]:
    """An option or an argument, and its description."""
    spelled = ", ".join(f"{name} {wanted(action)}".strip() for name in action.option_strings) or wanted(action)
    said = (action.help or "") % {"default": action.default, "prog": of.prog, "choices": action.choices}
    return [".TP", f".B {roff(spelled)}", *([roff(said)] if said else [])]


def shown(of: argparse.ArgumentParser) -> Iterator[argparse.Action]:
    """The arguments of a parser that a page describes: all except its help and its commands."""
    for action in of._actions:
        if not isinstance(action, (argparse._HelpAction, argparse._SubParsersAction)):
            yield action


def call(of: argparse.ArgumentParser) -> str:
    """The call of a command on one line."""
    return " ".join(of.format_usage().split()).removeprefix("usage: ").replace(" [-h]", "", 1)


def commands(of: argparse.ArgumentParser) -> dict[str, argparse.ArgumentParser]:
    return next(dict(action.choices) for action in of._actions if isinstance(action, argparse._SubParsersAction))


def page() -> str:
    top = parser()
    lines = [
        r".\" Written by desk/manual_page.py from the parser of the desk.",
        f'.TH RIBJASPER\\-DESK 1 "" "Ribjasper {WRITTEN}" "User commands"',
        ".SH NAME",
        r"ribjasper\-desk \- whole jobs over dumps and songs of the subcode of Compact Discs",
        ".SH SYNOPSIS",
        f".B {roff(call(top))}",
        ".SH DESCRIPTION",
        roff(top.description or ""),
    ]
    for action in shown(top):
        lines += option(action, top)
    lines.append(".SH COMMANDS")
    for name, of in commands(top).items():
        lines += [f".SS {roff(name)}", f".B {roff(call(of))}", ".PP", roff(of.description or "")]
        for action in shown(of):
            lines += option(action, of)
    return "\n".join([*lines, ".SH EXIT STATUS", roff((top.epilog or "").removeprefix("Exit: ")), *FILES]) + "\n"


if __name__ == "__main__":
    sys.stdout.write(page())
