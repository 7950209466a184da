#!/usr/bin/env python3
"""Writes the completions of the desk for a shell to standard output, from its parser: completions.py bash|zsh. This
needs shtab (python3-shtab); without it nothing is written, and the exit status is 5."""
import argparse
import sys
from typing import Any

from ribjasper.main import parser

# What the values of options and arguments are called that are no names of files.
NO_FILES = frozenset(
    "BYTES COLOUR COLUMN,ROW F FORM K K/M LOSS MM:SS MM:SS:FF N NAME PIXELS PLACE SECONDS ADDRESS".split()
)
# shtab 1.5 completes only the first of several choices in bash.
CORRECTIONS = (
    ('_choices_var="${current_action}_choices"', '_choices_var="${current_action}_choices[@]"'),
    ('$(compgen -W "${current_action_choices}"', "$(IFS=$' \\n'; compgen -W \"${current_action_choices}\""),
)


def with_files(of: argparse.ArgumentParser, file: Any) -> None:
    """Names files as what completes the values that are names of files. shtab looks up choices by their place, so they
    become lists."""
    for action in of._actions:
        if isinstance(action, argparse._SubParsersAction):
            for command in action.choices.values():
                with_files(command, file)
        elif action.choices is not None:
            action.choices = list(action.choices)
        elif action.nargs != 0 and action.metavar not in NO_FILES:
            action.complete = file  # type: ignore[attr-defined]


def main() -> int:
    if sys.argv[1:] not in (["bash"], ["zsh"]):
        print("completions: give bash or zsh", file=sys.stderr)
        return 2
    try:
        import shtab
    except ImportError:
        print("completions: skipped, shtab is not installed (python3-shtab)", file=sys.stderr)
        return 5
    top = parser()
    with_files(top, shtab.FILE)
    text = shtab.complete(top, shell=sys.argv[1])
    for wrong, right in CORRECTIONS:
        text = text.replace(wrong, right)
    sys.stdout.write(text)
    return 0


if __name__ == "__main__":
    sys.exit(main())
