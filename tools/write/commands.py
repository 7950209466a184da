#!/usr/bin/env python3
"""Writes the manual page and the completions of two shells from the tables and examples of docs/FORMATS.md.

The files are share/ribjasper.1, share/ribjasper.bash and share/_ribjasper. With --check, the script only reports whether they are
current, and whether README.md lists the same commands.
"""
import argparse
import re
import site
import sys
from pathlib import Path

TOP = Path(__file__).resolve().parents[2]
site.addsitedir(str(TOP / "tools" / "shared"))
from formats import COMMANDS, FORMATS, FORMS, Row, bare, reasons, table  # noqa: E402

# These commands read no cooked stream.
WITHOUT_COOKED = ["q", "text"]

# The text between the title and the commands of the manual page.
BEGINNING = r"""
.SH NAME
ribjasper \- read and write the subcode of Compact Discs: graphics, texts, Q frames
.SH SYNOPSIS
.B ribjasper
.I words
.RB [ \-\-
.IR first " [" second ]]
.SH DESCRIPTION
Each command of this program reads or writes the subcode channels P to W of a Compact Disc. A command has one spelling,
with its options in the order shown here. It reads standard input, or the files that are named after the word
.BR \-\- ,
and writes to standard output. If the program prints
.B usage
on standard error, the words are not a command: compare them with this page. The commands convert, q, planar, raw,
scratch, merge and thin write while they read, so they work on live streams.
.SH COMMANDS
""".strip().splitlines()

def roff(text: str) -> str:
    """A text without backticks, escaped for a manual page."""
    return bare(text).replace("\\", "\\e").replace("-", "\\-")


def words_of(row: Row) -> tuple[str, list[tuple[str, bool]]]:
    """The name of a command, and its options with a flag: whether the option is optional."""
    name, *rest = bare(row[0]).split()
    options = re.findall(r"(\[)?(--[a-z-]+)", " ".join(rest))
    return name, [(option, bool(bracket)) for bracket, option in options]


def examples(text: str) -> list[tuple[str, list[str]]]:
    """The blocks of commands in the document: pairs of a description and its lines."""
    found: list[tuple[str, list[str]]] = []
    for block in re.findall(r"^```sh\n(.*?)^```$", text, re.M | re.S):
        for line in block.splitlines():
            if line.startswith("# "):
                found.append((line[2:], []))
            else:
                found[-1][1].append(line)
    return found


def entry(tag: str, text: str) -> list[str]:
    """A paragraph of the manual page under its tag."""
    return [".TP", f".B {roff(tag)}", text]


def letters(formats: str) -> list[str]:
    """The section about the letters that represent values."""
    out = [".SH VALUES"]
    for letter, meaning, spelled in table(formats, "| Letter | Is | Spelled |"):
        text = meaning if spelled == "the same" else f"{meaning}: {spelled}"
        out += entry(letter, roff(text).replace("'", "\\(aq") + ".")
    return out


def statuses(formats: str) -> list[str]:
    """The section about the exit statuses."""
    out = [".SH EXIT STATUS"]
    for status, exit_number, line in table(formats, "| What happened | Exit status | Line on standard error |"):
        message = "nothing is written to standard error" if line == "none" else f"standard error has {roff(line)}"
        out += entry(exit_number, f"{roff(status)}; {message}.")
    return out


def refusals(formats: str) -> list[str]:
    """The sections about the reasons of refusals, and about the reasons why lines of the two texts are refused."""
    out = [".SH REFUSALS", "The reason after", ".BR refused :"]
    for reason, condition in table(formats, "| Reason after `refused` | The program prints it if |"):
        out += entry(reason, roff(condition) + ".")
    for kind, what in (("cue", "CUE SHEET"), ("script", "PICTURE SCRIPT")):
        out += [f".SH REFUSED LINES OF {what}", "The reason after", f'.BR "refused {kind} " LINE :']
        for reason, _, remedy in reasons(formats)[kind]:
            out += entry(reason, roff(remedy) + ".")
    return out


def manual(formats: str, commands: list[Row]) -> str:
    version = (TOP / "VERSION").read_text().strip()
    out = [
        ".\\\" Written by tools/write/commands.py from docs/FORMATS.md.",
        f'.TH RIBJASPER 1 "" "Ribjasper {version}" "User commands"',
        *BEGINNING,
    ]
    for words, inputs, output in commands:
        out += entry(words, f"Reads {'nothing' if inputs == 'none' else roff(inputs)}. Writes {roff(output)}.")
    out += [*letters(formats), *statuses(formats), *refusals(formats)]
    out += [".SH NOTES", "These mistakes are easy to make and hard to see: the status is 0, or the message is easily misread."]
    for seen, meaning, remedy in table(formats, "| You see | The reason | What to do |"):
        out += entry(seen, f"{roff(meaning)}. Remedy: {roff(remedy)}.")
    out += [".SH EXAMPLES"]
    for description, lines in examples(formats):
        out += [roff(description), ".PP", ".nf", ".RS", *map(roff, lines), ".RE", ".fi", ".PP"]
    out += [".SH LICENCE", "MIT or Apache-2.0, at your option: 2026 The Ribjasper authors."]
    out += [".SH SEE ALSO", ".BR ribjasper\\-desk (1),", ".BR ribjasper (3);"]
    out += ["docs/FORMATS.md and docs/GUIDE.md of the project describe the formats byte by byte and show how to use the commands."]
    return "\n".join(out) + "\n"


def values_of(name: str, option: str) -> list[str]:
    """The values that may follow an option, if they can be listed."""
    if option != "--form":
        return []
    return [form for form in FORMS if not (form == "cooked" and name in WITHOUT_COOKED)]


def bash(commands: list[Row]) -> str:
    names = " ".join(words_of(row)[0] for row in commands)
    out = [
        "# Completion for bash. Written by tools/write/commands.py from docs/FORMATS.md.",
        "_ribjasper() {",
        "    local word=${COMP_WORDS[COMP_CWORD]} before=${COMP_WORDS[COMP_CWORD-1]} options=",
        '    case " ${COMP_WORDS[*]:1:COMP_CWORD-1} " in',
        "        *' -- '*)",
        "            local IFS=$'\\n'",
        "            compopt -o filenames 2>/dev/null",
        "            COMPREPLY=($(compgen -f -- \"$word\"))",
        "            return ;;",
        "    esac",
        "    if [ \"$COMP_CWORD\" -eq 1 ]; then",
        f"        COMPREPLY=($(compgen -W '{names}' -- \"$word\"))",
        "        return",
        "    fi",
        "    case ${COMP_WORDS[1]}$before in",
    ]
    for row in commands:
        name, options = words_of(row)
        for option, _ in options:
            values = " ".join(values_of(name, option))
            out.append(f"        {name}{option}) COMPREPLY=($(compgen -W '{values}' -- \"$word\")); return ;;")
    out += ["    esac", "    case ${COMP_WORDS[1]} in"]
    for row in commands:
        name, options = words_of(row)
        out.append(f"        {name}) options='{' '.join([option for option, _ in options] + ['--'])}' ;;")
    out += [
        "    esac",
        "    COMPREPLY=($(compgen -W \"$options\" -- \"$word\"))",
        "}",
        "complete -F _ribjasper ribjasper",
    ]
    return "\n".join(out) + "\n"


def zsh(commands: list[Row]) -> str:
    out = [
        "#compdef ribjasper",
        "# Completion for zsh. Written by tools/write/commands.py from docs/FORMATS.md.",
        "_ribjasper() {",
        "    local -a commands",
        "    if (( ${words[(I)--]} && ${words[(I)--]} < CURRENT )); then _files; return; fi",
        "    if (( CURRENT == 2 )); then",
        "        commands=(",
    ]
    for row in commands:
        description = bare(row[2]).replace("'", "'\\''").replace(":", "\\:")
        out.append(f"            '{words_of(row)[0]}:{description}'")
    out += ["        )", "        _describe command commands", "        return", "    fi", "    case $words[2] in"]
    for row in commands:
        name, options = words_of(row)
        out.append(f"        {name})")
        for option, _ in options:
            values = values_of(name, option)
            action = f"compadd {' '.join(values)}" if values else ":"
            out.append(f"            if [[ $words[CURRENT-1] == {option} ]]; then {action}; return; fi")
        out.append(f"            compadd -- {' '.join([option for option, _ in options] + ['--'])} ;;")
    out += ["    esac", "}", '_ribjasper "$@"']
    return "\n".join(out) + "\n"


def main() -> int:
    parser = argparse.ArgumentParser(
        description="Writes the manual page and the completions of two shells from the tables and examples "
        "of docs/FORMATS.md."
    )
    parser.add_argument("--check", action="store_true", help="only report which files are not current")
    is_check = parser.parse_args().check
    formats = FORMATS.read_text()
    commands = table(formats, COMMANDS)
    written = {
        "ribjasper.1": manual(formats, commands),
        "ribjasper.bash": bash(commands),
        "_ribjasper": zsh(commands),
    }
    if not is_check:
        (TOP / "share").mkdir(exist_ok=True)
        for name, text in written.items():
            (TOP / "share" / name).write_text(text)
        return 0
    wrong = [name for name, text in written.items() if (TOP / "share" / name).read_text() != text]
    listed = re.findall(r"^ribjasper ([a-z]+)", (TOP / "README.md").read_text(), re.M)
    if sorted(set(listed)) != sorted(words_of(row)[0] for row in commands):
        wrong.append("README.md lists other commands than docs/FORMATS.md")
    for line in wrong:
        print(f"tools/write/commands.py: {line}", file=sys.stderr)
    return 1 if wrong else 0


if __name__ == "__main__":
    sys.exit(main())
