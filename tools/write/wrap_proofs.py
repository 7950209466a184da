#!/usr/bin/env python3
"""Wraps the lines of proofs over 110 columns: wrap_proofs.py [--imports] [CRATE ..]

Wraps all proof files of the named crates, or of all crates. A line is broken only at spaces, at its outermost operators
first: after `in` and `=`, before `→`, `×`, `∙`, relations and sums, then between the arguments of a call, and last within
brackets. `rattle fmt`, which is part of the kit, indents the lines, and lines that are still too long are broken again. With
--imports, long imports get a line for each name. A comment over 120 columns is reflowed. A line that ends with a comment does
not change.

A wrapped file must have the same tokens, and the same letters in comments, as before. If `rattle fmt` breaks a bracket, it
adds a `,` or `;` before the closing bracket, or a `|` after `[`; these do not count. If a file has another difference, or
`rattle fmt` refuses it, the file is restored and reported, and the status is 1.
"""
import argparse
import json
import re
import shutil
import subprocess
import sys
import textwrap
from itertools import pairwise
from pathlib import Path
from typing import NamedTuple

TOP = Path(__file__).resolve().parents[2]
LIMIT, COMMENT_LIMIT = 110, 120
# The maximum number of rounds that break and indent the lines of a file.
ROUNDS = 6
# A broken part begins on the line of the previous part if that line has at most this number of letters.
MOST_BEFORE_PART = 75
# The additional indent of the right side of `=`, and of an item in a bracket.
DEEPER, ITEM = 4, 2

STRING = re.compile(r'"(?:\\.|[^"\\])*"?')
# `[` and `]` are brackets if spaces separate them from their content, as in `elim`.
BRACKET = re.compile(r"(?P<opens>[({]|(?<![^ (])\[(?![^ ]))|[)}]|(?<= )\](?![^ ;,)])")
IMPORT = re.compile(r"\s*(pub )?(open \S+ )?use ")
COMMENT = re.compile(r"( *-- ?)(.*)")
# `rattle fmt` leaves the bracket that a broken tuple opens with at the end of the line before.
LEFT_OPEN = re.compile(r"( in)?( record)? [({\[]$")
# A text that begins on the line of a `=` or of a function's binders, even if it is broken.
BEGINS_THERE = re.compile(r"(λ [^.]*\. )?(record (\S+ )?\{|omega \(|\()")
SEPARATORS_OF_FMT = re.compile(r"[,;](?=[)}])|(?<=\[)\|")


class Break(NamedTuple):
    """Operators before which (or after which) lines are broken: at each of them, or only when a line is full."""

    operators: set[str]
    after: bool = False
    fills: bool = False


IN = Break({"in"}, after=True)
ARROW = Break({"→"}, fills=True)
# The other operators, those that bind least first.
BREAKS = (
    ARROW,
    Break({"⊎"}),
    Break({"×"}),
    Break({"∵"}, after=True),
    Break({"$"}, after=True, fills=True),
    Break({"∙"}),
    Break({"≡", "≤", "<", "≢", "↔", "⊑", "∣"}),
    Break({"then", "else"}),
    Break({"||"}, fills=True),
    Break({"&&"}, fills=True),
    Break({"=="}),
    Break({"⊛"}, fills=True),
    Break({"++", "∷"}, fills=True),
    Break({"+", "-"}, fills=True),
    Break({"*", "/", "%"}, fills=True),
    Break({"^"}, fills=True),
)
# The words that stay on the line of the next word, and those that stay on the line of the word before.
WITH_NEXT = {
    *"∙ → × ⊎ ≡ ≢ ≤ < == ++ ∷ + - * / % ^ || && ⊛ | : ‵ ¬".split(),
    *"let if then else pub record elim #it".split(),
}
WITH_LAST = {"in", "=", "where", ":"}


class Room(NamedTuple):
    """The place of a text: the column of its lines, and the number of letters before and after it."""

    indent: int
    before: int = 0
    after: int = 0
    # Whether the next line of the file continues with an arrow.
    continues: bool = False

    def fits(self, text: str) -> bool:
        """Whether a text has room on one line."""
        return self.indent + self.before + len(text) + self.after <= LIMIT

    def head(self) -> "Room":
        """The room of a first part, after which the line is broken."""
        return self._replace(after=0)

    def below(self, deeper: int = 0) -> "Room":
        """The room of a text that begins a new line."""
        return self._replace(indent=self.indent + deeper, before=0)

    def following(self, line: str, first: bool) -> "Room":
        """The room of a text that continues a line."""
        return self._replace(before=len(line) + 1 + (self.before if first else 0))


Token = tuple[str, str]


class Before(NamedTuple):
    """A file before it is wrapped: its text, and the kind and text of each token."""

    text: str
    tokens: list[Token]


class Restored(NamedTuple):
    """A file that is restored, with the reason."""

    path: Path
    reason: str


# Functions for the brackets and strings in a text.


def unquoted(text: str) -> str:
    """A text of the same length without the contents of strings."""
    return STRING.sub(lambda it: '"' * len(it[0]), text)


def split_outside(text: str, separator: str) -> list[str]:
    """The parts of a text between separators outside of brackets and strings."""
    depth, begin, parts = 0, 0, []
    for mark in re.finditer(f"{BRACKET.pattern}|{re.escape(separator)}", unquoted(text)):
        if mark["opens"]:
            depth += 1
        elif mark[0] != separator:
            depth = max(0, depth - 1)
        elif depth == 0:
            parts.append(text[begin : mark.start()])
            begin = mark.end()
    return [*parts, text[begin:]]


def outer_words(text: str) -> list[str]:
    """The words of a text; a bracket and its contents belong to one word."""
    return [word for word in split_outside(text, " ") if word]


def longest_bracket(text: str) -> tuple[int, int]:
    """The places where the longest outermost bracket opens and closes; a missing place is the end of the text."""
    found, open_ones = [], []
    for mark in BRACKET.finditer(unquoted(text)):
        if mark["opens"]:
            open_ones.append(mark.start())
        elif open_ones:
            begin = open_ones.pop()
            if not open_ones:
                found.append((begin, mark.start()))
    if open_ones:
        found.append((open_ones[0], len(text)))
    return max(found, key=lambda it: it[1] - it[0], default=(len(text), len(text)))


def segments(words: list[str], at: Break, limit: int) -> list[str]:
    """Words joined to segments, which are separated by the breaks among the first `limit` words."""
    places = (number + at.after for number, word in enumerate(words[:limit]) if word in at.operators)
    begins = [0, *(it for it in places if 0 < it < len(words)), len(words)]
    return [" ".join(words[begin:end]) for begin, end in pairwise(begins)]


def arguments(words: list[str]) -> list[str]:
    """The words of a call, each joined with the words that stay on its line."""
    out: list[str] = []
    left = iter(words)
    for word in left:
        follower = next(left, None) if word in WITH_NEXT else None
        if follower is not None:
            out.append(f"{word} {follower}")
        elif word in WITH_LAST and out:
            out[-1] += f" {word}"
        else:
            out.append(word)
    return out


# Functions that break a text into lines without indentation.


def lay(text: str, room: Room) -> list[str]:
    """Breaks a text into lines, at its outermost operators first."""
    if room.fits(text):
        return [text]
    words = outer_words(text)
    if words[0] in ("unfolding", "module"):
        return filled(words, room)
    bindings = segments(words, IN, len(words))
    if len(bindings) > 1:
        return stacked(bindings, room)
    lines = at_equals(words, room) or at_operators(words, room) or at_function(words, room)
    return lines or at_arguments(words, room)


def stacked(parts: list[str], room: Room) -> list[str]:
    """The lines of parts, each of which begins a new line."""
    first, *between = parts[:-1]
    out = lay(first, room.head())
    for part in between:
        out += lay(part, room.head().below())
    return out + lay(parts[-1], room.below())


def filled(parts: list[str], room: Room, last_on_new_line: bool = False) -> list[str]:
    """The lines of parts, with as many parts on each line as fit. With `last_on_new_line`, the last part begins a new line."""
    lines: list[str] = []
    for part in parts[:-1]:
        lines = with_part(lines, part, room.head())
    return with_part(lines, parts[-1], room, last_on_new_line)


def with_part(lines: list[str], part: str, room: Room, on_new_line: bool = False) -> list[str]:
    """Lines with one more part: on the last line if it fits or can begin there, and otherwise on a new line."""
    if not lines:
        return lay(part, room)
    *done, line = lines
    here, below = room.following(line, not done), room.below()
    if on_new_line:
        return [*lines, *lay(part, below)]
    if here.fits(part):
        return [*done, f"{line} {part}"]
    if not below.fits(part) and (here.before <= MOST_BEFORE_PART + 1 or part[0] in "[{"):
        first, *rest = lay(part, here)
        if here.head().fits(first):
            return [*done, f"{line} {first}", *rest]
    return [*lines, *lay(part, below)]


def at_equals(words: list[str], room: Room) -> list[str]:
    """The lines of a text that is broken after its `=` or `↦`; none if the text has no such sign or ends with it."""
    mark = next((it for it in ("=", "↦") if it in words), None)
    end = words.index(mark) + 1 if mark else len(words)
    if end == len(words) or "λ" in words[:end]:
        return []
    right = " ".join(words[end:])
    lines = lay(" ".join(words[:end]), room.head())
    below = room.below(0 if words[0] == "let" else DEEPER)
    if not below.fits(right) and (BEGINS_THERE.match(right) or right.startswith("elim ")):
        first, *rest = lay(right, room.following(lines[-1], len(lines) == 1))
        line = f"{lines[-1]} {first}"
        if room.indent + len(line) <= LIMIT:
            return [*lines[:-1], line, *rest]
    return lines + lay(right, below)


def at_operators(words: list[str], room: Room) -> list[str]:
    """The lines of a text that is broken at its outermost operators before a function; none without any."""
    limit = words.index("λ") if "λ" in words else len(words)
    for at in BREAKS:
        parts = segments(words, at, limit)
        if len(parts) > 1:
            return filled(parts, room, at == ARROW and not room.continues) if at.fills else stacked(parts, room)
    return []


def at_function(words: list[str], room: Room) -> list[str]:
    """The lines of a text that ends with a function, broken after its binders; none without a function."""
    if "λ" not in words:
        return []
    begin = words.index("λ")
    dots = (number for number, word in enumerate(words, 1) if number > begin and word.endswith("."))
    end = next(dots, len(words))
    binders, body = " ".join(words[:end]), " ".join(words[end:])
    if not room.head().fits(binders):
        if begin > 0:
            return filled([*words[:begin], " ".join(words[begin:])], room)
        lines = binder_lines(words[:end], room.head())
        return lines + lay(body, room.below()) if body else lines
    if not body:
        return [binders]
    if BEGINS_THERE.match(body) or (begin == 0 and not room.below().fits(body)):
        first, *rest = lay(body, room.following(binders, True))
        return [f"{binders} {first}", *rest]
    return [binders, *lay(body, room.below())]


def binder_lines(words: list[str], room: Room) -> list[str]:
    """The lines of the binders of a function; no binder is broken, and the first stays after the `λ`."""
    lines = [" ".join(words[:2])]
    for word in words[2:]:
        if room.following(lines[-1], len(lines) == 1).fits(word):
            lines[-1] += f" {word}"
        else:
            lines.append(word)
    return lines


def at_arguments(words: list[str], room: Room) -> list[str]:
    """The lines of a call that is broken between its arguments, or within the only one."""
    parts = arguments(words)
    return filled(parts, room) if len(parts) > 1 else within(parts[0], room)


def within(text: str, room: Room) -> list[str]:
    """The lines of a text that is broken within its longest bracket."""
    begin, end = longest_bracket(text)
    opening, inner, closing = text[: begin + 1], text[begin + 1 : end], text[end:]
    if not inner.strip():
        return [text]
    items = items_of(text[begin], inner) if closing else []
    if items:
        inside = Room(room.indent + ITEM, continues=room.continues)
        return [opening, *(line for item in items for line in lay(item, inside)), closing]
    taken = room._replace(before=room.before + len(opening), after=len(closing) + room.after)
    lines = lay(inner.strip(), taken)
    lines[0] = opening + lines[0]
    lines[-1] += closing
    return lines


def items_of(bracket: str, inner: str) -> list[str]:
    """The items of a tuple, a record or cases with their separators; none for another bracket."""
    if bracket == "[":
        return ["| " + it.strip().removeprefix("| ") for it in split_outside(inner.strip(), " | ")]
    separator = "," if bracket == "(" else ";"
    items = [it.strip() for it in split_outside(inner, separator)]
    is_list = len(items) > 1 if bracket == "(" else inner.startswith(" ")
    return [it + separator for it in items if it] if is_list else []


# Functions that break the lines of a file.


def wrapped(line: str, continues: bool, imports: bool) -> list[str]:
    """Breaks a line of a proof into several lines, if this is possible."""
    if len(line) <= LIMIT:
        return [line]
    if IMPORT.match(line):
        return names_apart(line) if imports else [line]
    comment = COMMENT.fullmatch(line)
    if comment:
        return comment_lines(comment[1], comment[2]) if len(line) > COMMENT_LIMIT else [line]
    if " -- " in unquoted(line):
        return [line]
    body = line.lstrip(" ")
    indent = len(line) - len(body)
    found = LEFT_OPEN.search(body)
    left_open = found[0] if found else ""
    first, *rest = lay(body.removesuffix(left_open), Room(indent, 0, len(left_open), continues))
    # The columns need not be right, because `rattle fmt` indents the lines.
    lines = [" " * indent + first, *(" " * (indent + DEEPER) + it for it in rest)]
    return [*lines[:-1], lines[-1] + left_open]


def names_apart(line: str) -> list[str]:
    """An import with a separate line for each of its names."""
    head, brace, rest = line.partition("{")
    names, closing, after = rest.rpartition("}")
    if not brace or not closing:
        return [line]
    items = [f"{' ' * DEEPER}{name.strip()}," for name in names.split(",") if name.strip()]
    return [head + brace, *items, closing + after]


def comment_lines(begin: str, text: str) -> list[str]:
    """The reflowed lines of a comment; each has the same beginning."""
    parts = textwrap.wrap(text, LIMIT - len(begin), break_long_words=False, break_on_hyphens=False)
    return [begin + part for part in parts]


def break_lines(path: Path, imports: bool) -> bool:
    """Breaks each long line of a file once. Returns whether the file has changed."""
    text = path.read_text()
    lines = text.split("\n")
    nexts = [*(line.lstrip().startswith("→") for line in lines[1:]), False]
    new = "\n".join(part for line, continues in zip(lines, nexts) for part in wrapped(line, continues, imports))
    if new == text:
        return False
    path.write_text(new)
    return True


# Functions that call `rattle fmt`, or compare files as it does.


def find_rattle() -> Path:
    """The program `rattle` of the kit, which is next to `rt`."""
    rt = shutil.which("rt")
    rattle = Path(rt).resolve().parent / "rattle" if rt else None
    if rattle is None or not rattle.is_file():
        sys.exit("wrap_proofs: there is no rt, or no rattle in its folder")
    return rattle


def refused(rattle: Path, paths: list[Path]) -> list[Path]:
    """Indents files with `rattle fmt`. Returns the files that it refuses."""
    if not paths or subprocess.run([rattle, "fmt", "--write", *paths], capture_output=True).returncode == 0:
        return []
    return paths if len(paths) == 1 else [it for path in paths for it in refused(rattle, [path])]


def is_added(text: str, last: str, following: str) -> bool:
    """Whether a token between two others is a separator that `rattle fmt` may have added."""
    return text in (",", ";") and following in (")", "}") or text == "|" and last == "["


def tokens(rattle: Path, path: Path) -> list[Token]:
    """The tokens of a file, without the separators that `rattle fmt` adds; none if the file has an unknown token."""
    ran = subprocess.run([rattle, "fmt", "--tokens", path], capture_output=True, text=True)
    rows = (line.split(" ", 4) for line in ran.stdout.split("\n") if line and not line.startswith("file "))
    found = [(kind, json.loads(text)) for _, _, _, kind, text in rows]
    texts = ["", *(text for _, text in found), ""]
    added = (is_added(*three) for three in zip(texts[1:], texts, texts[2:]))
    return [token for token, is_added_token in zip(found, added) if not is_added_token]


def letters(text: str) -> str:
    """The letters of a file and its comments, without white space, comment dashes and the separators that `rattle fmt` adds."""
    return SEPARATORS_OF_FMT.sub("", re.sub(r"\s+|--", "", text))


# Functions that wrap the files of crates.


def proofs(crate: str) -> list[Path]:
    return sorted((TOP / "crates" / crate / "proofs").rglob("*.antt"))


def is_long(path: Path) -> bool:
    """Whether a file has a line that is too long."""
    return any(len(line) > LIMIT for line in path.read_text().split("\n"))


def wrap(rattle: Path, paths: list[Path], imports: bool) -> list[Path]:
    """Breaks and indents the lines of files until none changes. Returns the files that `rattle fmt` refuses."""
    bad: list[Path] = []
    for _ in range(ROUNDS):
        paths = [path for path in paths if path not in bad and break_lines(path, imports)]
        if not paths:
            break
        bad += refused(rattle, paths)
    return bad


def reason_against(rattle: Path, path: Path, before: Before, is_refused: bool) -> str:
    """The reason why a wrapped file must be restored, or an empty text."""
    if is_refused:
        return "is refused by rattle fmt"
    if not before.tokens or tokens(rattle, path) != before.tokens:
        return "has other tokens"
    return "has other comments" if letters(path.read_text()) != letters(before.text) else ""


def wrap_crate(rattle: Path, crate: str, imports: bool) -> tuple[int, list[Restored]]:
    """Wraps the proofs of a crate. Returns the number of wrapped files, and the restored files."""
    files = {path: Before(path.read_text(), tokens(rattle, path)) for path in proofs(crate) if is_long(path)}
    bad = wrap(rattle, list(files), imports)
    count, restored = 0, []
    for path, before in files.items():
        if path.read_text() == before.text:
            continue
        reason = reason_against(rattle, path, before, path in bad)
        if reason:
            path.write_text(before.text)
            restored.append(Restored(path, reason))
        else:
            count += 1
    return count, restored


def main() -> int:
    """Wraps the named crates. Prints the number of changed files, and the restored files."""
    parser = argparse.ArgumentParser(description="Wraps the lines of proofs over 110 columns.")
    parser.add_argument("crates", nargs="*", metavar="CRATE", help="a crate to wrap (default: all)")
    parser.add_argument("--imports", action="store_true", help="also break long imports, with a line for each name")
    arguments = parser.parse_args()
    present = sorted(path.name for path in (TOP / "crates").iterdir())
    for crate in arguments.crates:
        if crate not in present:
            parser.error(f"there is no crate {crate}")
    rattle = find_rattle()
    done = [wrap_crate(rattle, crate, arguments.imports) for crate in arguments.crates or present]
    restored = [it for _, found in done for it in found]
    for path, reason in restored:
        print(f"wrap_proofs: {path.relative_to(TOP)} is restored, because the wrapped file {reason}", file=sys.stderr)
    print(f"wrap_proofs: {sum(count for count, _ in done)} files are wrapped, {len(restored)} are restored")
    return 1 if restored else 0


if __name__ == "__main__":
    sys.exit(main())
