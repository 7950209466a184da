#!/usr/bin/env python3
"""Checks the language of the documents: check_words.py [--count]

There are three rules. No sentence of README, the guide and the header has more than 35 words. No document uses a phrase of WORDS,
unless WORDS has an exception for it. All documents together have at most 5,000 lines. --count prints the number of lines and
the reading time (at 240 words per minute) of each document.
"""
import argparse
import re
import subprocess
import sys
from pathlib import Path
from typing import Iterator, NamedTuple

TOP = Path(__file__).resolve().parents[2]
MOST_WORDS, MOST_LINES, WORDS_A_MINUTE = 35, 5_000, 240
SHORT = ("README.md", "docs/GUIDE.md", "include/ribjasper.h")


class Word(NamedTuple):
    """A phrase to avoid, its replacement, and the documents that may use it."""

    phrase: str
    replacement: str
    exceptions: tuple[str, ...] = ()


WORDS = (
    Word(r"for good", "statically; for ever"),
    Word(r"want of memory", "out of memory"),
    Word(r"lacks? memory", "runs out of memory"),
    Word(r"of which", "whose, of these"),
    Word(r"is no clause", "no clause says"),
    Word(r"(is|are|was|were) told", "is reported"),
    Word(r"tells? of", "reports"),
    Word(r"gives? up to", "passes to"),
    Word(r"named so", "so called"),
    Word(r"that which", "what"),
    Word(r"hands? on", "passes"),
    Word(r"with `--?[a-z-]+` alone", "only with"),
    Word(r"for who\b", "for anyone who"),
    Word(r"makers? of players", "player makers"),
    Word(r"stands?\b", "is"),
    Word(r"stood\b", "was"),
    Word(r"tells?\b", "reports, prints"),
    Word(r"told\b", "reported, printed"),
    Word(r"(comes?|came) (out|back)\b", "is recovered, is the result"),
    Word(r"gives? back\b", "recovers, returns"),
    Word(r"gave back\b", "recovered, returned"),
    Word(r"speaks? of\b", "is about"),
    Word(r"counts? for nothing", "does not count"),
    Word(r"dear(er|est)?\b", "slow, expensive"),
    Word(r"anew\b", "again"),
    Word(r"whatever\b", "any, regardless of"),
    Word(r"beside\b", "next to, with"),
    Word(r"at hand\b", "in the buffer, available"),
    Word(r"brings? (its|the|a|an|each|back|it)\b", "draws, sets"),
    Word(r"the least\b", "the smallest, the lowest"),
    Word(r"(is|are|be|was|were) in time\b", "on time"),
    Word(r"pass(es|ed)? over\b", "ignored, skipped"),
    Word(r"so many\b", "this number of"),
    Word(r"look(s|ed)? at\b", "examine, read"),
    Word(r"exactly (if|where)\b", "if and only if"),
    Word(r"both ways\b", "in both directions, written and read"),
    Word(r"(makes?|made) good\b", "recomputed"),
    Word(r"makes? the parity good\b", "computes the parity"),
    Word(r"rests? on\b", "depends on"),
    Word(r"cuts?\b", "split, removed, shortened"),
    Word(r"left out\b", "omitted"),
    Word(r"is left as it was\b", "is unchanged"),
    Word(r"which of those\b", "which"),
    Word(r"it says so\b", "it is reported"),
    Word(r"Rejected:", "We rejected"),
    Word(r"passed on\b", "copied, passed to"),
    Word(r"go(es)? on\b", "continues"),
    Word(r"holds? of\b", "is true for"),
    Word(r"the same of\b", "the same for"),
    Word(r"as wholes\b", "as a whole, all of them"),
    Word(r"in time with\b", "synchronous with"),
    Word(r"gives? up on\b", "stops at"),
    Word(r"is no (command|checkpoint|dump|form|text|pack|word|fault)\b", "is not a"),
    Word(r"are no (command|checkpoints|dumps|damage|codewords|packs|words)\b", "are not, do not count as"),
)


def documents() -> list[Path]:
    """The documents of the repository: its Markdown files."""
    listed = subprocess.run(["git", "ls-files", "*.md"], cwd=TOP, capture_output=True, text=True, check=True)
    return [TOP / name for name in listed.stdout.split()]


def prose(path: Path) -> str:
    """A document without code, tables, headings and quotations, or the comments of a header."""
    text = path.read_text()
    if path.suffix == ".h":
        text = "\n\n".join(re.findall(r"/\*(.*?)\*/", text, re.DOTALL))
        return re.sub(r"^ *\*( |$)", "", text, flags=re.MULTILINE)
    text = re.sub(r"^```.*?^```", "", text, flags=re.DOTALL | re.MULTILINE)
    text = re.sub(r"^(\||#|!\[|>).*$", "", text, flags=re.MULTILINE)
    return re.sub(r"\]\([^)]*\)", "]", text)


def sentences(text: str) -> Iterator[str]:
    """The sentences, list items and paragraphs of a text."""
    for part in re.split(r"(?<=[.!?:;])\s+|\n\s*\n|\n\s*[-*] |\n\d+\. |\n(?= +\w+: )|\n(?= *Returns )", text):
        if words := " ".join(part.split()):
            yield words


def long_sentences(path: Path) -> Iterator[str]:
    for sentence in sentences(prose(path)):
        count = len(sentence.split())
        if count > MOST_WORDS:
            yield f"has a sentence of {count} words: {' '.join(sentence.split()[:9])} .."


def avoided_phrases(path: Path, name: str) -> Iterator[str]:
    text = prose(path)
    for word in WORDS:
        if name not in word.exceptions:
            for found in re.finditer(rf"\b{word.phrase}", text, re.IGNORECASE):
                yield f"says {found[0]!r} (better: {word.replacement})"


def errors() -> Iterator[str]:
    """The violations of the rules, one line each."""
    total = 0
    for path in documents():
        name = str(path.relative_to(TOP))
        total += len(path.read_text().splitlines())
        if name != "CHANGELOG.md" and name != "docs/DEFINITIONS.md":
            yield from (f"{name} {error}" for error in avoided_phrases(path, name))
    for name in SHORT:
        yield from (f"{name} {error}" for error in long_sentences(TOP / name))
    header = "include/ribjasper.h"
    yield from (f"{header} {error}" for error in avoided_phrases(TOP / header, header))
    if total > MOST_LINES:
        yield f"all documents together have {total} lines, more than {MOST_LINES}"


def count() -> None:
    total = seconds = 0
    for path in documents():
        text = path.read_text()
        lines, words = len(text.splitlines()), len(prose(path).split())
        total, seconds = total + lines, seconds + 60 * words // WORDS_A_MINUTE
        print(f"{lines:6} lines {60 * words // WORDS_A_MINUTE:6} s  {path.relative_to(TOP)}")
    print(f"{total:6} lines {seconds:6} s  all")


def main() -> int:
    parser = argparse.ArgumentParser(description="Checks the language of the documents.")
    parser.add_argument("--count", action="store_true", help="print the lines and the reading time of each document")
    if parser.parse_args().count:
        count()
        return 0
    found = list(errors())
    for line in found:
        print(f"check_words: {line}", file=sys.stderr)
    return 1 if found else 0


if __name__ == "__main__":
    sys.exit(main())
