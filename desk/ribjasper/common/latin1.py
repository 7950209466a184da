"""Texts of a disc that are not ASCII. The character code of the texts is 00, which players read as Latin-1 (ISO
8859-1), and the bytes of a sheet are written onto the disc unchanged."""
import re
import unicodedata
from pathlib import Path
from typing import Iterator

from .failures import Refusal
from .output import tell

# The lines of a sheet whose texts are written onto the disc.
TEXT_LINE = re.compile(rb"[ \t]*(TITLE|PERFORMER|SONGWRITER)[ \t]", re.IGNORECASE)


def lines_beyond_ascii(sheet: bytes) -> Iterator[tuple[int, bytes]]:
    """The texts that are not ASCII, with the numbers of their lines."""
    for number, line in enumerate(sheet.split(b"\n"), 1):
        if TEXT_LINE.match(line) and not line.isascii():
            yield number, line


def warn(path: Path, sheet: bytes) -> None:
    """A line on standard error for each text that players would show wrongly."""
    for number, line in lines_beyond_ascii(sheet):
        try:
            text = line.decode("utf-8").strip()
        except UnicodeDecodeError:
            continue
        wrong = line.strip().decode("latin-1")
        tell(
            f"{path}: line {number}: {text} is written to the disc in UTF-8, and players show {wrong!r}; see --latin-1"
        )


def as_latin_1(path: Path, sheet: bytes) -> bytes:
    """The sheet with its texts in Latin-1, as players expect them, or a refusal that names a line that has other
    letters. A line that is not UTF-8 is assumed to be Latin-1."""
    lines = sheet.removeprefix(b"\xef\xbb\xbf").split(b"\n")
    for number, line in lines_beyond_ascii(b"\n".join(lines)):
        try:
            text = unicodedata.normalize("NFC", line.decode("utf-8"))
        except UnicodeDecodeError:
            continue
        try:
            lines[number - 1] = text.encode("latin-1")
        except UnicodeEncodeError as wrong:
            letter = text[wrong.start]
            name = unicodedata.name(letter, f"U+{ord(letter):04X}").lower()
            raise Refusal(path, f"line {number}: Latin-1 has no {letter} ({name}): {text.strip()}") from None
    return b"\n".join(lines)
