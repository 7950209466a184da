"""Checksums of files, and lists of them in the Logiqx format."""
import hashlib
import os
import re
import xml.etree.ElementTree as xml
import zlib
from typing import Iterable, NamedTuple

from ..common.failures import Refusal, reading
from ..common.output import read_file
from ..common.progress import counted
from .dump import DumpFile

NAMES = ("file", "size", "crc32", "md5", "sha1", "sha256")
READ_AT_ONCE = 1 << 20
DOCTYPE = (
    '<!DOCTYPE datafile PUBLIC "-//Logiqx//DTD ROM Management Datafile//EN" "http://www.logiqx.com/Dats/datafile.dtd">'
)


# The number of a track in names of files.
TRACK_MARK = re.compile(r"\(Track (\d+)\)", re.IGNORECASE)


class Sums(NamedTuple):
    """The size of a file and its checksums in hexadecimal digits."""

    size: int
    crc32: str
    md5: str
    sha1: str
    sha256: str


def sums_of(path: str) -> Sums:
    """The checksums of a file, which is read once."""
    # A pipe has no end.
    path = DumpFile(path).path
    crc = size = 0
    digests = [hashlib.new(name, usedforsecurity=False) for name in ("md5", "sha1", "sha256")]
    with reading(path), open(path, "rb") as file, counted(os.fstat(file.fileno()).st_size, "B", True) as advance:
        while part := file.read(READ_AT_ONCE):
            advance(len(part))
            size += len(part)
            crc = zlib.crc32(part, crc)
            for digest in digests:
                digest.update(part)
    return Sums(size, f"{crc:08x}", *(digest.hexdigest() for digest in digests))


def plain(name: str) -> str:
    """A name that XML can contain: bytes that are no text, and control characters, are written as \\xHH."""
    text = os.fsencode(name).decode("utf-8", "backslashreplace")
    return "".join(letter if letter >= " " else f"\\x{ord(letter):02x}" for letter in text)


def dat(title: str, files: Iterable[tuple[str, Sums]]) -> bytes:
    """A list in the Logiqx format: a game for each name without its ending and its track number, with the files that
    have this name."""
    top = xml.Element("datafile")
    header = xml.SubElement(top, "header")
    for name, value in (("name", title), ("description", title), ("version", "1"), ("author", "ribjasper-desk")):
        xml.SubElement(header, name).text = plain(value)
    games: dict[str, xml.Element] = {}
    for name, found in files:
        stem = plain(TRACK_MARK.sub("", os.path.splitext(name)[0]).rstrip())
        if stem not in games:
            games[stem] = xml.SubElement(top, "game", name=stem)
            xml.SubElement(games[stem], "description").text = stem
        words = {field: str(value) for field, value in zip(Sums._fields, found)}
        words = {"crc" if field == "crc32" else field: value for field, value in words.items()}
        xml.SubElement(games[stem], "rom", {"name": plain(name), **words})
    xml.indent(top)
    body = xml.tostring(top, encoding="unicode")
    return f'<?xml version="1.0" encoding="UTF-8"?>\n{DOCTYPE}\n{body}\n'.encode()


class Listed(NamedTuple):
    """The entry of a list for a file: its name, and the size and checksums that the list has."""

    name: str
    values: dict[str, str]

    def differs(self, found: Sums) -> list[str]:
        """The names of the checksums in which a file differs."""
        own = {field: str(value) for field, value in zip(Sums._fields, found)}
        return [field for field, value in self.values.items() if own[field] != value]


class Game(NamedTuple):
    """A disc of a list: its name, and its files."""

    name: str
    files: list[Listed]

    @property
    def tracks(self) -> list[Listed]:
        """The files of its tracks, in the order of their numbers."""
        found = [it for it in self.files if it.name.lower().endswith(TRACK_ENDINGS)]
        return sorted(found, key=lambda it: track_number(it.name))


# The endings of files of tracks in lists; sheets are no tracks.
TRACK_ENDINGS = (".bin", ".iso", ".img", ".raw")


def track_number(name: str) -> int:
    found = TRACK_MARK.search(name)
    return int(found[1]) if found else 0


def read_games(path: str) -> list[Game]:
    """The discs of a list in the form of Logiqx."""
    try:
        top = xml.fromstring(read_file(path))
    except xml.ParseError as error:
        raise Refusal(path, f"is not a list of checksums: {error}") from None
    found = []
    for game in [top, *top.iter("game"), *top.iter("machine")]:
        files = [listed_of(rom) for rom in game.findall("rom")]
        if files:
            found.append(Game(game.get("name", ""), files))
    if not found:
        raise Refusal(path, "is not a list of checksums: it has no rom")
    return found


def listed_of(rom: xml.Element) -> Listed:
    words = {"crc32" if name == "crc" else name: value.lower() for name, value in rom.attrib.items()}
    # Some lists leave out leading zeros.
    if "crc32" in words:
        words["crc32"] = words["crc32"].rjust(8, "0")
    return Listed(rom.get("name", ""), {field: words[field] for field in Sums._fields if words.get(field)})


def read_dat(path: str) -> list[Listed]:
    """The files of a list in the form of Logiqx."""
    return [it for game in read_games(path) for it in game.files]
