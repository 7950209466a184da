"""The kinds of files that commands write, and how to recognize the kind of an existing file."""
import os
import re
from typing import Callable, NamedTuple


# The number of bytes at the beginning of a file that are read to recognize it.
LOOKED_AT = 1 << 16
PNG_MARK = b"\x89PNG\r\n\x1a\n"
# Text near the beginning of the pages of the desk.
PAGE_MARK = b'<meta name="generator" content="ribjasper-desk">'


class Kind(NamedTuple):
    """A kind of output: its name, and how to recognize such a file: by its first bytes and its size, by the ending of
    its name, or by both. A file of any other kind is overwritten only with --force. Other programs and people also make
    files of a recorded kind, so only files that the desk itself wrote are overwritten."""

    name: str
    looks: Callable[[bytes, int], bool] | None = None
    endings: tuple[str, ...] = ()
    is_recorded: bool = False

    @property
    def can_be_known(self) -> bool:
        return self.looks is not None or bool(self.endings)

    def has(self, path: str) -> bool:
        """Whether a file is of this kind, or empty."""
        size = os.path.getsize(path)
        if not size:
            return True
        if self.endings and not path.lower().endswith(self.endings):
            return False
        if self.looks is None:
            return bool(self.endings) or self.is_recorded
        with open(path, "rb") as file:
            return self.looks(file.read(LOOKED_AT), size)


def begins(*marks: bytes) -> Callable[[bytes, int], bool]:
    """A test for files that begin with one of these."""
    return lambda head, _: head.startswith(marks)


def lines_like(pattern: bytes) -> Callable[[bytes, int], bool]:
    """A test for texts in which each line at the beginning matches the pattern or is empty."""
    like = re.compile(rb"[ \t]*(?:(?:" + pattern + rb")(?![A-Za-z0-9_])|\r?$)", re.IGNORECASE)

    def looks(head: bytes, size: int) -> bool:
        lines = head.removeprefix(b"\xef\xbb\xbf").split(b"\n")
        whole = lines if size <= len(head) else lines[:-1]
        return b"\0" not in head and bool(whole) and all(like.match(line) for line in whole)

    return looks


def _is_film(head: bytes, _: int) -> bool:
    """The marks of ISO media files, Matroska and WebM, AVI, Ogg, FLV, MPEG streams and GIF."""
    marks = (b"\x1aE\xdf\xa3", b"OggS", b"FLV\1", b"\0\0\1\xba", b"GIF8", b"G@")
    return head[4:8] == b"ftyp" or head.startswith(marks) or (head.startswith(b"RIFF") and head[8:12] == b"AVI ")


def _is_text_packs(head: bytes, size: int) -> bool:
    """Packs of 18 bytes whose first byte is a kind of text, with or without four bytes in front."""
    at = size % 18
    return at in (0, 1, 4, 5) and size >= 18 and 0x80 <= head[at & 4] <= 0x8F


PNG = Kind("a PNG picture", begins(PNG_MARK), is_recorded=True)
CDG = Kind("a .cdg file", endings=(".cdg",), is_recorded=True)
STREAM = Kind("a stream", is_recorded=True)
IMAGE = Kind("a disc image", lambda head, size: size % 2448 == 0, (".bin",), is_recorded=True)
CUE = Kind(
    "a cue sheet",
    lines_like(rb"REM|CATALOG|CDTEXTFILE|FILE|TRACK|INDEX|PREGAP|POSTGAP|FLAGS|ISRC|TITLE|PERFORMER|SONGWRITER"),
    is_recorded=True,
)
TOC = Kind("a sheet for cdrdao", begins(b"CD_DA\n"), is_recorded=True)
SCRIPT = Kind("a picture script", lines_like(rb"#.*|colour|border|fill|rect|row|show"), is_recorded=True)
TEXT_PACKS = Kind("a file of text packs", _is_text_packs, is_recorded=True)
FILM = Kind("a film", _is_film, is_recorded=True)
TABLE = Kind("a table of a report", begins(b"file\tstatus\t"))
ROWS = Kind("the rows of a report", begins(b'{"file": '))
PAGE = Kind("a page of the desk", lambda head, _: PAGE_MARK in head[:1000])
# The beginning of the studio's journal of a song.
JOURNAL = Kind("a journal of the studio", begins(b'{"ribjasper-studio": '))
LYRICS = Kind("lyrics in LRC", is_recorded=True)
LYRICS_MORE = Kind("a data file of lyrics in LRC", begins(b"# Belongs to the LRC file"), is_recorded=True)
EXPORT = Kind("lyrics for other programs", is_recorded=True)
ZIP = Kind("a ZIP file", begins(b"PK\3\4"), is_recorded=True)
ALBUM = Kind("a list of songs", is_recorded=True)
SOUND = Kind("a sound of this song", is_recorded=True)
CCD = Kind("a sheet of CloneCD", begins(b"[CloneCD]"), is_recorded=True)
TABLE_OF_BLOCKS = Kind("a table of blocks", begins(b"block\ttime\tblocks\n", b"pack\ttime\tpacks\n"))
# A map by ddrescue itself begins differently.
DDRESCUE = Kind("a map of a mended stream", begins(b"# Mapfile of the mended stream", b"# Mapfile of the mended packs"))
SBI = Kind("a list of changed frames", begins(b"SBI\0"), is_recorded=True)
LSD = Kind("a list of changed frames", lambda head, size: size % 15 == 0, (".lsd",), is_recorded=True)
DAT = Kind("a list of checksums", lambda head, _: head.startswith(b"<?xml") and b"<datafile>" in head, is_recorded=True)
AGAIN = Kind("a list of sectors to read again", is_recorded=True)
SUBMISSION = Kind("a description of a disc", is_recorded=True)
LIST_OF_PLACES = Kind("a list of places", begins(b"kind\tfirst\tlast\t"))
