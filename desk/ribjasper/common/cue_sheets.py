"""How cue sheets spell a disc: its texts, files, tracks, flags and indexes."""
import re

from .times import spelled

# The bits of CONTROL, and their names in a sheet.
FLAGS = ((2, b"DCP"), (8, b"4CH"), (1, b"PRE"))
PRE_EMPHASIS, COPY, DATA, FOUR_CHANNELS = 1, 2, 4, 8
# A disc of one track, on which scripts are planned and packs are pressed.
ONE_TRACK = b'FILE "song.wav" WAVE\nTRACK 01 AUDIO\nINDEX 01 00:00:00\n'
# The texts for which a sheet has a command, and those that it can only mention in a remark.
COMMANDS = {"title": b"TITLE", "performer": b"PERFORMER", "songwriter": b"SONGWRITER"}
MENTIONED = {"composer": b"COMPOSER", "arranger": b"ARRANGER", "message": b"MESSAGE"}


def spelled_text(text: bytes) -> bytes | None:
    """A text in the spelling of a sheet, or None if it cannot be spelled."""
    if any(byte < 0x20 or byte == 0x7F for byte in text):
        return None
    if b'"' not in text:
        return b'"%b"' % text
    return text if text == text.strip(b" ") and not text.startswith(b'"') else None


def spelled_name(name: bytes) -> bytes:
    """The name of a file without characters that a sheet cannot contain."""
    return re.sub(rb'["\x00-\x1f\x7f]', b"_", name)


class CueWriter:
    """A cue sheet, line by line: first the lines of the disc, then its tracks."""

    def __init__(self) -> None:
        self._lines: list[bytes] = []
        self._margin = b""

    def _add(self, line: bytes) -> None:
        self._lines.append(self._margin + line)

    def remark(self, text: bytes) -> None:
        self._lines.append(b"REM " + text)

    def catalogue(self, digits: bytes) -> None:
        self._add(b"CATALOG " + digits)

    def text(self, kind: str, text: bytes) -> bool:
        """A text of the disc or of the last track, as a remark if no command has its kind; false if it cannot be
        spelled."""
        spelling = spelled_text(text)
        if spelling is None:
            return False
        command = COMMANDS.get(kind) or b"REM " + MENTIONED[kind]
        self._add(b"%b %b" % (command, spelling))
        return True

    def file(self, name: bytes, form: bytes) -> None:
        self._add(b'FILE "%b" %b' % (spelled_name(name), form))

    def track(self, number: int, form: bytes) -> None:
        """Begins a track."""
        self._lines.append(b"  TRACK %02d %b" % (number, form))
        self._margin = b"    "

    def flags(self, control: int) -> None:
        names = [name for bit, name in FLAGS if control & bit]
        if names:
            self._add(b"FLAGS " + b" ".join(names))

    def isrc(self, code: bytes) -> None:
        self._add(b"ISRC " + code)

    def index(self, number: int, time: int) -> None:
        """An index and its time in the file, in blocks."""
        self._add(b"INDEX %02d %b" % (number, spelled(time).encode()))

    def content(self) -> bytes:
        return b"".join(line + b"\n" for line in self._lines)
