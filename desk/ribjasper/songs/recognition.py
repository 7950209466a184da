"""The kind of a file that was passed instead of the expected one, so that the refusal can explain what to do."""
import os
import re
from pathlib import Path

from ..common import kinds
from ..common.failures import Refusal, shown
from .encodings import encoding_of
from .lrc import STAMP
from .song_files import EVENTS, NOTES, STRETCH, WEB_VTT

_LINES_OF_SCRIPTS = re.compile(rb"^[ \t]*(colour|border|fill|rect|row|show)[ \t]", re.MULTILINE)
_LINES_OF_SHEETS = re.compile(rb"^[ \t]*(FILE|TRACK|INDEX)[ \t]", re.MULTILINE | re.IGNORECASE)
_STAMPED = re.compile(rf"^\s*{STAMP.pattern}", re.MULTILINE)


def is_lyrics(content: bytes) -> bool:
    """Whether a file holds lyrics of one of the kinds that `lyrics` reads."""
    if content.startswith(b"MThd"):
        return True
    guess = encoding_of(content)
    text = content.decode(guess.name if guess else "latin-1", "replace")
    return bool(WEB_VTT.match(text)) or any(mark.search(text) for mark in (EVENTS, NOTES, STRETCH, _STAMPED))


def is_script(content: bytes) -> bool:
    """Whether a file resembles a picture script."""
    looks = kinds.SCRIPT.looks
    return bool(looks and looks(content[: kinds.LOOKED_AT], len(content)) and _LINES_OF_SCRIPTS.search(content))


def is_sheet(content: bytes) -> bool:
    """Whether a file resembles a cue sheet."""
    looks = kinds.CUE.looks
    return bool(looks and looks(content[: kinds.LOOKED_AT], len(content)) and _LINES_OF_SHEETS.search(content))


def check_sheet_and_script(sheet: Path, sheet_text: bytes, script: Path, script_text: bytes) -> None:
    """Refuses a sheet and a script that are exchanged, and lyrics in place of either; for files that have no plan."""
    if is_script(sheet_text) and is_sheet(script_text):
        raise Refusal(
            sheet, f"is a picture script, and {shown(os.fspath(script))} is a cue sheet: give the sheet first"
        )
    if is_lyrics(sheet_text):
        raise Refusal(sheet, "contains lyrics, not a cue sheet")
    if is_lyrics(script_text):
        makes = f"`ribjasper-desk lyrics {shown(os.fspath(script))} -o SCRIPT` makes one"
        raise Refusal(script, f"contains lyrics, not a picture script: {makes}")


def check_list(path: Path, content: bytes) -> None:
    """Refuses lyrics in place of a list of songs; for a file that is no list."""
    if is_lyrics(content):
        makes = f"`ribjasper-desk album --new {shown(os.fspath(path))} -o LIST.toml` begins one"
        raise Refusal(path, f"contains lyrics, not a list of songs: {makes}")
