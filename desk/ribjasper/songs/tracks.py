"""The packs of a track: those of its script, authored separately, so that they begin with presets and all colours and
draw its pictures on every screen."""
from pathlib import Path

from ..common.cue_sheets import ONE_TRACK
from ..common.failures import Failure, LATE, Refusal
from ..common.library import PACK, PACKS_A_BLOCK, RAW, SLOTS, packs_of_blocks
from ..common.program import author
from ..common.times import PAUSE
from .song_script import BEGIN, THROUGH_PAUSE

# The pack that ends with the first slot of the audio is number 593 of the program.
FIRST_OF_AUDIO = PACKS_A_BLOCK * PAUSE - (SLOTS - 1)
# Presets of the memory and the border, and the two packs of colours, with which a first picture begins.
PRESETS = 4
# Their place in a track: the first pack whose slots are all in the track is number 7, the first one of a block is 8.
PRESETS_AT = 8
# The first pack that a script may use behind the picture that is held through the pause.
FREE_FROM = PACKS_A_BLOCK * BEGIN - (SLOTS - 1)


class LateScript(Failure):
    """A script with a picture that cannot be ready."""

    status = LATE


def track_packs(path: Path, script: bytes, blocks: int) -> bytes:
    """The packs of a track, four for each of its blocks: eight idle packs, so that no symbol of the graphics is sent
    before the track; the presets and colours of the first picture; and all other packs at the times of the script."""
    packs = authored(path, script, blocks)
    if packs is None:
        packs = authored(path, THROUGH_PAUSE.encode() + b"\n" + script.removeprefix(b"\xef\xbb\xbf"), blocks)
    assert packs is not None
    first, of_track = packs[: PACK * PRESETS], bytearray(packs[PACK * FIRST_OF_AUDIO :])
    at = PACK * PRESETS_AT
    of_track[at : at + len(first)] = first
    return bytes(of_track)


def authored(path: Path, script: bytes, blocks: int) -> bytes | None:
    """All packs of a disc with only this track; None if its first picture is more than presets and colours, or is not
    complete when the track begins."""
    stream, status, message = author(ONE_TRACK, script, 0, blocks)
    if status == LATE:
        raise LateScript(f"{path}: {message}")
    if status:
        raise Refusal(path, message)
    packs, _ = packs_of_blocks(stream, RAW, 0)
    return None if any(packs[PACK * PRESETS : PACK * FREE_FROM]) else packs


def as_pair(packs: bytes) -> bytes:
    """The packs of a track as a separate file, which begins with its presets and colours; they are repeated at their
    old place, as on a disc that is made from the file."""
    presets = packs[PACK * PRESETS_AT : PACK * (PRESETS_AT + PRESETS)]
    return presets + packs[len(presets) :]
