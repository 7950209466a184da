"""Finished pairs of graphics and sound as tracks of a disc: a .cdg file with a sound of its name, or a ZIP file of
both."""
import shutil
import zipfile
import zlib
from pathlib import Path
from typing import NamedTuple, Sequence

from . import audio
from ..common.failures import Refusal, reading
from ..common.library import GRAPHICS, PACK, PACKS_A_BLOCK
from ..common.output import MOST_READ, read_file, tell

CDG, ZIP = ".cdg", ".zip"
ENDINGS = (CDG, ZIP)
# The instructions of graphics packs; only their lowest six bits count, as in each symbol.
MEMORY, BORDER, TILE, SCROLL, COPY, TRANSPARENT, TILE_XOR, LOW, HIGH = 1, 2, 6, 20, 24, 28, 38, 30, 31
CHANGES_OFFSETS = (SCROLL, COPY, TRANSPARENT)
# The first packs of a track begin before it: a player that skips to the track does not read them completely. From pack
# 8 on, presets and colours make it clean, at the latest here.
LOST, LATEST_START = 8, 48
# If the graphics leave no room, the graphics and the sound are delayed by this number of blocks.
LEAD = 4


class Pair(NamedTuple):
    """The packs of a pair, their symbols without the bits of P and Q, and the file of its sound."""

    packs: bytes
    sound: Path


def is_pair(path: Path) -> bool:
    return path.suffix.lower() in ENDINGS


def read_pair(path: Path, sound: Path | None = None) -> Pair:
    """The pair of a file. If the sound is not named, it is next to the file or in it."""
    if path.suffix.lower() == ZIP:
        graphics, packed = unpacked(path)
        return Pair(packs_in(path, graphics), sound or packed)
    found = sound or audio.sound_beside(path)
    packs = packs_in(path, read_file(path))
    if not found:
        raise Refusal(path, f"has no sound with its name next to it ({', '.join(audio.ENDINGS)})")
    return Pair(packs, found)


def unpacked(path: Path) -> tuple[bytes, Path]:
    """The graphics in a ZIP file, and its sound as a file that exists while the desk runs."""
    with reading(path):
        try:
            with zipfile.ZipFile(path) as together:
                return pair_in(path, together)
        except (zipfile.BadZipFile, zlib.error, RuntimeError, NotImplementedError, EOFError) as error:
            raise Refusal(path, f"is not a readable ZIP file: {error}") from None


def pair_in(path: Path, together: zipfile.ZipFile) -> tuple[bytes, Path]:
    inside = [one for one in together.infolist() if not one.is_dir() and "__MACOSX" not in one.filename]
    graphics = [one for one in inside if one.filename.lower().endswith(CDG)]
    sounds = [one for one in inside if one.filename.lower().endswith(audio.ENDINGS)]
    if len(graphics) != 1 or len(sounds) != 1:
        raise Refusal(path, f"has {len(graphics)} .cdg files and {len(sounds)} sounds, but a pair has one of each")
    if graphics[0].file_size > MOST_READ:
        raise Refusal(path, f"its .cdg file has more than {MOST_READ:,} bytes, which is too long")
    out = audio.new_file(Path(sounds[0].filename).suffix.lower())
    with together.open(sounds[0]) as source, open(out, "wb") as target:
        shutil.copyfileobj(source, target)
    return together.read(graphics[0]), out


def packs_in(path: Path, content: bytes) -> bytes:
    """The packs of a .cdg file, with six bits a symbol."""
    packs = content[: len(content) // PACK * PACK].translate(bytes(byte & 63 for byte in range(256)))
    if len(packs) < len(content):
        tell(f"{path}: has {len(content) - len(packs)} bytes after its last pack, which are ignored")
    if GRAPHICS not in packs[::PACK]:
        raise Refusal(path, "has no graphics")
    return packs


def instruction(pack: bytes) -> int:
    """The instruction of a pack of graphics, or 0 for any other pack."""
    return pack[1] if pack[0] == GRAPHICS else 0


def pack_of(number: int, symbols: Sequence[int]) -> bytes:
    return bytes([GRAPHICS, number, 0, 0, *symbols, *bytes(16 - len(symbols)), 0, 0, 0, 0])


def listed(packs: bytes) -> list[bytes]:
    return [packs[at : at + PACK] for at in range(0, len(packs), PACK)]


def clean(packs: list[bytes]) -> list[bytes] | None:
    """The packs with presets of the memory and the border and both packs of colours, inserted after the lost packs at
    places whose own packs change nothing, so that all others keep their times; None if there are not enough such
    places."""
    memory = border = 0
    colours = {LOW: bytes(16), HIGH: bytes(16)}
    for pack in packs[:LOST]:
        number = instruction(pack)
        if number == MEMORY:
            memory = pack[4] & 15
        elif number == BORDER:
            border = pack[4] & 15
        elif number in colours:
            colours[number] = pack[4:20]
        elif number in (TILE, TILE_XOR, *CHANGES_OFFSETS):
            return None
    wanted = [
        pack_of(MEMORY, [memory]),
        pack_of(BORDER, [border]),
        *(pack_of(one, colours[one]) for one in (LOW, HIGH)),
    ]
    spare = 2
    made = [bytes(PACK)] * min(LOST, len(packs)) + packs[LOST:]
    for place in range(LOST, min(len(packs), LATEST_START)):
        pack = packs[place]
        number, same = instruction(pack), {MEMORY: memory, BORDER: border}
        is_free = number == 0 or number in same and pack[4] & 15 == same[number]
        is_free = is_free or number in colours and pack[4:20] == colours[number]
        if not is_free:
            return None
        # Two more places stay idle, because `unmoved` needs them.
        made[place] = wanted.pop(0) if wanted else bytes(PACK)
        spare -= not wanted
        if spare < 0:
            return made
    return None


def as_track(path: Path, packs: bytes) -> tuple[list[bytes], int]:
    """The packs of a pair as a track that begins clean from any screen, and the number of blocks by which they are
    later."""
    some = listed(packs)
    found = clean(some + [bytes(PACK)] * max(0, LATEST_START - len(some)))
    if found:
        return found, 0
    found = clean([bytes(PACK)] * (PACKS_A_BLOCK * LEAD) + some)
    assert found
    return found, LEAD


def moves(packs: Sequence[bytes]) -> bool:
    """Whether packs scroll the screen or make it transparent, which presets do not undo."""
    return any(instruction(pack) in CHANGES_OFFSETS for pack in packs)


def unmoved(packs: list[bytes]) -> list[bytes]:
    """The packs of a track with two more packs at its first idle places, which undo the scroll of an earlier track."""
    idle = [place for place in range(LOST + 4, len(packs)) if not any(packs[place])][:2]
    colour = next((pack[4] & 15 for pack in packs[LOST:] if instruction(pack) == MEMORY), 0)
    for place, pack in zip(idle, (pack_of(SCROLL, [colour]), pack_of(TRANSPARENT, []))):
        packs[place] = pack
    return packs
