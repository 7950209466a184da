"""A dump in another form, or a part of one, in parts that follow each other: raw, planar, sectors, cooked and
`.cdg`."""
from typing import Callable, Iterator, NamedTuple

from ..common.cue_sheets import ONE_TRACK
from ..common.failures import Refusal, reading
from ..common.library import BLOCK, PACK, PACKS_A_BLOCK, RAW, SPREAD
from ..common.output import read_file
from ..common.program import press
from ..common.times import PAUSE
from .forms import AUDIO, Coding, FORMS, Form, in_order, to_planar, to_pq
from .identity import program_packs
from .loading import Loaded

AT_ONCE = 4096


class Sources(NamedTuple):
    """The inputs that a conversion may need in addition to the dump: a file of samples, or silence, for the audio of
    sectors; and the cue sheet of the disc for blocks that are pressed from packs."""

    audio: str | None = None
    is_silent: bool = False
    sheet: str | None = None


def blocks_between(loaded: Loaded, first: int, end: int) -> Loaded:
    """The blocks of a dump from one up to another."""
    lead_in = max(0, min(loaded.survey.lead_in, end) - first)
    stream = loaded.stream[BLOCK * first : BLOCK * end]
    return loaded._replace(stream=stream, survey=type(loaded.survey)(stream, loaded.form.library, lead_in))


def packs(loaded: Loaded, target: Form) -> Iterator[bytes]:
    """The packs of a dump for a `.cdg` file, or in blocks of four; the last block is filled up with zeros."""
    length = 0
    for part in program_packs(loaded):
        length += len(part)
        yield bytes(part)
    if target.coding is Coding.COOKED:
        yield bytes(-length % BLOCK)


def whole_packs(loaded: Loaded) -> Loaded:
    """Without the zeros with which the last block of a `.cdg` file was filled up."""
    units = loaded.dump.units(loaded.form)
    return loaded._replace(stream=loaded.stream[: PACK * units]) if loaded.form.coding is Coding.CDG else loaded


def pressed(loaded: Loaded, sheet: str | None) -> bytes:
    """Raw blocks that carry packs, with P and Q of the disc of a sheet, or of one track; they begin at 00:00:00."""
    content = b"".join(packs(loaded, FORMS["cdg"]))
    length = -(-len(content) // PACK // PACKS_A_BLOCK) + 2 * SPREAD
    stream, status, message = press(read_file(sheet) if sheet else ONE_TRACK, content, 0, length)
    if status:
        raise Refusal(sheet or loaded.path, message)
    return stream


def coded(raw: bytes, target: Form) -> bytes:
    """Raw blocks in the subcode encoding of a form."""
    turn: Callable[[bytes], bytes] = {Coding.PLANAR: to_planar, Coding.PQ: to_pq}.get(target.coding, bytes)
    return in_order(turn(raw), target.order)


class Audio:
    """The audio of sectors: from the dump, from a file of samples, or silence. Missing audio is silence."""

    def __init__(self, loaded: Loaded, sources: Sources, first: int) -> None:
        self.path = sources.audio or (loaded.path if loaded.form.is_in_sectors() else None)
        if self.path is None and not sources.is_silent:
            raise Refusal(loaded.path, "has no audio for sectors: give --audio FILE or --silent")
        self.unit = AUDIO if sources.audio else loaded.form.unit
        self.start = header_of(sources.audio) if sources.audio else loaded.dump.skip + first * loaded.form.unit

    def sectors(self, number: int, count: int) -> list[bytes]:
        """The audio of `count` sectors from this sector on."""
        if self.path is None:
            return [bytes(AUDIO)] * count
        with reading(self.path), open(self.path, "rb") as file:
            file.seek(self.start + number * self.unit)
            content = file.read(count * self.unit)
        return [content[at : at + AUDIO].ljust(AUDIO, b"\0") for at in range(0, count * self.unit, self.unit)]


def header_of(path: str) -> int:
    """The bytes before the samples of a WAV file, or none."""
    with reading(path), open(path, "rb") as file:
        head = file.read(4096)
    if not head.startswith(b"RIFF"):
        return 0
    at = head.find(b"data")
    return at + 8 if at >= 0 else 0


def with_audio(parts: Iterator[bytes], size: int, audio: Audio) -> Iterator[bytes]:
    """Sectors: the audio of each, followed by its subcode."""
    number = 0
    for part in parts:
        whole = len(part) // size
        sounds = audio.sectors(number, whole)
        yield b"".join(sound + part[at * size : (at + 1) * size] for at, sound in enumerate(sounds))
        number += whole


def in_parts(content: bytes, size: int) -> Iterator[bytes]:
    for start in range(0, len(content), size):
        yield content[start : start + size]


def gathered(parts: Iterator[bytes], size: int) -> Iterator[bytes]:
    """The same bytes, in parts whose length is a multiple of a size."""
    rest = b""
    for part in parts:
        rest += part
        whole = len(rest) - len(rest) % size
        if whole:
            yield rest[:whole]
            rest = rest[whole:]


def converted(loaded: Loaded, target: Form, sources: Sources = Sources(), first: int = 0) -> Iterator[bytes]:
    """The loaded blocks in another form, in parts; `first` is the number of the first one in the file."""
    if target.is_packs():
        parts = (in_order(part, target.order) for part in packs(loaded, target))
        subcode = gathered(parts, target.size)
    else:
        raw = loaded.stream if loaded.form.library == RAW else pressed(loaded, sources.sheet)
        if loaded.form.library != RAW and target.is_in_sectors():
            # An image begins with the audio.
            raw = raw[BLOCK * PAUSE :]
        subcode = (coded(part, target) for part in in_parts(raw, BLOCK * AT_ONCE))
    if target.is_in_sectors():
        return with_audio(subcode, target.size, Audio(loaded, sources, first))
    return subcode
