"""A stream or a `.cdg` file that is shown: the beginning of its audio, and the picture at each time."""
from dataclasses import dataclass
from pathlib import Path
from typing import Iterator

from ..common.failures import Refusal
from ..common.library import BLOCK, BLOCKS_A_SECOND, PACK, PACKS_A_BLOCK, RAW
from ..common.player import Player
from ..common.output import read_file
from ..common.times import PAUSE
from .detection import form_of
from .dump import DumpFile
from .pieces import pieces_of
from .survey import Survey


@dataclass
class Stream:
    """Raw blocks or packs, the unit at which the audio begins, and the number of lead-in units."""

    content: bytes
    unit: int
    begin: int
    lead_in: int

    @property
    def units(self) -> int:
        return len(self.content) // self.unit

    def is_packs(self) -> bool:
        return self.unit == PACK

    def a_second(self) -> int:
        return BLOCKS_A_SECOND * (PACKS_A_BLOCK if self.is_packs() else 1)

    def seconds(self) -> float:
        """Its length in seconds, from the beginning of the audio on."""
        return max(0, self.units - self.begin) / self.a_second()

    def frames(self, rate: int, count: int) -> Iterator[bytes]:
        """The picture of each frame: red, green and blue of 300 by 216 pixels."""
        with Player() as player:
            player.begin(RAW, self.lead_in)
            done, picture = 0, player.picture()
            for number in range(count):
                until = min(self.units, self.begin + number * self.a_second() // rate)
                part = self.content[self.unit * done : self.unit * until]
                change = (player.draw if self.is_packs() else player.feed)(part)
                done = max(done, until)
                if not change.is_none:
                    picture = player.picture()
                yield picture


def open_stream(path: Path) -> Stream:
    """A raw stream, an image of sectors, or a `.cdg` file, depending on its content. A stream that begins with the
    audio, as in an image, has no pause."""
    dump = DumpFile(path)
    found, _ = form_of(dump)
    if found is None:
        packs = read_file(path)
        if not packs or len(packs) % PACK:
            raise Refusal(
                path, f"is neither a stream nor a .cdg file: {len(packs)} bytes are not whole packs of {PACK}"
            )
        return Stream(packs, PACK, 0, 0)
    dump.skip = found.skip
    blocks = dump.blocks(found.form)
    if found.form.is_packs():
        packs = blocks[: PACK * dump.units(found.form)] if found.form.unit == PACK else blocks
        return Stream(packs, PACK, 0, 0)
    pieces = pieces_of(Survey(blocks, RAW, 0).stretches())
    if not pieces:
        raise Refusal(path, "has only a lead-in, and no program")
    zero = -pieces[0].shift
    return Stream(blocks, BLOCK, max(0, zero + PAUSE), max(0, zero))
