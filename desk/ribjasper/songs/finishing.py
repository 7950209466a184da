"""The pair of a song as files: their names, and how they are written."""
import os
from dataclasses import dataclass
from pathlib import Path

from ..common import kinds
from ..common.failures import Refusal
from ..common.kinds import Kind
from ..common.output import Outputs
from .songs import Song
from .sound_files import write_sound, write_zip


@dataclass(frozen=True)
class PairFiles:
    """The name of a pair without an ending, the sound from which it is made, and how it is written: the sound as MP3,
    both in a ZIP file, silence in front."""

    name: str
    source: Path
    is_mp3: bool = False
    is_packed: bool = False
    intro: float = 0.0

    @property
    def ending(self) -> str:
        return ".mp3" if self.is_mp3 else self.source.suffix.lower()

    @property
    def cdg(self) -> str:
        return f"{self.name}.cdg"

    @property
    def sound(self) -> str:
        return f"{self.name}{self.ending}"

    @property
    def packed(self) -> str:
        return f"{self.name}.zip"

    @property
    def is_there(self) -> bool:
        """Whether the sound of the pair is already the file from which it would be made."""
        return os.path.exists(self.sound) and os.path.samefile(self.sound, self.source) and not self.is_mp3

    def writes(self) -> list[tuple[str, Kind]]:
        if self.is_there and self.intro and not self.is_packed:
            raise Refusal(self.sound, "is an input, and --intro would change it; -o names another pair")
        if self.is_packed:
            return [(self.packed, kinds.ZIP)]
        return [(self.cdg, kinds.CDG)] + [(self.sound, kinds.SOUND)] * (not self.is_there)

    def write(self, outputs: Outputs, packs: bytes, sound: Path, song: Song) -> None:
        """Writes the graphics and the treated sound."""
        if self.is_packed:
            write_zip(outputs, self.packed, packs, sound, song, self.ending)
            return
        outputs.write(self.cdg, packs)
        if not self.is_there:
            write_sound(outputs, self.sound, sound, song, self.ending)

    def names(self) -> str:
        """The names of the outputs."""
        if self.is_packed:
            return self.packed
        return f"{self.cdg} and {self.sound}{' (which is there already)' * self.is_there}"
