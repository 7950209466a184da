"""A dump whose good Q frames, according to its survey, are decoded one by one."""
import re
from typing import Iterator

from ..common import library
from ..common.library import BLOCK, QFrame
from ..common.times import PAUSE
from .loading import Loaded
from .pieces import pieces_of
from .survey import Clock, Stretch

# A code belongs to the track that has frames within this distance on both sides.
NEAR = 4


class Source:
    """A stream whose good Q frames, according to its survey, are decoded one by one."""

    def __init__(self, loaded: Loaded):
        self.stream, self.survey = loaded.stream, loaded.survey
        self.clock = Clock(loaded.survey)
        self.pieces = pieces_of(self.clock.stretches)
        # Frames of another place do not count.
        self.stretches = [it for it in self.clock.stretches if self.is_in_order(it)]

    def is_in_order(self, stretch: Stretch) -> bool:
        return any(it.first <= stretch.first < it.end and it.shift == stretch.shift for it in self.pieces)

    def frame(self, block: int) -> QFrame | None:
        return library.q_frame(self.stream[BLOCK * block : BLOCK * (block + 1)])

    def frames(self, kind: int) -> Iterator[tuple[int, QFrame]]:
        """The frames of a kind, each with the number of its block."""
        for found in re.finditer(re.escape(bytes([kind])), self.survey.column("q")):
            if frame := self.frame(found.start()):
                yield found.start(), frame

    def has_p(self, block: int) -> bool:
        """Whether most of a block's P bits are set."""
        return sum(byte >> 7 for byte in self.stream[BLOCK * block : BLOCK * (block + 1)]) > BLOCK // 2

    def track_near(self, block: int, step: int) -> int | None:
        """The track of the nearest frame with a time, on one side of a block."""
        tracks, kinds = self.survey.column("track"), self.survey.column("q")
        for at in range(block + step, block + (NEAR + 1) * step, step):
            if 0 <= at < self.survey.blocks and kinds[at] == library.Q_PROGRAM:
                return tracks[at]
        return None

    def block_of(self, time: int) -> int:
        """The block of the file at an absolute time; if that time is missing, the next one."""
        for piece in self.pieces:
            if time < piece.end + piece.shift:
                return max(piece.first if piece is not self.pieces[0] else 0, time - piece.shift)
        return time - self.pieces[-1].shift

    def end_at(self, time: int) -> int:
        """The block of the file behind the last one before an absolute time."""
        found = self.block_of(time)
        for piece in self.pieces:
            if piece.time < time:
                is_within = time <= piece.end + piece.shift or piece is self.pieces[-1]
                found = time - piece.shift if is_within else piece.end
        return found

    def origin(self) -> int:
        """The block at which the audio of the file begins: that of the absolute time 00:02:00, or the first one of the
        program if the file begins later."""
        first = self.pieces[0]
        return max(self.survey.first, PAUSE - first.shift) if first.shift < PAUSE else self.survey.first

    def in_file(self, time: int) -> int:
        """The time of the file, in blocks from the beginning of its audio."""
        return max(0, self.block_of(time) - self.origin())

    def end_in_file(self, time: int) -> int:
        """The time of the file at which everything before an absolute time ends."""
        return max(0, self.end_at(time) - self.origin())
