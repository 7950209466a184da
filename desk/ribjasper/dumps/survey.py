"""The library's survey of a stream, in columns, without a loop over blocks in Python. The blocks before the first block
that was read, and after the last one, are not surveyed: they are unread, and do not count as damage."""
import bisect
import ctypes
import functools
import re
from typing import TYPE_CHECKING, Iterator, NamedTuple

from ..common import library
from ..common.library import BLOCK, RAW, SurveyRow, Surveyed
from ..common.output import package
from .columns import Run, either, flags

if TYPE_CHECKING:
    import numpy
    import numpy.typing

ROW = ctypes.sizeof(SurveyRow)
# The offsets of the columns in a row.
COLUMNS = {name: getattr(SurveyRow, name).offset for name, *_ in SurveyRow._fields_}
GOOD_Q = range(library.Q_OTHER + 1)
_NO_TIME = library.NO_TIME.to_bytes(4, "little")
_UNREAD = _NO_TIME + bytes(COLUMNS["q"] - 4) + bytes([library.Q_NONE]) + bytes(ROW - COLUMNS["q"] - 1)
# The bytes in which no bit of channel Q is set, and none of the channels R to W.
_WITHOUT_Q = bytes(byte for byte in range(256) if not byte & 0x40)
_WITHOUT_RW = bytes(byte for byte in range(256) if not byte & 0x3F)
_SET = re.compile(rb"[^\x00]")
# The number of bytes that are read at a time.
AT_ONCE = 1 << 16
_BAD_Q = bytes(1 if value in (library.Q_BAD_FIELD, library.Q_BAD_CHECK) else 0 for value in range(256))


class Stretch(NamedTuple):
    """Blocks with consecutive absolute times: the first and the last, and the time of the first."""

    first: int
    last: int
    time: int

    @property
    def shift(self) -> int:
        """The time of a block minus its number."""
        return self.time - self.first


def has_q(stream: bytes) -> bool:
    """Whether a bit of channel Q is set anywhere."""
    return has_other(stream, _WITHOUT_Q)


def has_graphics_bits(stream: bytes) -> bool:
    """Whether a bit of the channels R to W is set anywhere."""
    return has_other(stream, _WITHOUT_RW)


def has_other(stream: bytes, those: bytes) -> bool:
    """Whether a stream has other bytes than those."""
    return any(stream[start : start + AT_ONCE].translate(None, those) for start in range(0, len(stream), AT_ONCE))


def read_part(stream: bytes) -> tuple[int, int]:
    """The first block that is not all zeros, and the block after the last one."""
    parts = range(0, len(stream), AT_ONCE)
    begin = next(
        (start for start in parts if stream.count(0, start, start + AT_ONCE) < len(stream[start : start + AT_ONCE])), 0
    )
    first = _SET.search(stream, begin)
    if first is None:
        return 0, 0
    end = len(stream) - len(stream) % BLOCK
    while end and not any(stream[end - BLOCK : end]):
        end -= BLOCK
    return first.start() // BLOCK, end // BLOCK


class Survey:
    """The rows of a stream, one for each block."""

    def __init__(self, stream: bytes, form: int, lead_in: int, is_trimmed: bool = True):
        self.form, self.lead_in = form, lead_in
        self.blocks = len(stream) // BLOCK
        self.has_q = form == RAW and has_q(stream)
        self.first, self.end = read_part(stream) if is_trimmed and self.has_q else (0, self.blocks)
        self.rows = _UNREAD * self.first + self._surveyed(stream) + _UNREAD * (self.blocks - self.end)
        self.columns: dict[str, bytes] = {}

    def _surveyed(self, stream: bytes) -> bytes:
        """The rows of the blocks that were read."""
        count = self.end - self.first
        room = ctypes.create_string_buffer(max(1, ROW * count))
        start = library.address(stream) + BLOCK * self.first
        lead_in = max(0, self.lead_in - self.first)
        status = library.call("ribjasper_survey")(start, BLOCK * count, self.form, lead_in, room, count, Surveyed())
        if status != library.DONE:
            raise ValueError(f"ribjasper_survey returned the status {status}")
        return ctypes.string_at(room, ROW * count)

    def forget(self) -> None:
        """Frees the rows of the blocks, and keeps their number."""
        self.rows, self.columns = b"", {}
        for name in ("bad_frames", "empty", "_stretches"):
            self.__dict__.pop(name, None)

    def table(self) -> "numpy.typing.NDArray[numpy.void]":
        """The rows as a structured array of numpy, one row a block, which cannot be written to. Its columns:
        `absolute`, the time that the block's Q frame names, in blocks (4,294,967,295 if it names none); `clean`, `one`,
        `two` and `bad`, how many of the words that are complete with the block have no wrong symbol, one, two, or no
        codeword; `q`, the kind of the frame (0 to 7 as in `Frame.kind`, 253 unread, 254 a bad field, 255 a bad check);
        `track` and `index`; and `empty`, 1 if all 96 bytes are zeros. Raises Missing if numpy is not installed."""
        module = package("numpy", "python3-numpy")
        rows: "numpy.typing.NDArray[numpy.void]" = module.frombuffer(self.rows, module.dtype(SurveyRow))
        return rows

    @property
    def read(self) -> int:
        """The number of blocks from the first one that was read to the last one."""
        return self.end - self.first

    def unread_column(self) -> bytes:
        """A byte for each block, 1 if it is unread."""
        return b"\1" * self.first + bytes(self.read) + b"\1" * (self.blocks - self.end)

    def unread(self) -> list[Run]:
        """The unread blocks at both ends."""
        edges = Run(0, self.first - 1), Run(self.end, self.blocks - 1)
        return [run for run in edges if run.last >= run.first]

    def column(self, name: str) -> bytes:
        if name not in self.columns:
            self.columns[name] = self.rows[COLUMNS[name] :: ROW]
        return self.columns[name]

    def total(self, name: str) -> int:
        return sum(self.column(name))

    def good_frames(self) -> int:
        kinds = self.column("q")
        return sum(kinds.count(kind) for kind in GOOD_Q)

    @functools.cached_property
    def bad_frames(self) -> bytes:
        """A byte for each block, 1 if its Q frame is bad; no block is bad if Q was not read at all."""
        return self.column("q").translate(_BAD_Q) if self.has_q else bytes(self.blocks)

    @functools.cached_property
    def empty(self) -> bytes:
        """A byte for each block, 1 if all its bytes are zero; idle packs without Q are no sign of damage."""
        return self.column("empty") if self.has_q else bytes(self.blocks)

    def corrected(self, run: Run) -> int:
        return self.within(run, "one") + self.within(run, "two")

    def within(self, run: Run, name: str) -> int:
        return sum(self.column(name)[run.first : run.last + 1])

    def stretches(self) -> list[Stretch]:
        """The blocks whose times are known, in runs of consecutive times."""
        return list(self._stretches)

    @functools.cached_property
    def _stretches(self) -> list[Stretch]:
        return [
            Stretch(found.start(), found.end() - 1, self.absolute(found.start()))
            for found in re.finditer(rb"\x01\x00*", self._steps())
        ]

    def absolute(self, block: int) -> int:
        """The absolute time in the Q frame of a block, or NO_TIME."""
        return int.from_bytes(self.rows[ROW * block : ROW * block + 4], "little")

    def _steps(self) -> bytes:
        """A byte for each block: 0 if its time is one more than that of the previous block, 1 if another time is known,
        and above 1 if no time is known."""
        if not self.blocks:
            return b""
        # Times have three bytes, so the highest of four is free for the carry.
        lanes = bytearray(4 * self.blocks)
        for place in range(3):
            lanes[place::4] = self.rows[place::ROW]
        times = int.from_bytes(lanes, "little")
        ones = int.from_bytes(b"\1\0\0\0" * self.blocks, "little")
        differs = ((times >> 32) ^ (times + ones)).to_bytes(4 * self.blocks + 1, "little")
        breaks = flags(either(*(differs[place : 4 * self.blocks : 4] for place in range(4))))
        unknown = self.rows[3::ROW].translate(bytes(2 if value else 0 for value in range(256)))
        return either(b"\1" + breaks[:-1], unknown)


class Clock:
    """The absolute times and tracks of blocks, including those whose own frame has none."""

    def __init__(self, survey: Survey):
        self.survey = survey
        self.stretches = survey.stretches()
        self.starts = [stretch.first for stretch in self.stretches]

    def stretch(self, block: int) -> Stretch | None:
        """The run that contains or precedes a block, or otherwise the first one."""
        place = bisect.bisect_right(self.starts, block) - 1
        return self.stretches[max(place, 0)] if self.stretches else None

    def time(self, block: int) -> int | None:
        """The absolute time of a block, by the nearest known one before it, or else after it."""
        stretch = self.stretch(block)
        if stretch is None or block + stretch.shift < 0:
            return None
        return block + stretch.shift

    def track(self, block: int) -> int | None:
        stretch = self.stretch(block)
        if stretch is None:
            return None
        known = min(max(block, stretch.first), stretch.last)
        return self.survey.column("track")[known]

    def jumps(self) -> Iterator[tuple[int, int, Stretch]]:
        """The jumps of the time: the last known block before each and its time, and the stretch after it."""
        for before, after in zip(self.stretches, self.stretches[1:]):
            if before.shift != after.shift:
                yield before.last, before.last + before.shift, after
