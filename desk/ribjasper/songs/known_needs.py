"""The numbers of packs that steps need, kept from one edit to the next: unchanged rows over an unchanged screen are not
planned again."""
import hashlib
import itertools
from dataclasses import dataclass
from typing import Callable, Iterable, Sequence

from ..common import times
from ..common.planning import MOST_PICTURES, PlannedPicture
from ..common.times import spelled
from ..drawing.raster import Raster, TILE_HEIGHT, span_lines, lines_between, spans
from .pages import ColumnStep, Placed

# The greatest number of places of pages whose needs are kept.
MOST_KEPT = 2_000
FIRST = "00:01:00"


@dataclass
class StepNeeds:
    """The needs of the steps of a place, and its rows behind them."""

    needs: list[int]
    after: list[bytes]


class Known:
    """Needs by what they depend on: the whole screen before a place is drawn, and the pixels of its steps."""

    def __init__(self) -> None:
        self.answers: dict[bytes, StepNeeds] = {}

    def find(self, key: bytes) -> StepNeeds | None:
        found = self.answers.pop(key, None)
        if found:
            # What was used last is forgotten last.
            self.answers[key] = found
        return found

    def keep(self, key: bytes, answer: StepNeeds) -> None:
        self.answers[key] = answer
        while len(self.answers) > MOST_KEPT:
            del self.answers[next(iter(self.answers))]


def area_of(placed: Placed) -> range:
    """The rows that the steps of a place may change: its own, and those of the dots above it."""
    first = placed.top - TILE_HEIGHT if placed.dots else placed.area.start
    return range(min(first, placed.area.start), placed.area.stop)


def need_key(placed: Placed, steps: Sequence[ColumnStep], ground: Raster) -> bytes:
    """All that the needs of the steps of a place depend on."""
    area = area_of(placed)
    digest = hashlib.blake2b(b"".join(ground.rows), digest_size=24)
    for row in itertools.chain(placed.rows, placed.lit, placed.empty.rows[area.start : area.stop]):
        digest.update(row)
    kinds = [(type(step).__name__, step.left, step.right) for step in steps]
    digest.update(repr((placed.top, area, placed.area, kinds)).encode())
    return digest.digest()


@dataclass
class Waiting:
    """The steps of a place whose pictures are in the script, from one number on."""

    key: bytes
    steps: list[ColumnStep]
    first: int
    after: list[bytes]


class Asker:
    """Plans the unknown needs of many steps together, in one script."""

    def __init__(self, ground: Raster, known: Known, ask: Callable[[list[str]], Sequence[PlannedPicture]]) -> None:
        self.known, self.ask = known, ask
        self.ground = ground.copy()
        self.begin()

    def begin(self) -> None:
        self.scripted = self.ground.copy()
        self.lines = [*lines_between(Raster(), self.ground), f"show {FIRST} {FIRST}"]
        self.waiting: list[Waiting] = []
        # Pictures follow each other block by block, a second behind the first.
        self.count, self.block = 1, times.blocks(FIRST) + times.blocks("00:00:74")

    def show(self, lines: Iterable[str]) -> None:
        """Adds a picture."""
        self.block += 1
        self.lines += [*lines, f"show {spelled(self.block)} {spelled(self.block)}"]
        self.count += 1

    def add(self, placed: Placed, steps: list[ColumnStep]) -> None:
        """Steps of one place, which follow each other."""
        if self.count + len(steps) + 1 >= MOST_PICTURES:
            self.end()
        key, area = need_key(placed, steps, self.ground), area_of(placed)
        if found := self.known.find(key):
            for step, need in zip(steps, found.needs):
                step.need = need
            for number, row in zip(area, found.after):
                self.ground.rows[number][:] = row
            return
        # The script must contain the pixels of the known steps before these.
        if stale := list(spans(self.scripted.rows, self.ground.rows)):
            self.show(span_lines(stale))
        first = self.count
        for _, alike in itertools.groupby(steps, key=type):
            some = list(alike)
            rows = some[0].differing(self.ground)
            for step in some:
                self.show(step.lines(self.ground, rows))
        self.scripted = self.ground.copy()
        after = [bytes(self.ground.rows[number]) for number in area]
        self.waiting.append(Waiting(key, steps, first, after))

    def end(self) -> None:
        """Plans all waiting steps."""
        rows = self.ask(self.lines) if self.waiting else []
        for one in self.waiting:
            needs = [row.need for row in rows[one.first : one.first + len(one.steps)]]
            for step, need in zip(one.steps, needs, strict=True):
                step.need = need
            self.known.keep(one.key, StepNeeds(needs, one.after))
        self.begin()


def ask_known(
    steps: Sequence[ColumnStep], ground: Raster, known: Known, ask: Callable[[list[str]], Sequence[PlannedPicture]]
) -> None:
    """Sets the needs of steps that are drawn one after another on a screen."""
    asker = Asker(ground, known, ask)
    for placed, some in itertools.groupby(steps, key=lambda step: step.placed):
        asker.add(placed, list(some))
    asker.end()
