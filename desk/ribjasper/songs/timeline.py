"""Steps on a timeline: words are lit at their times, and the next rows are drawn in the gaps."""
from dataclasses import dataclass, field, replace
from typing import Iterator, Sequence

from ..common.library import BLOCKS_A_SECOND, PACKS_A_BLOCK
from ..common.times import nearest_block
from ..drawing.raster import TILE_WIDTH
from .pages import DotOut, Draw, Light, Placed, Step
from .setting import Letters, SungPart

# The greatest number of blocks by which a word may be lit before its time, so that others are lit in time.
EARLY = 8
# A delay of at most this number of blocks is invisible.
SEEN = 3
FOREVER, A_MINUTE = 10**9, 60 * 75


def blocks_for(steps: Sequence[Step]) -> int:
    return -(-sum(step.need for step in steps) // PACKS_A_BLOCK)


@dataclass(eq=False)
class SentPicture:
    """Steps that are sent together: the block at which they begin, and the one at which they are complete."""

    steps: list[Step]
    start: int
    ready: int


@dataclass(eq=False)
class Due:
    """Steps that light words together, and the block at which they are complete."""

    steps: list[Light | DotOut]
    block: int

    @property
    def placed(self) -> Placed:
        return self.steps[0].placed


@dataclass(eq=False)
class Task:
    """A place of a page to be filled: not before a block, and completely before another one, if possible."""

    placed: Placed
    steps: list[Draw]
    release: int
    block: int


@dataclass
class Timeline:
    """Pictures one after another."""

    now: int
    pictures: list[SentPicture] = field(default_factory=list)

    def put(self, steps: Sequence[Step], start: int) -> int:
        """Sends steps from a block on, or as soon as earlier ones are complete; returns when they are complete."""
        steps = [step for step in steps if step.need]
        if not steps:
            return self.now
        start = max(start, self.now)
        self.now = start + blocks_for(steps)
        self.pictures.append(SentPicture(steps, start, self.now))
        return self.now


def latest_starts(dues: list[Due]) -> list[int]:
    """The latest block to send each of these, so that it and all later ones are complete in time."""
    starts, limit = [], FOREVER
    for due in reversed(dues):
        limit = min(due.block, limit) - blocks_for(due.steps)
        starts.append(limit)
    return starts[::-1]


def grouped(dues: Sequence[Due]) -> list[Due]:
    """Words that would be lit much too early are lit together with the next ones on their line."""
    kept: list[tuple[Due, int]] = []
    for due in reversed(dues):
        while kept and due.block - kept[-1][1] > EARLY and kept[-1][0].placed is due.placed:
            due = Due(due.steps + kept.pop()[0].steps, due.block)
        limit = kept[-1][1] if kept else FOREVER
        kept.append((due, min(due.block, limit) - blocks_for(due.steps)))
    return [due for due, _ in reversed(kept)]


def paired(dues: Sequence[Due]) -> list[Due]:
    """Words that are lit in quick succession on a line are lit together if that fits into one block. Two columns as
    wide as a tile then need one block instead of two, and more blocks remain for drawing."""
    kept: list[Due] = []
    for due in dues:
        last = kept[-1] if kept else None
        together = [*last.steps, *due.steps] if last and last.placed is due.placed else []
        if last and together and due.block - last.block <= SEEN and blocks_for(together) == 1:
            kept[-1] = Due(together, last.block)
        else:
            kept.append(due)
    return kept


@dataclass
class Lateness:
    """The numbers of blocks by which rows are drawn too late and words are lit too late, the rows that are not sung
    completely before others replace them, and those that are not lit completely before the audio ends."""

    drawn_late: dict[Placed, int] = field(default_factory=dict)
    lit_late: dict[Placed, int] = field(default_factory=dict)
    lost: list[Placed] = field(default_factory=list)
    cut: dict[Placed, None] = field(default_factory=dict)

    def add(self, other: "Lateness") -> None:
        self.drawn_late |= other.drawn_late
        self.lit_late |= other.lit_late
        self.lost += other.lost
        self.cut |= other.cut

    def rows(self) -> set[Placed]:
        """The rows with a note."""
        return {*self.drawn_late, *self.lit_late, *self.lost, *self.cut}

    def total(self) -> int:
        """The total delay: in blocks, with a minute for each lost line."""
        return sum(self.drawn_late.values()) + sum(self.lit_late.values()) + A_MINUTE * len([*self.lost, *self.cut])


class Arranger:
    """Puts tasks and dues on a timeline. A place is completely cleared before other letters are drawn in it."""

    def __init__(self, line: Timeline, tasks: list[Task], dues: list[Due]):
        self.line, self.dues = line, dues
        self.tasks = {task.placed: task for task in tasks}
        # These rows are still to be lit, so they must not be drawn over.
        self.is_open = {due.placed for due in dues}
        self.lateness = Lateness()

    def run(self) -> Lateness:
        """Lights words in order, each after its letters are drawn."""
        last = {due.placed: due for due in self.dues}
        for due, start in zip(self.dues, latest_starts(self.dues)):
            if due.placed in self.is_open:
                self.fill(start)
                self.light(due, start)
                if last[due.placed] is due:
                    self.is_open.discard(due.placed)
        self.fill(FOREVER)
        return self.lateness

    def fill(self, until: int) -> None:
        """Draws the rows that may be drawn before a block, the most urgent first, column by column."""
        while waiting := self.waiting(until):
            begin = max(self.line.now, min(task.release for task in waiting))
            task = min((task for task in waiting if task.release <= begin), key=lambda task: task.block)
            self.take_over(task)
            count = fitting(task.steps, until - begin)
            if not count:
                return
            self.draw(task, count, begin)

    def waiting(self, until: int) -> list[Task]:
        """The tasks that may be drawn before a block."""
        return [task for task in self.tasks.values() if task.steps and task.release < until and self.may_come(task)]

    def may_come(self, task: Task) -> bool:
        """Whether the previous row is drawn, and the row in the same place is sung and is cleared where the new letters
        are."""
        before, follows = task.placed.before, task.placed.follows
        if task.placed.letters and follows in self.tasks and self.tasks[follows].steps:
            return False
        if not before:
            return True
        return not self.tasks[before].steps if task.placed.letters else before not in self.is_open

    def take_over(self, task: Task) -> None:
        """When a place is cleared, rows that were still to be drawn there are dropped, and an earlier clearing that was
        still to be done is done with it."""
        letters = task.placed.before
        if task.placed.letters or not letters:
            return
        self.tasks[letters].steps.clear()
        earlier = self.tasks.get(letters.before) if letters.before else None
        if not earlier or not earlier.steps:
            return
        self.take_over(earlier)
        needs = {step.left: step.need for step in earlier.steps}
        for step in task.steps:
            step.need = max(step.need, needs.get(step.left, 0))
        earlier.steps.clear()

    def draw(self, task: Task, count: int, start: int) -> None:
        now = self.line.put(list(task.steps[:count]), start)
        del task.steps[:count]
        self.note_drawn(task, now)

    def note_drawn(self, task: Task, now: int) -> None:
        if not task.steps and task.placed.letters and task.placed.is_sung:
            note(self.lateness.drawn_late, task.placed, now - task.block)

    def light(self, due: Due, start: int) -> None:
        task, placed = self.tasks[due.placed], due.placed
        right = max(step.right for step in due.steps)
        if any(step.left < right for step in task.steps):
            self.clear_for(placed)
            self.draw(task, len(task.steps), self.line.now)
        beside = self.beside(due, max(start, self.line.now))
        now = self.line.put([*due.steps, *(step for _, step in beside)], start)
        note(self.lateness.lit_late, placed, now - due.block)
        for task in {id(task): task for task, _ in beside}.values():
            self.note_drawn(task, now)

    def beside(self, due: Due, start: int) -> list[tuple[Task, Draw]]:
        """Draws columns with the packs that remain free in the blocks of a light."""
        room = PACKS_A_BLOCK * blocks_for(due.steps) - sum(step.need for step in due.steps)
        found: list[tuple[Task, Draw]] = []
        while room and (task := self.next_within(room, start)):
            room -= task.steps[0].need
            found.append((task, task.steps.pop(0)))
        return found

    def next_within(self, room: int, start: int) -> Task | None:
        """The most urgent task that may be drawn at a block, if its next column needs no more packs than are free."""
        for task in sorted(self.waiting(start + 1), key=lambda task: task.block):
            self.take_over(task)
            if task.steps[0].need <= room:
                return task
        return None

    def clear_for(self, placed: Placed) -> None:
        """Clears a place at once, whether or not its letters are sung."""
        clearing = self.tasks.get(placed.before) if placed.before else None
        if not clearing or not clearing.steps:
            return
        letters = clearing.placed.before
        if letters in self.is_open:
            self.is_open.discard(letters)
            self.lateness.lost.append(letters)
        self.take_over(clearing)
        self.draw(clearing, len(clearing.steps), self.line.now)


def note(late: dict[Placed, int], placed: Placed, blocks: int) -> None:
    """Records the greatest visible delay of a row."""
    if blocks > SEEN:
        late[placed] = max(blocks, late.get(placed, 0))


def fitting(steps: list[Draw], blocks: int) -> int:
    """The number of first steps that fit into this number of blocks."""
    room = PACKS_A_BLOCK * blocks
    for count, step in enumerate(steps):
        room -= step.need
        if room < 0:
            return count
    return len(steps)


def dues_of(placed: Placed, sweep: bool) -> list[Due]:
    """The times at which the parts of a line are lit: each syllable at its time, or column by column while it is sung;
    and the times at which its countdown dots disappear."""
    dues = [
        Due([DotOut(placed, left, left + TILE_WIDTH)], nearest_block(placed.start) - BLOCKS_A_SECOND * after)
        for after, left in zip(range(len(placed.dots) - 1, -1, -1), placed.dots)
    ]
    letters = placed.letters
    if not letters:
        return dues
    for part in swept(letters) if letters.line.is_whole else letters.parts:
        for block, light in lights_of(placed, part, sweep or letters.line.is_whole):
            if dues and dues[-1].block >= block:
                dues[-1].steps.append(light)
            else:
                dues.append(Due([light], block))
    return dues


def swept(letters: Letters) -> list[SungPart]:
    """The parts with one direction in a row whose words have no times: each is lit in proportion to its width."""
    stretches: list[SungPart] = []
    for part in letters.parts:
        last = stretches[-1] if stretches else None
        if last and last.is_leftward == part.is_leftward:
            last.left, last.right = min(last.left, part.left), max(last.right, part.right)
        else:
            stretches.append(SungPart(replace(part.syllable), part.left, part.right, part.is_leftward))
    if not stretches:
        return []
    start, end = letters.syllables[0].start, letters.syllables[-1].end
    wide, done = sum(part.right - part.left for part in stretches), 0
    for part in stretches:
        part.syllable.start = start + (end - start) * done / max(1, wide)
        done += part.right - part.left
        part.syllable.end = start + (end - start) * done / max(1, wide)
    return stretches


def lights_of(placed: Placed, part: SungPart, sweep: bool) -> Iterator[tuple[int, Light]]:
    """The steps that light a syllable, with their blocks: at once, or tile by tile in the direction of reading."""
    left, right, syllable = part.left, part.right, part.syllable
    if not sweep:
        yield nearest_block(syllable.start), Light(placed, left, right)
        return
    edges = [left, *range(left - left % TILE_WIDTH + TILE_WIDTH, right, TILE_WIDTH), right]
    columns = list(zip(edges, edges[1:]))
    for number, (begin, end) in enumerate(columns[::-1] if part.is_leftward else columns):
        done = number / len(columns)
        yield nearest_block(syllable.start + (syllable.end - syllable.start) * done), Light(placed, begin, end)
