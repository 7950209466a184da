"""Random songs, decoded frame by frame: rows appear in the order of singing, words are lit at their times, and no two
lines are mixed. In desk/, `PYTHONPATH=.:tests python3 tests/random_songs.py COUNT [SEED]` tries COUNT songs and reports
each violation.

The player of the library draws the packs of the track. From the desk come only the pixels of the rows, their places and
the times of their words; its schedule is not used."""
import random
import sys
import tempfile
from dataclasses import dataclass, field
from pathlib import Path

from ribjasper.common.library import PACK, WIDTH
from ribjasper.common.player import Player
from ribjasper.drawing.styles import read_style
from ribjasper.songs.pages import Placed
from ribjasper.songs.song_files import read_song
from ribjasper.songs.song_script import Made, Wishes, best
from ribjasper.songs.tracks import track_packs

BLOCKS, PAUSE = 75, 150
# A word may be lit 3 blocks (40 ms) too late, and 10 blocks too early, or one block for each tile: a tile is one pack.
LATE, EARLY = 3, 10
WORDS = """river under morning light of the a we go home silver paper moon dancing slowly over hills and valleys
tomorrow never knows my heart is calling you again over wide water bright summer evening falling""".split()


def spelled(time: float) -> str:
    return f"{int(time) // 60:02}:{time % 60:05.2f}"


def random_song(dice: random.Random) -> str:
    """An LRC file: verses of 2 to 8 lines, rests of 3 to 30 s, 1 to 4 voices, with or without times of words. Each line
    has a number, so no two are equal."""
    voices, is_timed = dice.randint(1, 4), dice.random() < 0.6
    lines, time, number = [], dice.uniform(2, 14), 0
    if dice.random() < 0.5:
        lines.append("[ti:A random song]")
    for _ in range(dice.randint(2, 4)):
        for _ in range(dice.randint(2, 8)):
            number += 1
            words = [f"{number}."] + [dice.choice(WORDS) for _ in range(dice.randint(1, 6))]
            mark = f"v{dice.randint(1, voices)}: " if voices > 1 else ""
            if is_timed:
                row, start = f"[{spelled(time)}]{mark}", time
                for word in words:
                    row += f"<{spelled(start)}>{word} "
                    start += dice.uniform(0.18, 0.7)
                lines.append(f"{row}<{spelled(start)}>")
                time = start + dice.choice((0.0, 0.1, 0.5, 1.2))
            else:
                lines.append(f"[{spelled(time)}]{mark}{' '.join(words)}")
                time += dice.uniform(1.6, 4.5)
        if not is_timed:
            lines.append(f"[{spelled(time)}]")
        time += dice.uniform(3, 30)
    return "\n".join(lines) + "\n"


@dataclass(eq=False)
class Row:
    """A row of the song: its page and place, its pixels as the bits of a number, the times at which its words begin,
    and the first blocks at which a part of it, all of it, and all of it lit were seen."""

    page: int
    slot: int
    text: str
    ink: int
    dots: int
    words: list[tuple[float, float, int]]
    takes: list[int]
    start: float
    end: float
    is_whole: bool
    seen: int = 0
    stands: int = 0
    sung: int = 0
    lit: dict[int, int] = field(default_factory=dict)
    begun: dict[int, int] = field(default_factory=dict)


def bits(rows: list[bytes]) -> int:
    """One bit for each pixel that is not 0."""
    return int.from_bytes(b"".join(rows).translate(bytes([0]) + bytes([1]) * 255), "big")


def rows_of(made: Made) -> list[Row]:
    """The rows in the order of singing."""
    found, page = [], -1
    for one in made.maker.pages:
        sung = [placed for placed in one.placed if placed.letters and placed.is_sung]
        page += bool(sung)
        found += [row_of(placed, page) for placed in sung]
    return found


def tiles_of(area: list[bytearray], top: int) -> set[tuple[int, int]]:
    """The tiles of the screen in which an area has ink; `top` is its first row of pixels."""
    return {(x // 6, (top + y) // 12) for y, row in enumerate(area) for x, pixel in enumerate(row) if pixel}


def row_of(placed: Placed, page: int) -> Row:
    assert placed.letters
    area = [bytearray(288) for _ in placed.area]
    for at, row in enumerate(placed.letters.rows, placed.top - placed.area.start):
        area[at][:] = row
    ink = bits([bytes(row) for row in area])
    dots = [bytearray(288) for _ in placed.area]
    for left in placed.dots:
        for at in range(placed.top - 12 - placed.area.start, placed.top - placed.area.start):
            dots[at][left : left + 6] = b"\1" * 6
    words, takes = [], []
    for part in placed.letters.parts:
        mask = [bytearray(288) for _ in placed.area]
        for at, row in enumerate(area):
            mask[at][part.left : part.right] = row[part.left : part.right]
        words.append((part.syllable.start, part.syllable.end, bits([bytes(row) for row in mask])))
        takes.append(-(-len(tiles_of(mask, placed.area.start)) // 4))
    last = placed.letters.syllables[-1].end
    return Row(page, placed.slot, placed.text(), ink, bits([bytes(row) for row in dots]), words, takes,
               placed.letters.syllables[0].start, last, placed.letters.line.is_whole)  # fmt: skip


class Watch:
    """Checks a song frame by frame."""

    def __init__(self, made: Made, name: str):
        self.rows, self.name, self.faults = rows_of(made), name, list[str]()
        self.made, self.style = made, made.maker.style
        self.slots: dict[int, list[Row]] = {}
        for row in self.rows:
            self.slots.setdefault(row.slot, []).append(row)
        still = [placed for page in made.maker.pages for placed in page.placed if placed.letters and not placed.is_sung]
        self.still = [(placed.slot, still_ink(placed)) for placed in still]
        self.areas = {placed.slot: placed.area for page in made.maker.pages for placed in page.placed}
        self.shown: dict[int, Row | None] = {}
        # The block at which each row disappears.
        self.gone: dict[str, int] = {}
        self.worst = -1e9

    def fault(self, block: int, what: str) -> None:
        if len(self.faults) < 12:
            self.faults.append(f"{self.name}: {(block - PAUSE) / BLOCKS:.2f}: {what}")

    def frame(self, block: int, pixels: bytes) -> None:
        for slot, area in self.areas.items():
            rows = [pixels[WIDTH * (y + 12) + 6 : WIDTH * (y + 12) + 294] for y in area]
            self.look(block, slot, bits(rows), lit_bits(rows))
        self.order(block)

    def look(self, block: int, slot: int, ink: int, lit: int) -> None:
        """Finds the row in a place, and how much of it is lit."""
        if not ink:
            if stood := self.shown.get(slot):
                self.gone[stood.text] = block
            self.shown[slot] = None
            return
        fits = [row for row in self.slots.get(slot, []) if not_of(ink, row) <= 72]
        now = self.shown.get(slot)
        exact = [row for row in fits if not not_of(ink, row)]
        stills = [some for where, some in self.still if where == slot]
        if not exact and any((ink & ~some).bit_count() <= 72 for some in stills):
            self.shown[slot] = None
            return
        # The first columns of a text that is not sung may equal those of a row.
        if now not in exact and any(not ink & ~some for some in stills):
            self.shown[slot] = None
            return
        if not fits:
            self.fault(block, f"place {slot} shows two lines mixed")
            return
        row = (
            now
            if now in (exact or fits)
            else min(fits, key=lambda one: (not_of(ink, one), -(ink & one.ink).bit_count()))
        )
        assert row
        # A few pixels may match several rows.
        if not row.seen and exact == [row]:
            row.seen = block
        if ink & row.ink == row.ink and not row.stands:
            row.stands = block
        for number, (_, _, word) in enumerate(row.words):
            if number not in row.lit and word and lit & word == word:
                row.lit[number] = block
            if number not in row.begun and (lit & word).bit_count() > 3:
                row.begun[number] = block
        if lit & row.ink == row.ink and not row.sung:
            row.sung = block
        self.shown[slot] = row if row.seen else None

    def order(self, block: int) -> None:
        """The rows of the later of two pages are above the unsung rows of the earlier one, and the rows of a page are
        in order."""
        unsung = sorted((row for row in self.shown.values() if row and not row.sung), key=self.rows.index)
        for one, other in zip(unsung, unsung[1:]):
            if (one.page == other.page) != (one.slot < other.slot):
                self.fault(
                    block, f"'{other.text}' stands {'above' if one.page == other.page else 'below'} '{one.text}'"
                )

    def end(self) -> None:
        """What must have been shown at the end of the song."""
        before: Row | None = None
        starts: dict[int, float] = {}
        for row in self.rows:
            starts.setdefault(row.page, row.start)
        for row in self.rows:
            if not row.stands or not row.sung:
                self.fault(row.seen, f"'{row.text}' never stands whole and lit: {row.stands}, {row.sung}")
                continue
            if before and row.seen < before.stands:
                self.fault(row.seen, f"'{row.text}' comes before '{before.text}'")
            if row.page and row.seen < PAUSE + BLOCKS * starts[row.page - 1] - 1:
                self.fault(row.seen, f"'{row.text}' comes before the page in front of its own begins")
            self.times(row)
            before = row

    def times(self, row: Row) -> None:
        for number, (start, end, word) in enumerate(row.words):
            if row.is_whole or not word:
                continue
            off = row.begun.get(number, 10**6) - (PAUSE + BLOCKS * start)
            whole = row.lit.get(number, 10**6) - (PAUSE + BLOCKS * (end if self.made.maker.wishes.sweep else start))
            self.worst = max(self.worst, whole)
            # The first column of a word that is lit gradually may have no ink.
            column = BLOCKS * (end - start) / 3 * self.made.maker.wishes.sweep
            if not -max(EARLY, row.takes[number]) <= off <= LATE + 0.5 + column or whole > LATE + 0.5:
                offs = f"{1000 * off / BLOCKS:.0f} and {1000 * whole / BLOCKS:.0f} ms"
                self.fault(row.stands, f"word {number} of '{row.text}' is lit {offs} off")
        if row.is_whole and row.sung > PAUSE + BLOCKS * row.end + LATE + 0.5:
            self.fault(
                row.sung, f"'{row.text}' is swept {1000 * (row.sung - PAUSE - BLOCKS * row.end) / BLOCKS:.0f} ms late"
            )
        if row.stands > PAUSE + BLOCKS * row.start + LATE:
            self.fault(row.stands, f"'{row.text}' stands late")


def lit_bits(rows: list[bytes]) -> int:
    """One bit for each pixel in the colour of sung text."""
    return int.from_bytes(b"".join(rows).translate(bytes(8) + bytes([1]) * 8 + bytes(240)), "big")


def not_of(ink: int, row: Row) -> int:
    """The number of pixels that do not belong to a row: a tile of two packs shows other pixels between them."""
    return (ink & ~(row.ink | row.dots)).bit_count()


def still_ink(placed: Placed) -> int:
    assert placed.letters
    area = [bytearray(288) for _ in placed.area]
    for at, row in enumerate(placed.letters.rows, placed.top - placed.area.start):
        area[at][:] = row
    return bits([bytes(row) for row in area])


def watch(path: Path, wishes: Wishes) -> Watch:
    made = best(read_song(path), wishes)
    seconds = max(line.stays for line in made.maker.song.lines) + 4
    packs = track_packs(path, made.text(), round(BLOCKS * seconds) + 5 * BLOCKS)
    seen = Watch(made, path.name)
    with Player() as player:
        done = 0
        # A pack of a track is played in time with its sound: these are the packs that are complete at a block.
        for block in range(len(packs) // PACK // 4 + 1):
            until = 4 * block
            if player.draw(packs[PACK * done : PACK * until]).is_none:
                continue
            done = until
            if PAUSE + block >= made.maker.page_begin - BLOCKS:
                seen.frame(PAUSE + block, player.screen())
            done = until
    seen.end()
    return seen


def main() -> int:
    count, seed = int(sys.argv[1]), int(sys.argv[2]) if len(sys.argv) > 2 else 1
    faults = late = 0
    worst = -1e9
    with tempfile.TemporaryDirectory() as folder:
        for number in range(seed, seed + count):
            dice = random.Random(number)
            path = Path(folder) / f"{number}.lrc"
            path.write_text(random_song(dice))
            seen = watch(path, Wishes(read_style("night"), sweep=dice.random() < 0.2))
            warnings = [line for line in seen.made.warnings() if "no room" not in line]
            late += bool(seen.made.lateness.rows())
            faults += bool(seen.faults)
            worst = max(worst, seen.worst)
            for line in [*seen.faults, *warnings]:
                print(line, flush=True)
    print(
        f"{count} songs, {faults} with faults, {late} with lines that the desk reports as late; "
        f"a word is lit at most {1000 * worst / BLOCKS:.0f} ms late"
    )
    return bool(faults)


if __name__ == "__main__":
    sys.exit(main())
