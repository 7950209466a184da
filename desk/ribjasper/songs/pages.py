"""Pages of a few rows, and the steps that draw, light and clear them on the screen."""
import functools
from dataclasses import dataclass, field
from typing import Iterable

from ..drawing.bidi import is_leftward
from ..drawing.lettering import Font
from ..drawing.raster import Raster, Span, TILE_HEIGHT, TILE_WIDTH, WIDTH, span_lines
from ..drawing.styles import INKS, Inks, Style
from .setting import Letters, Setter, text_of_words, wrapped
from .songs import Line, Syllable

# The minimum lengths of a rest, in seconds: after REST a new page begins although the page is not full; after
# COUNTED_REST dots count down to the next line; after SHOWN_REST a page shows how long the rest is.
REST, COUNTED_REST, SHOWN_REST = 3.0, 6.0, 12.0
# The rest of a page disappears GOES seconds after its last word; a page after a long rest appears COMES seconds before
# its first word.
GOES, COMES = 2.0, 6.0
# On a short page, a row appears this long after the row before it in its place was sung.
ROOM_BEFORE = 1.5
# The dots of a countdown disappear a second after each other.
DOTS = 3
DOT = (
    "......",
    "......",
    "......",
    ".####.",
    "######",
    "######",
    "######",
    "######",
    ".####.",
    "......",
    "......",
    "......",
)
# Pixels without ink.
NO_INK = bytes([255, *bytes(255)])
# The number of columns that are drawn in one step.
STEP = TILE_WIDTH
# A row of pixels with its number.
Row = tuple[int, bytes]


def over(ground: bytes, inks: bytes) -> bytes:
    """Inks over a row of the background, which is visible where they are 0."""
    seen = int.from_bytes(ground, "big") & int.from_bytes(inks.translate(NO_INK), "big")
    return (seen | int.from_bytes(inks, "big")).to_bytes(len(inks), "big")


@dataclass(eq=False)
class Placed:
    """Letters in one of the places of a page, or None to empty the place; the times at which they are sung, in seconds;
    and the letters before them. Letters that are not sung are only shown. They are drawn neither before `begin` nor
    before the row that they follow in the order of singing."""

    slot: int
    top: int
    letters: Letters | None
    start: float
    end: float
    area: range
    empty: Raster
    before: "Placed | None" = None
    is_sung: bool = True
    begin: float = 0.0
    dots: list[int] = field(default_factory=list)
    draws: "list[Draw]" = field(default_factory=list)
    inks: Inks = INKS[1]
    follows: "Placed | None" = None

    @property
    def lit_end(self) -> float:
        """The time at which the whole row is lit; a line whose end is a guess may remain longer. An empty place has the
        time of its previous line."""
        if not self.letters:
            return self.before.lit_end if self.before else self.end
        return self.letters.syllables[-1].end

    def text(self) -> str:
        return "".join(syllable.text for syllable in self.letters.syllables).strip() if self.letters else ""

    @functools.cached_property
    def rows(self) -> list[bytes]:
        """The rows of its area after it is drawn."""
        rows = [bytearray(row) for row in self.empty.rows[self.area.start : self.area.stop]]
        if self.letters:
            for row, inks in zip(rows[self.top - self.area.start :], self.letters.rows):
                row[:] = over(row, inks)
        for dot in self.dots:
            for row, marks in zip(rows[self.top - TILE_HEIGHT - self.area.start :], DOT):
                row[dot : dot + TILE_WIDTH] = bytes(
                    self.inks.full(0) if mark == "#" else old for mark, old in zip(marks, row[dot : dot + TILE_WIDTH])
                )
        return [bytes(row) for row in rows]

    @functools.cached_property
    def lit(self) -> list[bytes]:
        """The same rows when everything is sung, without the dots."""
        rows = list(self.empty.rows[self.area.start : self.area.stop])
        first = self.top - self.area.start
        for number, inks in enumerate(self.letters.rows if self.letters else [], first):
            rows[number] = bytearray(over(rows[number], inks.translate(self.inks.lit)))
        return [bytes(row) for row in rows]


class Step:
    """A change of the screen, and the packs that it needs."""

    need = 0

    def apply(self, raster: Raster) -> None:
        raise NotImplementedError


@dataclass(eq=False)
class Show(Step):
    """The whole screen is replaced."""

    picture: Raster

    def apply(self, raster: Raster) -> None:
        raster.rows = [bytearray(row) for row in self.picture.rows]
        raster.colours, raster.border = list(self.picture.colours), self.picture.border


@dataclass(eq=False)
class ColumnStep(Step):
    """Some columns of a place change."""

    placed: Placed
    left: int
    right: int

    def rows(self) -> Iterable[Row]:
        """The rows that may change, with their content in these columns."""
        raise NotImplementedError

    def differing(self, raster: Raster) -> list[Row]:
        """Those of its rows that differ from the screen."""
        return [(number, row) for number, row in self.rows() if raster.rows[number] != row]

    def apply(self, raster: Raster) -> None:
        self.draw(raster, self.rows())

    def draw(self, raster: Raster, rows: Iterable[Row]) -> None:
        """Draws its columns of some of its rows."""
        for number, row in rows:
            raster.rows[number][self.left : self.right] = row[self.left : self.right]

    def lines(self, raster: Raster, rows: list[Row]) -> list[str]:
        """The lines of a script that draw this on the screen, which is updated; only these rows can differ."""
        spans, left, right = [], self.left, self.right
        for number, row in rows:
            pixels, drawn = row[left:right], raster.rows[number]
            if drawn[left:right] != pixels:
                drawn[left:right] = pixels
                spans.append(Span(left, number, pixels))
        return list(span_lines(spans))


class Draw(ColumnStep):
    """Letters appear on, or disappear from, the empty page."""

    def rows(self) -> Iterable[Row]:
        return zip(self.placed.area, self.placed.rows)


class Light(ColumnStep):
    """Columns of tiles that change to the colour of sung text."""

    def rows(self) -> Iterable[Row]:
        placed = self.placed
        return zip(range(placed.top, placed.area.stop), placed.lit[placed.top - placed.area.start :])


class DotOut(ColumnStep):
    """One of the dots of a countdown disappears."""

    def rows(self) -> Iterable[Row]:
        empty = self.placed.empty.rows
        return ((number, bytes(empty[number])) for number in range(self.placed.top - TILE_HEIGHT, self.placed.top))


@dataclass
class Group:
    """The rows of a page, before they get their places; the place of their countdown; and the second before which
    nothing of them is drawn."""

    rows: list[tuple[Line, list[list[Syllable]]]] = field(default_factory=list)
    is_sung: bool = True
    is_counted: bool = False
    begin: float = 0.0
    end: float = 0.0


def groups_of(lines: list[Line], font: Font, style: Style, rests: bool = True, end: float = 0.0) -> list[Group]:
    """The rows of a verse in groups, one for each page. The rows of a line are on one page if possible, and after a
    rest a new page begins. `end` is the end of the singing before the verse."""
    pages: list[Group] = []
    most = style.rows
    for number, line in enumerate(lines):
        rest = line.start - end
        rows = [(line, row) for row in wrapped(line, font)]
        is_full = number and len(pages[-1].rows) + len(rows) > most >= len(rows)
        if not number or rest >= REST or is_full or line.new_page:
            pages.append(Group())
            if rests and rest > COUNTED_REST:
                pages[-1].is_counted = True
            if rests and rest >= SHOWN_REST and number:
                pages.insert(-1, rest_page(style.rest, end, line.start, font))
                pages[-1].begin = line.start - COMES
        for row in rows:
            if len(pages[-1].rows) == most:
                pages.append(Group())
            pages[-1].rows.append(row)
        end = max(end, line.stays)
    return pages


def rest_page(text: str, end: float, start: float, font: Font) -> Group:
    """A page that shows the length of a rest."""
    seconds = round(start - end)
    return still_page([f"{text} {seconds // 60}:{seconds % 60:02}"], end + GOES, start - COMES, font)


def still_page(texts: list[str], begin: float, end: float, font: Font) -> Group:
    """A page of lines that are not sung."""
    lines = [Line(0, [Syllable(text, begin, end)]) for text in texts]
    rows = [(line, row) for line in lines for row in wrapped(line, font)]
    return Group(rows, is_sung=False, begin=begin, end=end)


class Screen:
    """The places of a page, while pages follow each other."""

    def __init__(self, style: Style, empty: Raster, inks: Inks):
        self.style, self.empty, self.inks = style, empty, inks
        self.standing: list[Placed | None] = [None] * style.rows

    def place(self, slot: int, letters: Letters | None, start: float, end: float, inset: int = 0) -> Placed:
        """Puts letters into a place, or empties it."""
        top = self.style.top(slot)
        area = range(top if slot else 0, top + TILE_HEIGHT * self.style.slot_rows)
        placed = Placed(slot, top + inset, letters, start, end, area, self.empty, self.standing[slot], inks=self.inks)
        steps = [Draw(placed, left, left + STEP) for left in range(0, WIDTH, STEP)]
        read = placed if letters else placed.before
        placed.draws = steps[::-1] if read and is_leftward(read.text()) else steps
        self.standing[slot] = placed
        return placed

    def first_for(self, group: Group) -> int:
        """The first place of a page: in the middle, or higher if a row would otherwise have too little time there after
        the row that it follows."""
        middle = (self.style.rows - len(group.rows)) // 2
        starts = [row[0][0].start for _, row in group.rows]

        def room(first: int) -> float:
            followed = zip(starts, self.standing[first:])
            return min((start - one.end for start, one in followed if one and one.letters), default=ROOM_BEFORE)

        return next(
            (first for first in range(middle, -1, -1) if room(first) >= ROOM_BEFORE),
            max(range(middle, -1, -1), key=room),
        )

    def clear(self, slot: int) -> list[Placed]:
        """Clears a place with letters as soon as they are sung."""
        standing = self.standing[slot]
        if not standing or not standing.letters:
            return []
        return [self.place(slot, None, standing.end, standing.end)]


@dataclass
class SongPage:
    """The rows to draw for a page, in order, and the group from which the page is made. A page that follows quickly
    does not wait until the previous one has disappeared."""

    placed: list[Placed]
    group: Group
    is_quick: bool = False


def laid_out(groups: list[Group], setter: Setter, style: Style, empty: Raster, is_last: bool = True) -> list[SongPage]:
    """Each row at its place, with the places that become empty; and last an empty page if the song ends here, except
    after a page that is not sung."""
    inset = TILE_HEIGHT * max(0, (style.slot_rows - setter.tile_rows + 1) // 2)
    inset = min(inset, TILE_HEIGHT * max(0, style.slot_rows - setter.tile_rows))
    screen, pages = Screen(style, empty, setter.inks), list[SongPage]()
    last_rows = {id(line): row for group in groups for line, row in group.rows}
    before: Placed | None = None
    for group in groups:
        first = screen.first_for(group)
        used = range(first, first + len(group.rows))
        page = [placed for slot in range(style.rows) if slot not in used for placed in screen.clear(slot)]
        for slot, (line, row) in zip(used, group.rows):
            letters = setter.set(line, row)
            start, end = letters.syllables[0].start, letters.syllables[-1].end
            if row is last_rows[id(line)]:
                end = max(end, line.stays)
            page += screen.clear(slot)
            placed = screen.place(slot, letters, start, end, inset)
            placed.is_sung, placed.begin, placed.follows = group.is_sung, group.begin, before
            before = placed
            page.append(placed)
        if group.is_counted and group.rows:
            count_in(next(placed for placed in page if placed.letters))
        pages.append(SongPage(page, group))
    ends = is_last and groups and groups[-1].is_sung
    last = [placed for slot in range(style.rows) for placed in screen.clear(slot)] if ends else []
    return [*pages, SongPage(last, Group())]


def count_in(placed: Placed) -> None:
    """Puts countdown dots above a line, if there is room."""
    if placed.top >= TILE_HEIGHT:
        middle = WIDTH // 2 // TILE_WIDTH
        placed.dots = [TILE_WIDTH * (middle + 2 * place - DOTS + 1) for place in range(DOTS)]


def texts_of(groups: list[Group]) -> list[tuple[str, int]]:
    """The texts of all rows with their voices."""
    return [(text_of_words(row), line.voice) for group in groups for line, row in group.rows]
