"""The script of a song: a title, its pages, and the times at which words are lit, so that no picture is late."""
import bisect
import functools
import itertools
import math
from dataclasses import dataclass, field
from pathlib import Path
from typing import Callable, Iterable, Iterator, Sequence

from ..common import times
from ..common.cue_sheets import ONE_TRACK
from ..common.failures import Refusal, shown
from ..common.library import BLOCKS_A_SECOND
from ..common.planning import MOST_PICTURES, Plan, plan
from ..common.progress import progress
from ..common.times import spelled
from ..drawing.colours import read_colour
from ..drawing.images import PLAIN, fitted, flat_of, raster_of, read_image, whole
from ..drawing.lettering import Font, font_of, named
from ..drawing.raster import COLOURS, HEIGHT, Raster, Span, TILE_HEIGHT, WIDTH, span_lines, lines_between, spans
from ..drawing.styles import INKS, Style

from .known_needs import Known, ask_known

from .pages import (
    Draw, GOES, Group, Light, SongPage, ColumnStep, Placed, Show, Step, SHOWN_REST, groups_of, laid_out, still_page, texts_of,
)  # fmt: skip
from .setting import ROOM, Setter, filled_rows, fits_in_row, spelled_with, unbroken_words, wrapped
from .songs import BOTH, FIRST, MOST_MESSAGES, Line, Song, Syllable, first_of_many, shortened, song_time

from .timeline import (
    FOREVER, Arranger, Due, Lateness, SentPicture, Task, Timeline, blocks_for, dues_of, grouped, paired,
)  # fmt: skip

BLOCKS = BLOCKS_A_SECOND
# A black picture is held through the pause, so that all drawing begins with the audio; the four packs that set it fit
# behind the pause, and so do two more.
BEGIN = times.PAUSE + 4
THROUGH_PAUSE = f"show 00:00:20 {spelled(BEGIN)}"
# The blocks of audio that the longest disc has behind its pause.
LONGEST_AUDIO = 449_999 - times.PAUSE
# A line stays STAYS blocks after it is sung. A title and a legend are shown for at least TITLE_STAYS, and disappear
# BEFORE_FIRST before the first word; a last page is shown if it can remain for LAST_STAYS.
STAYS, TITLE_STAYS, BEFORE_FIRST = BLOCKS // 5, 2 * BLOCKS, 3 * BLOCKS
LAST_STAYS = 3 * BLOCKS
# More letters of a title than fit onto a page.
LONGEST_TITLE = 1_000
# Losses and numbers of colours that are tried until a title needs few enough packs, and the loss of a background.
TITLE_LOSSES = ((PLAIN, 16), (12.0, 16), (30.0, 12), (60.0, 8), (120.0, 4))
BACKGROUND_LOSS = 30.0
# The sizes of letters, and the factor of rows that is accepted for the sake of larger letters; and smaller sizes, which
# are used if otherwise most lines would be broken.
SIZES, SMALLER_SIZES, MORE_ROWS = range(24, 15, -1), range(15, 12, -1), 1.1
# If at most one in FEW_LATE rows is late, or a single row, the letters keep their size.
FEW_LATE = 20
# A step that only clears a place is due this number of blocks later than other steps.
LATER = 60 * BLOCKS
# Schedules that are tried until the plan finds nothing late.
ROUNDS = 8
# A line is drawn this number of seconds before it is sung, or earlier if lines would be late otherwise (None: as early
# as there is room). If that is not enough, lines whose end is a guess disappear as soon as they are lit.
LEAD = 4.0
# In the last trials, the columns of a sweep are lit in pairs, which takes fewer blocks.
Trial = tuple[float | None, bool, bool]
TRIALS: tuple[Trial, ...] = (
    (LEAD, True, False),
    (2 * LEAD, True, False),
    (LEAD, False, False),
    (None, False, False),
    (LEAD, True, True),
    (None, False, True),
)
# The least time between a picture and the first line of the verse after it.
BEFORE_VERSE = round((LEAD + 1.5) * BLOCKS)
# What to do with letters that no font has.
LEAVE, BOXES = "leave", "box"


@dataclass(frozen=True)
class Wishes:
    """The options for a script: its look, the end of its audio (a block of the program), the maximum number of seconds
    for which a line is shown before it is sung, and the contents in addition to the lines. Readers of the song use the
    encoding of the lyrics and their delay."""

    style: Style
    fonts: tuple[Path, ...] = ()
    size: int | None = None
    sweep: bool = False
    title: Path | None = None
    end: int | None = None
    lead: float | None = None
    legend: bool = False
    rests: bool = True
    missing: str = LEAVE
    between: tuple[str, ...] = ()
    encoding: str | None = None
    intro: float = 0.0


@dataclass
class Made:
    """A script, the delays of the song in it, and notes."""

    lines: list[str]
    lateness: Lateness
    maker: "Maker"

    def text(self) -> bytes:
        return "".join(f"{line}\n" for line in self.lines).encode()

    def warnings(self) -> Iterable[str]:
        """A line for each row of the song that cannot be shown at its time, and for each omission or change."""
        path = self.maker.song.path
        yield from self.maker.notes

        def of(placed: Placed, what: str) -> str:
            number = placed.letters.line.number if placed.letters else 0
            return f"{path}: line {number} {what}: {placed.text()}"

        for placed in self.lateness.cut:
            yield of(placed, "does not change its whole colour before the sound ends")
        for placed in self.lateness.lost:
            yield of(placed, "is still sung when another line needs its place")
        for placed, blocks in self.lateness.drawn_late.items():
            yield of(placed, f"is drawn {blocks / BLOCKS:.2f} seconds after it begins")
        for placed, blocks in self.lateness.lit_late.items():
            if placed not in self.lateness.drawn_late:
                yield of(placed, f"has words whose colour changes up to {blocks / BLOCKS:.2f} seconds late")

    def summary(self) -> str:
        maker = self.maker
        words = sum(len(due.steps) for due in maker.dues)
        pictures = sum(line.startswith("show") for line in self.lines)
        pages = sum(page.group.is_sung and bool(page.group.rows) for page in maker.pages)
        plain = "plain " * maker.font.is_plain
        late = len(self.lateness.rows())
        return (
            f"{count_of(len(maker.song.lines), 'line')} on {count_of(pages, 'page')} in {plain}letters of "
            f"{maker.font.size} pixels, {words} words or parts of words, {pictures} pictures; "
            f"{count_of(late, 'row') if late else 'none'} {'are' if late > 1 else 'is'} late"
        )


def count_of(number: int, what: str) -> str:
    return f"{number} {what}{'s' * (number != 1)}"


def plan_of(lines: list[str], length: int = LONGEST_AUDIO) -> Plan:
    return plan(ONE_TRACK, "".join(f"{line}\n" for line in lines).encode(), length)


def steps_of(pages: list[SongPage], dues: list[Due]) -> list[ColumnStep]:
    """All steps in an order in which the picture before each step is the one on which it will be drawn."""
    lights: dict[Placed, list[ColumnStep]] = {}
    for due in dues:
        lights.setdefault(due.placed, []).extend(due.steps)
    return [step for page in pages for placed in page.placed for step in [*placed.draws, *lights.get(placed, [])]]


def ask_needs(steps: Sequence[ColumnStep], ground: Raster, known: Known | None = None) -> None:
    """Asks the plan how many packs each step needs, one after another, except for known needs."""
    if known:
        ask_known(steps, ground, known, lambda lines: plan_of(lines).rows)
        return
    ground = ground.copy()
    for at in range(0, len(steps), MOST_PICTURES - 1):
        part = steps[at : at + MOST_PICTURES - 1]
        lines = [*lines_between(Raster(), ground), "show 00:01:00 00:01:00"]
        numbers = itertools.count(times.blocks("00:01:01"))
        # Steps of one kind at one place draw the same rows, and only those that differ are compared.
        for _, alike in itertools.groupby(part, key=lambda step: (step.placed, type(step))):
            some = list(alike)
            rows = some[0].differing(ground)
            for step, number in zip(some, numbers):
                lines += [*step.lines(ground, rows), f"show {spelled(number)} {spelled(number)}"]
        for step, row in zip(part, plan_of(lines).rows[1:]):
            step.need = row.need


def ask_shows(shows: Sequence[Show], ground: Raster) -> None:
    """The same for whole pages."""
    lines = [*lines_between(Raster(), ground), "show 00:01:00 00:01:00"]
    for number, show in enumerate(shows, times.blocks("00:01:01")):
        lines += [*lines_between(ground, show.picture), f"show {spelled(number)} {spelled(number)}"]
        ground = show.picture
    for show, row in zip(shows, plan_of(lines).rows[1:]):
        show.need = row.need


def empty_page(style: Style, voices: int) -> Raster:
    """A page before anything is drawn on it: the background, or the picture behind the text in the colours that it may
    have."""
    raster = style.empty(voices)
    if not style.background:
        return raster
    taken = set(style.colours(voices)) - {0}
    free = [number for number in range(COLOURS) if number not in taken]
    picture = raster_of(
        flat_of(fitted(read_image(style.background), WIDTH, HEIGHT), len(free), BACKGROUND_LOSS), raster, 0, 0, free
    )
    picture.colours = [
        style.colours(voices).get(number, colour) if number in taken else colour
        for number, colour in enumerate(picture.colours)
    ]
    return picture


# A text of a page, its voice, and whether it has the letters of sung text.
Text = tuple[str, int, int]


def page_of_texts(lines: list[Text], empty: Raster, font: Font, style: Style, voices: int) -> Raster:
    """A page with some texts, wrapped, in letters small enough for them; if the smallest are too large, the last rows
    are left out."""
    most = HEIGHT // TILE_HEIGHT - 2
    lines = [(text[:LONGEST_TITLE], voice, lit) for text, voice, lit in lines]
    for size in range(font.size, 9, -1):
        smaller = font if size == font.size else font.sized(size, font.is_plain)
        rows = [
            (row, voice, lit)
            for text, voice, lit in lines
            for row in wrapped(Line(0, [Syllable(text, 0, 0, voice)]), smaller)
        ]
        setter = Setter(
            smaller,
            [(text, voice) for text, voice, _ in lines],
            style.align,
            bool(style.edge),
            any(voice == BOTH for _, voice, _ in lines),
            INKS[voices],
        )
        if setter.tile_rows * len(rows) <= most:
            break
    rows = rows[: most // setter.tile_rows]
    spare = HEIGHT // TILE_HEIGHT - setter.tile_rows * len(rows)
    between = min(2, spare // (len(rows) + 1))
    raster, top = empty.copy(), TILE_HEIGHT * ((spare - between * (len(rows) - 1)) // 2)
    for row, voice, lit in rows:
        area = range(top, top + setter.height)
        letters = setter.set(Line(0, [syllable for word in row for syllable in word]), row)
        placed = Placed(0, top, letters, 0, 0, area, empty, inks=setter.inks)
        (Light if lit else Draw)(placed, 0, WIDTH).apply(raster)
        top += TILE_HEIGHT * (setter.tile_rows + between)
    return raster


# The words of a line.
Words = list[list[Syllable]]


def broken(lines: list[Line], font: Font) -> int:
    """The number of lines that need more than one row."""
    return sum(not fits_in_row(unbroken_words(line, font.of(line.voice)), font.of(line.voice), ROOM) for line in lines)


def first_of(fonts: list[Font], holds: Callable[[Font], bool]) -> int:
    """The place of the first font for which a condition holds; it then holds for all smaller ones, which follow. Or
    their number. Letters of a smaller size are no wider and no higher."""
    return bisect.bisect_left(fonts, True, key=holds)


def without_missing(song: Song, wishes: Wishes) -> list[str]:
    """Removes the letters that no font has from the song, or replaces them by boxes. Returns a note for each line that
    changes. A line with no other letters is removed."""
    font, has_boxes = first_font(wishes), wishes.missing == BOXES
    notes: list[str] = []

    def spelled(text: str, place: str, voice: int = FIRST) -> str:
        missing = font.of(voice).missing(text)
        if missing:
            letters = ", ".join(named(letter) for letter in sorted(missing))
            done = "a box replaces it" if has_boxes else "it is omitted"
            if len(missing) > 1:
                done = "boxes replace them" if has_boxes else "they are omitted"
            notes.append(
                f"{song.path}: {place}: no installed font has {letters}; {done} (to add a font, use --font FILE)"
            )
        return spelled_with(text, font.of(voice), has_boxes)

    for line in song.lines:
        for syllable in line.syllables if font.of(line.voice).missing(line.text) else ():
            syllable.text = spelled(syllable.text, f"line {line.number}", line.voice)
    for line in [line for line in song.lines if not line.text]:
        notes.append(f"{song.path}: line {line.number}: no installed font has any of its letters, so it is omitted")
    for line in song.lines:
        line.syllables = [syllable for syllable in line.syllables if syllable.text.strip()]
    song.lines = [line for line in song.lines if line.syllables]
    song.title, song.performer = spelled(song.title, "the title"), spelled(song.performer, "the performer")
    song.singers = [spelled(name, "the singers") for name in song.singers]
    if not song.lines:
        raise Refusal(song.path, f"no installed font has its letters; --font names a font other than {font.paths[0]}")
    return list(dict.fromkeys(notes))


def first_font(wishes: Wishes) -> Font:
    style = wishes.style
    size = wishes.size or style.size or SIZES[0]
    return font_of(tuple(wishes.fonts or style.fonts), size, others=style.others(size))


def fonts_for(song: Song, wishes: Wishes, notes: list[str]) -> list[Font]:
    """The font, first in the largest size that does not need many more rows than a small one, and then in smaller ones
    and plain, which needs fewer packs."""
    style, asked = wishes.style, wishes.size or wishes.style.size
    one = first_font(wishes)
    fonts = [one.sized(size) for size in ([asked] if asked else SIZES)]
    texts = [(line.text, line.voice) for line in song.lines]

    def is_low(font: Font) -> bool:
        return Setter(font, texts, style.align, bool(style.edge)).tile_rows <= style.slot_rows

    fonts = fonts[first_of(fonts, is_low) :]
    if not fonts:
        smaller = [one.sized(size) for size in range(min(asked or SIZES[-1], SIZES[-1]), 9, -1)]
        fonts = smaller[first_of(smaller, is_low) :][:3]
        if asked:
            notes.append(f"{song.path}: letters of {asked} pixels are too high for {style.rows} rows a page")
    if not fonts:
        raise Refusal(song.path, f"no letters are small enough for {style.rows} rows a page")

    @functools.cache
    def rows(font: Font) -> int:
        return sum(
            len(filled_rows(unbroken_words(line, font.of(line.voice)), font.of(line.voice), ROOM))
            for line in song.lines
        )

    first = fonts[first_of(fonts, lambda font: rows(font) <= MORE_ROWS * rows(fonts[-1]))]
    first = unbroken(song, song.lines, first, notes, bool(asked))
    smaller = [font for font in fonts if font.size < first.size and font.size % 4 == 0]
    return [first, *smaller, one.sized(min(first.size, fonts[-1].size), True)]


def unbroken(song: Song, lines: list[Line], font: Font, notes: list[str], is_asked: bool) -> Font:
    """The font in a smaller size, if most lines are whole in that size and not in this one."""
    count = len(lines)
    if 2 * broken(lines, font) <= count:
        return font
    sizes = [size for size in (*SIZES, *SMALLER_SIZES) if size < font.size]
    smaller = [font.sized(size) for size in sizes]
    better = [*smaller, font][first_of(smaller, lambda one: 2 * broken(lines, one) <= count)]
    if is_asked and better is not font:
        notes.append(
            f"{song.path}: letters of {font.size} pixels break {broken(lines, font)} of {count} lines, so the letters "
            f"are reduced to {better.size} pixels"
        )
    return better


def lines_of(steps: Sequence[Step], raster: Raster) -> list[str]:
    """The lines of a picture, which the raster then has: only the rows that its steps change are compared."""
    parts = [step for step in steps if isinstance(step, ColumnStep)]
    if len(parts) < len(steps):
        before = raster.copy()
        for step in steps:
            step.apply(raster)
        return lines_between(before, raster)
    parts = merged(parts)
    if len(parts) == 1:
        return list(span_lines(list(changed_by(parts[0], raster))))
    old: dict[int, bytes] = {}
    for part in parts:
        rows = part.differing(raster)
        old = {number: bytes(raster.rows[number]) for number, _ in rows} | old
        part.draw(raster, rows)
    found = [span for number, row in sorted(old.items()) for span in spans([row], [raster.rows[number]], number)]
    return list(span_lines(found))


def changed_by(part: ColumnStep, raster: Raster) -> Iterator[Span]:
    """Draws the columns of a step, and returns the stretch that changes in each row."""
    for number, row in part.rows():
        drawn, new = raster.rows[number], row[part.left : part.right]
        old = bytes(drawn[part.left : part.right])
        if old != new:
            drawn[part.left : part.right] = new
            differ = int.from_bytes(old, "big") ^ int.from_bytes(new, "big")
            marks = differ.to_bytes(len(old), "big")
            first, last = len(old) - len(marks.lstrip(b"\0")), len(marks.rstrip(b"\0"))
            yield Span(part.left + first, number, new[first:last])


def merged(parts: Sequence[ColumnStep]) -> list[ColumnStep]:
    """The same steps, with adjacent columns of one kind and one place merged into one step."""
    kept: list[ColumnStep] = []
    for part in parts:
        last = kept[-1] if kept else None
        is_alike = last is not None and last.placed is part.placed and type(last) is type(part)
        if last and is_alike and part.left <= last.right and last.left <= part.right:
            kept[-1] = type(part)(part.placed, min(last.left, part.left), max(last.right, part.right))
        else:
            kept.append(part)
    return kept


@functools.lru_cache(maxsize=64)
def picture_in(path: Path, most: int, loss: float) -> Raster:
    return whole(path, most, loss)


def filled_with(word: str, ground: Raster) -> Raster | None:
    """A page of one colour, if the text is a colour."""
    colour = read_colour(word) if word.startswith("#") else None
    if colour is None:
        return None
    raster = Raster(colours=[colour] * COLOURS)
    raster.fill(0)
    return raster


@dataclass
class Verse:
    """The lines between two pictures: their pages, the times at which they are lit, and the picture before them: its
    show, and the blocks between which it is shown."""

    lines: list[Line]
    what: str = ""
    number: int = 0
    shows: tuple[Show, Show] | None = None
    begin: int = 0
    until: int = 0
    pages: list[SongPage] = field(default_factory=list)
    dues: list[Due] = field(default_factory=list)


def verses_of(song: Song, between: Sequence[str]) -> list[Verse]:
    """The verses of a song: a picture in the file divides lines at its place, or at its time; other pictures are shown
    one after another in the long rests without a picture."""
    starts = [line.start for line in song.lines]
    found: dict[int, tuple[str, int]] = {}
    for one in song.inserts:
        at = bisect.bisect_left(starts, one.start) if one.start is not None else bisect.bisect_right(starts, one.after)
        found[at] = one.what, one.number
    others, end = itertools.cycle(between), 0.0
    for at, line in enumerate(song.lines):
        if between and at and at not in found and line.start - end >= SHOWN_REST:
            found[at] = next(others), 0
        end = max(end, line.stays)
    borders = sorted({0, *found, len(song.lines)})
    verses = [Verse(song.lines[one:other], *found.get(one, ("", 0))) for one, other in zip(borders, borders[1:])]
    return [*verses, Verse([], *found[len(song.lines)])] if len(song.lines) in found else verses


class Maker:
    """Makes the script of a song in a font."""

    def __init__(self, song: Song, wishes: Wishes, font: Font, known: Known | None = None):
        self.song, self.wishes, self.font, self.style = song, wishes, font, wishes.style
        self.notes: list[str] = []
        self.ground = empty_page(self.style, song.voices)
        self.empty = Show(self.ground)
        self.title = wishes.title
        self.verses = self.with_pictures(verses_of(song, wishes.between))
        groups, end = list[list[Group]](), 0.0
        for verse in self.verses:
            groups.append(groups_of(verse.lines, font, self.style, wishes.rests, end))
            end = max([end, *(line.stays for line in verse.lines)])
        groups[-1] += self.last_page()
        texts = [text for group in groups for text in texts_of(group)]
        setter = Setter(font, texts, self.style.align, bool(self.style.edge), song.has_both, INKS[song.voices])
        for verse, some in zip(self.verses, groups):
            verse.pages = laid_out(some, setter, self.style, self.ground, verse is self.verses[-1])
            verse.dues = self.dues_in(verse.pages)
            ask_needs(steps_of(verse.pages, verse.dues), self.ground, known)
        self.first = times.nearest_block(song.lines[0].start)
        first_page = [step for placed in self.pages[0].placed for step in placed.draws]
        self.page_begin = self.first - BEFORE_FIRST - blocks_for(first_page)
        self.shows = self.title_steps()

    @property
    def pages(self) -> list[SongPage]:
        return [page for verse in self.verses for page in verse.pages]

    @property
    def dues(self) -> list[Due]:
        return [due for verse in self.verses for due in verse.dues]

    def dues_in(self, pages: list[SongPage]) -> list[Due]:
        sung = (placed for page in pages for placed in page.placed if placed.is_sung)
        return sorted((due for placed in sung for due in dues_of(placed, self.wishes.sweep)), key=lambda due: due.block)

    def with_pictures(self, verses: list[Verse]) -> list[Verse]:
        """The verses with the pictures before them; if there is no time for a picture, two verses become one."""
        kept: list[Verse] = []
        for verse in verses:
            if not verse.what:
                kept.append(verse)
            elif not kept:
                # A picture in front of all lines is a title.
                if verse.what.startswith("#"):
                    self.note_of(verse, "a colour before the first line is ignored")
                elif not self.title:
                    self.title = self.song.path.parent / verse.what
                kept.append(Verse(verse.lines))
            elif self.has_room(kept, verse):
                kept.append(verse)
            else:
                kept[-1].lines += verse.lines
        return kept

    def note_of(self, verse: Verse, what: str) -> None:
        place = f"line {verse.number}: " if verse.number else ""
        self.notes.append(f"{self.song.path}: {place}{what}")

    def has_room(self, before: list[Verse], verse: Verse) -> bool:
        """Whether the picture of a verse is shown long enough between the lines before it and its own."""
        end = max(line.stays for one in before for line in one.lines)
        verse.begin = times.nearest_block(end) + STAYS + BLOCKS // 2
        last = self.wishes.end or FOREVER
        until = times.nearest_block(verse.lines[0].start) - BEFORE_VERSE if verse.lines else last
        path = self.song.path.parent / verse.what
        is_colour = filled_with(verse.what, self.ground)
        for loss, most in TITLE_LOSSES[:1] if is_colour else TITLE_LOSSES:
            shows = Show(is_colour or picture_in(path, most, loss)), Show(self.ground)
            ask_shows(shows, self.ground)
            need = blocks_for(shows[:1])
            verse.until = until - blocks_for(shows[1:]) if verse.lines else until
            if verse.begin + need + TITLE_STAYS <= verse.until:
                verse.shows = shows
                return True
        room = max(0, verse.until - verse.begin - TITLE_STAYS) / BLOCKS
        self.note_of(
            verse,
            f"{verse.what} is omitted: it needs {need / BLOCKS:.1f} seconds, but there is room only for {room:.1f}",
        )
        return False

    def last_page(self) -> list[Group]:
        """A page that ends the song with its title, if the audio leaves time for it."""
        texts = [text[:LONGEST_TITLE] for text in (self.song.title, self.song.performer) if text]
        sung = max(line.stays for line in self.song.lines)
        end, begin = self.wishes.end, times.nearest_block(sung + GOES)
        if (
            not texts
            or not self.wishes.rests
            or not self.verses[-1].lines
            or end
            and end < begin + LAST_STAYS + 2 * BLOCKS
        ):
            return []
        page = still_page(texts, sung + GOES, sung + GOES, self.font)
        return [page] if len(page.rows) <= self.style.rows else []

    def legend(self) -> list[Text]:
        """A legend: the singers in their colours."""
        ordinals = ("first voice", "second voice", "third voice", "fourth voice")
        names = [*self.song.singers, "", "", "", ""]
        found = [(names[voice] or ordinals[voice], voice, 0) for voice in range(self.song.voices)]
        return [*found, ("both" if self.song.voices == 2 else "all", BOTH, 0)] if self.song.has_both else found

    def title_steps(self) -> list[Show]:
        """The title, in as many colours and details as there is time for, and a legend; or none. A title that is a text
        has the legend below it."""
        image, path = self.title, self.song.path
        has_legend = self.wishes.legend and self.song.voices > 1
        if self.wishes.legend and not has_legend:
            self.notes.append(f"{path}: only one voice sings, so there is no legend")
        legend = self.legend() if has_legend else []
        texts = [(text, FIRST, lit) for text, lit in ((self.song.title, 1), (self.song.performer, 0)) if text]
        need = 0
        if image:
            for loss, most in TITLE_LOSSES:
                title = Show(picture_in(image, most, loss))
                shows = [title, *([self.page_of(legend)] if legend else [])]
                if self.room_for(shows) >= 0:
                    return shows
                need = blocks_for([title])
            room = max(0, self.room_for([]) - TITLE_STAYS) / BLOCKS
            self.notes.append(
                f"{image}: the title is omitted: it needs {need / BLOCKS:.1f} seconds, but there is room only for {room:.1f}: "
                f"the first page must be shown before it is sung{self.more_room(shows)}"
            )
        for lines in (texts + legend, legend, texts):
            shows = [self.page_of(lines)] if lines else []
            if shows and self.room_for(shows) >= 0:
                break
            shows = []
        else:
            lines = []
        for what, wanted in (("title", texts), ("legend", legend)):
            if wanted and not image and not set(wanted) <= set(lines):
                more = self.more_room([self.page_of(texts + legend)])
                self.notes.append(f"{path}: there is no room for the {what}: the first words come too early{more}")
        self.room_for(shows)
        return shows

    def more_room(self, shows: list[Show]) -> str:
        """A hint how to make time for pages before the first words."""
        short = math.ceil(-self.room_for(shows) / BLOCKS + self.wishes.intro)
        return f"; --intro {short} makes room for it" if short > 0 else ""

    def page_of(self, lines: list[Text]) -> Show:
        return Show(page_of_texts(lines, self.ground, self.font, self.style, self.song.voices))

    def room_for(self, shows: list[Show]) -> int:
        """The number of blocks that remain before the first words if these pages and then the empty one are shown."""
        ask_shows([*shows, self.empty], Raster())
        needs: int = sum(TITLE_STAYS + blocks_for([show]) for show in shows)
        return self.page_begin - BEGIN - needs - blocks_for([self.empty])

    def arranged(self, lead: float | None, stays: bool, is_paired: bool) -> tuple[list[SentPicture], Lateness]:
        """All steps on a timeline, as far as their needs are known."""
        line = Timeline(BEGIN)
        begin = self.page_begin - blocks_for([self.empty])
        if self.shows:
            line.put(self.shows[:1], BEGIN)
        for show in self.shows[1:]:
            line.put([show], begin - TITLE_STAYS - blocks_for([show]))
        line.put([self.empty], begin if self.shows else BEGIN)
        lateness = Lateness()
        for verse in self.verses:
            if verse.shows:
                line.put(verse.shows[:1], verse.begin)
                if verse.lines:
                    line.put(verse.shows[1:], verse.until)
            if verse.pages:
                tasks = tasks_of(verse.pages, line.now, self.style, lead, stays)
                dues = paired(verse.dues) if is_paired else verse.dues
                lateness.add(Arranger(line, tasks, grouped(dues)).run())
        return line.pictures, lateness

    def script(self, pictures: list[SentPicture], end: int | None) -> list[str]:
        """The lines of the script; pictures after the end of the audio are left out if they only clear the page."""
        lines = [f"# {shown(str(self.song.path))}, by the lines of its lyrics.", THROUGH_PAUSE]
        raster = Raster()
        for number, picture in enumerate(pictures):
            lines += lines_of(picture.steps, raster)
            hold = pictures[number + 1].start if number + 1 < len(pictures) else max(picture.ready, end or 0)
            lines.append(f"show {spelled(picture.ready)} {spelled(hold)}")
        return lines

    def in_time(self, lead: float | None, stays: bool, is_paired: bool) -> tuple[list[str], Lateness]:
        """Schedules until the plan finds nothing late."""
        for _ in range(ROUNDS):
            pictures, lateness = self.arranged(lead, stays, is_paired)
            pictures = within(pictures, self.wishes.end, lateness)
            # A script has one more picture, which is held through the pause.
            if len(pictures) >= MOST_PICTURES:
                raise Refusal(
                    self.song.path,
                    f"needs {len(pictures):,} pictures, and a script has {MOST_PICTURES:,} at most: use fewer word times, no "
                    "--sweep, or two songs",
                )
            lines = self.script(pictures, self.wishes.end)
            found = plan_of(lines)
            if not found.late():
                return lines, lateness
            for number in found.late():
                steps = pictures[number - 1].steps
                steps[-1].need += found.rows[number].need - sum(step.need for step in steps)
        raise Refusal(self.song.path, f"{len(found.late())} pictures are still late")

    def made(self) -> Made:
        """The script. If pages change as a whole, a row of a page that follows quickly may be late: the rows of that
        page then appear one by one, which is reported."""
        made = self.by_lead()
        late = made.lateness.rows()
        quick = [page for page in self.pages if late.intersection(page.placed)] if self.style.by_page else []
        for page in quick:
            page.is_quick = True
        again = self.by_lead() if quick else made
        if again.lateness.total() < made.lateness.total():
            self.note_quick(quick)
            return again
        for page in quick:
            page.is_quick = False
        return made

    def note_quick(self, pages: list[SongPage]) -> None:
        firsts = [next(placed.letters for placed in page.placed if placed.letters).line.number for page in pages]
        of, follow = ("page of line", "follows") if len(firsts) == 1 else ("pages of lines", "follow")
        numbers = ", ".join(map(str, firsts))
        self.notes.append(
            f"{self.song.path}: the {of} {numbers} {follow} too soon to appear as a whole: the rows appear one by one"
        )

    def by_lead(self) -> Made:
        """The script with the requested lead, or with the shortest one with which nothing is late."""
        lead = self.wishes.lead
        tried: list[Made] = []
        trials = TRIALS
        if lead is not None:
            trials = (lead, True, False), (lead, False, False), (lead, False, True)
        has_pairs = len(paired(self.dues)) < len(self.dues)
        for trial in trials:
            if trial[-1] and not has_pairs:
                continue
            tried.append(Made(*self.in_time(*trial), self))
            if not tried[-1].lateness.rows():
                break
        return min(tried, key=lambda one: one.lateness.total())


def dues_of_rows(rows: list[Placed]) -> dict[Placed, int]:
    """For each row, the block at which it, or a row after it in the order of drawing, is sung first."""
    due, soonest = dict[Placed, int](), FOREVER
    for placed in reversed(rows):
        if placed.is_sung:
            soonest = min(soonest, times.nearest_block(placed.start))
        due[placed] = soonest if placed.is_sung else times.nearest_block(placed.start)
    return due


def tasks_of(pages: list[SongPage], begin: int, style: Style, lead: float | None, stays: bool = True) -> list[Task]:
    """The rows to draw, with their earliest times, in the order of singing. A row is drawn only after the row in its
    place is sung, at most one page ahead and after the previous page begins, and at most `lead` seconds before it is
    sung. Rows that are no longer needed are cleared. If pages change as a whole, a page that follows quickly still
    appears row by row. If lines whose end is a guess do not stay, their places are free as soon as they are lit."""
    follows = {placed.before: placed for page in pages for placed in page.placed if placed.letters}
    rows = [placed for page in pages for placed in page.placed if placed.letters]
    ahead = dict(zip(rows[style.rows :], rows))
    due, release = dues_of_rows(rows), dict[Placed, int]()
    tasks: list[Task] = []
    before_page = opens = begin

    def free_at(placed: Placed) -> int:
        return times.nearest_block(placed.end if stays else placed.lit_end) + STAYS

    def free_from(placed: Placed, waits: bool) -> int:
        """The time when its place is free, and the row one page before it is sung, or that whole page."""
        stood = [placed.before, ahead.get(placed)]
        ends = [free_at(one) for one in stood if one]
        soonest: int = max([begin, times.nearest_block(placed.begin), before_page * waits, *ends])
        return soonest

    firsts, befores = list[int](), list[int]()
    for page in pages:
        waits = style.by_page and not page.is_quick
        letters = [placed for placed in page.placed if placed.letters]
        sung = [placed for placed in letters if placed.is_sung]
        firsts.append(min((due[placed] for placed in sung), default=0))
        befores.append(before_page)
        for placed in letters:
            free = max(free_from(placed, waits), opens if placed.is_sung else times.nearest_block(placed.start))
            wanted = firsts[-1] if waits else due[placed]
            if lead is not None and placed.is_sung:
                free = max(free, wanted - round(BLOCKS * lead) - blocks_for(placed.draws))
            release[placed] = free
        before_page = max([before_page, *map(free_at, letters)])
        opens = max(opens, firsts[-1])
    for page, first, gone in zip(pages, firsts, befores):
        waits = style.by_page and not page.is_quick
        for placed in page.placed:
            if placed.letters:
                tasks.append(Task(placed, list(placed.draws), release[placed], due[placed]))
                continue
            goes = max(begin, gone if waits else times.nearest_block(placed.end + GOES))
            if placed.before and not placed.before.is_sung:
                # Text that is not sung disappears before the first line of the verse appears.
                goes = max(begin, times.nearest_block(placed.end))
                tasks.append(Task(placed, list(placed.draws), goes, goes))
            elif placed in follows:
                after = follows[placed]
                needed = release[after] - blocks_for(placed.draws)
                early = max(free_at(placed), needed)
                wanted = first if waits and first else due[after]
                tasks.append(Task(placed, list(placed.draws), min(early, goes), wanted))
            else:
                tasks.append(Task(placed, list(placed.draws), goes, times.nearest_block(placed.start) + LATER))
    return tasks


def within(pictures: list[SentPicture], end: int | None, lateness: Lateness) -> list[SentPicture]:
    """Drops pictures after the end of the audio; if they do more than clear the page or end the song, their lines are
    reported."""
    if end is None:
        return pictures
    for picture in pictures:
        for step in picture.steps if picture.ready > end else ():
            if isinstance(step, ColumnStep) and step.placed.letters and step.placed.is_sung:
                lateness.cut.setdefault(step.placed)
    return [picture for picture in pictures if picture.ready <= end]


def end_with_sound(song: Song, end: int) -> None:
    """Reports all lines that are sung after the end of the audio; those that are sung until then end a little
    earlier."""
    seconds = (end - times.PAUSE) / BLOCKS
    causes = []
    for line in song.lines:
        if line.start >= seconds:
            what = f"at {line.written} begins after the sound, which ends at {song_time(seconds)}"
        elif line.syllables[-1].start >= seconds:
            what = f"at {line.written} is sung until {song_time(line.end)}, but the sound ends at {song_time(seconds)}"
        else:
            continue
        causes.append(f"line {line.number} {what}: {shortened(line.text)}")
    if causes:
        raise Refusal(song.path, *first_of_many(causes, MOST_MESSAGES, "there are {} more lines after the end"))
    last = seconds - STAYS / BLOCKS
    for line in song.lines:
        line.until = None if line.until is None else min(line.until, max(line.start, last))
        for syllable in line.syllables:
            syllable.end = min(syllable.end, max(syllable.start, last))


def best(song: Song, wishes: Wishes, known: Known | None = None) -> Made:
    """The script in the first font with which hardly any row of the song is late, or else the one with the fewest late
    rows. Needs that are known from another script are not planned again."""
    made: list[Made] = []
    notes = without_missing(song, wishes)
    if wishes.end:
        end_with_sound(song, wishes.end)
    for font in progress(fonts_for(song, wishes, notes), None, "layouts"):
        maker = Maker(song, wishes, font, known)
        maker.notes = notes + maker.notes
        made.append(maker.made())
        rows = sum(bool(placed.letters) for page in maker.pages for placed in page.placed)
        if len(made[-1].lateness.rows()) <= max(1, rows // FEW_LATE):
            return made[-1]
    return min(made, key=lambda one: one.lateness.total())
