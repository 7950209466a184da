"""Lines of lyrics set in a font: rows of words, and the place of each syllable."""
import bisect
import re
import unicodedata
from dataclasses import dataclass

from ..common.failures import Refusal
from ..drawing.lettering import BOX, Font
from ..drawing.raster import HEIGHT, TILE_HEIGHT, WIDTH
from ..drawing.styles import INKS, Inks
from .songs import BOTH, FIRST, Line, SECOND, Syllable

# Pixels that stay free at each side; the size of the smallest letters for a word that is too long for a line. A word
# that would need letters smaller than this part of the others is broken.
MARGIN, SMALLEST, LEAST_PART = 6, 9, 0.75
ROOM = WIDTH - 2 * MARGIN
# A word with the blanks around it.
PIECE = re.compile(r"\s*\S+\s*")


@dataclass
class SungPart:
    """A syllable, or a part of it with one direction; its first pixel, and the pixel after its last one."""

    syllable: Syllable
    left: int
    right: int
    is_leftward: bool = False


@dataclass
class Letters:
    """A row of a line on the screen: the numbers of its pixels, 0 where the background is visible, and its syllables in
    the order of reading."""

    line: Line
    rows: list[bytes]
    parts: list[SungPart]

    @property
    def syllables(self) -> list[Syllable]:
        return [part.syllable for part in self.parts]

    @property
    def extents(self) -> list[tuple[int, int]]:
        return [(part.left, part.right) for part in self.parts]


def words_of(line: Line) -> list[list[Syllable]]:
    """The syllables of a line, word by word; a syllable with several words becomes one for each, sung at the same
    time."""
    words: list[list[Syllable]] = []
    is_new = True
    for syllable in line.syllables:
        for text in PIECE.findall(re.sub(r"\s+", " ", syllable.text)):
            for part in word_pieces(text):
                if is_new or part[0].isspace():
                    words.append([])
                words[-1].append(Syllable(part, syllable.start, syllable.end, syllable.voice))
                is_new = part[-1].isspace() or is_wide(part[-1])
    return words


def is_wide(letter: str) -> bool:
    """Whether a line may be broken after a letter of a script that is written without spaces between words."""
    return unicodedata.east_asian_width(letter) in "WF"


def word_pieces(text: str) -> list[str]:
    """The pieces of a word between which a line may be broken."""
    parts = [""]
    for place, letter in enumerate(text):
        is_break = place and (is_wide(text[place - 1]) or is_wide(letter)) and not is_closing(letter)
        if is_break and not parts[-1].isspace():
            parts.append("")
        parts[-1] += letter
    return parts


def is_closing(letter: str) -> bool:
    """Whether a line must not begin with this letter: spaces, marks and signs that belong to the text before them."""
    return letter.isspace() or unicodedata.category(letter) in ("Pe", "Pf", "Po", "Mn", "Lm")


def spelled_with(text: str, font: Font, has_boxes: bool) -> str:
    """A text without letters that no font has, or with a box for each; letters that only join or modify them are
    removed."""
    missing = font.missing(text)
    if not missing:
        return text
    kept: list[str] = []
    for place, letter in enumerate(text):
        if letter in missing:
            kept += [BOX] * has_boxes
        elif not (unicodedata.category(letter) in ("Mn", "Cf", "Sk") and place and text[place - 1] in missing):
            kept.append(letter)
    return "".join(kept)


def text_of_words(words: list[list[Syllable]]) -> str:
    return "".join(syllable.text for word in words for syllable in word).strip()


def fits_in_row(words: list[list[Syllable]], font: Font, room: float) -> bool:
    """Whether all words fit into one row."""
    return font.width(text_of_words(words), font.size) <= room


def unbroken_words(line: Line, font: Font) -> list[list[Syllable]]:
    """The words of a line; words that are much too long for a row are in pieces."""
    return [part for word in words_of(line) for part in broken_word(word, font)]


def broken_word(word: list[Syllable], font: Font) -> list[list[Syllable]]:
    """A word in pieces that fit into a row, broken between syllables or else between letters. One that letters only a
    little smaller make fit stays whole."""
    if font.width(text_of_words([word]), max(SMALLEST, round(LEAST_PART * font.size))) <= ROOM:
        return [word]
    letters = [one for syllable in word for one in lettered(syllable)]
    starts = {id(syllable): place for place, (syllable, _) in reversed(list(enumerate(letters)))}
    parts: list[list[Syllable]] = []
    first = 0
    while first < len(letters):
        # A letter is at least a pixel wide.
        rest = letters[first : first + ROOM + 1]
        texts = ["".join(one.text for _, one in rest[:count]) for count in range(1, len(rest) + 1)]
        count = max(1, bisect.bisect(texts, False, key=lambda text: font.width(text.strip(), font.size) > ROOM))
        # Between two syllables, if that leaves at least half a row.
        borders = [start - first for start in starts.values() if count / 2 <= start - first <= count < len(rest)]
        count = max(borders, default=count)
        parts.append([one for _, one in rest[:count]])
        first += count
    return [joined_letters(part) for part in parts]


def lettered(syllable: Syllable) -> list[tuple[Syllable, Syllable]]:
    """A syllable letter by letter, with marks joined to their letters, sung one after another; each with the syllable
    to which it belongs."""
    letters: list[str] = []
    for letter in syllable.text:
        if letters and (unicodedata.category(letter) in ("Mn", "Mc", "Me", "Cf") or letter.isspace()):
            letters[-1] += letter
        else:
            letters.append(letter)
    step = (syllable.end - syllable.start) / max(1, len(letters))
    return [
        (syllable, Syllable(letter, syllable.start + step * at, syllable.start + step * (at + 1), syllable.voice))
        for at, letter in enumerate(letters)
    ]


def joined_letters(letters: list[Syllable]) -> list[Syllable]:
    """Letters of a piece, joined into one syllable if they follow each other without a pause."""
    joined: list[Syllable] = []
    for letter in letters:
        last = joined[-1] if joined else None
        if last and last.voice == letter.voice and abs(last.end - letter.start) < 1e-9 and letter.end > letter.start:
            last.text, last.end = last.text + letter.text, letter.end
        else:
            joined.append(letter)
    return joined


def wrapped(line: Line, font: Font) -> list[list[list[Syllable]]]:
    """The words of a line in as few rows as possible, which are as even as possible."""
    font = font.of(line.voice)
    words = unbroken_words(line, font)
    count = len(filled_rows(words, font, ROOM))
    if count == 1:
        return [words]
    widest = max(font.width(text_of_words([word]), font.size) for word in words)
    limits = [ROOM * step / 40 for step in range(1, 41)]
    # Fewer rows are wider: the least width with this number of rows is found by bisection.
    even = bisect.bisect_left(limits, -count, key=lambda limit: -len(filled_rows(words, font, limit)))
    return sung_later(filled_rows(words, font, max(widest, limits[min(even, len(limits) - 1)])))


def sung_later(rows: list[list[list[Syllable]]]) -> list[list[list[Syllable]]]:
    """The same rows; if words on several rows have the same time, those on later rows are sung later, in proportion to
    the letters before them."""
    for number, row in enumerate(rows[:-1]):
        last = row[-1][-1]
        here = [syllable for word in row for syllable in word if syllable.start == last.start]
        later = [
            syllable
            for below in rows[number + 1 :]
            for word in below
            for syllable in word
            if syllable.start == last.start
        ]
        done, left = (sum(len(syllable.text) for syllable in some) for some in (here, later))
        time = last.start + (last.end - last.start) * done / (done + left)
        for syllable in here:
            syllable.end = time
        for syllable in later:
            syllable.start = time
    return rows


def filled_rows(words: list[list[Syllable]], font: Font, room: float) -> list[list[list[Syllable]]]:
    """The words in rows, each row as full as it can be."""
    rows: list[list[list[Syllable]]] = []
    while words:
        # More words are wider, so the first number of them that does not fit is found by bisection.
        count = min(len(words), ROOM)
        if not fits_in_row(words[:count], font, room):
            count = (
                bisect.bisect_left(range(2, count), True, key=lambda most: not fits_in_row(words[:most], font, room))
                + 1
            )
        rows.append(words[:count])
        words = words[count:]
    return rows


class Setter:
    """Sets lines in one font, or one for each voice, all on the same height within their rows of tiles. The texts are
    those of the song with their voices."""

    def __init__(
        self,
        font: Font,
        texts: list[tuple[str, int]],
        align: str = "centre",
        has_outline: bool = False,
        has_both: bool = False,
        inks: Inks = INKS[1],
    ):
        self.font, self.align, self.has_outline, self.inks = font, align, has_outline, inks
        heights = [self.of(voice).heights([text], self.of(voice).size) for text, voice in texts] or [(0, 0)]
        above, below = max(above for above, _ in heights), max(below for _, below in heights)
        self.above = above + has_outline
        high = self.above + below + has_outline
        self.tile_rows = max(1, -(-high // TILE_HEIGHT))
        if self.height > HEIGHT:
            raise Refusal(font.paths[0], f"its letters of {font.size} pixels are {self.height} pixels high")
        if has_both:
            # Lower by the distance that brings the middle of small letters next to the edge of tiles.
            self.above += min(range(self.height - high + 1), key=lambda lower: abs(self.middle + lower - TILE_HEIGHT))

    def of(self, voice: int) -> Font:
        return self.font.of(voice)

    @property
    def middle(self) -> float:
        """From the top of a row of letters to the middle of small ones."""
        return self.above - self.font.size * 0.27

    @property
    def height(self) -> int:
        return TILE_HEIGHT * self.tile_rows

    def set(self, line: Line, words: list[list[Syllable]]) -> Letters:
        text, font = text_of_words(words), self.of(line.voice if line.syllables else FIRST)
        size = font.size
        while font.width(text, size) > ROOM and size > SMALLEST:
            size -= 1
        wide = font.width(text, size)
        left = {"left": MARGIN, "right": round(WIDTH - MARGIN - wide)}.get(self.align, round((WIDTH - wide) / 2))
        left = max(0, min(left, round(WIDTH - wide)))
        parts = parts_of_text([syllable for word in words for syllable in word], text, font, left, size)
        return Letters(line, self.inks_of(text, font, left, size, parts), parts)

    def inks_of(self, text: str, font: Font, left: int, size: int, parts: list[SungPart]) -> list[bytes]:
        """The numbers of all pixels: levels of the voices, and the outline."""
        light = font.drawn(text, size, left, self.above, self.height)
        lights = [light[at : at + WIDTH] for at in range(0, len(light), WIDTH)]
        first = parts[0].syllable.voice if parts else FIRST
        rows = [row.translate(self.table(first, y, font)) for y, row in enumerate(lights)]
        for part in parts:
            if part.syllable.voice != first:
                for y, row in enumerate(lights):
                    some = row[part.left : part.right].translate(self.table(part.syllable.voice, y, font))
                    rows[y] = rows[y][: part.left] + some + rows[y][part.left + len(some) :]
        return outlined(rows, self.inks) if self.has_outline else rows

    def table(self, voice: int, y: int, font: Font) -> bytes:
        """The number for each lightness of a pixel; letters of all voices have the colours of the first two."""
        shown = (FIRST if y < self.half() else SECOND) if voice == BOTH else voice
        return self.inks.levelled(shown, font.is_plain)

    def half(self) -> int:
        """The pixel row from which on letters of both voices have the colours of the second: the edge of tiles that is
        nearest to the middle of small letters."""
        return TILE_HEIGHT * min(max(1, round(self.middle / TILE_HEIGHT)), max(1, self.tile_rows - 1))


def parts_of_text(syllables: list[Syllable], text: str, font: Font, left: int, size: int) -> list[SungPart]:
    """The places of the syllables of a row that begins at a pixel; one in two directions has a part for each."""
    parts: list[SungPart] = []
    whole = "".join(syllable.text for syllable in syllables)
    at = len(whole.lstrip()) - len(whole)
    for syllable in syllables:
        first, last = max(0, at), min(len(text), at + len(syllable.text))
        at += len(syllable.text)
        found = [one for one in font.extents(text, size, first, last) if text[one[0] : one[1]].strip()]
        if not found and parts:
            parts[-1].syllable.text += syllable.text
        count, done = sum(end - begin for begin, end, *_ in found), 0
        long = syllable.end - syllable.start
        for number, (begin, end, one, other, is_leftward) in enumerate(found):
            start, until = (syllable.start + long * letters / count for letters in (done, done + end - begin))
            done += end - begin
            # Spaces between two parts belong to the first one.
            following = found[number + 1][0] if number + 1 < len(found) else last
            spelled = syllable.text if len(found) == 1 else text[begin if number else first : following]
            piece = Syllable(spelled, start, until, syllable.voice)
            parts.append(SungPart(piece, left + round(one), left + round(other), is_leftward))
    if parts:
        # Letters may reach a little beyond their width.
        rightmost, leftmost = max(parts, key=lambda one: one.right), min(parts, key=lambda one: one.left)
        rightmost.right += MARGIN * (not rightmost.is_leftward)
        leftmost.left = max(0, leftmost.left - MARGIN * leftmost.is_leftward)
    return parts


def outlined(rows: list[bytes], inks: Inks) -> list[bytes]:
    """The same letters with an outline of one pixel."""
    grown: list[bytes] = []
    none, is_ink = bytes(WIDTH), bytes(255 * (number in inks.every) for number in range(256))
    for above, row, below in zip([none, *rows], rows, [*rows[1:], none]):
        near = [int.from_bytes(one.translate(is_ink), "big") for one in (above, row, below)]
        every = near[0] | near[1] | near[2]
        spread = (every | every << 8 | every >> 8) & (1 << 8 * WIDTH) - 1
        around = spread.to_bytes(WIDTH, "big")
        grown.append(bytes(number or inks.outline * (mark > 0) for number, mark in zip(row, around)))
    return grown
