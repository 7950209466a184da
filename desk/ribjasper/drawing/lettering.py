"""Lines of lyrics as letters on the screen: wrapped, aligned, in four levels from the background to the full colour."""
import functools
import os
import sys
import unicodedata
from pathlib import Path
from typing import Any, Iterable, NamedTuple, Sequence

from ..common.failures import Missing, Refusal
from ..common.output import package
from .bidi import in_sight, levels_of
from .raster import WIDTH

# A bold font that the system has.
FONTS_OF_SYSTEMS = {
    "win32": Path(os.environ.get("WINDIR", "C:/Windows")) / "Fonts" / "arialbd.ttf",
    "darwin": Path("/System/Library/Fonts/Supplemental/Arial Bold.ttf"),
}
DEFAULT_FONT = FONTS_OF_SYSTEMS.get(sys.platform, Path("/usr/share/fonts/truetype/dejavu/DejaVuSans-Bold.ttf"))
FONT_PACKAGE = "fonts-dejavu-core"
# Fonts of Debian for letters that other fonts do not have, if they are installed.
FALLBACKS = tuple(
    Path("/usr/share/fonts") / name
    for name in (
        "truetype/dejavu/DejaVuSans.ttf",
        "truetype/vlgothic/VL-Gothic-Regular.ttf",
        "opentype/ipafont-gothic/ipag.ttf",
        "opentype/noto/NotoSansCJK-Bold.ttc",
        "truetype/unfonts-core/UnDotumBold.ttf",
        "truetype/wqy/wqy-zenhei.ttc",
        "truetype/noto/NotoSansThai-Bold.ttf",
        "truetype/noto/NotoSansDevanagari-Bold.ttf",
    )
)
# A character that no font has: its picture is the one for missing letters.
NO_LETTER = "\U0010ffff"
# Whether a font file has a letter, for letters that were looked up before.
KNOWN: dict[tuple[Path, str], bool] = {}
# The box that replaces a missing letter on request, and a sign that joins a letter to the next one.
BOX, JOINER = "\u25a1", "\u200d"


# Voices with letters of their own: their numbers, files and ratios. The smallest letters that they may have.
Others = tuple[tuple[int, tuple[Path, ...], float], ...]
LEAST_LETTERS = 8


class LetterRun(NamedTuple):
    """A run of a text in one direction and from one file: the places of its letters in the text, the number of the
    file, its first pixel, and its width."""

    first: int
    last: int
    face: int
    is_leftward: bool
    left: float
    width: float


class Font:
    """The letters of some files in one size; a missing letter comes from the next file. Plain letters have no levels
    between the background and the full colour."""

    def __init__(self, paths: Sequence[Path], size: int, is_plain: bool = False, others: "Others" = ()):
        # Voices whose letters come from other files, or have another size, with this ratio to the other letters.
        self.others = others
        self._fonts: dict[int, Font] = {}
        self._given: tuple[Path, ...] = tuple(paths)
        self.paths = [*(paths or [DEFAULT_FONT]), *(path for path in FALLBACKS if path.exists())]
        self.size, self.is_plain = size, is_plain
        self.fonts: Any = package("PIL.ImageFont", "python3-pil")
        self.images: Any = package("PIL.Image", "python3-pil")
        self.draws: Any = package("PIL.ImageDraw", "python3-pil")
        if not paths and not DEFAULT_FONT.exists():
            raise Missing(f"this needs the package {FONT_PACKAGE} (apt-get install {FONT_PACKAGE}), or --font FILE")
        self._made: dict[tuple[int, int], Any] = {}
        self._faces: dict[str, int | None] = {}
        # Letters that the first file has, and those that are not drawn.
        self._plain: set[str] = set()
        self._widths: dict[tuple[str, int], float] = {}
        self._runs: dict[tuple[str, int], list[LetterRun]] = {}
        self._parts: dict[tuple[str, int, int], float] = {}
        self._boxes: dict[tuple[str, int], list[tuple[int, int, int, int]]] = {}
        self.face(0, size)

    def of(self, voice: int) -> "Font":
        """The letters of a voice."""
        if voice not in self._fonts:
            found = next((other for other in self.others if other[0] == voice), None)
            if found is None:
                return self
            paths, size = tuple(found[1] or self._given), max(LEAST_LETTERS, round(self.size * found[2]))
            self._fonts[voice] = font_of(paths, size, self.is_plain)
        return self._fonts[voice]

    def sized(self, size: int, is_plain: bool = False) -> "Font":
        """The same letters in another size."""
        return font_of(self._given, size, is_plain, self.others)

    def face(self, number: int, size: int) -> Any:
        """A file's letters in a size."""
        if (number, size) not in self._made:
            try:
                self._made[number, size] = self.fonts.truetype(str(self.paths[number]), size)
            except OSError as error:
                raise Refusal(self.paths[number], f"is not a readable font: {error}") from None
        return self._made[number, size]

    def face_of(self, letter: str) -> int | None:
        """The first file that has a letter."""
        if letter not in self._faces:
            self._faces[letter] = next((number for number in range(len(self.paths)) if self.has(number, letter)), None)
        return self._faces[letter]

    def has(self, number: int, letter: str) -> bool:
        """Whether a file has a letter; the size does not matter."""
        key = self.paths[number], letter
        if key not in KNOWN:
            face = self.face(number, self.size)
            KNOWN[key] = bytes(face.getmask(letter)) != bytes(face.getmask(NO_LETTER))
        return KNOWN[key]

    def missing(self, text: str) -> set[str]:
        """The letters of a text that no file has."""
        return {letter for letter in text if is_drawn(letter) and self.face_of(letter) is None}

    def faces_of(self, text: str) -> list[int]:
        """The number of the file for each letter."""
        letters = set(text) - self._plain
        if all(self.face_of(letter) == 0 for letter in letters if is_drawn(letter)):
            self._plain |= letters
            return [0] * len(text)
        faces: list[int] = []
        for letter in text:
            before = faces[-1] if faces else 0
            if not is_drawn(letter) or faces and self.face_of(letter) != 0 and self.has(before, letter):
                faces.append(before)
            else:
                faces.append(self.face_of(letter) or 0)
        return faces

    def runs(self, text: str, size: int) -> list[LetterRun]:
        """The runs of a text from left to right, the first at 0."""
        if (text, size) not in self._runs:
            self._runs[text, size] = self._laid_out(text, size)
        return self._runs[text, size]

    def _laid_out(self, text: str, size: int) -> list[LetterRun]:
        levels, faces = levels_of(text), self.faces_of(text)
        starts = [at for at in range(len(text)) if not at or (levels[at], faces[at]) != (levels[at - 1], faces[at - 1])]
        ends, left = [*starts[1:], len(text)], 0.0
        runs: list[LetterRun] = []
        for number in in_sight([levels[at] for at in starts]):
            first, last = starts[number], ends[number]
            wide = self.face(faces[first], size).getlength(text[first:last])
            runs.append(LetterRun(first, last, faces[first], bool(levels[first] % 2), left, wide))
            left += wide
        return runs

    def extents(self, text: str, size: int, first: int, last: int) -> list[tuple[int, int, float, float, bool]]:
        """The pieces with some letters of a text, in the order of reading: the letters and the pixels from and to which
        each piece extends, and whether it runs from right to left."""
        found = []
        for run in self.runs(text, size):
            begin, end = max(first, run.first), min(last, run.last)
            if begin < end:
                one, other = (self._width_up_to(text, run, place, size) for place in (begin, end))
                sides = (run.width - other, run.width - one) if run.is_leftward else (one, other)
                found.append((begin, end, run.left + sides[0], run.left + sides[1], run.is_leftward))
        return sorted(found)

    def _width_up_to(self, text: str, run: LetterRun, place: int, size: int) -> float:
        """The width of the letters of a run before a place; the last of them has the form that it has in the run."""
        if place in (run.first, run.last):
            return run.width if place == run.last else 0.0
        joined = unicodedata.bidirectional(text[place - 1]) == "AL" and text[place].isalpha()
        key = text[run.first : place] + JOINER * joined, run.face, size
        if key not in self._parts:
            self._parts[key] = float(self.face(run.face, size).getlength(key[0]))
        return min(run.width, self._parts[key])

    def width(self, text: str, size: int) -> float:
        if (text, size) not in self._widths:
            self._widths[text, size] = sum(run.width for run in self.runs(text, size))
        return self._widths[text, size]

    def heights(self, texts: Iterable[str], size: int) -> tuple[int, int]:
        """The distance to which the letters extend above and below their base line."""
        boxes = [box for text in texts for box in self.boxes(text, size)]
        return max((-box[1] for box in boxes), default=0), max((box[3] for box in boxes), default=0)

    def boxes(self, text: str, size: int) -> list[tuple[int, int, int, int]]:
        """The extent of the letters of each run around its base line."""
        if (text, size) not in self._boxes:
            self._boxes[text, size] = [
                self.face(run.face, size).getbbox(text[run.first : run.last], anchor="ls")
                for run in self.runs(text, size)
            ]
        return self._boxes[text, size]

    def drawn(self, text: str, size: int, left: int, above: int, height: int) -> bytes:
        """The lightness of each pixel, from 0 to 255."""
        image = self.images.new("L", (WIDTH, height), 0)
        pen = self.draws.Draw(image)
        for run in self.runs(text, size):
            letters, how = text[run.first : run.last], dict[str, str]()
            if has_directions():
                how = {"direction": "rtl" if run.is_leftward else "ltr"}
            elif run.is_leftward:
                letters = letters[::-1]
            at = round(left + run.left), above
            pen.text(at, letters, 255, font=self.face(run.face, size), anchor="ls", **how)
        light: bytes = image.tobytes()
        return light


@functools.lru_cache(maxsize=256)
def font_of(paths: tuple[Path, ...], size: int, is_plain: bool = False, others: Others = ()) -> Font:
    """A font that is kept with its data about texts, for songs that are planned again after a change."""
    return Font(paths, size, is_plain, others)


@functools.lru_cache(maxsize=None)
def has_directions() -> bool:
    """Whether Pillow can draw a text in a given direction, with its letters joined (libraqm)."""
    features: Any = package("PIL.features", "python3-pil")
    return bool(features.check("raqm"))


@functools.lru_cache(maxsize=None)
def is_drawn(letter: str) -> bool:
    """Whether a letter has its own picture: it is no space, mark or sign that only joins others."""
    return not letter.isspace() and unicodedata.category(letter) not in ("Mn", "Cf")


def named(letter: str) -> str:
    """A letter in messages: the letter, its number and its name."""
    name = unicodedata.name(letter, "").lower()
    return f"{letter} (U+{ord(letter):04X}{' ' * bool(name)}{name})"
