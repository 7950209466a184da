"""Styles of lyrics: fonts, colours and the layout of a page, as small TOML files define them."""
import functools
import os
import sys
import tomllib
from dataclasses import dataclass
from pathlib import Path
from typing import Any, Iterable, Sequence

from ..common.failures import Refusal
from ..common.output import read_file
from .colours import Colour, blend, read_colour
from .raster import BLACK, COLOURS, HEIGHT, Raster, TILE_HEIGHT

# The styles in the package, and where fonts are searched by their names.
FOLDER = Path(__file__).parent / "styles"
FOLDERS_OF_SYSTEMS = {
    "win32": (
        Path(os.environ.get("WINDIR", "C:/Windows")) / "Fonts",
        Path.home() / "AppData/Local/Microsoft/Windows/Fonts",
    ),
    "darwin": (Path("/System/Library/Fonts"), Path("/Library/Fonts"), Path.home() / "Library/Fonts"),
}
FONT_FOLDERS = FOLDERS_OF_SYSTEMS.get(
    sys.platform, (Path("/usr/share/fonts"), Path("/usr/local/share/fonts"), Path.home() / ".local/share/fonts")
)
# The number of the background colour, and the bit that is added to the number of a letter when it is sung.
GROUND, SUNG = 0, 8
VOICES = 4
ALIGNMENTS = ("left", "centre", "right")
LEAST_ROWS, MOST_ROWS = 2, 6
LEAST_SIZE, MOST_SIZE = 10, 40


@dataclass(frozen=True)
class Voice:
    """The colours of a singer: for unsung and for sung text; and the letters of the singer."""

    unsung: Colour
    sung: Colour
    fonts: tuple[Path, ...] = ()
    size: int | None = None


@dataclass(frozen=True)
class Inks:
    """The colour numbers: for each voice its levels, from the one next to the background to the full colour; of an
    outline around letters; and of the border. One or two voices have three levels, three voices have two. With four
    voices, two voices share the level between the background and the full colour."""

    levels: tuple[tuple[int, ...], ...]
    outline: int
    border: int

    def full(self, voice: int) -> int:
        """The full colour of a voice; additional voices have the last one."""
        return self.levels[min(voice, len(self.levels) - 1)][-1]

    @property
    def every(self) -> set[int]:
        """All numbers of letters that are not sung yet."""
        return {number for levels in self.levels for number in levels}

    @functools.cached_property
    def lit(self) -> bytes:
        """The number for each number when it is sung: one more bit, so that one pack per tile lights a word."""
        return bytes(number | SUNG if number in self.every else number for number in range(256))

    @functools.lru_cache(maxsize=None)
    def levelled(self, voice: int, is_plain: bool) -> bytes:
        """The number for each lightness of a pixel, from 0 to 255; plain letters have only the full colour."""
        numbers = (GROUND, *self.levels[min(voice, len(self.levels) - 1)])
        most = len(numbers) - 1
        if is_plain:
            return bytes(numbers[-1] if light > 127 else GROUND for light in range(256))
        return bytes(numbers[(most * light + 127) // 255] for light in range(256))


INKS = {
    1: Inks(((1, 2, 3),), 4, 12),
    2: Inks(((1, 2, 3), (5, 6, 7)), 4, 12),
    3: Inks(((5, 1), (6, 2), (7, 3)), 4, 12),
    4: Inks(((5, 1), (5, 2), (6, 3), (6, 4)), 7, 15),
}


@dataclass(frozen=True)
class Style:
    """Colours, letters and layout. A page has `rows` rows; with `by_page`, all rows of a page disappear together."""

    voices: tuple[Voice, ...]
    ground: Colour = BLACK
    border: Colour = BLACK
    outline: Colour | None = None
    fonts: tuple[Path, ...] = ()
    size: int | None = None
    align: str = "centre"
    rows: int = 4
    by_page: bool = False
    background: Path | None = None
    rest: str = "instrumental"
    path: Path | None = None

    def files(self) -> list[Path]:
        """The files from which it is read."""
        fonts = [*self.fonts, *(path for voice in self.voices for path in voice.fonts)]
        return [path for path in (self.path, self.background, *fonts) if path]

    def voice(self, number: int) -> Voice:
        """The colours of a voice; additional voices have those of the last one."""
        return self.voices[min(number, len(self.voices) - 1)]

    @property
    def edge(self) -> Colour | None:
        """The colour around letters: that of the outline, which letters on a picture always have."""
        return self.outline if self.outline or not self.background else self.ground

    @property
    def slot_rows(self) -> int:
        """The rows of tiles that each row of a page has."""
        return HEIGHT // TILE_HEIGHT // self.rows

    def top(self, slot: int) -> int:
        """The first pixel row of a row of a page; pixel rows that are left over are above the first row."""
        above = HEIGHT // TILE_HEIGHT - self.rows * self.slot_rows
        return TILE_HEIGHT * (above + self.slot_rows * slot)

    def colours(self, voices: int) -> dict[int, Colour]:
        """The numbers of all colours except those of a background."""
        inks = INKS[voices]
        numbers = {GROUND: self.ground, inks.border: self.border}
        if self.edge:
            numbers[inks.outline] = self.edge
        around = self.edge or self.ground
        shared: dict[int, list[tuple[Colour, Colour]]] = {}
        for number, levels in enumerate(inks.levels):
            voice = self.voice(number)
            for level, ink in enumerate(levels, 1):
                part = level / len(levels)
                shared.setdefault(ink, []).append((blend(around, voice.unsung, part), blend(around, voice.sung, part)))
        for ink, colours in shared.items():
            unsung, sung = zip(*colours)
            numbers[ink], numbers[ink | SUNG] = middle(unsung), middle(sung)
        return numbers

    def empty(self, voices: int = 1) -> Raster:
        numbers = self.colours(voices)
        raster = Raster(colours=[numbers.get(number, self.ground) for number in range(COLOURS)])
        raster.border = INKS[voices].border if self.border != self.ground else GROUND
        return raster

    def others(self, size: int) -> tuple[tuple[int, tuple[Path, ...], float], ...]:
        """The voices with their own letters, for a font of this size."""
        base = self.size or size
        return tuple(
            (number, voice.fonts, (voice.size or base) / base)
            for number, voice in enumerate(self.voices)
            if voice.fonts or voice.size
        )


def middle(colours: Sequence[Colour]) -> Colour:
    """The mean of some colours."""
    return Colour(*(round(sum(parts) / len(parts)) for parts in zip(*colours)))


class TomlTable:
    """A table of TOML whose keys are read one by one; a wrong value is refused with its name."""

    def __init__(self, path: Path, values: dict[str, Any]):
        self.path, self.values = path, dict(values)

    def take(self, key: str, kind: type | tuple[type, ...], what: str) -> Any:
        value = self.values.pop(key, None)
        if value is not None and (not isinstance(value, kind) or isinstance(value, bool) and kind is not bool):
            raise Refusal(self.path, f"{key} is {value!r}, but must be {what}")
        return value

    def text(self, key: str) -> str | None:
        value: str | None = self.take(key, str, "a text")
        return value

    def one_of(self, key: str, words: Iterable[str], default: str) -> str:
        words = tuple(words)
        value = self.text(key)
        if value is not None and value not in words:
            raise Refusal(self.path, f"{key} is {value!r}, but must be one of {', '.join(words)}")
        return value or default

    def number(self, key: str, least: float, most: float, kind: type = int) -> Any:
        value = self.take(key, (int, float) if kind is float else int, "a number")
        if value is not None and not least <= value <= most:
            raise Refusal(self.path, f"{key} is {value}, but must be from {least} to {most}")
        return value

    def colour(self, key: str, default: Colour | None) -> Colour | None:
        word = self.text(key)
        if word is None:
            return default
        colour = read_colour(word)
        if colour is None:
            raise Refusal(self.path, f"{key} is {word!r}, but must be a colour like #08F or #0088FF")
        return colour

    def file(self, key: str) -> Path | None:
        """A file by its name; a relative path starts in the folder of this file."""
        name = self.text(key)
        return self.path.parent / name if name else None

    def tables(self, key: str) -> list["TomlTable"]:
        found = self.take(key, list, "tables in double brackets")
        if not all(isinstance(one, dict) for one in found or []):
            raise Refusal(self.path, f"{key} must be written [[{key}]]")
        return [TomlTable(self.path, one) for one in found or []]

    def end(self) -> None:
        """Refuses keys that were not read."""
        if self.values:
            raise Refusal(self.path, f"has unknown keys: {', '.join(map(repr, self.values))}")


def read_table(path: Path) -> TomlTable:
    """A file of TOML."""
    content = read_file(path)
    try:
        return TomlTable(path, tomllib.loads(content.decode("utf-8-sig")))
    except UnicodeDecodeError as wrong:
        raise Refusal(path, f"byte {wrong.start} is not UTF-8") from None
    except tomllib.TOMLDecodeError as wrong:
        raise Refusal(path, f"is not TOML: {wrong}") from None


def shipped() -> list[str]:
    """The names of the styles in the package."""
    return sorted(path.stem for path in FOLDER.glob("*.toml"))


def read_style(word: str) -> Style:
    """A style by its name, or by its file."""
    path = FOLDER / f"{word}.toml" if word in shipped() else Path(word)
    if path.suffix != ".toml":
        raise Refusal(word, f"is not a style; the styles are {', '.join(shipped())}, and files that end with .toml")
    table = read_table(path)
    voices = tuple(voice_of(one) for one in table.tables("voice"))
    if not 1 <= len(voices) <= VOICES:
        raise Refusal(path, f"has {len(voices)} tables [[voice]], but must have 1 to {VOICES}")
    ground = table.colour("ground", BLACK) or BLACK
    style = Style(
        voices=voices,
        ground=ground,
        border=table.colour("border", ground) or ground,
        outline=table.colour("outline", None),
        fonts=tuple(font_file(path, name) for name in font_names(table)),
        size=table.number("size", LEAST_SIZE, MOST_SIZE),
        align=table.one_of("align", ALIGNMENTS, "centre"),
        rows=table.number("rows", LEAST_ROWS, MOST_ROWS) or 4,
        by_page=table.one_of("mode", ("line", "page"), "line") == "page",
        background=table.file("background"),
        rest=table.text("rest") or "instrumental",
        path=path,
    )
    table.end()
    check_colours(style)
    return style


def check_colours(style: Style) -> None:
    """Refuses letters in the background colour, and sung letters in the colour of unsung ones."""
    for number, voice in enumerate(style.voices, 1):
        if style.ground in (voice.sung, voice.unsung):
            which = "sung" if voice.sung == style.ground else "unsung"
            raise Refusal(style.path or "the style", f"[[voice]] {number}: {which} has the colour of the ground")
        if voice.sung == voice.unsung:
            raise Refusal(style.path or "the style", f"[[voice]] {number}: sung and unsung have the same colour")


def voice_of(table: TomlTable) -> Voice:
    unsung, sung = table.colour("unsung", None), table.colour("sung", None)
    if unsung is None or sung is None:
        raise Refusal(table.path, "a [[voice]] needs the colours unsung and sung")
    fonts = tuple(font_file(table.path, name) for name in font_names(table))
    size = table.number("size", LEAST_SIZE, MOST_SIZE)
    table.end()
    return Voice(unsung, sung, fonts, size)


def font_names(table: TomlTable) -> list[str]:
    names = table.take("font", (str, list), "the name of a font, or a list of names") or []
    names = [names] if isinstance(names, str) else names
    if not all(isinstance(name, str) for name in names):
        raise Refusal(table.path, "font must be the name of a font, or a list of names")
    return names


def font_file(beside: Path, name: str) -> Path:
    """The file of a font: a path, or the name of one that is installed."""
    if "/" in name or (beside.parent / name).exists():
        return beside.parent / name
    stem = Path(name).stem if name.lower().endswith((".ttf", ".otf", ".ttc")) else name
    for folder in FONT_FOLDERS:
        for path in sorted(folder.rglob("*")):
            if path.stem.lower() == stem.lower() and path.suffix.lower() in (".ttf", ".otf", ".ttc"):
                return path
    raise Refusal(beside, f"there is no font {name} in {', '.join(map(str, FONT_FOLDERS))}")
