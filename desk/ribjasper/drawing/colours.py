"""Colours of twelve bits, four each of red, green and blue, and the few of them that replace many."""
import functools
import math
import re
from collections import Counter
from typing import Iterable, NamedTuple, Sequence


SPELLED = re.compile(r"#?([0-9A-Fa-f]{3}|[0-9A-Fa-f]{6})")


class Colour(NamedTuple):
    """Red, green and blue, each from 0 to 15."""

    red: int
    green: int
    blue: int

    def word(self) -> str:
        """Its spelling in a script: `0RGB`."""
        return f"0{self.red:X}{self.green:X}{self.blue:X}"

    def lightness(self) -> float:
        """How light it is, from 0 to 1: the relative luminance of sRGB."""
        return sum(weight * linear(part / 15) for weight, part in zip((0.2126, 0.7152, 0.0722), self))

    def far_from(self, other: "Colour") -> int:
        """How different two colours look: green counts most, blue least."""
        red, green, blue = self.red - other.red, self.green - other.green, self.blue - other.blue
        return 3 * red * red + 6 * green * green + blue * blue


def linear(part: float) -> float:
    """The light of a component of an sRGB colour."""
    return part / 12.92 if part <= 0.04045 else math.pow((part + 0.055) / 1.055, 2.4)


def contrast(first: Colour, second: Colour) -> float:
    """The contrast ratio of WCAG 2, from 1 to 21."""
    dark, light = sorted((first.lightness(), second.lightness()))
    return (light + 0.05) / (dark + 0.05)


def read_colour(word: str) -> Colour | None:
    """A colour that is spelled `#RGB` or `#RRGGBB`, or nothing."""
    found = SPELLED.fullmatch(word)
    if not found:
        return None
    if len(found[1]) == 3:
        return Colour(*(int(digit, 16) for digit in found[1]))
    return near(*bytes.fromhex(found[1]))


@functools.lru_cache(maxsize=1 << 16)
def near(red: int, green: int, blue: int) -> Colour:
    """The colour nearest to one of three bytes."""
    return Colour(*((part + 8) // 17 for part in (red, green, blue)))


def blend(first: Colour, second: Colour, part: float) -> Colour:
    """A colour between two: the first at 0, the second at 1."""
    return Colour(*(round(one + (two - one) * part) for one, two in zip(first, second)))


def nearest_colour(colour: Colour, among: Sequence[Colour]) -> int:
    """The place of the colour that looks most like this one."""
    return min(range(len(among)), key=lambda place: colour.far_from(among[place]))


def chosen(pixels: Iterable[Colour], most: int) -> list[Colour]:
    """At most `most` colours that are nearest to these pixels, frequent ones first."""
    weights = Counter(pixels)
    if len(weights) <= most:
        return [colour for colour, _ in weights.most_common()]
    few = spread_colours(weights, most)
    for _ in range(12):
        better = [mean(group, weights) for group in groups(weights, few) if group]
        better = list(dict.fromkeys(better))
        better += farthest(weights, better, most - len(better))
        if better == few:
            break
        few = better
    count = Counter(
        {place: sum(weights[colour] for colour in group) for place, group in enumerate(groups(weights, few))}
    )
    return [few[place] for place, _ in count.most_common()]


def spread_colours(weights: Counter[Colour], most: int) -> list[Colour]:
    """The most frequent colour, and then repeatedly the colour that the earlier ones replace worst."""
    first = weights.most_common(1)[0][0]
    return [first, *farthest(weights, [first], most - 1)]


def farthest(weights: Counter[Colour], few: list[Colour], count: int) -> list[Colour]:
    """At most `count` more colours. Each has the greatest error, weighted by its pixels, if earlier colours replace it."""
    error = {colour: min(colour.far_from(one) for one in few) for colour in weights}
    more: list[Colour] = []
    for _ in range(count):
        worst = max(weights, key=lambda colour: error[colour] * math.sqrt(weights[colour]))
        if not error[worst]:
            break
        more.append(worst)
        for colour in error:
            error[colour] = min(error[colour], colour.far_from(worst))
    return more


def groups(weights: Counter[Colour], few: Sequence[Colour]) -> list[list[Colour]]:
    """The colours that each of the few replaces."""
    parts: list[list[Colour]] = [[] for _ in few]
    for colour in weights:
        parts[nearest_colour(colour, few)].append(colour)
    return parts


def mean(group: Sequence[Colour], weights: Counter[Colour]) -> Colour:
    total = sum(weights[colour] for colour in group)
    return Colour(*(round(sum(colour[part] * weights[colour] for colour in group) / total) for part in range(3)))
