"""The order of letters from left to right in a text of two directions: the Unicode bidirectional algorithm (UAX #9)
for one line. Explicit embeddings and isolates, which lyrics do not have, are ignored."""
import unicodedata
from typing import Sequence

STRONG, NUMBERS = ("L", "R", "AL"), ("EN", "AN")
NEUTRAL = ("B", "S", "WS", "ON")
# Signs that only control the direction, and have no place of their own.
IGNORED = ("BN", "LRE", "RLE", "LRO", "RLO", "PDF", "LRI", "RLI", "FSI", "PDI")
OPENING = dict(zip("([{\u0f3a\u0f3c\u169b\u2045\u207d\u208d\u2308\u230a\u2329\u27e6\u27e8\u27ea\u27ec\u27ee\u3008\u300a\u300c"
                   "\u300e\u3010\u3014\u3016\u3018\u301a\uff08\uff3b\uff5b\uff5f\uff62",
                   ")]}\u0f3b\u0f3d\u169c\u2046\u207e\u208e\u2309\u230b\u232a\u27e7\u27e9\u27eb\u27ed\u27ef\u3009\u300b\u300d"
                   "\u300f\u3011\u3015\u3017\u3019\u301b\uff09\uff3d\uff5d\uff60\uff63"))  # fmt: skip
CLOSING = {closing: opening for opening, closing in OPENING.items()}
# Two signs that count as the angle brackets.
SAME = {"\u2329": "\u3008", "\u232a": "\u3009"}
MOST_OPEN = 63


def is_leftward(text: str) -> bool:
    """Whether a text as a whole runs from right to left: its first letter with a direction decides."""
    kinds = (unicodedata.bidirectional(letter) for letter in text)
    return next((kind in ("R", "AL") for kind in kinds if kind in STRONG), False)


def levels_of(text: str) -> list[int]:
    """The level of each letter: even ones run from left to right, odd ones from right to left."""
    kinds = [unicodedata.bidirectional(letter) for letter in text]
    base = int(is_leftward(text))
    if not base and not any(kind in ("R", "AL", "AN") for kind in kinds):
        return [0] * len(text)
    kept = [place for place, kind in enumerate(kinds) if kind not in IGNORED]
    some = resolved([text[place] for place in kept], [kinds[place] for place in kept], base)
    found = dict(zip(kept, some))
    levels: list[int] = []
    for place in range(len(text)):
        levels.append(found.get(place, levels[-1] if levels else base))
    # Blanks at the end have the level of the line.
    for place in range(len(text) - 1, -1, -1):
        if kinds[place] not in ("WS", "S", "B", *IGNORED):
            break
        levels[place] = base
    return levels


def resolved(letters: list[str], kinds: list[str], base: int) -> list[int]:
    """The levels of letters of these kinds, in a line of this level."""
    side = "R" if base else "L"
    first = list(kinds)
    kinds = weak(kinds, side)
    brackets(letters, kinds, side, first)
    neutral(kinds, side)
    level = {"L": 2 * base, "R": 1, "EN": 2, "AN": 2}
    return [level[kind] for kind in kinds]


def weak(kinds: list[str], side: str) -> list[str]:
    """Rules W1 to W7: marks, numbers and their signs."""
    found: list[str] = []
    for kind in kinds:
        found.append((found[-1] if found else side) if kind == "NSM" else kind)
    strong = side
    for place, kind in enumerate(found):
        strong = kind if kind in STRONG else strong
        if kind == "EN" and strong == "AL":
            found[place] = "AN"
    found = ["R" if kind == "AL" else kind for kind in found]
    for place in range(1, len(found) - 1):
        before, kind, after = found[place - 1 : place + 2]
        if before == after and (kind, before) in (("ES", "EN"), ("CS", "EN"), ("CS", "AN")):
            found[place] = before
    place = 0
    while place < len(found):
        end = place
        while end < len(found) and found[end] == "ET":
            end += 1
        if end > place and "EN" in (found[place - 1] if place else "", found[end] if end < len(found) else ""):
            found[place:end] = ["EN"] * (end - place)
        place = max(end, place + 1)
    strong = side
    for place, kind in enumerate(found):
        strong = kind if kind in STRONG else strong
        if kind in ("ES", "ET", "CS"):
            found[place] = "ON"
        elif kind == "EN" and strong == "L":
            found[place] = "L"
    return found


def side_of(kind: str) -> str | None:
    """The direction of a kind; numbers count as from right to left."""
    return "L" if kind == "L" else "R" if kind in ("R", *NUMBERS) else None


def pairs_of(letters: list[str], kinds: list[str]) -> list[tuple[int, int]]:
    """The places of brackets that belong together, in the order of the opening ones."""
    open_: list[tuple[str, int]] = []
    pairs: list[tuple[int, int]] = []
    for place, letter in enumerate(letters):
        if kinds[place] != "ON":
            continue
        if letter in OPENING:
            if len(open_) == MOST_OPEN:
                return []
            closing = OPENING[letter]
            open_.append((SAME.get(closing, closing), place))
        elif letter in CLOSING:
            wanted = SAME.get(letter, letter)
            for depth in range(len(open_) - 1, -1, -1):
                if open_[depth][0] == wanted:
                    pairs.append((open_[depth][1], place))
                    del open_[depth:]
                    break
    return sorted(pairs)


def brackets(letters: list[str], kinds: list[str], side: str, first: list[str]) -> None:
    """Rule N0: a pair of brackets has the direction of the line if any text in it has this direction; otherwise the
    direction of the text in it and before it."""
    for opening, closing in pairs_of(letters, kinds):
        inside = {side_of(kind) for kind in kinds[opening + 1 : closing]} - {None}
        if side in inside:
            found = side
        elif inside:
            before = next((side_of(kind) for kind in reversed(kinds[:opening]) if side_of(kind)), side)
            found = "R" if before == "R" and side == "L" else "L" if before == "L" and side == "R" else side
        else:
            continue
        for place in (opening, closing):
            kinds[place] = found
            for mark in range(place + 1, len(kinds)):
                if first[mark] != "NSM":
                    break
                kinds[mark] = found


def neutral(kinds: list[str], side: str) -> None:
    """Rules N1 and N2: a neutral letter has the direction of both its neighbours if they agree, or that of the line."""
    place = 0
    while place < len(kinds):
        end = place
        while end < len(kinds) and kinds[end] in NEUTRAL:
            end += 1
        if end > place:
            before = side_of(kinds[place - 1]) if place else side
            after = side_of(kinds[end]) if end < len(kinds) else side
            kinds[place:end] = [before if before and before == after else side] * (end - place)
        place = max(end, place + 1)


def in_sight(levels: Sequence[int]) -> list[int]:
    """The places of letters, or of runs of them, with these levels, in the order from left to right (rule L2)."""
    order = list(range(len(levels)))
    odd = [level for level in levels if level % 2]
    for level in range(max(levels, default=0), min(odd, default=1) - 1, -1):
        place = 0
        while place < len(order):
            end = place
            while end < len(order) and levels[order[end]] >= level:
                end += 1
            order[place:end] = order[place:end][::-1]
            place = max(end, place + 1)
    return order
