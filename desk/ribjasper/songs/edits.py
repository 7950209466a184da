"""Edits of a score: each is a small table, as in JSON, and makes another score. An edit that does not fit changes
nothing and raises BadEdit."""
import difflib
import math
from dataclasses import replace
from typing import Any, Callable, Iterable, Sequence

from .scores import (
    Picture, Score, ScoreLine, Word, fits, is_own_name, last_end, look_of, opened_line, split_words,
)  # fmt: skip
from .song_files import LONGEST_SONG
from .songs import BOTH, FIRST, letters_in

Edit = dict[str, Any]
# The greatest number of letters in a text, and of lines in a song.
MOST_LETTERS, MOST_LINES = 1_000, 2_000
# Times are kept to thousandths of a second.
DIGITS = 3


class BadEdit(ValueError):
    """The reason why an edit cannot be made."""


def edited(score: Score, edit: Edit) -> Score:
    """The score after an edit."""
    change = CHANGES.get(str(edit.get("do")))
    if change is None:
        raise BadEdit(f"there is no edit {edit.get('do')!r}")
    try:
        made = change(score, edit)
    except BadEdit:
        raise
    except (KeyError, IndexError, TypeError, ValueError, AttributeError) as error:
        raise BadEdit(f"{edit.get('do')}: {error}") from None
    known = {line.key: line for line in score.lines}
    # The lines of a file may have other times, for example before the sound begins.
    lines = (line if known.get(line.key) == line else checked(line) for line in settled(score, made))
    made = replace(made, lines=tuple(lines))
    if len(made.lines) > MOST_LINES:
        raise BadEdit(f"a song has at most {MOST_LINES} lines")
    return made


def checked(line: ScoreLine) -> ScoreLine:
    """A line whose times are in order, or BadEdit."""
    if not line.text:
        raise BadEdit("a line needs a text")
    starts = [word.start for word in line.words if word.start is not None]
    if len(starts) < len(line.words) and any(word.is_timed for word in line.words[len(starts) :]):
        raise BadEdit("give times to the words in their order")
    ends = [word.end or 0.0 for word in line.words[: len(starts)]]
    if starts != sorted(starts) or any(end < start for start, end in zip(starts, ends)):
        raise BadEdit("the times of the words must be in order")
    if starts and not (0 <= starts[0] and max(ends) <= LONGEST_SONG):
        raise BadEdit(f"times are from 0 to {LONGEST_SONG} seconds")
    return line


def settled(before: Score, after: Score) -> list[ScoreLine]:
    """The lines after an edit. An end that is a guess follows from the start of the next line, and is guessed again if
    this or the line changed."""
    if before.lines == after.lines:
        return list(after.lines)
    old, new = (list(followings(one.lines)) for one in (before, after))
    known = {line.key: (line, following) for line, following in old}
    made = []
    for line, following in new:
        if is_open(line) and known.get(line.key) != (line, following):
            words, until = opened_line(line.words, following)
            line = replace(line, words=words, until=until)
        made.append(line)
    return made


def is_open(line: ScoreLine) -> bool:
    return line.is_whole and line.until is not None and line.is_timed


def followings(lines: Sequence[ScoreLine]) -> Iterable[tuple[ScoreLine, float | None]]:
    """Each line with the next start of any line after its own."""
    starts = sorted({line.start for line in lines if line.start is not None})
    after = dict(zip(starts, starts[1:]))
    return [(line, None if line.start is None else after.get(line.start)) for line in lines]


def number_of(edit: Edit, name: str) -> float:
    value = edit[name]
    if isinstance(value, bool) or not isinstance(value, (int, float)) or not math.isfinite(value):
        raise BadEdit(f"{name} is not a number")
    return round(float(value), DIGITS)


def time_of(edit: Edit, name: str = "at") -> float:
    """A time in seconds, within a song."""
    return min(float(LONGEST_SONG), max(0.0, number_of(edit, name)))


def text_of(value: object) -> str:
    if not isinstance(value, str) or len(value) > MOST_LETTERS:
        raise BadEdit("a text is needed")
    return "".join(" " if letter.splitlines() == [""] else letter for letter in value)


def place_of(edit: Edit, count: int, name: str = "word") -> int:
    value = edit[name]
    if isinstance(value, bool) or not isinstance(value, int) or not 0 <= value < count:
        raise BadEdit(f"there is no {name} {value!r}")
    return value


def key_of(value: object) -> int:
    if isinstance(value, bool) or not isinstance(value, int):
        raise BadEdit(f"there is no line {value!r}")
    return value


def keys_of(score: Score, edit: Edit) -> set[int]:
    keys = {key_of(one) for one in edit["lines"]}
    for key in keys:
        score.place_of(key)
    return keys


def voice_in(value: object) -> int:
    if isinstance(value, bool) or not isinstance(value, int) or not FIRST <= value <= BOTH:
        raise BadEdit(f"there is no voice {value!r}")
    return value


def with_line(score: Score, place: int, *lines: ScoreLine) -> Score:
    """A score with other lines instead of one."""
    return replace(score, lines=(*score.lines[:place], *lines, *score.lines[place + 1 :]))


def free_key(score: Score) -> int:
    return max((line.key for line in score.lines), default=0) + 1


# Times


def fill_before(words: list[Word], place: int, time: float) -> None:
    """Spreads the untimed words before a word evenly between the last timed one and a time."""
    first = next((at for at in range(place) if not words[at].is_timed), place)
    begin = min(time, (words[first - 1].end or 0.0) if first else time)
    step = (time - begin) / max(1, place - first)
    for at in range(first, place):
        start, end = begin + step * (at - first), begin + step * (at - first + 1)
        words[at] = replace(words[at], start=round(start, DIGITS), end=round(end, DIGITS))


def started(words: Sequence[Word], place: int, time: float) -> list[Word]:
    """Moves one word to a time; the others are moved as needed, so that times never go back."""
    made = list(words)
    fill_before(made, place, time)
    before = made[place - 1] if place else None
    is_joined = before is not None and (words[place].start is None or before.end == words[place].start)
    for at, word in enumerate(made[:place]):
        made[at] = replace(word, start=min(word.start or 0.0, time), end=min(word.end or 0.0, time))
    if is_joined and before:
        made[place - 1] = replace(made[place - 1], end=time)
    made[place] = replace(made[place], start=time, end=max(time, made[place].end or time))
    for at in range(place + 1, len(made)):
        start, end = made[at].start, made[at].end
        if start is not None and end is not None:
            made[at] = replace(made[at], start=max(start, time), end=max(end, start, time))
    return capped(made)


def capped(words: list[Word]) -> list[Word]:
    """Words that end when the next one begins, at the latest, if they would overlap it now."""
    for at, (word, following) in enumerate(zip(words, words[1:])):
        if following.start is not None and word.end is not None and word.end > following.start:
            words[at] = replace(word, end=max(word.start or 0.0, following.start))
    return words


def tap(score: Score, edit: Edit) -> Score:
    """A word, or a whole line if no word is named, begins at a time. The last word of a line ends when the next line of
    its voice begins, or after three seconds."""
    place, time = score.place_of(key_of(edit["line"])), time_of(edit)
    line = score.lines[place]
    if edit.get("word") is None:
        joined = Word("".join(word.text for word in line.words), time, time, line.voice)
        line = replace(line, words=(joined,), is_whole=True, until=time)
    else:
        line = in_words(line)
        at = place_of(edit, len(line.words))
        words = started(line.words, at, time)
        if at == len(words) - 1:
            words[at] = replace(words[at], end=round(last_end(time, next_start(score, place, time)), DIGITS))
        line = replace(line, words=tuple(words), is_whole=False, until=None)
    made = with_line(score, place, line)
    return ended_before(made, place, time)


def in_words(line: ScoreLine) -> ScoreLine:
    """A line with one time for all words as a line of words; a word without a time is unchanged."""
    if not line.is_whole:
        return line
    texts = [text for word in line.words for text in split_words(word.text)]
    return replace(line, words=tuple(Word(text, None, None, line.voice) for text in texts), is_whole=False, until=None)


def next_start(score: Score, place: int, time: float) -> float | None:
    """The time at which the next line of the same voice begins, after a time."""
    voice = score.lines[place].voice
    starts = [line.start for line in score.lines if line.start is not None and line.voice == voice]
    return min((start for start in starts if start > time), default=None)


def ended_before(score: Score, place: int, time: float) -> Score:
    """A score in which the line before a line ends when this one begins, if one voice sings both."""
    if not place:
        return score
    line = score.lines[place - 1]
    last = line.words[-1]
    is_over = last.start is not None and last.end is not None and last.start < time < last.end
    if not is_over or line.voice != score.lines[place].voice or is_open(line):
        return score
    return with_line(score, place - 1, replace(line, words=(*line.words[:-1], replace(last, end=time))))


def start(score: Score, edit: Edit) -> Score:
    """Moves the beginning of a word."""
    place = score.place_of(key_of(edit["line"]))
    line = score.lines[place]
    at = place_of(edit, len(line.words))
    return with_line(score, place, replace(line, words=tuple(started(line.words, at, time_of(edit)))))


def end(score: Score, edit: Edit) -> Score:
    """Moves the end of a word: not before its beginning, nor past the end of the next one."""
    place = score.place_of(key_of(edit["line"]))
    line = score.lines[place]
    at = place_of(edit, len(line.words))
    word = line.words[at]
    if word.start is None:
        raise BadEdit("set the beginning of the word before its end")
    following = line.words[at + 1].start if at + 1 < len(line.words) else None
    time = max(word.start, min(time_of(edit), math.inf if following is None else following))
    words = (*line.words[:at], replace(word, end=time), *line.words[at + 1 :])
    # A line with one time has a known end now.
    return with_line(score, place, replace(line, words=words, until=None if line.is_whole else line.until))


def clear(score: Score, edit: Edit) -> Score:
    """Removes the times of lines."""
    keys = keys_of(score, edit)
    lines = (cleared(line) if line.key in keys else line for line in score.lines)
    return replace(score, lines=tuple(lines))


def cleared(line: ScoreLine) -> ScoreLine:
    words = tuple(replace(word, start=None, end=None) for word in in_words(line).words)
    return replace(line, words=words, is_whole=False, until=None)


def move(score: Score, edit: Edit) -> Score:
    """Moves words, lines, or everything from a time on by some seconds, but not past words that are not moved."""
    moved = moved_words(score, edit)
    by = number_of(edit, "by")
    least, most = bounds(score, moved)
    by = round(max(least, min(most, by)), DIGITS)
    lines = tuple(shifted(line, moved.get(line.key, set()), by) for line in score.lines)
    made = replace(score, lines=lines)
    return rest_moved(made, time_of(edit, "from"), by) if edit.get("from") is not None else made


def moved_words(score: Score, edit: Edit) -> dict[int, set[int]]:
    """The places of the words of each line that an edit moves."""
    moved: dict[int, set[int]] = {}
    if edit.get("from") is not None:
        time = time_of(edit, "from")
        for line in score.lines:
            moved[line.key] = {
                at for at, word in enumerate(line.words) if word.start is not None and word.start >= time
            }
    for key in edit.get("lines", ()):
        line = score.lines[score.place_of(key_of(key))]
        moved[line.key] = {at for at, word in enumerate(line.words) if word.is_timed}
    for key, at in edit.get("words", ()):
        line = score.lines[score.place_of(key_of(key))]
        if line.words[place_of({"word": at}, len(line.words))].is_timed:
            moved.setdefault(line.key, set()).add(at)
    return moved


def bounds(score: Score, moved: dict[int, set[int]]) -> tuple[float, float]:
    """The least and the greatest distance by which words may move."""
    least, most = -math.inf, math.inf
    for line in score.lines:
        for at in moved.get(line.key, ()):
            word = line.words[at]
            begin, until = word.start or 0.0, word.end or 0.0
            most = min(most, LONGEST_SONG - until)
            least = max(least, -begin)
            if at and at - 1 not in moved[line.key]:
                least = max(least, (line.words[at - 1].start or 0.0) - begin)
            if at + 1 < len(line.words) and at + 1 not in moved[line.key]:
                after = line.words[at + 1].start
                most = most if after is None else min(most, after - begin)
    return min(least, 0.0), max(most, 0.0)


def shifted(line: ScoreLine, places: set[int], by: float) -> ScoreLine:
    """Moves some words of a line. If the word before a moved one ended at its beginning, it still does."""
    if not places or not by:
        return line
    words = list(line.words)
    for at in places:
        word = words[at]
        if word.start is not None and word.end is not None:
            words[at] = replace(word, start=round(word.start + by, DIGITS), end=round(word.end + by, DIGITS))
    for at in sorted(places):
        if at and at - 1 not in places and line.words[at - 1].end == line.words[at].start:
            words[at - 1] = replace(words[at - 1], end=words[at].start)
    until = None if line.until is None else round(line.until + by, DIGITS)
    return replace(line, words=tuple(capped(words)), until=until)


def rest_moved(score: Score, time: float, by: float) -> Score:
    """Moves rests and pictures from a time on together with the lines."""

    def later(at: float) -> float:
        return max(0.0, round(at + by, DIGITS)) if at >= time else at

    pictures = (Picture(what, at if at is None else later(at), later(after)) for what, at, after in score.pictures)
    return replace(score, rests=tuple(map(later, score.rests)), pictures=tuple(pictures))


# Texts


def text(score: Score, edit: Edit) -> Score:
    """Changes the words of a line. Unchanged words keep their times, and new words share the time of the words that
    they replace."""
    place = score.place_of(key_of(edit["line"]))
    line = score.lines[place]
    texts = [text_of(one) for one in edit["texts"]]
    texts = [one for one in texts if one]
    if line.is_whole:
        first, last = line.words[0], line.words[-1]
        words: Sequence[Word] = [Word("".join(texts), first.start, last.end, first.voice)]
    else:
        words = retimed(line.words, texts)
    return with_line(score, place, replace(line, words=tuple(words)))


def retimed(words: Sequence[Word], texts: Sequence[str]) -> list[Word]:
    made: list[Word] = []
    old = [word.text for word in words]
    for kind, first, last, begin, until in difflib.SequenceMatcher(None, old, texts, False).get_opcodes():
        if kind == "equal":
            made += words[first:last]
        else:
            made += shared(words, first, last, texts[begin:until])
    is_cut = False
    for at, word in enumerate(made):
        # Words after one without a time have none either.
        is_cut = is_cut or not word.is_timed
        made[at] = replace(word, start=None, end=None) if is_cut else word
    return capped(made)


def shared(words: Sequence[Word], first: int, last: int, texts: Sequence[str]) -> list[Word]:
    """New words instead of some, or between two; their times are divided by their letters."""
    voice = words[min(first, len(words) - 1)].voice
    gone = words[first:last]
    if gone and gone[0].start is not None and gone[-1].end is not None:
        begin, until = gone[0].start, gone[-1].end
    elif not gone and first and words[first - 1].end is not None:
        begin = words[first - 1].end or 0.0
        following = words[first].start if first < len(words) else None
        until = begin if following is None else max(begin, following)
    elif not gone and words[0].start is not None:
        begin = until = words[0].start
    else:
        return [Word(one, None, None, voice) for one in texts]
    weights = [max(1, letters_in(one)) for one in texts]
    done, made = 0, list[Word]()
    for one, weight in zip(texts, weights):
        times = [begin + (until - begin) * part / sum(weights) for part in (done, done + weight)]
        made.append(Word(one, round(times[0], DIGITS), round(times[1], DIGITS), voice))
        done += weight
    return made


def add(score: Score, edit: Edit) -> Score:
    """A new line without times, after another one or before all lines."""
    words = tuple(Word(one) for one in split_words(text_of(edit["text"]).strip()))
    after = edit.get("after")
    place = 0 if after is None else score.place_of(key_of(after)) + 1
    voice = score.lines[place - 1].voice if place else FIRST
    line = ScoreLine(free_key(score), tuple(replace(word, voice=voice) for word in words))
    if not words:
        raise BadEdit("a line needs a text")
    return replace(score, lines=(*score.lines[:place], line, *score.lines[place:]))


def remove(score: Score, edit: Edit) -> Score:
    keys = keys_of(score, edit)
    kept = tuple(line for line in score.lines if line.key not in keys)
    if not kept:
        raise BadEdit("a song needs a line")
    return replace(score, lines=kept)


def cut(score: Score, edit: Edit) -> Score:
    """Splits a line in two; the second begins with a word."""
    place = score.place_of(key_of(edit["line"]))
    line = in_words(score.lines[place]) if score.lines[place].is_whole else score.lines[place]
    at = place_of(edit, len(line.words))
    front, back = line.words[:at], line.words[at:]
    if not front or not "".join(word.text for word in front).strip() or not back[0].text.strip():
        raise BadEdit("a line can only be broken between two words")
    whole = score.lines[place]
    if whole.is_whole:
        # The first half keeps the time of the line.
        joined = Word("".join(word.text for word in front), whole.start, whole.words[-1].end, whole.voice)
        first = replace(whole, words=(joined,))
    else:
        first = replace(line, words=front)
    second = ScoreLine(free_key(score), back)
    return with_line(score, place, first, second)


def glue(score: Score, edit: Edit) -> Score:
    """Joins a line and the next one."""
    place = score.place_of(key_of(edit["line"]))
    if place + 1 == len(score.lines):
        raise BadEdit("there is no next line")
    both = score.lines[place : place + 2]
    if all(line.is_whole and line.is_timed for line in both) and (both[0].start or 0.0) <= (both[1].start or 0.0):
        joined = Word(f"{both[0].text} {both[1].text}", both[0].start, both[1].words[-1].end, both[0].voice)
        return replace_two(score, place, replace(both[0], words=(joined,), until=both[1].until))
    one, other = (in_words(line) for line in both)
    words = list(one.words)
    if not words[-1].text[-1].isspace():
        words[-1] = replace(words[-1], text=words[-1].text + " ")
    words += other.words
    if not one.is_timed or any(
        before.start is not None and word.start is not None and word.start < before.start
        for before, word in zip(words, words[1:])
    ):
        first = len(one.words)
        words = [*words[:first], *(replace(word, start=None, end=None) for word in words[first:])]
    return replace_two(score, place, replace(one, words=tuple(capped(words)), is_whole=False, until=None))


def replace_two(score: Score, place: int, line: ScoreLine) -> Score:
    """A score with one line instead of two."""
    return replace(score, lines=(*score.lines[:place], line, *score.lines[place + 2 :]))


# Voices, pages and looks


def voice(score: Score, edit: Edit) -> Score:
    """Lets another singer sing some lines."""
    keys, number = keys_of(score, edit), voice_in(edit["voice"])

    def sung(line: ScoreLine) -> ScoreLine:
        return replace(line, words=tuple(replace(word, voice=number) for word in line.words))

    return replace(score, lines=tuple(sung(line) if line.key in keys else line for line in score.lines))


def page(score: Score, edit: Edit) -> Score:
    """Sets or removes a line's mark that it begins a page."""
    place = score.place_of(key_of(edit["line"]))
    return with_line(score, place, replace(score.lines[place], new_page=bool(edit["page"])))


def head(score: Score, edit: Edit) -> Score:
    """Sets the title, the performer and the names of the singers."""
    title, performer = (text_of(edit.get(name, getattr(score, name))) for name in ("title", "performer"))
    singers = tuple(text_of(one) for one in edit.get("singers", score.singers))
    return replace(score, title=title, performer=performer, singers=singers)


def look(score: Score, edit: Edit) -> Score:
    """Sets values of the look; `null` is the default."""
    asked = {str(name): value for name, value in edit["look"].items()}
    wrong = [name for name, value in asked.items() if value is not None and not fits(name, value)]
    if wrong:
        raise BadEdit(f"{wrong[0]} cannot be {asked[wrong[0]]!r}; pictures and styles are files in the song's folder")
    return replace(score, look=look_of({**score.look.table(), **asked}))


def picture(score: Score, edit: Edit) -> Score:
    """Sets a picture or a colour between verses, at a time."""
    what = text_of(edit["what"]).strip()
    if not is_own_name(what):
        raise BadEdit("pictures are files in the folder of the song")
    return replace(score, pictures=(*score.pictures, Picture(what, time_of(edit), time_of(edit))))


def unpicture(score: Score, edit: Edit) -> Score:
    at = place_of(edit, len(score.pictures), "place")
    return replace(score, pictures=(*score.pictures[:at], *score.pictures[at + 1 :]))


def several(score: Score, edit: Edit) -> Score:
    """Makes edits that are undone together."""
    for one in edit["edits"]:
        if one["do"] == "several":
            raise BadEdit("edits that are undone together cannot contain such a group")
        score = edited(score, one)
    return score


CHANGES: dict[str, Callable[[Score, Edit], Score]] = {
    "tap": tap,
    "start": start,
    "end": end,
    "clear": clear,
    "move": move,
    "text": text,
    "add": add,
    "remove": remove,
    "cut": cut,
    "glue": glue,
    "voice": voice,
    "page": page,
    "head": head,
    "look": look,
    "picture": picture,
    "unpicture": unpicture,
    "several": several,
}
