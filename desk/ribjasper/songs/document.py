"""A song as a document: an LRC file, and next to it a TOML file for everything that LRC cannot express. Reading both
results in the same song, for every kind of file that the song came from."""
import copy
import json
import tomllib
from dataclasses import dataclass, field
from pathlib import Path
from typing import Any, Iterable, NamedTuple, Sequence

from ..common.failures import Refusal
from .lrc import INSERTS, MARK, OFFSET, TAG, read_lrc, stamps_of
from .songs import BOTH, FIRST, SINGERS, TOGETHER, Insert, Line, Song, Syllable

# The ending of the file next to NAME.lrc.
BESIDE = ".lyrics.toml"
VERSION = 1
MARKS = ("M: ", "F: ", "v3: ", "v4: ", "D: ")
# Tags with a special meaning, which are not just a name and a value.
SPECIAL = {"ti", "ar", "offset", "singer", *INSERTS}
# An insert of a song: its content, its time if it has one, and the time after which it is placed.
Shown = tuple[str, float | None, float]


def beside(path: Path) -> Path:
    """The file that belongs to lyrics in LRC."""
    return path.with_name(path.stem + BESIDE)


class LineValues(NamedTuple):
    """The values of a line that its picture depends on."""

    texts: list[str]
    starts: list[float]
    ends: list[float]
    voices: list[int]
    whole: bool
    until: float | None
    page: bool


def values_of(line: Line) -> LineValues:
    parts = line.syllables
    return LineValues(
        [one.text for one in parts],
        [one.start for one in parts],
        [one.end for one in parts],
        [one.voice for one in parts],
        line.is_whole,
        line.until,
        line.new_page,
    )


def shows(song: Song) -> list[Shown]:
    return [(one.what, one.start, one.after) for one in song.inserts]


def is_same(one: Song, other: Song) -> bool:
    """Whether two songs have the same content, apart from the rows of their files."""
    heads = [(song.title, song.performer, song.singers, song.tags, shows(song)) for song in (one, other)]
    return heads[0] == heads[1] and [values_of(line) for line in one.lines] == [values_of(line) for line in other.lines]


def rests_in(text: str) -> list[float]:
    """The times without text in LRC, in seconds of the sound."""
    found, offset = list[float](), 0.0
    for row in text.splitlines():
        starts, rest = stamps_of(row.strip())
        tag = TAG.match(rest)
        if tag and tag[1].lower() == "offset" and OFFSET.fullmatch(tag[2].strip()):
            offset = int(tag[2]) / 1000
        found += [start for start, _ in starts] if not rest else []
    return sorted(start - offset for start in found)


def others_in(text: str) -> list[str]:
    """The rows of LRC that are not part of a song: text without a time, and repeated tags."""
    kept, known = list[str](), set[str]()
    for row in text.splitlines():
        starts, rest = stamps_of(row.strip())
        found = TAG.match(rest)
        if starts or not rest:
            continue
        name = found[1].lower() if found else ""
        if not found or name not in SPECIAL and name in known:
            kept.append(rest)
        known.add(name)
    return kept


@dataclass
class Document:
    """A song; its rests; the rows of its LRC without lyrics; the two files that it was read from, if these are LRC and
    TOML; and its look, which the TOML contains. Saving an unchanged document writes the same files again."""

    song: Song
    rests: list[float] = field(default_factory=list)
    others: list[str] = field(default_factory=list)
    lrc: bytes | None = None
    toml: bytes | None = None
    look: dict[str, Any] = field(default_factory=dict)

    def __post_init__(self) -> None:
        self.opened = copy.deepcopy((self.song, self.rests, self.look))

    def is_changed(self) -> bool:
        song, rests, look = self.opened
        return not is_same(self.song, song) or self.rests != rests or self.look != look

    def files(self) -> tuple[bytes, bytes | None]:
        """The LRC file and, if it is needed, the TOML file next to it."""
        if self.lrc is not None and not self.is_changed():
            return self.lrc, self.toml
        written = lrc_of(self.song, self.rests, self.others)
        toml = toml_of(self.song, written, self.look)
        again = Song([], path=self.song.path)
        read_lrc(written.text, again)
        if toml:
            apply(again, written.text, toml.encode())
        again.lines.sort(key=lambda line: line.start)
        wanted = copy.copy(self.song)
        wanted.lines = sorted(self.song.lines, key=lambda line: line.start)
        if not is_same(again, wanted):
            raise Refusal(self.song.path, "cannot be saved as LRC without loss")
        return written.text.encode(), toml.encode() if toml else None


def document_of(song: Song, lrc: bytes, toml: bytes | None) -> Document:
    """The document of a song that was read from LRC. The rests that end a line belong to the line."""
    text = lrc.decode(song.encoding)
    ends = {line.end for line in song.lines if line.is_whole and not line.is_open}
    rests = [one for one in rests_in(text) if one not in ends]
    return Document(song, rests, others_in(text), lrc, toml, look_in(toml))


def look_in(toml: bytes | None) -> dict[str, Any]:
    """The look of the song in the file next to its LRC."""
    try:
        found = tomllib.loads((toml or b"").decode("utf-8")).get("look", {})
    except (UnicodeDecodeError, tomllib.TOMLDecodeError):
        return {}
    return found if isinstance(found, dict) else {}


class Written(NamedTuple):
    """A text in LRC, and the lines of the song by their rows."""

    text: str
    lines: dict[int, Line]


def is_exact(time: float, digits: int) -> bool:
    return abs(time - round(time, digits)) < 1e-9


def digits_for(song: Song) -> int:
    """Hundredths of a second, or thousandths if only these are exact."""
    times = [time for line in song.lines for one in line.syllables for time in (one.start, one.end)]
    return 3 if not all(is_exact(one, 2) for one in times) and all(is_exact(one, 3) for one in times) else 2


def lrc_time(time: float, digits: int) -> str:
    whole, part = divmod(max(0, round(time * 10**digits)), 10**digits)
    return f"{whole // 60:02}:{whole % 60:02}.{part:0{digits}}"


def on_a_row(text: str) -> str:
    """A text without characters that end a row."""
    return "".join(" " if letter.splitlines() == [""] else letter for letter in text)


def fits_tag(value: str) -> bool:
    return value == value.strip() and "]" not in value and value.splitlines() == [value] * bool(value)


def tag(name: str, value: str) -> list[str]:
    """A row for a tag, or None if LRC cannot express it."""
    return [f"[{name}:{value}]"] if fits_tag(value) else []


def names_of(song: Song) -> list[str]:
    """The singers, if LRC gives each of them the voice that the song has."""
    trial = Song([])
    for name in song.singers:
        trial.voice_of(name, 0)
    plain = all(name and fits_tag(name) and name.lower() not in TOGETHER for name in song.singers)
    return song.singers if plain and trial.singers == song.singers else []


def head_of(song: Song) -> list[str]:
    rows = tag("ti", song.title) * bool(song.title) + tag("ar", song.performer) * bool(song.performer)
    return rows + [row for name, value in plain_tags(song) for row in tag(name, value)]


def plain_tags(song: Song) -> list[tuple[str, str]]:
    """The tags that LRC has a row for."""
    return [
        (name, value)
        for name, value in song.tags.items()
        if name not in SPECIAL and TAG.match(f"[{name}:]") and name == name.lower()
    ]


def lrc_of(song: Song, rests: Iterable[float] = (), others: Sequence[str] = ()) -> Written:
    """A song in LRC: words with their times, the end of each line, rests, names of singers, marks and tags."""
    digits = digits_for(song)
    names, head = names_of(song), [*head_of(song), *others]
    # All names come first, so that each singer has the same voice wherever the singing begins.
    head += [f"[singer:{name}]" for name in names]
    state = min(len(names), SINGERS) - 1 if names else -1 if others else FIRST
    ends = {line.end for line in song.lines if line.is_whole and not line.is_open}
    stops = {lrc_time(rest, digits): rest for rest in [*rests, *ends] if rest >= 0}
    items: list[tuple[float, int, Line | Insert | float]] = [(rest, 0, float(rest)) for rest in stops.values()]
    items += [(line.start, 1, line) for line in song.lines]
    items += [(one.after if one.start is None else one.start, 2, one) for one in song.inserts]
    rows, found = head, dict[int, Line]()
    for _, _, item in sorted(items, key=lambda one: one[:2]):
        if isinstance(item, float):
            rows.append(f"[{lrc_time(item, digits)}]")
        elif isinstance(item, Insert):
            rows += insert_rows(item, digits)
        else:
            mark = ""
            if item.voice != state or MARK.match(item.text):
                is_named = item.voice < len(names) or item.voice == BOTH and bool(names)
                if item.voice != state and is_named:
                    rows.append(f"[singer:{'both' if item.voice == BOTH else names[item.voice]}]")
                if not is_named or MARK.match(item.text):
                    mark = MARKS[item.voice]
                state = item.voice
            rows.append(row_of(item, mark, digits))
            found[len(rows)] = item
    return Written("".join(f"{row}\n" for row in rows), found)


def insert_rows(one: Insert, digits: int) -> list[str]:
    rows = tag("colour" if one.what.startswith("#") else "image", one.what)
    return rows if one.start is None else [f"[{lrc_time(one.start, digits)}]{row}" for row in rows]


def row_of(line: Line, mark: str, digits: int) -> str:
    """The row of a line; a word that ends before the next one begins has a time without text behind it."""
    begin = f"[{lrc_time(line.start, digits)}]{mark}"
    if line.is_whole:
        return begin + on_a_row(line.text)
    words, until = "", line.start
    for one in line.syllables:
        words += f"<{lrc_time(until, digits)}>" * (bool(words) and until < one.start)
        words += f"<{lrc_time(one.start, digits)}>{on_a_row(one.text)}"
        until = one.end
    return f"{begin}{words}<{lrc_time(until, digits)}>"


def toml_value(value: object) -> str:
    """A value in the syntax of TOML."""
    if isinstance(value, str):
        return json.dumps(value, ensure_ascii=False).replace("\x7f", "\\u007f")
    if isinstance(value, bool):
        return "true" if value else "false"
    if isinstance(value, (list, tuple)):
        return f"[{', '.join(toml_value(one) for one in value)}]"
    if isinstance(value, dict):
        return f"{{{', '.join(f'{toml_value(name)} = {toml_value(one)}' for name, one in value.items())}}}"
    return repr(value)


def insert_table(one: Shown) -> dict[str, object]:
    what, start, after = one
    return {"what": what, "after": after} | ({} if start is None else {"start": start})


def heads_of(song: Song) -> dict[str, object]:
    """The attributes of a song, without its lines."""
    inserts = [insert_table(one) for one in shows(song)]
    return {
        "title": song.title,
        "performer": song.performer,
        "singers": song.singers,
        "tags": song.tags,
        "inserts": inserts,
    }


def toml_of(song: Song, written: Written, look: dict[str, Any]) -> str:
    """The contents of the song that the LRC cannot express, or an empty text if there are none."""
    again = Song([], path=song.path)
    read_lrc(written.text, again)
    parts: list[str] = []
    for (name, wanted), found in zip(heads_of(song).items(), heads_of(again).values()):
        if wanted != found:
            parts.append(f"[{name}]\nlrc = {toml_value(found)}\nvalue = {toml_value(wanted)}\n")
    rows = written.text.splitlines()
    by_row: dict[int, list[Line]] = {}
    for line in again.lines:
        by_row.setdefault(line.number, []).append(line)
    for row, line in written.lines.items():
        read = by_row.get(row, [])
        parts += line_entry(line, values_of(read[0]) if len(read) == 1 else None, row, rows[row - 1])
    if look:
        parts.append("[look]\n" + "".join(f"{name} = {toml_value(value)}\n" for name, value in look.items()))
    if not parts:
        return ""
    about = "# Belongs to the LRC file of this name, and holds what LRC cannot express.\n"
    return "\n".join([f"{about}version = {VERSION}\n", *parts])


def line_entry(line: Line, read: LineValues | None, row: int, lrc: str) -> list[str]:
    """The values of a line that differ from those of its row, or all of them if the row is not read as one line."""
    wanted = values_of(line)
    keep = [name for name in LineValues._fields if read is None or getattr(wanted, name) != getattr(read, name)]
    if not keep:
        return []
    text = f"[[line]]\nrow = {row}\nlrc = {toml_value(lrc)}\n"
    for name in keep:
        value = getattr(wanted, name)
        # A line that is not open has no time until which it stays.
        text += f"{name} = {toml_value(False if value is None else value)}\n"
    return [text]


def apply(song: Song, text: str, content: bytes, path: Path = Path("the file next to the lyrics")) -> None:
    """Adds the contents of the file next to an LRC to its song. Later changes in the LRC are kept."""
    try:
        table = tomllib.loads(content.decode("utf-8"))
    except (UnicodeDecodeError, tomllib.TOMLDecodeError) as error:
        raise Refusal(path, f"is not TOML: {error}") from None
    if table.get("version") != VERSION:
        raise Refusal(path, f"has no version = {VERSION}")
    try:
        apply_heads(song, table, path)
        apply_lines(song, text.splitlines(), table.get("line", []), path)
    except (KeyError, TypeError, ValueError, AttributeError) as error:
        raise Refusal(path, f"does not contain the data for lyrics: {error}") from None


def apply_heads(song: Song, table: dict[str, Any], path: Path) -> None:
    for name, found in heads_of(song).items():
        if name not in table:
            continue
        if table[name]["lrc"] != found:
            song.notes.append(f"{path}: the {name} was changed in the lyrics, so its entry here is ignored")
            continue
        value = table[name]["value"]
        if name == "inserts":
            song.inserts = [
                Insert(0, str(one["what"]), number(one["start"]) if "start" in one else None, number(one["after"]))
                for one in value
            ]
        elif name == "singers":
            song.singers = [word(one) for one in value]
        elif name == "tags":
            song.tags = {key: word(one) for key, one in value.items()}
        else:
            setattr(song, name, word(value))


def word(value: object) -> str:
    if not isinstance(value, str):
        raise TypeError(f"{value} is not a text")
    return value


def number(value: object) -> float:
    """A time in seconds."""
    if isinstance(value, bool) or not isinstance(value, (int, float)) or not -1e6 < value < 1e6:
        raise TypeError(f"{value} is not a time")
    return float(value)


def voice_number(value: object) -> int:
    if isinstance(value, bool) or not isinstance(value, int) or not FIRST <= value <= BOTH:
        raise TypeError(f"{value} is not a voice")
    return value


def apply_lines(song: Song, rows: list[str], entries: list[dict[str, Any]], path: Path) -> None:
    taken: set[int] = set()
    for entry in entries:
        row, lrc = int(entry["row"]), word(entry["lrc"])
        places = [at for at, text in enumerate(rows, 1) if text == lrc and at not in taken]
        if not places:
            song.notes.append(f"{path}: a line was changed in the lyrics, so its entry here is ignored: {lrc}")
            continue
        at = min(places, key=lambda place: abs(place - row))
        taken.add(at)
        old = [line for line in song.lines if line.number == at]
        others = [line for line in song.lines if line.number != at]
        new = line_of(entry, values_of(old[0]) if len(old) == 1 else None)
        new.number, new.written = at, old[0].written if old else lrc.partition("]")[0] + "]"
        # Lines that begin at the same time stay in the order of their rows.
        song.lines = sorted([*others, new], key=lambda line: line.number)


def line_of(entry: dict[str, Any], read: LineValues | None) -> Line:
    def value(name: str) -> Any:
        if name in entry:
            return entry[name]
        if read is None:
            raise KeyError(f"a line has no {name}")
        return getattr(read, name)

    texts = [word(one) for one in value("texts")]
    lists = [number(one) for one in value("starts")], [number(one) for one in value("ends")]
    voices = [voice_number(one) for one in value("voices")]
    if not texts or {len(lists[0]), len(lists[1]), len(voices)} != {len(texts)}:
        raise ValueError("a line has more or fewer times than words")
    until = value("until")
    syllables = [Syllable(*parts) for parts in zip(texts, *lists, voices)]
    # Files from before page breaks existed have no such value.
    new_page = bool(entry.get("page", read.page if read else False))
    return Line(0, syllables, bool(value("whole")), "", None if until in (None, False) else number(until), new_page)


def pictures_in(content: bytes) -> list[str]:
    """The pictures that the file next to an LRC names; none if the file cannot be read."""
    try:
        found = tomllib.loads(content.decode("utf-8"))["inserts"]["value"]
        return [one["what"] for one in found if not one["what"].startswith("#")]
    except (ValueError, LookupError, TypeError, AttributeError):
        return []
