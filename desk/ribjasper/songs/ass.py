"""Lyrics as ASS files: events with `\\k` times in hundredths of a second."""
import re

from .songs import FIRST, Line, Song, Syllable, seconds

EVENT = re.compile(r"\s*(Dialogue|Comment)\s*:\s*", re.IGNORECASE)
FORMAT = re.compile(r"\s*Format\s*:\s*", re.IGNORECASE)
CLOCK = re.compile(r"(\d{1,6}):(\d{1,6}):(\d{1,6})[.:](\d{1,6})$")
OVERRIDE = re.compile(r"\{([^}]*)\}")
KARAOKE = re.compile(r"\\[kK][fot]?(\d{1,9}(?:\.\d{1,9})?)")
# After this tag, the text of an event is a drawing, or letters again (0).
DRAWING = re.compile(r"\\p(\d{1,9})")
FIELDS = "Layer,Start,End,Style,Name,MarginL,MarginR,MarginV,Effect,Text"
# The effects of Aegisub's templater: the lyrics that it reads, and the events that it makes from them.
SUNG_EFFECT, MADE_EFFECT = "karaoke", "fx"


class Event:
    """An event, its fields by their names."""

    def __init__(self, number: int, values: dict[str, str], is_comment: bool):
        self.number, self.values, self.is_comment = number, values, is_comment

    def singer(self) -> str:
        """The singer, from the name of the event, or else its style."""
        return self.values.get("Name", self.values.get("Actor", "")).strip()

    def style(self) -> str:
        return self.values.get("Style", "").strip().lstrip("*")

    def effect(self) -> str:
        return self.values.get("Effect", "").strip().lower()


def read_ass(text: str, song: Song) -> None:
    """`\\N` begins a new line; drawings and the appearance of styles are ignored, and names or styles become the
    voices."""
    section, fields, found = "", FIELDS.split(","), list[Event]()
    for number, line in enumerate(text.splitlines(), 1):
        if line.startswith("["):
            section = line.strip().lower()
        elif section == "[events]" and (form := FORMAT.match(line)):
            fields = [name.strip() for name in line[form.end() :].split(",")]
        elif section == "[events]" and (head := EVENT.match(line)):
            values = dict(zip(fields, line[head.end() :].split(",", len(fields) - 1)))
            found.append(Event(number, values, head[1].lower() == "comment"))
        elif section == "[script info]" and line.lower().startswith("title:"):
            song.title = line.partition(":")[2].strip()
    events = sung_of(found)
    has_names = any(event.singer() for event in events)
    has_styles = len({event.style() for event in events if KARAOKE.search(event.values.get("Text", ""))}) > 1
    for event in events:
        name = event.singer() if has_names else event.style() if has_styles else ""
        add_event(song, event, name)
    song.lines.sort(key=lambda one: one.start)


def sung_of(events: list[Event]) -> list[Event]:
    """The events with the lyrics: those with the effect `karaoke`, if there are any, which the templater turns into
    comments; otherwise all dialogue except the templater's own."""
    karaoke = [event for event in events if event.effect() == SUNG_EFFECT]
    dialogue = [event for event in events if not event.is_comment]
    plain = [event for event in dialogue if event.effect() != MADE_EFFECT]
    return karaoke or plain or dialogue


def ass_time(value: str, song: Song, number: int) -> float:
    clock = CLOCK.match(value.strip())
    if not clock:
        song.fault(number, f"{value.strip()} is not a time like 0:00:12.50")
        return 0.0
    return 3600 * int(clock[1]) + seconds(clock[2], clock[3], clock[4])


def add_event(song: Song, event: Event, name: str) -> None:
    """The lines of one event, none if it has no text."""
    missing = [field for field in ("Start", "End", "Text") if field not in event.values]
    for field in missing:
        song.fault(event.number, f"the event has no field {field}")
    if missing:
        return
    text = event.values["Text"]
    start, end = (ass_time(event.values[field], song, event.number) for field in ("Start", "End"))
    lines: list[list[Syllable]] = [[]]
    for part, sung, until in event_pieces(text, start, end):
        # The templater's readings of a character follow a bar.
        shown = part.partition("|")[0] if event.effect() == SUNG_EFFECT else part
        first, *others = re.split(r"\\[Nn]", shown.replace(r"\h", " "))
        lines[-1].append(Syllable(first, sung, until))
        lines += [[Syllable(other, sung, until)] for other in others]
    kept = [[syllable for syllable in line if syllable.text.strip()] for line in lines]
    voice = song.voice_of(name, event.number) if any(kept) else FIRST
    for line in kept:
        for syllable in line:
            syllable.voice = voice
    written = event.values["Start"].strip()
    song.lines += [Line(event.number, line, not KARAOKE.search(text), written) for line in kept if line]


def event_pieces(text: str, start: float, end: float) -> list[tuple[str, float, float]]:
    """The pieces of an event between its overrides, each with the time at which it is sung; drawings are left out."""
    parts: list[tuple[str, float, float]] = []
    at, sung, until, is_drawing = 0, start, start, False
    # After the last closing brace there is no override, so an open one is not searched at each brace.
    for override in OVERRIDE.finditer(text, 0, text.rfind("}") + 1):
        parts.append(("" if is_drawing else text[at : override.start()], sung, until))
        for drawing in DRAWING.findall(override[1]):
            is_drawing = int(drawing) > 0
        for time in KARAOKE.findall(override[1]):
            sung, until = until, until + float(time) / 100
        at = override.end()
    parts.append(("" if is_drawing else text[at:], sung, until))
    return parts if KARAOKE.search(text) else [(part, start, end) for part, _, _ in parts]
