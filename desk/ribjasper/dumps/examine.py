"""What a report contains for one dump: a row, a thumbnail of its first picture, a map of its damage and a list of
damaged places."""
from typing import Any, Iterable, NamedTuple

from ..common.failures import Failure, shown
from ..common.library import GRAPHICS, HEIGHT, PACK, WIDTH
from ..common.output import package, png
from ..common.player import Player
from .checksums import Sums, sums_of
from .damages import Damage, NAMES, RUN, damages_of, draw_map, unread_damages
from .drive_errors import drive_errors
from .identity import identity, program_packs
from .loading import DumpOptions, IS_EMPTY, Loaded, Unknown, load_found
from .q_disc import sessions_in
from .sessions import notes as session_notes

ReportRow = dict[str, Any]
COLUMNS = (
    "file", "status", "form", "lead-in", "blocks", "rest", "graphics", "texts", "q-good", "clean", "one", "two", "bad",
    "q-bad", "empty", "runs", "jumps", "damage", "size", "sha256", "why", "unread", "notes", "crc32", "md5", "sha1",
    "picture", "sessions", "drive-errors",
)  # fmt: skip
# The values of the column status.
GOOD, DAMAGED, TORN, EMPTY, FOREIGN, UNREAD = "good", "damaged", "torn", "empty", "foreign", "unread"
# A picture is complete if no graphics pack follows for a second, or otherwise after ten seconds.
QUIET, LONGEST = 300, 3000
# The greatest number of graphics packs that are drawn until a picture shows something.
MOST_DRAWN = 30_000
# The maximum number of places in a row; the list has all places.
MOST_PLACES = 20


class Examined(NamedTuple):
    """A row by the names of its columns; two pictures (PNG files), if there are any; and a list of places, if there is
    damage."""

    row: ReportRow
    first_picture: bytes | None = None
    map: bytes | None = None
    places: bytes | None = None
    was_lost: bool = False  # the process that looked at it ended


def shows_something(picture: bytes) -> bool:
    """Whether the window of the screen, without its border, has more than one colour."""
    rows = (picture[3 * (WIDTH * y + 6) : 3 * (WIDTH * y + WIDTH - 6)] for y in range(12, HEIGHT - 12))
    window = b"".join(rows)
    return window != window[:3] * (len(window) // 3)


def first_picture(parts: Iterable[bytes]) -> bytes | None:
    """Red, green and blue of the first picture that shows something and stays for a second, from packs in several
    parts."""
    drawn = waited = since = 0
    with Player() as player:
        for packs in parts:
            kinds = packs[::PACK]
            at = 0
            while at < len(kinds) and drawn < MOST_DRAWN:
                found = kinds.find(GRAPHICS, at)
                waited += (found if found >= 0 else len(kinds)) - at
                if since and (waited >= QUIET or since >= LONGEST):
                    picture = player.picture()
                    if shows_something(picture):
                        return picture
                    since = 0
                if found < 0:
                    break
                player.draw(bytes(packs[PACK * found : PACK * (found + 1)]))
                drawn, waited, since, at = drawn + 1, 0, since + 1 + waited, found + 1
        picture = player.picture()
    return picture if shows_something(picture) else None


def image_of(picture: bytes) -> Any:
    """The picture of a player as a Pillow image."""
    return package("PIL.Image", "python3-pil").frombytes("RGB", (WIDTH, HEIGHT), picture)


def status_of(loaded: Loaded, found: list[Damage]) -> str:
    if loaded.rest:
        return TORN
    return DAMAGED if found else GOOD


def report_row(loaded: Loaded, found: list[Damage]) -> ReportRow:
    """The columns of a dump whose form is known."""
    survey, identified = loaded.survey, identity(loaded)
    runs = [it for it in found if it.kind == RUN]
    more = [f"and {len(found) - MOST_PLACES} more"] if len(found) > MOST_PLACES else []
    sessions = sessions_in(loaded)
    errors = drive_errors(loaded.path, survey.blocks)
    return {
        "status": status_of(loaded, found),
        "form": loaded.form.name,
        "lead-in": survey.lead_in,
        "blocks": survey.blocks,
        "rest": loaded.rest,
        "graphics": identified.graphics,
        "texts": [line for line in identified.texts.splitlines() if not line.startswith("packs ")],
        "q-good": round(identified.good / identified.frames, 6) if identified.frames else None,
        **{name: survey.total(name) for name in ("clean", "one", "two", "bad")},
        "q-bad": sum(survey.bad_frames),
        "empty": sum(survey.empty),
        "runs": len(runs),
        "jumps": len(found) - len(runs),
        "damage": [it.place() for it in found[:MOST_PLACES]] + more,
        "unread": sum(run.last - run.first + 1 for run in survey.unread()),
        "sessions": [session.said() for session in sessions],
        "drive-errors": errors.within(survey.first, survey.end) if errors else None,
        "notes": [*loaded.notes(), *session_notes(loaded, sessions)],
    }


def list_of(places: Iterable[Damage]) -> bytes:
    """The table of `damage`."""
    rows = ("\t".join(shown(str(cell)) for cell in row) for row in (NAMES, *places))
    return "".join(f"{row}\n" for row in rows).encode()


def with_sums(row: ReportRow, found: Sums) -> None:
    row.update({"size": found.size, "sha256": found.sha256, "crc32": found.crc32, "md5": found.md5, "sha1": found.sha1})


def examine(path: str, name: str, with_pictures: bool = True, words: DumpOptions = DumpOptions()) -> Examined:
    """All that a report contains for a file of any kind."""
    row: ReportRow = dict.fromkeys(COLUMNS)
    row["file"] = name
    try:
        with_sums(row, sums_of(path))
        loaded = load_found(path, words)
        if isinstance(loaded, Unknown):
            row["status"], row["why"] = EMPTY if loaded.cause == IS_EMPTY else FOREIGN, loaded.cause
            return Examined(row)
        found = damages_of(loaded)
        row.update(report_row(loaded, found))
        places = list_of(sorted([*found, *unread_damages(loaded.survey)], key=lambda it: it.first)) if found else None
        if not with_pictures:
            return Examined(row, places=places)
        picture = first_picture(program_packs(loaded)) if row["graphics"] == "yes" else None
        row["picture"] = "shown" if picture else why_no_picture(row["graphics"])
        first = png(image_of(picture)) if picture else None
        return Examined(row, first, png(draw_map(loaded.survey, has_legend=False)), places)
    except Failure as failure:
        row["status"], row["why"] = UNREAD, getattr(failure, "cause", str(failure))
    return Examined(row)


def why_no_picture(graphics: str) -> str:
    """The reason why there is no first picture."""
    reasons = {"no": "no graphics", "not read": "graphics not read"}
    return reasons.get(graphics, "there is no picture: the screen has one colour")
