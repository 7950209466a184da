"""The library's plan of a disc: the needs of each picture of a script, or the reason why there is no plan."""
import enum
import struct
from typing import NamedTuple

from .library import LONGEST_LEAD_IN, NO_MEMORY, PlanRow, Planned, call
from .times import spelled

# The greatest number of pictures in a script.
MOST_PICTURES = 20_000
PLANNED, LATE, NOT_PLANNED = 0, 4, 3
# The memory layout of a row of the plan: six numbers, whether it is late, and three bytes.
ROW = struct.Struct("=6I?3x")


class Reason(enum.IntEnum):
    """A reason, by its number in the header."""

    @property
    def word(self) -> str:
        """The name of the reason in the program's messages."""
        return self.name.lower().replace("_", "-")


class Why(Reason):
    """The reason why there is no plan."""

    TEXT_TOO_LONG = 1
    SHEET_REFUSED = 2
    SCRIPT_REFUSED = 3
    LENGTH_SHORT = 4
    DISC_TOO_LONG = 5
    PAST_END = 6
    CD_TEXT_TOO_LONG = 7
    LEAD_IN_SHORT = 8


class SheetWhy(Reason):
    UNKNOWN_COMMAND = 1
    SECOND_FILE = 2
    MISPLACED = 3
    BAD_ARGUMENT = 4
    REPEATED = 5
    NO_INDEX = 6
    NOT_AUDIO = 7
    NUMBER_ORDER = 8
    INDEX_ORDER = 9
    TIME_ORDER = 10
    NO_FILE = 11
    NO_TRACK = 12


class ScriptWhy(Reason):
    UNKNOWN_COMMAND = 1
    BAD_ARGUMENT = 2
    OUT_OF_RANGE = 3
    TIME_ORDER = 4
    TOO_MANY = 5


class PlannedPicture(NamedTuple):
    """A picture: its line in the script; blocks of the program; packs."""

    line: int
    ready: int
    hold: int
    need: int
    free: int
    first: int
    is_late: bool


class Plan(NamedTuple):
    """The needs of the pictures, and the number of program blocks."""

    rows: list[PlannedPicture]
    blocks: int

    def late(self) -> list[int]:
        """The numbers of the late pictures."""
        return [number for number, row in enumerate(self.rows) if row.is_late]


class NoPlan(Exception):
    """A sheet and a script have no plan: `why`, the `line` of the text, and a `number` that depends on the reason."""

    def __init__(self, why: int, line: int, number: int) -> None:
        self.why, self.line, self.number = Why(why), line, number
        super().__init__(self.cause())

    def is_of_script(self) -> bool:
        return self.why in (Why.SCRIPT_REFUSED, Why.PAST_END)

    def cause(self) -> str:
        number = self.number
        match self.why:
            case Why.TEXT_TOO_LONG:
                return "a text has more than 67,108,864 bytes"
            case Why.SHEET_REFUSED:
                return f"line {self.line}: {SheetWhy(number).word}"
            case Why.SCRIPT_REFUSED:
                return f"line {self.line}: {ScriptWhy(number).word}"
            case Why.LENGTH_SHORT:
                return f"its index lines need audio of at least {spelled(number)}"
            case Why.DISC_TOO_LONG:
                return f"the disc would have {number} blocks; the maximum is 449,999"
            case Why.PAST_END:
                return f"its last picture is held beyond the end of the disc, which is at {spelled(number)}"
            case Why.CD_TEXT_TOO_LONG:
                return f"its texts need {number} packs; the maximum is 256"
            case Why.LEAD_IN_SHORT:
                return f"the lead-in needs at least {number} blocks"


def plan(sheet: bytes, script: bytes, audio: int, lead_in: int = LONGEST_LEAD_IN) -> Plan:
    """The plan of a disc: a cue sheet, a picture script, and the length of the audio in blocks (75 a second). Raises
    NoPlan with the reason and the line of a text that is refused."""
    rows, result = (PlanRow * MOST_PICTURES)(), Planned()
    status = call("ribjasper_plan")(sheet, len(sheet), script, len(script), lead_in, audio, rows, MOST_PICTURES, result)
    if status == NO_MEMORY:
        raise MemoryError
    if status == NOT_PLANNED:
        raise NoPlan(result.why, result.line, result.number)
    if status not in (PLANNED, LATE):
        raise ValueError(f"ribjasper_plan returned the status {status}")
    listed = memoryview(rows).cast("B")[: ROW.size * result.pictures]
    return Plan([PlannedPicture._make(row) for row in ROW.iter_unpack(listed)], result.blocks)


# The maximum number of refused lines of a text that are reported.
MOST_CAUSES = 20
# Later lines of a sheet depend on these: if one of them is refused, the later ones cannot be judged.
NEEDED_LATER = (b"FILE", b"TRACK", b"INDEX")


def refused_lines(sheet: bytes, script: bytes, audio: int, first: NoPlan) -> list[str]:
    """Each line of a sheet or of a script that is refused, the first one before the others: a line that was refused is
    left empty, and the library is asked again."""
    causes, none = [first.cause()], first
    while none.why in (Why.SHEET_REFUSED, Why.SCRIPT_REFUSED) and len(causes) < MOST_CAUSES:
        rest = without_line(script if none.is_of_script() else sheet, none.line)
        if rest is None:
            break
        sheet, script = (sheet, rest) if none.is_of_script() else (rest, script)
        try:
            plan(sheet, script, audio)
            break
        except NoPlan as other:
            if other.why != first.why:
                break
            none = other
            causes.append(none.cause())
    return causes


def without_line(text: bytes, number: int) -> bytes | None:
    """A text with an empty line in place of one on which no other depends."""
    lines = text.split(b"\n")
    if number > len(lines) or lines[number - 1].lstrip().upper().startswith(NEEDED_LATER):
        return None
    lines[number - 1] = b""
    return b"\n".join(lines)


def least_lead_in(sheet: bytes, audio: int) -> int:
    """The number of lead-in blocks that a sheet needs for its table of contents and its texts."""
    try:
        plan(sheet, b"", audio, 1)
    except NoPlan as none:
        if none.why != Why.LEAD_IN_SHORT:
            raise
        return none.number
    return 1
