"""The map of a dump: a picture with a cell for each second."""
from typing import Any, Sequence

from ..common.output import package

# The states of a second, the worst last. Colour-blind readers can distinguish these colours (Okabe and Ito).
GOOD, CORRECTED, Q_BAD, BAD, EMPTY, UNREAD = range(6)
STATES = {
    GOOD: ("whole", (222, 222, 222)),
    CORRECTED: ("corrected", (86, 180, 233)),
    Q_BAD: ("Q is bad", (240, 228, 66)),
    BAD: ("words are lost", (213, 94, 0)),
    EMPTY: ("empty", (0, 0, 0)),
    UNREAD: ("unread", (255, 255, 255)),
}
JUMP = ("the time jumps", (0, 114, 178))
SECONDS_A_ROW = 60
CELL, GAP, LEFT, TOP = 9, 1, 64, 20
LINE = 16
INK, PAPER, FRAME = (0, 0, 0), (255, 255, 255), (200, 200, 200)


def meanings() -> list[tuple[str, tuple[int, int, int]]]:
    """The legend of a map."""
    return [*STATES.values(), JUMP]


def draw(cells: bytes, jumped: set[int], marks: Sequence[str], has_legend: bool = True) -> Any:
    """A row per minute with the time at its left, a cell per second, and below, if requested, a legend of the
    colours."""
    drawing, images = package("PIL.ImageDraw", "python3-pil"), package("PIL.Image", "python3-pil")
    rows = max(1, len(marks))
    legend = TOP + rows * CELL + 8
    lines = meanings() if has_legend else []
    size = LEFT + SECONDS_A_ROW * CELL + 8, legend + LINE * len(lines) + 4
    image = images.new("RGB", size, PAPER)
    pen = drawing.Draw(image)
    for second in range(0, SECONDS_A_ROW, 10):
        pen.text((LEFT + second * CELL, 4), f":{second:02}", fill=INK)
    for row, mark in enumerate(marks):
        # A mark needs the height of two rows.
        if row % 2 == 0:
            pen.text((6, TOP + row * CELL - 1), mark, fill=INK)
    for number, state in enumerate(cells):
        x, y = LEFT + number % SECONDS_A_ROW * CELL, TOP + number // SECONDS_A_ROW * CELL
        frame = FRAME if state == UNREAD else None
        pen.rectangle((x, y, x + CELL - 1 - GAP, y + CELL - 1 - GAP), fill=STATES[state][1], outline=frame)
        if number in jumped:
            pen.rectangle((x, y, x + 2, y + CELL - 1 - GAP), fill=JUMP[1])
    for place, (name, colour) in enumerate(lines):
        y = legend + LINE * place
        pen.rectangle((LEFT, y, LEFT + 10, y + 10), fill=colour, outline=INK)
        pen.text((LEFT + 18, y), name, fill=INK)
    return image
