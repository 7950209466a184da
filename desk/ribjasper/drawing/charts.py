"""A chart of a plan: over time, the packs that each picture needs and those that are free for it."""
import math
from typing import Any

from ..common.library import BLOCKS_A_SECOND, PACKS_A_BLOCK
from ..common.output import package
from ..common.planning import Plan, PlannedPicture

# The size of the chart in pixels, and the margins around the bars.
WIDE, HIGH = 1600, 480
LEFT, RIGHT, TOP, BOTTOM = 64, 24, 56, 44
# Colours that colour-blind readers can distinguish.
PAPER, INK, RULE = "#FFFFFF", "#202020", "#DDDDDD"
FREE, NEED, LATE = "#C6DBEF", "#2171B5", "#D94801"
# Steps of the axis of times, in seconds.
STEPS = (1, 2, 5, 10, 15, 30, 60, 120, 300, 600)


class Chart:
    """The picture of the chart, and the places of times and numbers of packs on it."""

    def __init__(self, plan: Plan):
        image = package("PIL.Image", "python3-pil")
        self.image = image.new("RGB", (WIDE, HIGH), PAPER)
        self.pen = package("PIL.ImageDraw", "python3-pil").Draw(self.image)
        self.blocks = max([1, *(row.ready for row in plan.rows)])
        self.most = max([10, *(max(row.need, row.free) for row in plan.rows)])

    def across(self, block: float) -> float:
        return LEFT + (WIDE - LEFT - RIGHT) * block / self.blocks

    def up(self, packs: int) -> float:
        """The height of a number of packs: powers of ten have equal distances, and 0 is at the bottom."""
        return HIGH - BOTTOM - (HIGH - TOP - BOTTOM) * math.log10(1 + packs) / math.log10(1 + self.most)

    def axes(self) -> None:
        for power in range(len(str(self.most))):
            height = self.up(10**power)
            self.pen.line((LEFT, height, WIDE - RIGHT, height), RULE)
            self.pen.text((8, height - 6), f"{10**power}", INK)
        seconds = self.blocks / BLOCKS_A_SECOND
        step = next((step for step in STEPS if seconds / step <= 24), STEPS[-1])
        for second in range(0, int(seconds) + 1, step):
            place = self.across(second * BLOCKS_A_SECOND)
            self.pen.line((place, TOP, place, HIGH - BOTTOM + 4), RULE)
            self.pen.text((place - 14, HIGH - BOTTOM + 8), f"{second // 60:02}:{second % 60:02}", INK)
        self.pen.line((LEFT, HIGH - BOTTOM, WIDE - RIGHT, HIGH - BOTTOM), INK)

    def legend(self) -> None:
        words = ((FREE, "packs free"), (NEED, "packs needed"), (LATE, "late: more needed than free"))
        for place, (colour, word) in enumerate(words):
            left = LEFT + 150 * place
            self.pen.rectangle((left, 18, left + 14, 32), colour)
            self.pen.text((left + 20, 20), word, INK)

    def bar(self, row: PlannedPicture) -> None:
        """A bar as wide as the time from the first free pack to the ready time."""
        left = self.across(row.first / PACKS_A_BLOCK)
        right = max(left + 1, self.across(row.ready) - 1)
        foot = HIGH - BOTTOM - 1
        bars = [(row.free, FREE), (row.need, LATE if row.is_late else NEED)]
        for packs, colour in bars if not row.is_late else reversed(bars):
            if packs:
                self.pen.rectangle((left, self.up(packs), right, foot), colour)


def draw_plan(plan: Plan) -> Any:
    """The chart, a picture of Pillow."""
    chart = Chart(plan)
    chart.axes()
    chart.legend()
    for row in plan.rows:
        chart.bar(row)
    return chart.image
