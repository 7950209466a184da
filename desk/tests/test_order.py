"""Rows appear in the order of singing, words are lit at their times and no two lines are mixed, in random songs and in
songs that once went wrong; decoded frame by frame."""
import random
import unittest
from dataclasses import replace

from fixtures import FolderTest, needs_font, needs_pillow, needs_plan, needs_program
from random_songs import BLOCKS, PAUSE, Watch, random_song, spelled, watch

from ribjasper.drawing.styles import read_style
from ribjasper.songs.song_script import Wishes

# Five lines, a rest and four more: rows six and eight once appeared around row five.
SHORT_PAGE = "".join(
    f"[00:{second:02}.00]{word}\n"
    for second, word in zip((8, 12, 16, 20, 24, 28, 36, 40, 44, 48, 52),
                            ("one", "two", "three", "four", "five", "", "six", "seven", "eight", "nine", ""))
)  # fmt: skip
# A row is drawn while the row two lines before is sung, and each column of the lines between them is lit by itself.
SWEPT = """[00:08.59]<00:08.59>20. <00:08.79>is <00:09.05>falling <00:09.56>hills <00:10.11>knows <00:10.59>you <00:10.95>summer <00:11.44>
[00:11.94]<00:11.94>21. <00:12.35>paper <00:12.54>water <00:12.84>never <00:13.15>
[00:13.15]<00:13.15>22. <00:13.43>falling <00:13.71>tomorrow <00:14.25>we <00:14.47>
[00:14.57]<00:14.57>23. <00:15.05>summer <00:15.60>knows <00:15.87>heart <00:16.54>never <00:17.10>my <00:17.64>
[00:20.00]<00:20.00>short <00:21.00>
[00:22.00]<00:22.00>and <00:23.00>
"""
# Four rows must be drawn while each column of three of them is lit by itself: two columns at a time are lit together.
DENSE = """[00:09.85]<00:09.85>4. <00:10.28>never <00:10.69>calling <00:11.01>paper <00:11.62>home <00:12.22>and <00:12.64>
[00:13.84]<00:13.84>5. <00:14.37>morning <00:14.80>
[00:14.90]<00:14.90>6. <00:15.27>morning <00:15.67>evening <00:16.09>heart <00:16.29>evening <00:16.59>tomorrow <00:16.88>slowly <00:17.19>
[00:17.19]<00:17.19>7. <00:17.37>light <00:17.63>under <00:18.09>over <00:18.65>wide <00:18.93>
"""
# In the middle of its page, the last row would be at the place of the row before it.
SHORT_AND_SOON = """[00:08.87]<00:08.87>17. <00:09.21>never <00:09.45>water <00:09.78>
[00:09.88]<00:09.88>18. <00:10.28>calling <00:10.63>go <00:11.06>of <00:11.60>the <00:11.86>
[00:12.36]<00:12.36>19. <00:12.95>go <00:13.15>summer <00:13.77>tomorrow <00:14.35>
[00:14.45]v2: <00:14.45>20. <00:14.64>tomorrow <00:14.86>home <00:15.48>knows <00:16.09>over <00:16.36>
"""


def paged(gap: float, lines: int) -> str:
    """Lines of two seconds each, with a gap after the fourth, where a page ends."""
    rows, time = [], 10.0
    for number in range(1, lines + 1):
        words = f"Number {number} of all".split()
        rows.append("".join(f"<{spelled(time + 0.5 * at)}>{word} " for at, word in enumerate(words)))
        rows[-1] = f"[{spelled(time)}]{rows[-1]}<{spelled(time + 2)}>"
        time += 2 + gap * (number == 4)
    return "\n".join(rows) + "\n"


@needs_plan
@needs_program
@needs_pillow
@needs_font
class OrderTest(FolderTest):
    def watched(self, text: str, by_page: bool = False, **wishes: object) -> Watch:
        style = replace(read_style("night"), by_page=by_page)
        seen = watch(self.write("a.lrc", text), Wishes(style, **wishes))  # type: ignore[arg-type]
        self.assertEqual(seen.faults, [])
        return seen

    def test_a_short_page(self) -> None:
        seen = self.watched(SHORT_PAGE)
        rows = {row.text: row for row in seen.rows}
        for word, start in (("six", 36), ("seven", 40), ("eight", 44), ("nine", 48)):
            lead = start - (rows[word].stands - PAUSE) / BLOCKS
            self.assertTrue(3.5 <= lead <= 4.5, (word, lead))

    def test_lead(self) -> None:
        seen = self.watched(SHORT_PAGE, lead=2.0)
        for row in seen.rows[1:]:
            self.assertAlmostEqual(row.start - (row.stands - PAUSE) / BLOCKS, 2, delta=0.3)

    def test_a_row_that_follows_soon_in_its_place(self) -> None:
        for text, sweep, size in ((SWEPT, True, 21), (DENSE, True, 20), (SHORT_AND_SOON, False, 16)):
            self.assertFalse(self.watched(text, sweep=sweep, size=size).made.lateness.rows())

    def test_a_page_that_follows_soon(self) -> None:
        """A page disappears as a whole if that leaves time for the next page, and otherwise row by row, which is
        reported."""
        for gap, is_whole in ((1.0, True), (0.6, False), (0.3, False), (0.0, False)):
            for lines in (8, 6) if gap else (8,):
                with self.subTest(gap=gap, lines=lines):
                    seen = self.watched(paged(gap, lines), by_page=True)
                    self.assertFalse(seen.made.lateness.rows())
                    notes = "\n".join(seen.made.warnings())
                    self.assertEqual("the page of line 5 follows too soon to appear as a whole" in notes, not is_whole)
                    last, first = seen.rows[3], seen.rows[4]
                    self.assertEqual(first.seen >= PAUSE + BLOCKS * last.words[-1][0], is_whole)
                    # The first page has disappeared before the second is sung to its end.
                    gone = [seen.gone[row.text] for row in seen.rows[:4]]
                    self.assertLess(max(gone), PAUSE + BLOCKS * seen.rows[-1].end)

    def test_random_songs(self) -> None:
        for seed in (101, 102, 103, 104, 105, 106):
            dice = random.Random(seed)
            with self.subTest(seed=seed):
                seen = self.watched(random_song(dice), sweep=dice.random() < 0.2)
                self.assertFalse(seen.made.lateness.rows())
                self.assertGreater(len(seen.rows), 3)

    def test_the_watch_sees_what_is_wrong(self) -> None:
        """The same song, with its later lines drawn as early as possible and out of order."""
        from unittest import mock

        from ribjasper.songs import timeline

        def may_come(self: timeline.Arranger, task: timeline.Task) -> bool:
            before = task.placed.before
            return not before or (not self.tasks[before].steps if task.placed.letters else before not in self.is_open)

        path = self.write("a.lrc", SHORT_PAGE)
        with mock.patch.object(timeline.Arranger, "may_come", may_come):
            seen = watch(path, Wishes(read_style("night"), lead=30.0))
        self.assertTrue(any("comes before" in fault or "stands" in fault for fault in seen.faults), seen.faults)


if __name__ == "__main__":
    unittest.main()
