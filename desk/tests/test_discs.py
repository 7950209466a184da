"""What a cue sheet says about its disc: tracks from the index lines, and the texts and codes of a whole sheet."""
import ctypes
import unittest

from fixtures import FolderTest, has, needs_program

from ribjasper.common import library
from ribjasper.common.cue_sheets import COPY
from ribjasper.common.discs import SheetDisc, Track, read_disc, tracks_of
from ribjasper.common.library import SheetRow
from ribjasper.common.failures import Refusal
from ribjasper.common.planning import ScriptWhy, SheetWhy, Why, without_line

needs_sheet = unittest.skipUnless(has("ribjasper_sheet"), "lib/ is not built, or has no ribjasper_sheet")


def row(
    track: int, index: int, time: int, pregap: int = 0, postgap: int = 0, control: int = 0, code: bytes = b""
) -> SheetRow:
    return SheetRow(time, pregap, postgap, track, index, control, bool(code), (ctypes.c_uint8 * 12)(*code))


class TracksTest(unittest.TestCase):
    """An index is at block 150 plus its time, after any silence before it."""

    def test_one_track(self) -> None:
        self.assertEqual(tracks_of([row(7, 1, 0)]), [Track(7, 0, {0: 0, 1: 150})])
        self.assertEqual(
            tracks_of([row(1, 0, 0), row(1, 1, 75), row(1, 2, 300)]), [Track(1, 0, {0: 0, 1: 225, 2: 450})]
        )

    def test_gaps(self) -> None:
        rows = [
            row(1, 1, 0, postgap=75),
            row(2, 0, 400, pregap=20),
            row(2, 1, 500, pregap=20),
            row(3, 1, 1000, pregap=150),
        ]
        first, second, third = tracks_of(rows)
        self.assertEqual((first.begin, first.indices, first.postgap), (0, {0: 0, 1: 150}, 75))
        self.assertEqual((second.begin, second.pregap), (150 + 400 + 75, 20))
        self.assertEqual(second.indices, {0: 150 + 400 + 75, 1: 150 + 500 + 75 + 20})
        self.assertEqual(third.indices, {0: 150 + 1000 + 95, 1: 150 + 1000 + 95 + 150})

    def test_indices_at_one_time_are_one(self) -> None:
        (track,) = tracks_of([row(1, 1, 0), row(1, 2, 100), row(1, 3, 100), row(1, 4, 200)])
        self.assertEqual(track.indices, {0: 0, 1: 150, 2: 250, 3: 350})

    def test_control_and_codes(self) -> None:
        first, second = tracks_of([row(1, 1, 0, control=COPY, code=b"GBAAA2600001"), row(2, 1, 300)])
        self.assertEqual((first.control, first.code, second.control, second.code), (COPY, b"GBAAA2600001", 0, b""))

    def test_silence(self) -> None:
        first = Track(1, 0, {0: 0, 1: 300}, pregap=150, postgap=75)
        disc = SheetDisc([first, Track(2, 0, {0: 1000, 1: 1020}, pregap=20)], 2000, b"", {}, bytes(96 * 2000), 0)
        self.assertEqual([disc.end_of(track) for track in disc.tracks], [1000, 2000])
        silent = disc.silence()
        self.assertEqual(silent, {*range(150, 300), *range(925, 1000), *range(1000, 1020)})


SHEET = b"""CATALOG 4006381333931
TITLE "All"
PERFORMER "Somebody"
FILE "a.wav" WAVE
TRACK 01 AUDIO
TITLE "One"
ISRC GBAAA2600001
FLAGS DCP
INDEX 01 00:00:00
POSTGAP 00:00:10
TRACK 02 AUDIO
SONGWRITER "Else"
INDEX 00 00:04:00
INDEX 01 00:05:00
"""


@needs_sheet
@needs_program
class ReadTest(FolderTest):
    def test_a_whole_sheet(self) -> None:
        disc = read_disc(self.folder / "a.cue", SHEET, 75 * 10)
        texts = {("title", 0): b"All", ("performer", 0): b"Somebody", ("title", 1): b"One", ("songwriter", 2): b"Else"}
        self.assertEqual((disc.texts, disc.catalogue), (texts, b"4006381333931"))
        self.assertEqual(disc.blocks, 150 + 750 + 10)
        first, second = disc.tracks
        self.assertEqual(first, Track(1, COPY, {0: 0, 1: 150}, b"GBAAA2600001", postgap=10))
        self.assertEqual(second, Track(2, 0, {0: 460, 1: 535}))
        self.assertEqual([disc.end_of(track) for track in disc.tracks], [460, 910])

    def test_a_long_text(self) -> None:
        """A text that is longer than the first buffer of the desk: it does not fit onto a disc, so the sheet is
        refused."""
        title = b"x" * 70_000
        self.assertEqual(
            library.sheet_text(b'TITLE "%b"\n' % title + SHEET.replace(b'TITLE "All"\n', b""), 0, 0), title
        )

    def test_refusals(self) -> None:
        for sheet, why in (
            (b"FILE\n", "line 1: bad-argument"),
            (b"", "line 1: no-file"),
            (SHEET.replace(b"02 AUDIO", b"03 AUDIO"), "number-order"),
        ):
            with self.assertRaises(Refusal) as caught:
                read_disc(self.folder / "a.cue", sheet, 750)
            self.assertIn(why, str(caught.exception))
        with self.assertRaises(Refusal) as caught:
            read_disc(self.folder / "a.cue", SHEET, 100)
        self.assertIn("need audio of at least 00:05:01", str(caught.exception))


class ReasonsTest(unittest.TestCase):
    def test_words(self) -> None:
        self.assertEqual(
            [why.word for why in SheetWhy][:4], ["unknown-command", "second-file", "misplaced", "bad-argument"]
        )
        self.assertEqual(
            [why.word for why in ScriptWhy], "unknown-command bad-argument out-of-range time-order too-many".split()
        )
        self.assertEqual((Why(4), len(Why), len(SheetWhy)), (Why.LENGTH_SHORT, 8, 12))

    def test_without_a_line(self) -> None:
        self.assertEqual(without_line(b"fill 1\ncircle\nfill 2", 2), b"fill 1\n\nfill 2")
        self.assertEqual(without_line(b"fill 1\n", 2), b"fill 1\n")
        self.assertIsNone(without_line(b"fill 1", 2))
        for line in (b"TRACK 1 AUDIO", b"  index 00 x", b"\tFile"):
            self.assertIsNone(without_line(b"REM\n" + line, 2))


if __name__ == "__main__":
    unittest.main()
