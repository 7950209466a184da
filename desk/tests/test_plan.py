"""`plan`: rows for all pictures, late pictures, refusals that name the file, the chart, and texts in Latin-1."""
import subprocess
import unittest
from pathlib import Path

from fixtures import PROGRAM, TOP, FolderTest, Ran, Word, desk, needs_pillow, needs_plan, needs_program, write_wav

HELLO = TOP / "examples" / "hello.cue", TOP / "examples" / "hello.script"
SHEET = 'TITLE "Song"\nFILE "a.wav" WAVE\nTRACK 01 AUDIO\nINDEX 01 00:00:00\n'


@needs_plan
class PlanTest(FolderTest):
    def test_rows(self) -> None:
        ran = desk("plan", *HELLO, "--length", "00:22:00")
        self.assertEqual(ran.status, 0, ran.errors)
        names, *rows = ran.cells()
        self.assertEqual(names, "picture line ready hold need free first late".split())
        shows = [
            (number, line.split()[1:])
            for number, line in enumerate(HELLO[1].read_text().splitlines(), 1)
            if line.startswith("show")
        ]
        self.assertEqual(
            [row[:4] for row in rows],
            [[str(place), str(number), *times] for place, (number, times) in enumerate(shows)],
        )
        self.assertEqual({row[7] for row in rows}, {"no"})
        self.assertEqual([row[6] for row in rows[:2]], ["00:00:00", "00:03:73"])
        self.assertTrue(all(int(row[4]) <= int(row[5]) for row in rows))

    def test_all_late_pictures(self) -> None:
        script = self.write(
            "late.script",
            "fill 5\nshow 00:00:02 00:00:02\nrect 0 0 288 96 3\n"
            "show 00:00:05 00:00:05\nfill 5\nshow 00:10:00 00:10:00\n",
        )
        ran = desk("plan", self.write("a.cue", SHEET), script, "--length", "00:22:00")
        self.assertEqual(ran.status, 4)
        self.assertEqual([row[7] for row in ran.cells()[1:]], ["yes", "yes", "no"])

    @needs_program
    def test_first_late_is_that_of_author(self) -> None:
        script = self.write(
            "late.script", "show 00:00:20 00:00:20\nfill 5\nrect 6 12 60 60 7\n" "show 00:00:22 00:00:22\n"
        )
        sheet = self.write("a.cue", SHEET)
        late = next(row for row in desk("plan", sheet, script, "--length", "00:22:00").cells() if row[-1] == "yes")
        words = "author", "--lead-in", "30", "--length", "00:22:00", "--", sheet, script
        errors = subprocess.run([str(PROGRAM), *words], capture_output=True, text=True).stderr.split()
        self.assertEqual(errors, ["late", late[0], "need", late[4], "free", late[5]])

    def test_length_of_audio(self) -> None:
        audio = write_wav(self.folder / "a.wav", 588 * 100 + 1)
        script = self.write("a.script", "show 00:00:20 00:03:26\n")
        sheet = self.write("a.cue", SHEET)
        self.assertEqual(desk("plan", sheet, script, "--audio", audio).status, 0)
        self.write("a.script", "show 00:00:20 00:03:27\n")
        ran = desk("plan", sheet, script, "--audio", audio)
        self.assertEqual(ran.status, 3)
        self.assertIn("a.script: its last picture is held beyond the end of the disc, which is at 00:03:26", ran.errors)

    def test_refusals_name_the_file_and_the_line(self) -> None:
        sheet, script = self.write("a.cue", SHEET), self.write("a.script", "fill 5\nfill 16\n")
        ran = desk("plan", sheet, script, "--length", "00:22:00")
        self.assertEqual((ran.status, "a.script: line 2: out-of-range" in ran.errors), (3, True), ran.errors)
        ran = desk("plan", self.write("b.cue", SHEET.replace("TRACK", "TRAK")), script, "--length", "00:22:00")
        self.assertEqual((ran.status, "b.cue: line 3: unknown-command" in ran.errors), (3, True), ran.errors)
        ran = desk("plan", self.folder / "none.cue", script, "--length", "00:22:00")
        self.assertEqual((ran.status, "none.cue: no such file" in ran.errors), (3, True), ran.errors)
        self.assertEqual(desk("plan", sheet, script, "--length", "00:22:75").status, 2)

    def test_words_for_author_are_reported(self) -> None:
        ran = desk("plan", *HELLO, "--length", "00:22:00")
        self.assertIn("ribjasper author --lead-in 15 --length 00:22:00 -- ", ran.errors)

    @needs_pillow
    def test_chart(self) -> None:
        from PIL import Image

        chart = self.folder / "chart.png"
        self.assertEqual(desk("plan", *HELLO, "--length", "00:22:00", "--chart", chart).status, 0)
        with Image.open(chart) as image:
            colours = {colour for _, colour in image.getcolors()}
        self.assertTrue({(0x21, 0x71, 0xB5), (0xC6, 0xDB, 0xEF)} <= colours)


@needs_plan
class Latin1Test(FolderTest):
    def plan(self, sheet: Path, *words: Word) -> Ran:
        return desk("plan", sheet, self.write("a.script", ""), "--length", "00:22:00", *words)

    def test_warns_of_texts_alone(self) -> None:
        sheet = self.write("a.cue", "REM \u00fcber\n" + SHEET.replace("Song", "S\u00f6ng"))
        ran = self.plan(sheet)
        self.assertIn('a.cue: line 2: TITLE "S\u00f6ng" is written to the disc in UTF-8', ran.errors)
        self.assertNotIn("line 1", ran.errors)

    def test_writes_the_bytes_of_latin_1(self) -> None:
        sheet = self.write("a.cue", "\ufeffREM \u00fcber\n" + SHEET.replace("Song", "So\u0308ng"))
        out = self.folder / "out.cue"
        ran = self.plan(sheet, "--latin-1", out)
        self.assertEqual(ran.status, 0)
        self.assertNotIn("UTF-8", ran.errors)
        texts = SHEET.replace("Song", "S\u00f6ng").encode("latin-1")
        self.assertEqual(out.read_bytes(), "REM \u00fcber\n".encode() + texts)
        self.assertNotIn("UTF-8", self.plan(out).errors)

    def test_names_the_line_that_cannot_be_said(self) -> None:
        sheet = self.write("a.cue", SHEET.replace("Song", "\u0160ong"))
        out = self.folder / "out.cue"
        ran = self.plan(sheet, "--latin-1", out)
        self.assertEqual(ran.status, 3)
        self.assertIn("line 1: Latin-1 has no \u0160 (latin capital letter s with caron)", ran.errors)
        self.assertFalse(out.exists())


if __name__ == "__main__":
    unittest.main()
