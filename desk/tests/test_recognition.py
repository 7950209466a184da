"""Files at the places of other files: the refusal says what a file is and what to do, and other refusals are the
same."""
import unittest

from fixtures import HELLO, FolderTest, Word, desk, needs_plan

from ribjasper.songs.recognition import is_lyrics, is_script, is_sheet

SHEET, SCRIPT = (path.read_bytes() for path in HELLO)
LYRICS = {
    "LRC": b"[ti:A]\n[00:01.00]One\n",
    "words": b"[00:01]<00:01.00>One <00:02.00>\n",
    "ASS": b"[Script Info]\n\n[Events]\nDialogue: 0,0:00:01.00,0:00:02.00,Default,,0,0,0,,A\n",
    "UltraStar": b"#TITLE:A\n#BPM:100\n: 0 4 0 One\nE\n",
    "SubRip": b"1\n00:00:01,000 --> 00:00:02,000\nOne\n",
    "WebVTT": b"WEBVTT\n\n00:01.000 --> 00:02.000\nOne\n",
    "MIDI": b"MThd\0\0\0\6",
    "UTF-16": "[00:01.00]One\n".encode("utf-16"),
}
OTHERS = {
    "sheet": SHEET,
    "script": SCRIPT,
    "list": b'title = "A"\n[[track]]\nlyrics = "a.lrc"\nsound = "a.wav"\n',
    "empty": b"",
    "zeros": bytes(1000),
    "noise": bytes(range(256)) * 4,
    "text": b"Nothing of the kind.\n",
}


class RecognitionTest(unittest.TestCase):
    def test_lyrics(self) -> None:
        for name, content in LYRICS.items():
            self.assertEqual((is_lyrics(content), is_script(content), is_sheet(content)), (True, False, False), name)
        for name, content in OTHERS.items():
            self.assertFalse(is_lyrics(content), name)

    def test_sheets_and_scripts(self) -> None:
        self.assertEqual([name for name, content in OTHERS.items() if is_sheet(content)], ["sheet"])
        self.assertEqual([name for name, content in OTHERS.items() if is_script(content)], ["script"])


@needs_plan
class RefusalTest(FolderTest):
    def refused(self, *words: Word) -> str:
        ran = desk(*words)
        self.assertEqual((ran.status, ran.out), (3, ""), ran)
        return ran.errors

    def test_plan(self) -> None:
        sheet, script = self.write("a.cue", SHEET), self.write("a.script", SCRIPT)
        errors = self.refused("plan", script, sheet, "--length", "00:22:00")
        self.assertEqual(
            errors, f"ribjasper-desk: {script}: is a picture script, and {sheet} is a cue sheet: give the sheet first\n"
        )
        for name, content in LYRICS.items():
            lyrics = self.write("song", content)
            errors = self.refused("plan", sheet, lyrics, "--length", "00:22:00")
            self.assertIn(
                f"{lyrics}: contains lyrics, not a picture script: `ribjasper-desk lyrics {lyrics}", errors, name
            )
            self.assertIn(
                "contains lyrics, not a cue sheet", self.refused("plan", lyrics, script, "--length", "00:22:00")
            )
        # Other files are refused as before.
        other = self.write("b.script", b"show 00:01:00 00:01:00\nblah\n")
        self.assertIn(f"{other}: line 2: unknown-command", self.refused("plan", sheet, other, "--length", "00:22:00"))

    def test_album(self) -> None:
        for name, content in LYRICS.items():
            lyrics = self.write("song", content)
            errors = self.refused("album", lyrics, "-o", self.folder / "disc")
            self.assertIn(
                f"{lyrics}: contains lyrics, not a list of songs: `ribjasper-desk album --new {lyrics}", errors, name
            )
        self.assertIn("is not TOML", self.refused("album", self.write("a.toml", b"= 1\n"), "-o", self.folder / "disc"))
        self.assertIn("no such file", self.refused("album", self.folder / "none.toml", "-o", self.folder / "disc"))

    def test_unknown_forms(self) -> None:
        """The refusal of an unknown form lists all forms."""
        dump = self.write("a.raw", bytes(960))
        calls: tuple[tuple[Word, ...], ...] = (
            ("identify", dump, "--form", "blah"),
            ("convert", dump, "-o", self.folder / "b.raw", "--as", "blah"),
        )
        for words in calls:
            ran = desk(*words)
            self.assertEqual(ran.status, 2)
            self.assertIn(
                "forms: raw, pq, planar, sector, sector-pq, sector-planar, cooked, cooked-sector, cdg", ran.errors
            )
        errors = self.refused("convert", dump, "-o", self.folder / "b.xyz", "--form", "raw")
        self.assertIn("or --as with one of raw, pq, planar", errors)


if __name__ == "__main__":
    unittest.main()
