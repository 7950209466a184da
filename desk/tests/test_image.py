"""`image`: the sectors, what cdrdao reads from them, what would be lost in the first pause, and refusals."""
import os
import re
import subprocess
import unittest
from pathlib import Path
from unittest import mock

from fixtures import (
    PAUSE, ROOMY_LEAD_IN as LEAD_IN, TOP, FolderTest, Ran, Word, author_files as author, desk, needs_cdrdao,
    needs_plan, needs_program, program, screen, write_wav,
)  # fmt: skip
HELLO = TOP / "examples" / "hello.script"
BLOCK, SECTOR, SOUND = 96, 2448, 2352
# Three tracks with every kind of gap; track 2 begins at a block with the catalogue number.
SHEET = """CATALOG 4006381333931
PERFORMER "The Lead-Ins"
TITLE "All the Gaps"
FILE "hello.wav" WAVE
  TRACK 01 AUDIO
    TITLE "Hello"
    ISRC GBAAA2600001
    FLAGS DCP PRE
    INDEX 00 00:00:00
    INDEX 01 00:01:00
    INDEX 02 00:05:00
    POSTGAP 00:01:00
REM between the tracks
  TRACK 02 AUDIO
    TITLE "Test Card"
    SONGWRITER "J. Jasper"
    FLAGS 4CH
    PREGAP 00:00:20
    INDEX 00 00:05:49
    INDEX 01 00:06:60
    INDEX 02 00:07:10
    INDEX 03 00:08:00
  TRACK 03 AUDIO
    PREGAP 00:02:00
    INDEX 01 00:14:00
"""
SILENT_BEFORE_2, SILENT_BEFORE_3 = range(5 * 75 + 49, 5 * 75 + 49 + 95), range(14 * 75 + 95, 14 * 75 + 95 + 150)
CDRDAO = """TRACK 1: PREGAP 75 START 75 INDEX 2 375 END 499
TRACK 2: PREGAP 106 START 605 INDEX 2 630 INDEX 3 695 END 1145
TRACK 3: PREGAP 150 START 1295 END 1895"""


@needs_plan
@needs_program
class ImageTest(FolderTest):
    def setUp(self) -> None:
        super().setUp()
        self.audio = write_wav(self.folder / "hello.wav", 588 * 22 * 75 - 100)
        self.sheet = self.write("a.cue", SHEET)
        self.stream = author(self.sheet, HELLO, "00:22:00", self.folder / "a.raw")
        self.disc = self.folder / "disc"

    def image(self, *words: Word) -> Ran:
        ran = desk("image", self.sheet, self.stream, "--audio", self.audio, "-o", self.disc, *words)
        self.assertEqual(ran.status, 0, ran.errors)
        return ran

    def test_subcode_is_that_of_the_stream(self) -> None:
        self.image()
        image = (self.folder / "disc.bin").read_bytes()
        blocks = self.stream.read_bytes()[BLOCK * (LEAD_IN + PAUSE) :]
        self.assertEqual(len(image), SECTOR * 1895)
        self.assertEqual(b"".join(image[at + SOUND : at + SECTOR] for at in range(0, len(image), SECTOR)), blocks)
        packs = program("convert", "--lead-in", 0, "--form", "sector", "--", self.folder / "disc.bin")
        whole = program("convert", "--lead-in", LEAD_IN, "--", self.stream)
        self.assertEqual(packs, whole[24 * 4 * PAUSE :])

    def test_audio_and_gaps(self) -> None:
        self.image()
        image = (self.folder / "disc.bin").read_bytes()
        sectors = [image[at : at + SOUND] for at in range(0, len(image), SECTOR)]
        silent = {*SILENT_BEFORE_2, *SILENT_BEFORE_3}
        self.assertTrue(all(not any(sectors[number]) for number in silent))
        sound = b"".join(sector for number, sector in enumerate(sectors) if number not in silent)
        self.assertEqual(sound, self.audio.read_bytes()[44:].ljust(SOUND * 22 * 75, b"\0"))

    @needs_cdrdao
    def test_cdrdao_finds_tracks_and_times(self) -> None:
        self.image()
        toc = self.folder / "disc.toc"
        size = subprocess.run(["cdrdao", "toc-size", toc], capture_output=True, text=True, check=True).stdout
        self.assertEqual(size.split()[-1], "1895")
        shown = subprocess.run(["cdrdao", "show-toc", toc], capture_output=True, text=True, check=True).stdout
        self.assertIn("CATALOG NUMBER: 4006381333931", shown)
        found = []
        for part in re.split(r"^TRACK +", shown, flags=re.MULTILINE)[1:]:
            number = part.split()[0]
            marks = re.findall(r"(PREGAP|START|INDEX +\d+|END) .*\( *(\d+)\)", part)
            found.append(f"TRACK {number}: " + " ".join(f"{' '.join(mark.split())} {at}" for mark, at in marks))
        self.assertEqual("\n".join(found), CDRDAO)
        first, second, third = re.split(r"^TRACK +", shown, flags=re.MULTILINE)[1:]
        self.assertTrue("COPY PERMITTED" in first and "NO PRE-EMPHASIS" not in first and "GB AAA 26 00001" in first)
        self.assertTrue("COPY NOT PERMITTED" in second and "FOUR CHANNEL AUDIO" in second)
        self.assertTrue("NO PRE-EMPHASIS" in third and "TWO CHANNEL AUDIO" in third)

    def test_texts_are_those_of_the_sheet(self) -> None:
        self.image()
        toc = (self.folder / "disc.toc").read_text()
        album, *tracks = re.split(r"^TRACK", toc, flags=re.MULTILINE)
        self.assertEqual(
            re.findall(r'(TITLE|PERFORMER|SONGWRITER) "(.*)"', album),
            [("TITLE", "All the Gaps"), ("PERFORMER", "The Lead-Ins"), ("SONGWRITER", "")],
        )
        self.assertEqual([re.findall(r'TITLE "(.*)"', track) for track in tracks], [["Hello"], ["Test Card"], [""]])
        self.assertEqual([re.findall(r'SONGWRITER "(.*)"', track) for track in tracks], [[""], ["J. Jasper"], [""]])
        cue = (self.folder / "disc.cue").read_text()
        self.assertEqual(
            re.findall(r"INDEX (\d\d) (\S+)", cue),
            [
                ("00", "00:00:00"),
                ("01", "00:01:00"),
                ("02", "00:05:00"),
                ("00", "00:06:49"),
                ("01", "00:08:05"),
                ("02", "00:08:30"),
                ("03", "00:09:20"),
                ("00", "00:15:20"),
                ("01", "00:17:20"),
            ],
        )
        self.assertEqual(re.findall(r"FLAGS (.*)", cue), ["DCP PRE", "4CH"])

    def test_latin_1(self) -> None:
        self.sheet = self.write("a.cue", SHEET.replace("Hello", "H\u00e9llo"))
        self.stream = author(self.sheet, HELLO, "00:22:00", self.stream)
        ran = self.image()
        self.assertIn("line 6", ran.errors)
        self.assertIn('TITLE "H\\303\\251llo"', (self.folder / "disc.toc").read_text())
        ran = self.image("--latin-1")
        self.assertNotIn("line 6", ran.errors)
        self.assertIn('TITLE "H\\351llo"', (self.folder / "disc.toc").read_text())
        self.assertIn(b'TITLE "H\xe9llo"', (self.folder / "disc.cue").read_bytes())

    def test_what_is_sent_in_the_pause(self) -> None:
        self.assertIn("--hold-through-pause", self.image().errors)
        image = self.folder / "disc.bin"
        third = screen(self.stream, 535)
        self.assertNotEqual(screen(image, 535 - PAUSE, "--form", "sector", lead_in=0), third)
        ran = self.image("--hold-through-pause", HELLO)
        self.assertNotIn("pause", ran.errors)
        self.assertEqual(screen(image, 535 - PAUSE, "--form", "sector", lead_in=0), third)

    def test_texts_of_another_sheet_are_reported(self) -> None:
        self.assertNotIn("its texts differ from those", self.image().errors)
        self.sheet = self.write("b.cue", SHEET.replace("All the Gaps", "Other Gaps"))
        errors = self.image().errors
        self.assertIn("its texts differ from those of", errors)
        self.assertIn("2 differ, for example `title 00 All the Gaps` of the stream", errors)

    def test_a_pressed_file_has_no_script(self) -> None:
        plain = self.write("b.cue", 'FILE "a.wav" WAVE\nTRACK 01 AUDIO\nINDEX 01 00:00:00\n')
        packs = program("convert", "--lead-in", LEAD_IN, "--", author(plain, HELLO, "00:22:00", self.folder / "b.raw"))[
            14_232:
        ]
        preset, idle = bytes([9, 1, 0, 0, 5]) + bytes(19), bytes(24)
        for name, first, is_reported in (("early", preset + 11 * idle, True), ("late", 11 * idle + preset, False)):
            pressed = self.write(
                f"{name}.raw",
                program(
                    "press",
                    "--lead-in",
                    LEAD_IN,
                    "--length",
                    "00:22:00",
                    "--",
                    plain,
                    self.write(f"{name}.cdg", first + packs[288:]),
                ),
            )
            ran = desk("image", plain, pressed, "--audio", self.audio, "-o", self.folder / name)
            self.assertEqual(ran.status, 0, ran.errors)
            self.assertNotIn("--hold-through-pause", ran.errors)
            self.assertEqual(
                "the first seven packs of its .cdg file begin in the first pause" in ran.errors, is_reported, ran.errors
            )

    def test_without_texts_and_codes(self) -> None:
        self.sheet = self.write("b.cue", 'FILE "a.wav" WAVE\nTRACK 07 AUDIO\nINDEX 01 00:00:00\n')
        self.stream = author(self.sheet, HELLO, "00:22:00", self.stream)
        self.image()
        self.assertEqual(
            (self.folder / "disc.toc").read_text(),
            "CD_DA\n\n// Track 7\nTRACK AUDIO RW_RAW\nNO COPY\n"
            'NO PRE_EMPHASIS\nTWO_CHANNEL_AUDIO\nDATAFILE "disc.bin" #0 00:22:00\n',
        )

    def test_a_first_track_with_a_gap(self) -> None:
        """The gap of the first track follows the pause, which is not in the image."""
        self.sheet = self.write("b.cue", 'FILE "a.wav" WAVE\nTRACK 01 AUDIO\nPREGAP 00:02:00\nINDEX 01 00:00:00\n')
        self.stream = author(self.sheet, HELLO, "00:22:00", self.stream)
        self.image()
        image = (self.folder / "disc.bin").read_bytes()
        sectors = [image[at : at + SOUND] for at in range(0, len(image), SECTOR)]
        self.assertEqual(sectors[:PAUSE], [bytes(SOUND)] * PAUSE)
        sound = b"".join(sectors[PAUSE:])
        self.assertEqual(sound, self.audio.read_bytes()[44:].ljust(SOUND * 22 * 75, b"\0"))
        self.assertIn("START 00:02:00", (self.folder / "disc.toc").read_text())

    def test_refusals(self) -> None:
        def refused(why: str, **others: Path) -> None:
            words = {"sheet": self.sheet, "stream": self.stream, "audio": self.audio, **others}
            ran = desk("image", words["sheet"], words["stream"], "--audio", words["audio"], "-o", self.disc)
            self.assertEqual(ran.status, 3, ran.errors)
            self.assertIn(why, ran.errors)
            self.assertFalse((self.folder / "disc.bin").exists())

        with mock.patch.dict(os.environ, {"PATH": str(self.folder)}):
            refused(
                "has 48000 Hz, 2 channels, 16 bits, and ffmpeg is not installed",
                audio=write_wav(self.folder / "b.wav", 100, rate=48_000),
            )
        refused("is not a WAV file", audio=self.sheet)
        refused("no such file", audio=self.folder / "none.wav")
        refused("author the stream with --length 00:23:00", audio=write_wav(self.folder / "b.wav", 588 * 75 * 23))
        refused("its P or Q differs at 00:08:48", sheet=self.write("b.cue", SHEET.replace("00:05:49", "00:05:48")))
        refused("is neither a stream", stream=self.sheet)
        refused("is a .cdg file, not a raw stream", stream=self.write("a.cdg", bytes(24 * 50)))
        self.disc = self.folder / "a"
        refused("a.cue: is an input and would be overwritten")


if __name__ == "__main__":
    unittest.main()
