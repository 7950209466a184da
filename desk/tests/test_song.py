"""The song of examples/song/, with the five commands of the guide."""
import subprocess
import sys
import unittest
from pathlib import Path

from fixtures import (
    PAUSE, SONG, TOP, FolderTest, desk, needs_ffmpeg, needs_font, needs_pillow, needs_plan, needs_program, program,
    screen,
)  # fmt: skip

from ribjasper.commands.publish.film import Stills
from ribjasper.dumps.streams import open_stream

LEAD_IN, RATE = 30, 25


@needs_plan
@needs_program
@needs_pillow
@needs_font
@needs_ffmpeg
class SongTest(FolderTest):
    def test_five_commands(self) -> None:
        audio, script, raw = (self.folder / name for name in ("song.wav", "song.script", "song.raw"))
        subprocess.run([sys.executable, SONG / "make_audio.py", audio], check=True)
        ran = desk("lyrics", SONG / "song.lrc", "--title", SONG / "title.png", "--audio", audio, "-o", script)
        self.assertEqual((ran.status, "none is late" in ran.errors), (0, True), ran.errors)
        ran = desk("plan", SONG / "song.cue", script, "--audio", audio, "--chart", self.folder / "plan.png")
        self.assertEqual((ran.status, "0 of them late" in ran.errors), (0, True), ran.errors)
        words = "--lead-in", LEAD_IN, "--length", "01:00:00", "--", SONG / "song.cue", script
        raw.write_bytes(program("author", *words))
        ran = desk("image", SONG / "song.cue", raw, "--audio", audio, "-o", self.folder / "song")
        self.assertEqual((ran.status, "pause" in ran.errors), (0, False), ran.errors)
        film, stills = self.folder / "song.mp4", self.folder / "stills.png"
        ran = desk("film", raw, "--audio", audio, "-o", film, "--stills", stills)
        self.assertEqual(ran.status, 0, ran.errors)
        self.check_picture(raw)

    def check_picture(self, raw: Path) -> None:
        """The picture in the documents is the first still after fifteen seconds, and the image shows it too."""
        from PIL import Image

        stream, stills = open_stream(raw), Stills(RATE, None)
        for picture in stream.frames(RATE, 20 * RATE):
            stills.see(picture)
        still = next(still for still in stills.kept if still.second > 15)
        block = PAUSE + round(still.second * 75)
        stands = screen(raw, block, lead_in=LEAD_IN)
        self.assertEqual(still.picture, stands.pixels)
        self.assertEqual(screen(self.folder / "song.bin", block - PAUSE, "--form", "sector", lead_in=0), stands)
        with Image.open(TOP / "docs" / "song.png") as image:
            self.assertEqual(image.convert("RGB").resize((300, 216), Image.NEAREST).tobytes(), stands.pixels)


if __name__ == "__main__":
    unittest.main()
