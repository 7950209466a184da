"""`film`: its frames are those of the player; streams, images and `.cdg` files; and the page of stills."""
import os
import subprocess
import unittest
from unittest import mock

from fixtures import (
    PAUSE, ROOMY_LEAD_IN as LEAD_IN, TOP, FolderTest, author_files as author, desk, needs_ffmpeg, needs_pillow,
    needs_plan, needs_program, program, screen, write_wav,
)  # fmt: skip
from ribjasper.commands.publish.film import Stills
from ribjasper.dumps.streams import open_stream

HELLO = TOP / "examples" / "hello.cue", TOP / "examples" / "hello.script"
RATE, BLOCKS_A_FRAME = 25, 3


@needs_plan
@needs_program
class FilmTest(FolderTest):
    def setUp(self) -> None:
        super().setUp()
        self.stream = author(*HELLO, "00:22:00", self.folder / "a.raw")

    def packs(self) -> bytes:
        return program("convert", "--lead-in", LEAD_IN, "--", self.stream)

    def check(self, frames: list[bytes], numbers: tuple[int, ...] = (0, 130, 131, 149, 250, 549)) -> None:
        for number in numbers:
            self.assertEqual(frames[number], screen(self.stream, PAUSE + BLOCKS_A_FRAME * number).pixels, number)

    def test_frames_of_a_stream(self) -> None:
        self.check(list(open_stream(self.stream).frames(RATE, 550)))

    def test_frames_of_an_image(self) -> None:
        blocks = self.stream.read_bytes()[96 * LEAD_IN :]
        sectors = b"".join(bytes(2352) + blocks[at : at + 96] for at in range(0, len(blocks), 96))
        self.check(list(open_stream(self.write("a.bin", sectors)).frames(RATE, 550)))

    def test_frames_of_packs_without_parity(self) -> None:
        packs = self.packs()
        starts = range(0, len(packs), 24)
        bare = b"".join(packs[at : at + 2] + bytes(2) + packs[at + 4 : at + 20] + bytes(4) for at in starts)
        frames = list(open_stream(self.write("a.cdg", bare)).frames(RATE, 600))
        # At these times no pack is being sent.
        for number in (60, 110, 350, 599):
            stands = screen(self.stream, min(BLOCKS_A_FRAME * number + 2, 1799)).pixels
            self.assertEqual(frames[number], stands, number)

    @needs_ffmpeg
    def test_the_film_has_these_frames(self) -> None:
        film = self.folder / "a.mp4"
        audio = write_wav(self.folder / "a.wav", 44_100 * 22)
        ran = desk("film", self.stream, "-o", film, "--lossless", "--scale", "1", "--audio", audio)
        self.assertEqual(ran.status, 0, ran.errors)
        words = ["ffmpeg", "-v", "error", "-i", str(film), "-f", "rawvideo", "-pix_fmt", "rgb24", "pipe:1"]
        shown = subprocess.run(words, capture_output=True, check=True).stdout
        size = 3 * 300 * 216
        self.assertEqual(len(shown), 550 * size)
        self.check([shown[at : at + size] for at in range(0, len(shown), size)])
        words = ["ffprobe", "-v", "error", "-show_entries", "stream=codec_type", "-of", "csv=p=0", str(film)]
        streams = subprocess.run(words, capture_output=True, text=True, check=True).stdout.split()
        self.assertEqual(streams, ["video", "audio"])

    @needs_ffmpeg
    def test_an_audio_that_is_longer(self) -> None:
        audio = write_wav(self.folder / "a.wav", 44_100 * 24)
        ran = desk("film", self.stream, "-o", self.folder / "a.mp4", "--audio", audio, "--rate", "5", "--scale", "2")
        self.assertIn("24.0 seconds, 120 frames", ran.errors)

    @needs_ffmpeg
    def test_an_audio_that_is_shorter(self) -> None:
        audio = write_wav(self.folder / "a.wav", 44_100 * 9)
        ran = desk("film", self.stream, "-o", self.folder / "a.mp4", "--audio", audio, "--rate", "5", "--scale", "1")
        self.assertEqual(ran.status, 0, ran.errors)
        self.assertIn("a.wav: the sound ends 13.0 seconds before the pictures", ran.errors)

    @needs_ffmpeg
    def test_what_ffmpeg_refuses(self) -> None:
        ran = desk("film", self.stream, "-o", self.folder / "a.nothing")
        self.assertEqual(ran.status, 3)
        self.assertIn("ffmpeg ended with", ran.errors)
        self.assertEqual(os.listdir(self.folder), ["a.raw"])

    def test_without_ffmpeg(self) -> None:
        with mock.patch.dict(os.environ, {"PATH": str(self.folder)}):
            ran = desk("film", self.stream, "-o", self.folder / "a.mp4")
        self.assertEqual(ran.status, 5)
        self.assertIn("apt-get install ffmpeg", ran.errors)
        self.assertEqual(os.listdir(self.folder), ["a.raw"])

    @needs_pillow
    def test_stills(self) -> None:
        from PIL import Image

        page = self.folder / "a.png"
        ran = desk("film", self.stream, "--stills", page)
        self.assertEqual(ran.status, 0, ran.errors)
        self.assertIn("7 stills", ran.errors)
        with Image.open(page) as image:
            self.assertEqual(image.size, (8 + 3 * 158, 8 + 3 * 130))
        ran = desk("film", self.stream, "--stills", page, "--every", "2")
        self.assertIn("11 stills", ran.errors)

    def test_refusals(self) -> None:
        ran = desk("film", self.write("a.cdg", bytes(25)), "--stills", self.folder / "a.png")
        self.assertEqual((ran.status, "a.cdg: is neither a stream nor a .cdg file: 25 bytes" in ran.errors), (3, True))
        self.assertEqual(desk("film", self.folder / "none", "--stills", self.folder / "a.png").status, 3)
        self.assertEqual(desk("film", self.stream).status, 2)


class StillsTest(unittest.TestCase):
    def test_what_stands_for_a_fifth_of_a_second(self) -> None:
        stills = Stills(10, None)
        for picture in [b"a"] * 2 + [b"b"] + [b"c"] * 9:
            stills.see(picture)
        stills.close()
        self.assertEqual(stills.kept, [(0, b"a"), (0.3, b"c")])

    def test_one_for_each_so_many_seconds(self) -> None:
        stills = Stills(10, 0.25)
        for number in range(10):
            stills.see(bytes([number]))
        self.assertEqual([still.picture[0] for still in stills.kept], [0, 3, 5, 8])


if __name__ == "__main__":
    unittest.main()
