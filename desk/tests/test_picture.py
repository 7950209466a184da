"""`picture`: an image of the right size with few colours is drawn pixel by pixel; others are approximated, in few
packs."""
import unittest
from pathlib import Path
from typing import Callable

from fixtures import (
    FolderTest, Screen, Word, author_files as author, desk, needs_pillow, needs_plan, needs_program, screen,
)  # fmt: skip

from ribjasper.drawing.images import whole

Pixel = Callable[[int, int], tuple[int, int, int]]
SHEET = 'FILE "a.wav" WAVE\nTRACK 01 AUDIO\nINDEX 01 00:00:00\n'


def colour_of(number: int) -> tuple[int, int, int]:
    """Sixteen colours that the screen can show."""
    return 17 * number, 17 * (15 - number), 17 * (7 * number % 16)


@needs_plan
@needs_pillow
class PictureTest(FolderTest):
    def image(self, name: str, size: tuple[int, int], pixel: Pixel) -> Path:
        from PIL import Image

        image = Image.new("RGB", size)
        image.putdata([pixel(x, y) for y in range(size[1]) for x in range(size[0])])
        image.save(self.folder / name)
        return self.folder / name

    def shown(self, script: str, *before: str) -> Screen:
        """The screen after the lines of a script were drawn, with only these lines before them."""
        path = self.write("all.script", "".join(f"{line}\n" for line in before) + script + "show 00:19:00 00:19:00\n")
        stream = author(self.write("a.cue", SHEET), path, "00:20:00", self.folder / "a.raw")
        return screen(stream, 19 * 75)

    @needs_program
    def test_sixteen_colours_come_back(self) -> None:
        def pixel(x: int, y: int) -> tuple[int, int, int]:
            return colour_of((x * y // 7 + x // 5) % 16)

        ran = desk("picture", self.image("a.png", (288, 192), pixel))
        self.assertEqual(ran.status, 0, ran.errors)
        picture = self.shown(ran.out)
        for y in range(192):
            for x in range(288):
                self.assertEqual(picture.at(x, y), pixel(x, y))

    @needs_program
    def test_at_a_tile(self) -> None:
        def pixel(x: int, y: int) -> tuple[int, int, int]:
            return colour_of(1 + (x // 3 + y) % 4)

        ran = desk("picture", self.image("a.png", (30, 20), pixel), "--at", "10,5", "--first", "8", "--colours", "4")
        self.assertEqual(ran.status, 0, ran.errors)
        self.assertTrue(all(int(line.split()[1]) >= 8 for line in ran.out.splitlines() if line.startswith("colour")))
        picture = self.shown(ran.out, "colour 1 0123", "fill 1")
        self.assertEqual(picture.at(59, 60), (17, 34, 51))
        for y in range(20):
            for x in range(30):
                self.assertEqual(picture.at(60 + x, 60 + y), pixel(x, y))

    def test_flat_areas_stay_flat(self) -> None:
        def pixel(x: int, y: int) -> tuple[int, int, int]:
            return (200, 30, 40) if (x - 300) ** 2 + (y - 200) ** 2 < 150**2 else (20, 40 + (x * 7 + y * 3) % 3, 90)

        ran = desk("picture", self.image("a.png", (600, 400), pixel))
        packs = int(ran.errors.partition("needs ")[2].split()[0])
        self.assertLess(packs, 400)
        dithered = desk("picture", self.folder / "a.png", "--dither")
        self.assertGreaterEqual(int(dithered.errors.partition("needs ")[2].split()[0]), packs)

    def test_more_loss_needs_fewer_packs(self) -> None:
        def pixel(x: int, y: int) -> tuple[int, int, int]:
            return (x * 255 // 287, y * 255 // 191, (x * y) % 256)

        image = self.image("a.png", (288, 192), pixel)
        needs = [
            int(desk("picture", image, "--simple", loss).errors.partition("needs ")[2].split()[0])
            for loss in (0, 2, 40)
        ]
        self.assertEqual(needs, sorted(needs, reverse=True))
        self.assertLess(needs[2], needs[0])

    def test_few_colours(self) -> None:
        image = self.image("a.png", (288, 192), lambda x, y: (x % 256, y, (x + y) % 256))
        lines = desk("picture", image, "--colours", "5").out.splitlines()
        self.assertLessEqual(sum(line.startswith("colour") for line in lines), 5)

    def test_refusals(self) -> None:
        for path in (self.write("a.png", "no image"), self.folder / "none.png", self.folder):
            ran = desk("picture", path)
            self.assertEqual(ran.status, 3)
            self.assertIn(str(path), ran.errors)
        for words in (("--at", "48,0"), ("--colours", "17"), ("--at", "x")):
            self.assertEqual(desk("picture", self.folder / "a.png", *words).status, 2)

    def border(self, image: Path, *words: Word) -> str:
        lines = desk("picture", image, *words).out.splitlines()
        colours = dict(line.split()[1:] for line in lines if line.startswith("colour"))
        number = next((line.split()[1] for line in lines if line.startswith("border")), "0")
        return str(colours.get(number, "0000"))

    def test_turned_by_what_a_camera_tells(self) -> None:
        from PIL import Image

        image = Image.new("RGB", (192, 288), (255, 0, 0))
        image.paste((0, 0, 255), (0, 0, 192, 144))
        exif = Image.Exif()
        # 8: the top of the image is at its left side, so it is shown rotated to the left.
        exif[0x0112] = 8
        image.save(self.folder / "a.png", exif=exif)
        raster = whole(self.folder / "a.png")
        left, right = (raster.colours[raster.rows[90][x]] for x in (20, 260))
        self.assertEqual((left, right), ((0, 0, 15), (15, 0, 0)))

    def test_sixteen_bits_of_grey(self) -> None:
        from PIL import Image

        image = Image.new("I;16", (288, 192))
        image.putdata([257 * 17 * (x // 18) for _ in range(192) for x in range(288)])
        image.save(self.folder / "a.png")
        raster = whole(self.folder / "a.png")
        self.assertEqual(
            [raster.colours[raster.rows[50][18 * step + 9]] for step in range(16)],
            [(step, step, step) for step in range(16)],
        )

    def test_frames(self) -> None:
        from PIL import Image

        frames = [Image.new("P", (288, 192), number) for number in range(3)]
        for frame in frames:
            frame.putpalette([255, 0, 0, 0, 255, 0, 0, 0, 255] + 759 * [0])
        frames[0].save(self.folder / "a.gif", save_all=True, append_images=frames[1:])
        ran = desk("picture", self.folder / "a.gif")
        self.assertEqual(
            (ran.status, "has 3 frames; --frame N chooses one, from 1 to 3" in ran.errors), (3, True), ran.errors
        )
        ran = desk("picture", self.folder / "a.gif", "--frame", "4")
        self.assertEqual((ran.status, "has 3 frames, but no frame 4" in ran.errors), (3, True), ran.errors)
        for number, colour in ((1, "0F00"), (2, "00F0"), (3, "000F")):
            self.assertIn(colour, desk("picture", self.folder / "a.gif", "--frame", number).out)

    def test_the_border(self) -> None:
        def noisy(x: int, y: int) -> tuple[int, int, int]:
            """A dark photo with green parts, in which no two neighbouring pixels of the edge are equal."""
            if 60 < x < 200 and 60 < y < 150:
                return 200, 200, 200
            return (0, 255, 0) if (x * 7 + y * 11) % 13 == 0 else (20 + (x * 5 + y * 3) % 48, 24 + (x + y * 7) % 40, 60)

        image = self.image("a.png", (288, 192), noisy)
        red, green, blue = (int(digit, 16) for digit in self.border(image)[1:])
        self.assertTrue(red < 6 and green < 6 and blue in (3, 4), (red, green, blue))
        self.assertEqual(self.border(image, "--border", "#F0F", "--colours", "15"), "0F0F")
        flat = self.image("b.png", (288, 192), lambda x, y: (255, 255, 255) if 0 < x < 287 else (0, 0, 255))
        self.assertEqual(self.border(flat), "0FFF")

    def test_cropped(self) -> None:
        image = self.image("a.png", (576, 192), lambda x, y: (255, 0, 0) if x < 144 or x >= 432 else (0, 0, 255))
        self.assertEqual(
            {
                line.split()[2]
                for line in desk("picture", image, "--crop").out.splitlines()
                if line.startswith("colour")
            },
            {"000F"},
        )
        self.assertIn("0F00", desk("picture", image).out)

    def test_too_many_pixels(self) -> None:
        from PIL import Image

        Image.new("1", (20_000, 20_000)).save(self.folder / "a.png")
        ran = desk("picture", self.folder / "a.png")
        self.assertEqual(ran.status, 3)
        self.assertIn("pixels", ran.errors)


if __name__ == "__main__":
    unittest.main()
