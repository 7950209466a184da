"""`lyrics`: each script is in time, its letters can be read, and words are lit when they are sung."""
import itertools
import math
import unittest
from pathlib import Path
from typing import Any, Iterator
from unittest import mock

from fixtures import (
    PAUSE, ROOMY_LEAD_IN as LEAD_IN, SONG, TOP, FolderTest, Ran, Screen, Word, author_files as author, desk,
    needs_font, needs_pillow, needs_plan, needs_program, screen, write_wav,
)  # fmt: skip
from random_songs import bits
from ribjasper.drawing.colours import Colour, contrast
from ribjasper.common.library import HEIGHT, PACK, RAW, WIDTH, packs_of_blocks
from ribjasper.common.player import Player
from ribjasper.commands.publish import lyrics
from ribjasper.songs.pages import DotOut, Placed
from ribjasper.songs.song_script import Made, Maker, Wishes, best
from ribjasper.songs.songs import Song
from ribjasper.drawing.styles import read_style, shipped
from ribjasper.songs.timeline import EARLY, blocks_for
from ribjasper.common.times import blocks, spelled

SHEET = 'FILE "a.wav" WAVE\nTRACK 01 AUDIO\nINDEX 01 00:00:00\n'
# The Japanese font of the package fonts-vlgothic, which the desk finds by itself.
GOTHIC = Path("/usr/share/fonts/truetype/vlgothic/VL-Gothic-Regular.ttf")

ASS = """[Events]
Format: Layer, Start, End, Style, Name, MarginL, MarginR, MarginV, Effect, Text
Dialogue: 0,0:00:05.00,0:00:08.00,Default,,0,0,0,,{\\k50}One, {\\kf70}two{\\K30}fold, {\\k20}{\\an8\\k100}three
"""


def rgb(colour: Colour) -> tuple[int, int, int]:
    return 17 * colour.red, 17 * colour.green, 17 * colour.blue


def lab(colour: Colour) -> tuple[float, float, float]:
    """A colour in CIELAB, by the formulas of IEC 61966-2-1 and of CIE for the white D65: a distance of 2 is visible."""
    parts = [part / 15 for part in colour]
    red, green, blue = (part / 12.92 if part <= 0.04045 else ((part + 0.055) / 1.055) ** 2.4 for part in parts)
    x = (0.4124 * red + 0.3576 * green + 0.1805 * blue) / 0.95047
    y = 0.2126 * red + 0.7152 * green + 0.0722 * blue
    z = (0.0193 * red + 0.1192 * green + 0.9505 * blue) / 1.08883
    x, y, z = (part ** (1 / 3) if part > 0.008856 else 7.787 * part + 16 / 116 for part in (x, y, z))
    return 116 * y - 16, 500 * (x - y), 200 * (y - z)


class StylesTest(FolderTest):
    def test_letters_can_be_read_in_each_style(self) -> None:
        for name in shipped():
            style = read_style(name)
            for voice in style.voices:
                self.assertGreaterEqual(contrast(voice.unsung, style.ground), 7, name)
                self.assertGreaterEqual(contrast(voice.sung, style.ground), 4.5, name)
                for other in style.voices:
                    self.assertGreaterEqual(contrast(voice.sung, other.unsung), 3, name)

    def test_voices_can_be_told_apart(self) -> None:
        for name in shipped():
            for one, other in itertools.combinations(read_style(name).voices, 2):
                self.assertGreater(math.dist(lab(one.unsung), lab(other.unsung)), 30, (name, one, other))
                self.assertGreater(math.dist(lab(one.sung), lab(other.sung)), 45, (name, one, other))

    def test_contrast(self) -> None:
        # By the formula of WCAG 2: black and white, and the grey #777, whose contrast is known to be 4.48.
        black, grey, white = (Colour(*(part,) * 3) for part in (0, 7, 15))
        self.assertAlmostEqual(contrast(black, white), 21, places=6)
        self.assertAlmostEqual(contrast(grey, white), 4.48, places=2)

    def style(self, *lines: str, voices: str = '[[voice]]\nunsung = "#FFF"\nsung = "#F80"\n') -> str:
        return str(self.write("a.toml", "".join(f"{line}\n" for line in lines) + voices))

    def test_all_keys(self) -> None:
        font = self.write("b.ttf", "")
        style = read_style(
            self.style(
                'font = "b.ttf"',
                "size = 20",
                'ground = "#001122"',
                'border = "#123"',
                'outline = "#000"',
                'align = "left"',
                "rows = 6",
                'mode = "page"',
                'background = "c.png"',
            )
        )
        self.assertEqual(
            (style.fonts, style.size, style.align, style.rows, style.by_page), ((font,), 20, "left", 6, True)
        )
        self.assertEqual((style.ground, style.border, style.outline), ((0, 1, 2), (1, 2, 3), (0, 0, 0)))
        self.assertEqual((style.background, style.voice(1).sung), (self.folder / "c.png", (15, 8, 0)))

    def test_refusals(self) -> None:
        for line, why in (
            ("rows = 7", "rows is 7, but must be from 2 to 6"),
            ('rows = "4"', "rows is '4'"),
            ('ground = "blue"', "ground is 'blue'"),
            ('colour = "#000"', "has unknown keys: 'colour'"),
            ('align = "middle"', "align is 'middle'"),
            ('font = "No Such Font"', "there is no font No"),
            ("rows = ", "is not TOML"),
            ("sweep = true", "has unknown keys: 'sweep'"),
        ):
            ran = desk("lyrics", SONG / "song.lrc", "-o", self.folder / "a.script", "--style", self.style(line))
            self.assertEqual((ran.status, why in ran.errors), (3, True), ran.errors)
        ran = desk("lyrics", SONG / "song.lrc", "-o", self.folder / "a.script", "--style", "green")
        self.assertEqual(
            (ran.status, "is not a style; the styles are black, night, paper" in ran.errors), (3, True), ran.errors
        )
        for voices in ("", '[[voice]]\nunsung = "#FFF"\n', 3 * '[[voice]]\nunsung = "#FFF"\nsung = "#000"\n'):
            ran = desk(
                "lyrics", SONG / "song.lrc", "-o", self.folder / "a.script", "--style", self.style(voices=voices)
            )
            self.assertEqual((ran.status, "[[voice]]" in ran.errors), (3, True), ran.errors)


class ScriptTest(FolderTest):
    def made(self, song: Path, *words: Word, status: int = 0) -> tuple[Ran, Path, Maker]:
        """Runs the command and keeps its pages, in order to know the place of each word."""
        script, kept = self.folder / "a.script", list[Made]()

        def keep(song: Song, wishes: Wishes) -> Made:
            kept.append(best(song, wishes))
            return kept[-1]

        with mock.patch.object(lyrics, "best", keep):
            ran = desk("lyrics", song, "-o", script, *words)
        self.assertEqual(ran.status, status, ran.errors)
        return ran, script, kept[-1].maker

    def stream(self, script: Path) -> Path:
        """A disc that ends three seconds after the last picture."""
        last = [line.split()[2] for line in script.read_text().splitlines() if line.startswith("show")][-1]
        return author(self.write("a.cue", SHEET), script, spelled(blocks(last) + 3 * 75), self.folder / "a.raw")

    def is_planned(self, script: Path) -> None:
        self.assertEqual(desk("plan", self.write("a.cue", SHEET), script, "--length", spelled(30_000)).status, 0)

    @staticmethod
    def letters(placed: Placed) -> list[bytes]:
        """The numbers of the pixels of a line; 3 is the full colour of the first voice, 7 that of the second."""
        assert placed.letters
        return placed.letters.rows

    def pixels(self, placed: Placed, left: int, right: int, ink: int) -> list[tuple[int, int]]:
        """The pixels of a part of a line that have this number."""
        return [
            (x, placed.top + y)
            for y, row in enumerate(self.letters(placed))
            for x in range(left, min(right, 288))
            if row[x] == ink
        ]

    def screens(self, script: Path) -> Iterator[tuple[int, bytes]]:
        """The screen at each block of the program from the end of the pause on, as the numbers of all pixels."""
        packs, _ = packs_of_blocks(self.stream(script).read_bytes(), RAW, LEAD_IN)
        with Player() as player:
            done, pixels = 0, player.screen()
            for block in range(PAUSE, len(packs) // PACK // 4 + 2):
                # A pack is spread over eight slots, four per block: these packs are complete at this block.
                if not player.draw(packs[PACK * done : PACK * (4 * block - 7)]).is_none:
                    pixels = player.screen()
                done = 4 * block - 7
                yield block, pixels

    def pictures(self, script: Path, blocks: list[int]) -> dict[int, Screen]:
        """The screens at some blocks of the program, from the library; at the first of them from the program too."""
        stream = self.stream(script)
        packs, _ = packs_of_blocks(stream.read_bytes(), RAW, LEAD_IN)
        shown, done = {}, 0
        with Player() as player:
            for block in sorted(set(blocks)):
                player.draw(packs[PACK * done : PACK * (4 * block - 7)])
                done = 4 * block - 7
                shown[block] = Screen(player.picture())
        self.assertEqual(shown[min(blocks)], screen(stream, min(blocks)))
        return shown

    def check_words(self, script: Path, maker: Maker, step: int = 1) -> None:
        """Checks that words have the one colour before their times, and the other one from then on."""
        style, seen = maker.style, 0
        lights = [due for due in maker.dues if not isinstance(due.steps[0], DotOut)]
        early = {due: due.block - EARLY - blocks_for(due.steps) - 1 for due in lights}
        shown = self.pictures(script, [block for due in lights[::step] for block in (early[due], due.block)])
        for due in lights[::step]:
            light, placed = due.steps[0], due.placed
            before, after = shown[early[due]], shown[due.block]
            for number, ink in enumerate((3, 7)):
                full = self.pixels(placed, light.left, light.right, ink)
                seen += len(full) > 5
                voice = style.voice(number)
                if full:
                    self.assertEqual({before.at(*pixel) for pixel in full}, {rgb(voice.unsung)}, placed.text())
                    self.assertEqual({after.at(*pixel) for pixel in full}, {rgb(voice.sung)}, placed.text())
            box = [
                (x, placed.top + y)
                for y in range(len(self.letters(placed)))
                for x in range(light.left, min(light.right, 288))
            ]
            self.assertIn(rgb(style.ground), {after.at(*pixel) for pixel in box})
        self.assertGreater(seen, len(lights[::step]) // 2)


@needs_plan
@needs_pillow
@needs_font
class LyricsTest(ScriptTest):
    @needs_program
    def test_the_song(self) -> None:
        ran, script, maker = self.made(SONG / "song.lrc", "--title", SONG / "title.png")
        self.assertIn("none is late", ran.errors)
        self.is_planned(script)
        self.check_words(script, maker, 9)

    def test_rows_flow_over_pages_until_a_rest(self) -> None:
        song = self.write(
            "a.lrc",
            "[00:06.00]One\n[00:08.00]Two\n[00:10.00]Three\n[00:12.00]Four\n[00:14.00]Five\n"
            "[00:16.00]\n[00:20.00]Six, after a rest\n[00:22.00]\n",
        )
        _, _, maker = self.made(song)
        texts = [[placed.text() for placed in page.placed if placed.letters] for page in maker.pages]
        self.assertEqual(texts, [["One", "Two", "Three", "Four"], ["Five"], ["Six, after a rest"], []])

    def test_rows_of_a_line_are_sung_one_after_the_other(self) -> None:
        song = self.write("a.lrc", "[00:06.00]Many words, of which there are more than in a single row\n[00:12.00]\n")
        _, _, maker = self.made(song, "--size", "24")
        rows = [placed for placed in maker.pages[0].placed if placed.letters]
        self.assertGreater(len(rows), 2)
        self.assertEqual([row.start for row in rows], sorted({row.start for row in rows}))
        self.assertEqual([row.end for row in rows], [*(row.start for row in rows[1:]), 12])
        letters = sum(len(row.text()) + 1 for row in rows)
        for row, following in zip(rows, rows[1:]):
            self.assertAlmostEqual(following.start - row.start, 6 * (len(row.text()) + 1) / letters, delta=0.15)

    @needs_program
    def test_lines_of_which_the_beginning_is_reported(self) -> None:
        song = self.write(
            "a.lrc",
            "[00:06.00]First line\n[00:09.00]Second line, which is rather long for one row\n"
            "[00:12.00]Third\n[00:15.00]Fourth\n[00:18.00]Fifth\n[00:21.00]Sixth\n",
        )
        _, script, maker = self.made(song, "--style", "paper")
        self.check_words(script, maker, 2)

    @needs_program
    def test_many_words(self) -> None:
        lines = []
        for number in range(24):
            start = 8 + 2 * number
            stamps = "".join(f"{' ' * (word % 2)}<00:{start + 0.22 * word:05.2f}>ba" for word in range(8))
            lines.append(f"[00:{start:05.2f}]{stamps}")
        text = "\n".join(lines).replace("00:6", "01:0")
        ran, script, maker = self.made(self.write("a.lrc", text))
        self.assertNotIn("line", ran.errors.replace("24 lines", ""))
        self.check_words(script, maker, 37)

    def test_letters_become_smaller_and_plain_where_all_would_be_late(self) -> None:
        def song(slower: float) -> Path:
            lines = []
            for number in range(12):
                start = 10 + 1.36 * number * slower
                words = ((start + 0.09 * slower * word, "nevermore" if word % 3 else "to") for word in range(14))
                stamps = "".join(f"<{time // 60:02.0f}:{time % 60:05.2f}>{text} " for time, text in words)
                lines.append(f"[{start // 60:02.0f}:{start % 60:05.2f}]{stamps}")
            return self.write("a.lrc", "\n".join(lines))

        ran, _, maker = self.made(song(1))
        self.assertTrue(maker.font.is_plain)
        self.assertIn("line 12 is drawn", ran.errors)
        ran, _, maker = self.made(song(5))
        self.assertFalse(maker.font.is_plain)
        self.assertNotIn("is drawn", ran.errors)

    @needs_program
    def test_sweep_of_ass(self) -> None:
        _, script, maker = self.made(self.write("a.ass", ASS), "--sweep")
        self.assertGreater(len(maker.dues), 15)
        stream = self.stream(script)
        last = maker.dues[-1]
        full = self.pixels(last.placed, 0, 288, 3)
        after = screen(stream, last.block + 2)
        self.assertEqual({after.at(*pixel) for pixel in full}, {rgb(read_style("night").voices[0].sung)})

    def test_a_line_that_cannot_be_drawn_in_time_is_reported(self) -> None:
        ran, script, _ = self.made(self.write("a.lrc", "[00:00.05]Too early\n[00:05.00]In time\n"))
        self.assertIn("line 1 is drawn", ran.errors)
        self.assertNotIn("line 2", ran.errors)
        self.is_planned(script)

    def test_a_title_without_room_is_left_out(self) -> None:
        song = self.write("a.lrc", "[00:03.00]La\n")
        ran, _, _ = self.made(song, "--title", SONG / "title.png")
        self.assertIn("the title is omitted", ran.errors)

    @needs_program
    def test_a_title_stands(self) -> None:
        _, script, _ = self.made(SONG / "song.lrc", "--title", SONG / "title.png")
        stream = self.stream(script)
        stands = screen(stream, 150 + 5 * 75)
        self.assertEqual(len({stands.at(x, y) for x in range(288) for y in range(0, 192, 4)}), 16)

    @needs_program
    def test_the_first_pause_holds_nothing(self) -> None:
        _, script, _ = self.made(SONG / "song.lrc")
        stream = self.stream(script)
        self.assertEqual(set(screen(stream, 150).pixels), {0})

    def test_letters_that_no_font_has(self) -> None:
        song = self.write(
            "a.lrc",
            "[ti:A \U0001f941]\n[00:09.00]Fine\n[00:12.00]\U00012000\n[00:14.00]So \U0001f941\ufe0f long \U00012000\n",
        )
        ran, script, maker = self.made(song)
        both = "\U00012000 (U+12000 cuneiform sign a), \U0001f941 (U+1F941 drum with drumsticks); they are omitted"
        self.assertIn(f"line 4: no installed font has {both}", ran.errors)
        self.assertIn("line 3: no installed font has any of its letters, so it is omitted", ran.errors)
        self.assertIn("the title: no installed font has \U0001f941", ran.errors)
        self.assertIn(str(song), ran.errors)
        self.assertEqual([line.text for line in maker.song.lines], ["Fine", "So  long"])
        self.assertEqual(maker.song.title.strip(), "A")
        ran, script, maker = self.made(song, "--missing", "box")
        self.assertEqual([line.text for line in maker.song.lines], ["Fine", "\u25a1", "So \u25a1 long \u25a1"])
        self.assertIn("boxes replace them", ran.errors)
        self.is_planned(script)
        nothing = self.write("b.lrc", "[00:09.00]\U00012000\n")
        ran = desk("lyrics", nothing, "-o", self.folder / "b.script")
        self.assertEqual(
            (ran.status, f"{nothing}: no installed font has its letters" in ran.errors), (3, True), ran.errors
        )

    def test_long_words_and_titles_are_broken(self) -> None:
        word = "Donaudampfschifffahrtselektrizitaetenhauptbetriebswerkbauunterbeamtengesellschaft"
        title = "A title of many words " * 30
        song = self.write("a.lrc", f"[ti:{title}]\n[00:19.00]My {word} so\n[00:25.00]{'x' * 200}\n[00:40.00]end\n")
        ran, script, maker = self.made(song)
        rows = [placed for page in maker.pages for placed in page.placed if placed.letters and placed.is_sung]
        shown = "".join(placed.text() for placed in rows)
        self.assertIn(word, shown.replace(" ", ""))
        self.assertEqual(shown.count("x"), 200)
        for placed in rows:
            assert placed.letters
            self.assertGreaterEqual(min(left for left, _ in placed.letters.extents), 0)
            self.assertLessEqual(max(right for _, right in placed.letters.extents), 288)
        self.assertEqual([row.start for row in rows], sorted(row.start for row in rows))
        self.is_planned(script)

    def test_both_directions_in_one_line(self) -> None:
        """Each word is lit at its place: alone it has the same pixels as in the line that Pillow draws."""
        from PIL import Image, ImageDraw, ImageFont

        texts = (
            "\u05e9\u05dc\u05d5\u05dd hello world \u05ea\u05d5\u05d3\u05d4",
            "hello \u05e9\u05dc\u05d5\u05dd \u05ea\u05d5\u05d3\u05d4 world",
            "\u05e9\u05e0\u05ea 1984 (\u05d8\u05d5\u05d1\u05d4) yes",
        )
        for text in texts:
            words = text.split(" ")
            line = "".join(f"<00:{10 + number:02}.00>{word} " for number, word in enumerate(words))
            _, script, maker = self.made(self.write("a.lrc", f"[00:10.00]{line}<00:18.00>\n"), "--size", "18")
            placed = next(placed for page in maker.pages for placed in page.placed if placed.letters)
            assert placed.letters
            # The whole line in Pillow's own layout, and each word as its own picture.
            font = ImageFont.truetype(str(maker.font.paths[0]), 18)
            whole = self.light(Image, ImageDraw, font, text)
            left = next(x for x in range(288) if any(row[x] for row in self.letters(placed)))
            for number, word in enumerate(words):
                extents = [
                    extent
                    for part, extent in zip(placed.letters.syllables, placed.letters.extents)
                    if part.start == 10 + number and part.text.strip()
                ]
                one = self.light(Image, ImageDraw, font, word)
                at = min(extent[0] for extent in extents) - left
                best = min(range(0, whole.width - one.width + 1), key=lambda x: self.differs(whole, one, x))
                # A space may belong to the word on either side.
                self.assertLess(abs(best - at), 4 + font.getlength(" "), (text, word, extents, left))

    @staticmethod
    def light(image: Any, draw: Any, font: Any, text: str) -> Any:
        """A text in Pillow's own layout, without the margins around it."""
        page = image.new("L", (600, 60), 0)
        draw.Draw(page).text((100, 40), text, 255, font=font, anchor="ls")
        box = page.getbbox()
        return page.crop((box[0], 0, box[2], 60))

    @staticmethod
    def differs(whole: Any, one: Any, x: int) -> int:
        part = whole.crop((x, 0, x + one.width, 60))
        return sum(abs(a - b) for a, b in zip(part.getdata(), one.getdata()))

    def test_other_alphabets(self) -> None:
        song = self.write(
            "a.lrc",
            "[00:06.00]\u00dcber \u0388\u03bd\u03b1 \u0438 \u0434\u0432\u0430\n"
            "[00:09.00]\u05e9\u05dc\u05d5\u05dd \u05e2\u05d5\u05dc\u05dd\n",
        )
        _, _, maker = self.made(song)
        extents = [placed.letters.extents for placed in maker.pages[0].placed if placed.letters]
        self.assertLess(extents[0][0][0], extents[0][1][0])
        self.assertGreater(extents[1][0][0], extents[1][1][0])

    def test_a_song_longer_than_its_audio(self) -> None:
        audio = write_wav(self.folder / "a.wav", 44_100 * 5)
        ran = desk("lyrics", self.write("a.lrc", "[00:06.00]La\n"), "--audio", audio, "-o", self.folder / "a.script")
        self.assertEqual(ran.status, 3)
        self.assertIn("which ends at 00:05.00", ran.errors)


# Lines in the same places, in quick succession.
QUICK = "".join(
    f"[00:{8 + 2 * number:02}.00]"
    + "".join(
        f"<00:{8 + 2 * number + 0.4 * word:05.2f}>{text} "
        for word, text in enumerate(("my", "jumping", "kamps", f"{number}ly"))
    )
    + "\n"
    for number in range(12)
)
DUET = """[ti:Two]
[singer:Anna]
[00:10.00]<00:10.00>One <00:10.50>voice <00:11.00>
[singer:Ben]
[00:12.00]<00:12.00>other <00:12.50>voice <00:13.00>
[singer:both]
[00:14.00]<00:14.00>both <00:14.50>of <00:15.00>them <00:15.50>
"""


@needs_plan
@needs_program
@needs_pillow
@needs_font
class ReadableTest(ScriptTest):
    def slots(self, maker: Maker) -> dict[int, list[Placed]]:
        found: dict[int, list[Placed]] = {}
        for page in maker.pages:
            for placed in page.placed:
                if placed.letters:
                    found.setdefault(placed.slot, []).append(placed)
        return found

    def shown(self, pixels: bytes, maker: Maker, slot: int) -> set[tuple[int, int]]:
        """The pixels in a place of the page that are not background."""
        area, top = self.area(pixels, maker, slot), maker.style.top(slot)
        return {(at % 288, top + at // 288) for at, pixel in enumerate(area) if pixel}

    @staticmethod
    def area(pixels: bytes, maker: Maker, slot: int) -> bytes:
        """The pixels in a place of the page, row by row."""
        top = maker.style.top(slot) + 12
        rows = range(top, top + 12 * maker.style.slot_rows)
        return b"".join(pixels[WIDTH * y + 6 : WIDTH * y + 294] for y in rows)

    def check_clear(self, script: Path, maker: Maker) -> None:
        """Checks that all pixels in a place of the page belong to one line, at each block."""
        inks = {slot: [self.ink(placed, maker) for placed in some] for slot, some in self.slots(maker).items()}
        seen, before = set(), b""
        for block, pixels in self.screens(script):
            if block > PAUSE + 75 * 40:
                break
            if pixels == before or block < maker.first - 75:
                continue
            before = pixels
            for slot, lines in inks.items():
                shown = bits([self.area(pixels, maker, slot)])
                # A tile of two packs may show other pixels between them.
                fits = [number for number, ink in enumerate(lines) if self.is_in_a_tile(shown & ~ink)]
                self.assertTrue(fits, (block, slot))
                seen |= {(slot, fits[0])} if shown else set()
        self.assertEqual(len(seen), sum(len(lines) for lines in inks.values()))

    def ink(self, placed: Placed, maker: Maker) -> int:
        """One bit for each pixel of letters in a place of the page."""
        area = bytearray(288 * 12 * maker.style.slot_rows)
        start = 288 * (placed.top - maker.style.top(placed.slot))
        rows = b"".join(self.letters(placed))
        area[start : start + len(rows)] = rows
        return bits([bytes(area)])

    @staticmethod
    def is_in_a_tile(marks: int) -> bool:
        """Whether the pixels of a place belong to at most one tile."""
        tiles = set[tuple[int, int]]()
        while marks and len(tiles) < 2:
            # One bit per byte, counted from the last pixel.
            at = (marks.bit_length() - 1) // 8
            tiles.add((at % 288 // 6, at // 288 // 12))
            marks ^= 1 << 8 * at
        return len(tiles) < 2

    def test_a_row_is_cleared_before_another_is_drawn_over_it(self) -> None:
        ran, script, maker = self.made(self.write("a.lrc", QUICK), "--no-rests")
        self.assertNotIn(": line", ran.errors)
        self.assertGreater(len(self.slots(maker)[0]), 2)
        self.check_clear(script, maker)

    def test_by_page(self) -> None:
        style = self.write("a.toml", 'mode = "page"\nrows = 3\n[[voice]]\nunsung = "#FFF"\nsung = "#28F"\n')
        _, script, maker = self.made(self.write("a.lrc", QUICK), "--no-rests", "--style", style)
        self.check_clear(script, maker)
        second = [placed for placed in maker.pages[1].placed if placed.letters]
        self.assertEqual(len(second), 3)
        end = PAUSE + round(75 * maker.pages[0].placed[-1].end)
        for block, pixels in self.screens(script):
            if block == end:
                self.assertEqual([bool(self.shown(pixels, maker, slot)) for slot in range(3)], [True] * 3)
                break

    def test_a_line_with_one_time_is_lit_column_by_column(self) -> None:
        _, script, maker = self.made(self.write("a.lrc", "[00:10.00]Light goes over this line\n[00:15.00]\n"))
        placed = next(placed for page in maker.pages for placed in page.placed if placed.letters)
        columns = [[(x, y) for x, y in self.pixels(placed, left, left + 6, 3)] for left in range(0, 288, 6)]
        columns = [column for column in columns if column]
        lit_at: dict[int, int] = {}
        for block, pixels in self.screens(script):
            if not PAUSE + 750 <= block <= PAUSE + 1130:
                continue
            states = [{pixels[WIDTH * (y + 12) + x + 6] for x, y in column} for column in columns]
            self.assertLessEqual(sum(len(state) > 1 for state in states), 1, "one column changes at a time")
            whole = [state == {11} for state in states]
            self.assertEqual(whole, sorted(whole, reverse=True), "from left to right")
            for number, is_lit in enumerate(whole):
                if is_lit:
                    lit_at.setdefault(number, block)
        self.assertEqual(len(lit_at), len(columns))
        # During the five seconds of the line.
        self.assertAlmostEqual(lit_at[len(columns) // 2] / 75, 2 + 12.5, delta=0.4)
        self.assertLess(lit_at[len(columns) - 1], PAUSE + 75 * 15 + 2)

    def test_a_broken_line_stands_on_neighbouring_rows(self) -> None:
        text = "".join(
            f"[00:{8 + 4 * number:02}.00]{'A line that is too long for one row of this size' if number % 2 else 'Short'}\n"
            for number in range(8)
        )
        _, _, maker = self.made(self.write("a.lrc", text), "--size", "20", "--no-rests")
        rows: dict[int, list[tuple[int, int]]] = {}
        for number, page in enumerate(maker.pages):
            for placed in page.placed:
                if placed.letters:
                    rows.setdefault(placed.letters.line.number, []).append((number, placed.slot))
        self.assertGreaterEqual(max(len(places) for places in rows.values()), 2)
        for places in rows.values():
            self.assertEqual({page for page, _ in places}, {places[0][0]})
            self.assertEqual([slot for _, slot in places], list(range(places[0][1], places[0][1] + len(places))))

    def test_smaller_letters_where_most_lines_would_be_broken(self) -> None:
        lines = "".join(f"[00:{10 + 4 * number:02}.00]Nearly thirty letters, line {number}\n" for number in range(6))
        ran, _, maker = self.made(self.write("a.lrc", lines), "--size", "24")
        self.assertLess(maker.font.size, 24)
        self.assertIn("letters of 24 pixels break 6 of 6 lines, so the letters are reduced to", ran.errors)
        self.assertTrue(all(len({id(placed) for placed in page.placed}) for page in maker.pages))
        self.assertEqual(
            sum(bool(placed.letters) for page in maker.pages for placed in page.placed if placed.is_sung), 6
        )

    def test_titles_wrap(self) -> None:
        title = "A title that is as long as seventy letters, and that is on every disc"
        self.assertGreaterEqual(len(title), 69)
        ran, script, maker = self.made(self.write("a.lrc", f"[ti:{title}]\n[ar:Somebody]\n[00:15.00]La la\n"))
        self.assertNotIn("title", ran.errors)
        stands = next(pixels for block, pixels in self.screens(script) if block == PAUSE + 75 * 6)
        rows = [any(pixels) for pixels in (stands[WIDTH * y : WIDTH * (y + 1)] for y in range(HEIGHT))]
        stretches = sum(after and not before for before, after in zip(rows, rows[1:]))
        self.assertGreaterEqual(stretches, 4)

    def test_two_voices_and_both(self) -> None:
        _, script, maker = self.made(self.write("a.lrc", DUET), "--size", "20")
        self.check_words(script, maker)
        first, second, both = (
            placed for page in maker.pages for placed in page.placed if placed.letters and placed.is_sung
        )
        numbers = [set(b"".join(self.letters(placed))) for placed in (first, second, both)]
        # Four levels each, one of them the background.
        self.assertEqual(numbers, [{0, 1, 2, 3}, {0, 5, 6, 7}, {0, 1, 2, 3, 5, 6, 7}])
        rows = [{number & 4 for number in row if number} for row in self.letters(both)]
        self.assertEqual([row for row in rows if row], sorted((row for row in rows if row), key=max))
        self.assertTrue(all(len(row) < 2 for row in rows))

    def test_a_legend(self) -> None:
        ran, script, maker = self.made(self.write("a.lrc", DUET), "--legend")
        self.assertNotIn("legend", ran.errors)
        stands = next(pixels for block, pixels in self.screens(script) if block == PAUSE + 75 * 5)
        self.assertLessEqual({3, 7, 11}, set(stands))
        ran, _, _ = self.made(self.write("b.lrc", QUICK), "--legend")
        self.assertIn("only one voice sings, so there is no legend", ran.errors)

    def dots(self, pixels: bytes, placed: Placed) -> int:
        """The number of dots above a line that are shown."""
        return sum(pixels[WIDTH * (placed.top - 7 + 12) + left + 3 + 6] == 3 for left in placed.dots)

    def test_a_line_after_a_rest_is_counted_in(self) -> None:
        text = (
            "[00:08.00]<00:08.00>La <00:09.00>la <00:10.00>\n[00:17.00]<00:17.00>So <00:17.50>on <00:18.00>\n"
            "[00:20.00]<00:20.00>and <00:20.50>on <00:21.00>\n"
        )
        _, script, maker = self.made(self.write("a.lrc", text))
        lines = [placed for page in maker.pages for placed in page.placed if placed.letters]
        self.assertEqual([len(placed.dots) for placed in lines], [3, 3, 0])
        counts = {block: [self.dots(pixels, placed) for placed in lines[:2]] for block, pixels in self.screens(script)}
        for place, start in ((0, 8), (1, 17)):
            found = [counts[PAUSE + round(75 * (start - before))][place] for before in (2.5, 1.5, 0.5, -0.1)]
            self.assertEqual(found, [3, 2, 1, 0])

    def test_a_long_rest_is_reported(self) -> None:
        text = "[00:08.00]<00:08.00>La <00:09.00>la <00:10.00>\n[01:15.00]<01:15.00>So <01:15.50>on <01:16.00>\n"
        _, script, maker = self.made(self.write("a.lrc", text))
        rest = next(page.placed[-1] for page in maker.pages if not page.group.is_sung)
        self.assertEqual(rest.text(), "instrumental 1:05")
        style = self.write("a.toml", 'rest = "Zwischenspiel"\n[[voice]]\nunsung = "#FFF"\nsung = "#28F"\n')
        _, _, german = self.made(self.folder / "a.lrc", "--style", style)
        self.assertEqual(
            next(page.placed[-1] for page in german.pages if not page.group.is_sung).text(), "Zwischenspiel 1:05"
        )
        _, script, maker = self.made(self.folder / "a.lrc")
        ink = {(x, rest.top + y) for y, row in enumerate(self.letters(rest)) for x in range(288) if row[x]}
        stands = {
            second: self.shown(pixels, maker, rest.slot)
            for second, pixels in ((block / 75 - 2, pixels) for block, pixels in self.screens(script))
            if second in (11, 16, 60, 72)
        }
        self.assertEqual([stands[second] == ink for second in (11, 16, 60, 72)], [False, True, True, False])

    def test_how_long_a_line_stands(self) -> None:
        text = "[00:20.00]<00:20.00>La <00:21.00>la <00:22.00>\n"
        _, script, maker = self.made(self.write("a.lrc", text), "--lead", "4")
        placed = next(placed for page in maker.pages for placed in page.placed if placed.letters)
        stands = [block for block, pixels in self.screens(script) if any(self.area(pixels, maker, placed.slot))]
        self.assertIn(min(stands), range(PAUSE + 75 * 15, PAUSE + 75 * 16))

    def test_a_last_page(self) -> None:
        text = "[ti:The title]\n[00:08.00]<00:08.00>La <00:09.00>la <00:10.00>\n"
        _, script, maker = self.made(self.write("a.lrc", text))
        self.assertEqual(maker.pages[-2].placed[-1].text(), "The title")
        *_, (_, last) = self.screens(script)
        ink = sum(any((number,)) for number in b"".join(self.letters(maker.pages[-2].placed[-1])))
        self.assertEqual(ink, len(self.shown(last, maker, maker.pages[-2].placed[-1].slot)))
        short = write_wav(self.folder / "a.wav", 44_100 * 12)
        ran, script, _ = self.made(self.folder / "a.lrc", "--audio", short)
        self.is_planned(script)

    def test_a_picture_behind_the_text(self) -> None:
        from PIL import Image

        image = Image.new("RGB", (288, 192))
        image.putdata([(17 * (x // 48), 17 * (y // 48), 102) for y in range(192) for x in range(288)])
        image.save(self.folder / "b.png")
        style = self.write("a.toml", 'background = "b.png"\nrows = 3\n[[voice]]\nunsung = "#FFF"\nsung = "#28F"\n')
        text = "[00:15.00]<00:15.00>La <00:16.00>la <00:17.00>\n[00:18.00]<00:18.00>lo <00:19.00>\n"
        _, script, maker = self.made(self.write("a.lrc", text), "--style", style)
        screens = {block: self.window(pixels) for block, pixels in self.screens(script)}
        ground, numbers = b"".join(maker.ground.rows), set(b"".join(maker.ground.rows))
        self.assertGreater(len(numbers), 4)
        self.assertFalse(numbers & {1, 2, 3, 4, 9, 10, 11})
        # Letters on it have an outline, and when they disappear, the picture is whole again.
        placed = next(placed for page in maker.pages for placed in page.placed if placed.letters)
        self.assertIn(4, set(b"".join(self.letters(placed))))
        differ = {
            (at % 288, at // 288) for at, (old, new) in enumerate(zip(ground, screens[PAUSE + 75 * 14])) if old != new
        }
        inks = {
            (x, one.top + y)
            for page in maker.pages
            for one in page.placed
            if one.letters
            for y, row in enumerate(self.letters(one))
            for x in range(288)
            if row[x]
        }
        inks |= {(dot + x, placed.top - 9 + y) for dot in placed.dots for x in range(6) for y in range(6)}
        self.assertLessEqual(differ, inks)
        self.assertEqual(screens[max(screens)], ground)

    @staticmethod
    def window(pixels: bytes) -> bytes:
        return b"".join(pixels[WIDTH * (y + 12) + 6 : WIDTH * (y + 12) + 294] for y in range(192))

    def test_rows_and_sides(self) -> None:
        for rows in (2, 3, 5, 6):
            _, _, maker = self.made(self.write("a.lrc", QUICK), "--rows", rows)
            self.assertEqual(
                max(len([placed for placed in page.placed if placed.letters]) for page in maker.pages), rows
            )
            for page in maker.pages:
                for placed in page.placed:
                    if placed.letters:
                        bottom = placed.top + len(self.letters(placed))
                        self.assertLessEqual(bottom, maker.style.top(placed.slot) + 12 * maker.style.slot_rows)
        for side, at in (("left", 6), ("right", 282)):
            style = self.write("a.toml", f'align = "{side}"\n[[voice]]\nunsung = "#FFF"\nsung = "#28F"\n')
            _, _, maker = self.made(self.write("a.lrc", QUICK), "--style", style)
            for page in maker.pages:
                for placed in page.placed:
                    if placed.letters:
                        edges = [extent[side == "right"] for extent in placed.letters.extents]
                        self.assertAlmostEqual(
                            min(edges) if side == "left" else max(edges), at + 6 * (side == "right"), delta=1
                        )

    def test_an_outline(self) -> None:
        style = self.write("a.toml", 'outline = "#F00"\n[[voice]]\nunsung = "#FFF"\nsung = "#28F"\n')
        _, _, maker = self.made(self.write("a.lrc", QUICK), "--style", style)
        placed = next(placed for page in maker.pages for placed in page.placed if placed.letters)
        rows = [bytes(288), *self.letters(placed), bytes(288)]
        for y in range(1, len(rows) - 1):
            for x in range(1, 287):
                around = [rows[y + down][x + right] for down in (-1, 0, 1) for right in (-1, 0, 1)]
                if rows[y][x] & 3:
                    self.assertNotIn(0, around, (x, y))
                self.assertEqual(rows[y][x] == 4, not rows[y][x] & 3 and any(number & 3 for number in around))

    @unittest.skipUnless(GOTHIC.exists(), "fonts-vlgothic is not installed")
    def test_japanese_beside_latin(self) -> None:
        song = self.write("a.lrc", "[00:10.00]\u65e5\u672c\u8a9e\u306e\u6b4c, and Latin\n[00:16.00]\n")
        _, _, maker = self.made(song)
        font = maker.font
        self.assertEqual(
            [font.paths[run.face].name for run in font.runs("\u6b4c La", 20)],
            ["VL-Gothic-Regular.ttf", "DejaVuSans-Bold.ttf"],
        )
        ran = desk("lyrics", song, "-o", self.folder / "b.script", "--font", GOTHIC)
        self.assertEqual(ran.status, 0)

    def test_all_lines_beyond_the_end_are_reported(self) -> None:
        audio = write_wav(self.folder / "a.wav", 44_100 * 9)
        text = "[00:06.00]La\n[0:10.50]Lo\n[00:12.00]Lu\n[00:13.00]\n"
        ran = desk("lyrics", self.write("a.lrc", text), "--audio", audio, "-o", self.folder / "a.script")
        self.assertEqual(ran.status, 3)
        self.assertIn("line 2 at [0:10.50] begins after the sound, which ends at 00:09.00: Lo", ran.errors)
        self.assertIn("line 3 at [00:12.00] begins after", ran.errors)

    def test_words_stand_lit_within_twenty_milliseconds(self) -> None:
        for song in (
            SONG / "song.lrc",
            TOP / "examples" / "album" / "duet.lrc",
            TOP / "examples" / "album" / "morning.lrc",
        ):
            _, script, maker = self.made(song)
            waiting = {}
            for page in maker.pages:
                for placed in page.placed:
                    if placed.is_sung and placed.letters:
                        for syllable, (left, right) in zip(placed.letters.syllables, placed.letters.extents):
                            full = [place for ink in (3, 7) for place in self.pixels(placed, left, right, ink)]
                            waiting[placed, left] = syllable.start, [WIDTH * (y + 12) + x + 6 for x, y in full]
            offs = []
            for block, pixels in self.screens(script):
                for key, (start, places) in list(waiting.items()):
                    if block > PAUSE + 75 * start - 30 and all(pixels[place] & 8 for place in places):
                        offs.append(1000 * (block - PAUSE) / 75 - 1000 * start)
                        del waiting[key]
            self.assertFalse(waiting)
            self.assertGreaterEqual(min(offs), -20, song)
            self.assertLessEqual(max(offs), 20, song)


if __name__ == "__main__":
    unittest.main()
