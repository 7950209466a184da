"""`look`: the page shows what the player shows, reports what is late, and keys change the times; in node and in
Chromium."""
import base64
import json
import os
import re
import shutil
import struct
import subprocess
import unittest
import zlib
from pathlib import Path
from typing import Any
from unittest import mock

from fixtures import TOP, FolderTest, desk, needs_font, needs_pillow, needs_plan, needs_program, write_wav

from ribjasper.common.library import HEIGHT, PACK, WIDTH
from ribjasper.common.player import Player
from ribjasper.commands.publish.look import web

SCRIPT = TOP / "desk" / "ribjasper" / "commands" / "publish" / "look.js"
CHROMIUM = shutil.which("chromium") or shutil.which("chromium-browser")
needs_node = unittest.skipUnless(shutil.which("node"), "node is not installed")
SONG = """[ti:A </script> & <b>title</b>]
[00:06.00]<00:06.00>One <00:06.50>two <00:07.00>
[00:08.00]M: A line with one time
[00:11.00]F: <00:11.00>She <00:11.50>too <00:12.00>
"""


def light(colour: str) -> float:
    """The relative luminance of a colour."""
    digits = colour[1:] if len(colour) == 7 else "".join(2 * digit for digit in colour[1:])
    parts = [int(digits[at : at + 2], 16) / 255 for at in (0, 2, 4)]
    red, green, blue = (float(part / 12.92 if part <= 0.04045 else ((part + 0.055) / 1.055) ** 2.4) for part in parts)
    return 0.2126 * red + 0.7152 * green + 0.0722 * blue


def ratio(one: str, other: str) -> float:
    low, high = sorted((light(one), light(other)))
    return (high + 0.05) / (low + 0.05)


def checksum(pixels: bytes) -> int:
    total = 7
    for pixel in pixels:
        total = (31 * total + pixel) & 0xFFFF_FFFF
    return total


@needs_plan
@needs_program
@needs_pillow
@needs_font
class LookTest(FolderTest):
    def page(self, song: str = SONG) -> str:
        self.song = self.write("a.lrc", song)
        write_wav(self.folder / "a.wav", 44_100 * 14)
        ran = desk("look", self.song, "-o", self.folder / "a.html")
        self.assertEqual(ran.status, 0, ran.errors)
        return (self.folder / "a.html").read_text()

    def part(self, page: str, name: str) -> str:
        found = re.search(f'<script id="{name}"[^>]*>(.*?)</script>', page, re.DOTALL)
        assert found
        return found[1]

    def screens(self, blocks: list[int]) -> list[bytes]:
        """The screens of the player at some blocks of the pair of this song."""
        desk("pair", self.song, "-o", self.folder / "b")
        packs, shown = (self.folder / "b.cdg").read_bytes(), []
        with Player() as player:
            done = 0
            for block in blocks:
                player.draw(packs[PACK * 4 * done : PACK * 4 * block])
                done = block
                shown.append(player.screen())
        return shown

    def test_the_page_is_one_file(self) -> None:
        page = self.page()
        self.assertIn("<title>A &lt;/script&gt; &amp; &lt;b&gt;title&lt;/b&gt;</title>", page)
        self.assertFalse(re.findall(r'(?:src|href)="(?!data:|\{)', page.replace("href = URL", "")))
        song = json.loads(self.part(page, "song"))
        self.assertEqual(song["title"], "A </script> & <b>title</b>")
        self.assertEqual([line["voice"] for line in song["lines"]], [0, 0, 1])
        self.assertEqual([line["whole"] for line in song["lines"]], [False, True, False])
        self.assertEqual([line["late"] for line in song["lines"]], [""] * 3)

    def test_late_lines_are_marked(self) -> None:
        page = self.page("[00:00.05]Too early for this\n[00:08.00]In time\n")
        song = json.loads(self.part(page, "song"))
        self.assertRegex(song["lines"][0]["late"], r"is drawn 0\.\d+ seconds after it begins")
        self.assertEqual(song["lines"][1]["late"], "")

    def test_changes_give_the_screens_of_the_player(self) -> None:
        """With another reader of the changes than that of the page."""
        with mock.patch.dict(os.environ, {"RIBJASPER_WEB": str(self.folder)}):
            changes = zlib.decompress(base64.b64decode(self.part(self.page(), "changes")))
        pixels, at, shown = bytearray(WIDTH * HEIGHT), 0, {}
        while at < len(changes):
            block, colours, place, wide, high = struct.unpack_from(">IBHHH", changes, at)
            at += 11 + 32 * colours
            for row in range(high):
                pixels[place + WIDTH * row : place + WIDTH * row + wide] = changes[at : at + wide]
                at += wide
            shown[block] = bytes(pixels)
        self.assertGreater(len(shown), 30)
        self.assertEqual(self.screens(sorted(shown)), [shown[block] for block in sorted(shown)])

    def node(self, code: str) -> Any:
        words = ["node", "-e", f"const look = require({json.dumps(str(SCRIPT))});\n{code}"]
        return json.loads(subprocess.run(words, capture_output=True, text=True, check=True).stdout)

    @needs_node
    def test_keys(self) -> None:
        song = self.part(self.page(), "song")
        moved = self.node(
            f"""const song = {song};
            look.setStart(song.lines[0], 1, 6.55);
            look.shiftLine(song.lines[1], -0.05);
            look.setStart(song.lines[2], 0, 11.7);
            console.log(JSON.stringify([look.asLrc(song), look.following(song.lines, 0, 1), look.following(song.lines, 2, 1)]))
            """
        )
        self.assertEqual(
            moved[0],
            "[ti:A </script> & <b>title</b>]\n"
            "[00:06.00]<00:06.00>One <00:06.55>two <00:07.00>\n"
            "[00:07.95]A line with one time\n"
            "[00:11.70]F: <00:11.70>She <00:11.70>too <00:12.00>\n",
        )
        self.assertEqual(moved[1:], [[1, 0], [2, 1]])

    @needs_node
    def test_what_is_saved_is_read_again(self) -> None:
        song = self.part(self.page(), "song")
        saved = self.node(f"console.log(JSON.stringify(look.asLrc({song})))")
        self.page(saved.replace("[ti:", "[ti:"))
        again = json.loads(self.part((self.folder / "a.html").read_text(), "song"))
        self.assertEqual(
            [line["syllables"] for line in again["lines"]], [line["syllables"] for line in json.loads(song)["lines"]]
        )

    @needs_node
    def test_what_is_not_edited_is_saved_whole(self) -> None:
        """Rests, ends of words and lines, names, tags and pictures; the expected file is written out by hand, as the
        page writes it."""
        rich = """[ti:A title]
[by:Nobody]
[singer:Ann]
[singer:Bob]
[singer:Ann]
[00:06.00]<00:06.00>One <00:06.50>two<00:07.00><00:07.40>three<00:07.80>
[singer:Bob]
[00:08.00]M: is how this begins
[00:09.50]
[00:09.80]
[colour:#08F]
[singer:both]
[00:10.00]<00:10.00>All <00:10.50>of them<00:11.00>
[00:12.00]A line without an end
"""
        rich = rich.replace("[00:08.00]M:", "[00:08.00]F: M:")
        for intro in list[str](), ["--intro", "2"]:
            song = self.write("a.lrc", rich)
            write_wav(self.folder / "a.wav", 44_100 * 16)
            ran = desk("look", song, *intro, "-o", self.folder / "a.html", "--force")
            self.assertEqual(ran.status, 0, ran.errors)
            found = self.part((self.folder / "a.html").read_text(), "song")
            self.assertEqual(self.node(f"console.log(JSON.stringify(look.asLrc({found})))"), rich)

    @needs_node
    def test_the_line_that_is_sung(self) -> None:
        lines = [{"syllables": [{"start": at, "end": at + 1}]} for at in (2, 5, 9)]
        found = self.node(
            f"console.log(JSON.stringify([0, 2, 4.9, 5, 8, 9, 20].map((now) => look.lineAt({json.dumps(lines)}, now))))"
        )
        self.assertEqual(found, [0, 0, 0, 1, 1, 2, 2])

    @needs_node
    def test_keys_of_what_has_the_focus(self) -> None:
        """A focused button handles space itself, and a focused slider the arrow keys; all other keys belong to the
        page."""
        found = self.node(
            """const on = (names) => ({ closest: (asked) => asked.split(", ").some((one) => names.includes(one)) ? {} : null });
            const key = (key, ...names) => look.isOwnKey({ key, target: on(names) });
            console.log(JSON.stringify([key(" ", "button"), key("Enter", "button"), key("ArrowDown", "button"), key(" "),
                key("ArrowLeft", "[role=slider]"), key("ArrowLeft"), key("p", "button"), key(" ", "[role=slider]")]))"""
        )
        self.assertEqual(found, [True, True, False, False, True, False, False, False])
        moved = self.node(
            """console.log(JSON.stringify(["ArrowLeft", "ArrowRight", "PageUp", "PageDown", "Home", "End", "x"].map(
                (key) => look.sliderTarget(key, 5, 12))))"""
        )
        self.assertEqual(moved, [4, 6, 12, 0, 0, 12, None])

    def test_colours_of_the_page_can_be_read(self) -> None:
        """By the formula of WCAG 2: contrasts of 4.5 for text, on the page and on the band of the chosen line, and 3
        for bars and edges."""
        page = SCRIPT.with_suffix(".html").read_text()
        themes = re.findall(r":root \{([^}]*--ground[^}]*)\}", page)
        self.assertEqual(len(themes), 2)
        for theme in themes:
            colours = dict(re.findall(r"--(\w+): (#\w+)", theme))
            for ground in ("ground", "band"):
                for name, least in (("ink", 4.5), ("late", 4.5), ("now", 3), ("bar", 3)):
                    self.assertGreaterEqual(ratio(colours[name], colours[ground]), least, (name, ground))
            self.assertGreaterEqual(ratio(colours["edge"], colours["ground"]), 3)

    @needs_node
    def test_times_never_go_back(self) -> None:
        starts = self.node(
            """const line = { syllables: [1, 2, 3].map((at) => ({ text: "x", start: at, end: at + 1 })) };
            const found = [[1, 2.5], [1, 3.5], [2, 0.5], [0, -4]].map(([place, time]) => {
                look.setStart(line, place, time);
                return line.syllables.map((one) => [one.start, one.end]);
            });
            console.log(JSON.stringify(found))"""
        )
        self.assertEqual(starts[0], [[1, 2.5], [2.5, 3], [3, 4]])
        self.assertEqual(starts[1], [[1, 3.5], [3.5, 3.5], [3.5, 4]])
        self.assertEqual(starts[2], [[0.5, 0.5], [0.5, 0.5], [0.5, 4]])
        for found in starts:
            flat = [time for pair in found for time in pair]
            self.assertEqual(flat, sorted(flat))

    @unittest.skipUnless(CHROMIUM, "chromium is not installed")
    def test_in_a_browser(self) -> None:
        with mock.patch.dict(os.environ, {"RIBJASPER_WEB": str(self.folder)}):
            self.check_in_a_browser(self.page(), "changes")

    @unittest.skipUnless(CHROMIUM, "chromium is not installed")
    @unittest.skipUnless(web(), "lib/web is not built (make web)")
    def test_in_a_browser_by_the_library(self) -> None:
        page = self.page()
        packs = zlib.decompress(base64.b64decode(self.part(page, "packs")))
        self.check_in_a_browser(page, "library")
        self.assertEqual(packs, (self.folder / "b.cdg").read_bytes())

    @unittest.skipUnless(CHROMIUM, "chromium is not installed")
    def test_a_library_that_a_browser_does_not_take(self) -> None:
        for name in ("ribjasper.wasm", "ribjasper.mjs"):
            self.write(f"web/{name}", "export function load() { throw new Error('not here'); }")
        with mock.patch.dict(os.environ, {"RIBJASPER_WEB": str(self.folder / "web")}):
            self.check_in_a_browser(self.page(), "changes")

    @needs_node
    @unittest.skipUnless(CHROMIUM, "chromium is not installed")
    def test_keys_names_and_colours(self) -> None:
        """Every control has a name, all texts are readable in both themes, and keys do what the page says."""
        self.page()
        driver = Path(__file__).with_name("studio_page.mjs")
        call = ["node", "--experimental-websocket", "--no-warnings", str(driver), str(CHROMIUM)]
        subprocess.run([*call, f"file://{self.folder}/a.html", str(self.folder), "look"], timeout=150, check=True)
        found = json.loads((self.folder / "found.json").read_text())
        self.assertNotIn("failed", found, found)
        self.assertEqual((found["nameless"], found["faint"]), ([], []))
        self.assertEqual((found["followed"], found["jumped"], found["chosen"]), (1, [0, 5.5, ""], 1))
        self.assertAlmostEqual(found["slid"], 6.5, places=2)

    def check_in_a_browser(self, page: str, drawn: str) -> None:
        profile = self.folder / "profile"
        for second, block in ((7.2, 540), (11.6, 870)):
            words = [
                str(CHROMIUM),
                "--headless",
                "--no-sandbox",
                "--disable-gpu",
                f"--user-data-dir={profile}",
                "--virtual-time-budget=6000",
                "--dump-dom",
                f"file://{self.folder}/a.html#{second}",
            ]
            page = subprocess.run(words, capture_output=True, text=True, timeout=120).stdout
            self.assertIn('data-ready="yes"', page)
            self.assertIn(f'data-drawn="{drawn}"', page)
            found = re.search(r'data-shown="(\d+)"', page)
            assert found
            sums = [checksum(pixels) for pixels in self.screens([block - 3, block, block + 3])]
            self.assertIn(int(found[1]), sums)
            self.assertEqual(page.count("<li"), 3)

    def test_no_sound(self) -> None:
        ran = desk("look", self.write("b.lrc", SONG), "-o", self.folder / "b.html")
        self.assertEqual((ran.status, "has no sound with its name" in ran.errors), (3, True), ran.errors)


if __name__ == "__main__":
    unittest.main()
