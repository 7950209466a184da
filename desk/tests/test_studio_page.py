"""The page of the studio in Chromium: a text is timed by taps, edited, undone, saved and made into a pair."""
import contextlib
import json
import os
import shutil
import signal
import subprocess
import sys
import unittest
from pathlib import Path
from typing import Any

from fixtures import DESK, TOP, FolderTest, desk, needs_font, needs_pillow, needs_plan, needs_program, write_wav

from ribjasper.common.library import PACK
from ribjasper.common.player import Player
from ribjasper.common.web import web
from ribjasper.songs.song_files import read_song

CHROMIUM = shutil.which("chromium") or shutil.which("chromium-browser")
SCRIPT = Path(__file__).with_name("studio_page.mjs")
TIMES = TOP / "desk" / "ribjasper" / "commands" / "publish" / "studio_page" / "times.js"
needs_node = unittest.skipUnless(shutil.which("node"), "node is not installed")
LINES = 12
# The greatest distance of a tap from its time, and the longest time until an edit is visible, in seconds. Measured for an
# edit: below 0.5 seconds on an idle machine, 0.6 to 0.8 seconds beside other work.
NEAR, SOON = 0.03, 1.0
# The longest time for the browser, in seconds; most of it is the playing song.
PATIENCE = 200


def checksum(pixels: bytes) -> int:
    total = 7
    for pixel in pixels:
        total = (31 * total + pixel) & 0xFFFF_FFFF
    return total


def is_busy() -> bool:
    return os.getloadavg()[0] > (os.cpu_count() or 1)


def long_song() -> str:
    """Lines of six words with times, for four minutes."""
    rows, now = list[str](), 1000
    while now < 23_000:
        words = "".join(f"<{stamp(now + 60 * word)}>word{word} " for word in range(6))
        rows.append(f"[{stamp(now)}]{words}<{stamp(now + 360)}>")
        now += 900 if len(rows) % 16 == 0 else 390
    return "\n".join(rows)


def stamp(hundredths: int) -> str:
    return f"{hundredths // 6000:02}:{hundredths // 100 % 60:02}.{hundredths % 100:02}"


@needs_node
class TimesTest(FolderTest):
    def node(self, code: str) -> Any:
        names = "formatTime, parseTime, joinSyllables, splitSyllables, tapCount, nextTarget, firstTarget, lineAt"
        names += ", tappedAt, SoundClock, isOwnKey"
        module = self.write("a.mjs", f"import {{ {names} }} from {json.dumps(TIMES.as_uri())};\n{code}")
        ran = subprocess.run(["node", str(module)], capture_output=True, text=True, timeout=60)
        self.assertEqual(ran.returncode, 0, ran.stderr)
        return json.loads(ran.stdout)

    def test_times_and_texts(self) -> None:
        found = self.node(
            """const words = (...texts) => texts.map((text) => ({ text, start: null }));
            console.log(JSON.stringify([formatTime(62.345), parseTime("1:02.5"), parseTime("62,25"), parseTime("x"),
                joinSyllables(words("syl", "la", "bles ", "of ", "words")), splitSyllables("syl|la|bles of words"),
                splitSyllables("  a  b "), tapCount({ whole: true, words: words("one two") })]))"""
        )
        self.assertEqual(found[:4], ["01:02.35", 62.5, 62.25, None])
        self.assertEqual(found[4], "syl|la|bles of words")
        self.assertEqual(found[5:7], [["syl", "la", "bles ", "of ", "words"], ["a  ", "b"]])
        self.assertEqual(found[7], 2)

    def test_the_clock_of_the_sound(self) -> None:
        """Late reports of the position of the sound are outvoted; after a jump, the new position holds."""
        found = self.node(
            """const clock = new SoundClock();
            const sound = (from, to, rate, at) => { for (let now = from; now < to; now += 20)
                clock.add(now, at + rate * (now - from) / 1000 - (now % 60 === 0 ? 0.04 : 0), rate); };
            sound(1000, 2000, 1, 5);
            const all = [tappedAt(clock, 1900, 0), tappedAt(clock, 1900, 100)];
            sound(2000, 3000, 0.5, 20);
            all.push(tappedAt(clock, 2950, 0));
            clock.add(3000, 40, 0.5);
            all.push(tappedAt(clock, 3000, 0));
            clock.clear();
            clock.add(3000, 7, 1);
            console.log(JSON.stringify([...all, tappedAt(clock, 3100, 0), tappedAt(clock, -9000, 0)]))"""
        )
        self.assertEqual(found, [5.9, 5.8, 20.48, 40, 7.1, 0])

    def test_what_is_tapped_next(self) -> None:
        found = self.node(
            """const line = (...starts) => ({ whole: false, words: starts.map((start) => ({ text: "x ", start })) });
            const lines = [line(1, 2), line(5), line(null, null)];
            console.log(JSON.stringify([nextTarget(lines, 0, 0, "word"), nextTarget(lines, 0, 1, "word"), nextTarget(lines, 0, 0, "line"),
                firstTarget(lines), firstTarget(lines.slice(0, 2)), [0, 1, 4, 5, 9].map((now) => lineAt(lines, now))]))"""
        )
        targets = [{"line": 0, "word": 1}, {"line": 1, "word": 0}, {"line": 1, "word": 0}]
        self.assertEqual(found, [*targets, {"line": 2, "word": 0}, {"line": 0, "word": 0}, [-1, 0, 0, 1, 1]])


@needs_node
@needs_plan
@needs_program
@needs_pillow
@needs_font
@unittest.skipUnless(CHROMIUM, "chromium is not installed")
@unittest.skipUnless(web(), "lib/web is not built (make web)")
class PageTest(FolderTest):
    def run_page(self, song: Path, seconds: int, *mode: str) -> dict[str, Any]:
        write_wav(song.with_suffix(".wav"), 44_100 * seconds)
        words = [sys.executable, str(DESK), "studio", str(song), "--no-browser"]
        with subprocess.Popen(words, stdout=subprocess.PIPE, text=True, stderr=subprocess.DEVNULL) as child:
            try:
                assert child.stdout
                self.drive(child.stdout.readline().strip(), *mode)
            finally:
                child.terminate()
        found: dict[str, Any] = json.loads((self.folder / "found.json").read_text())
        self.assertNotIn("failed", found, found.get("text"))
        return found

    def drive(self, address: str, *mode: str) -> None:
        """Runs the browser; all processes that it started end with it."""
        call = [
            "node",
            "--experimental-websocket",
            "--no-warnings",
            str(SCRIPT),
            str(CHROMIUM),
            address,
            str(self.folder),
        ]
        with subprocess.Popen([*call, *mode], start_new_session=True) as browser:
            try:
                self.assertEqual(browser.wait(PATIENCE), 0)
            finally:
                with contextlib.suppress(ProcessLookupError):
                    os.killpg(browser.pid, signal.SIGKILL)

    def check_near(self, times: list[float], wanted: list[float]) -> None:
        """All taps are near their times. On a busy machine the sound stutters, and then half of the taps are enough."""
        apart = sorted(abs(one - other) for one, other in zip(times, wanted, strict=True))
        self.assertLessEqual(apart[len(apart) // 2 if is_busy() else -1], NEAR, (times, wanted))

    def test_from_a_text_to_a_pair(self) -> None:
        text = "".join(f"The line {number} of words\n" for number in range(1, LINES + 1))
        found = self.run_page(self.write("song.txt", text), 16)
        self.assertEqual(found["begun"], LINES)
        self.assertEqual(len(found["starts"]), LINES)
        self.check_near(found["starts"], found["expected"])
        self.assertEqual(found["back"][0], 7)
        self.check_near(found["tapped"], found["words"])
        self.assertTrue(found["again"])
        self.assertEqual("".join(found["edited"]), "Another third line")
        self.assertAlmostEqual(found["moved"], 0.05)
        self.assertTrue(found["undone"])
        self.assertEqual(found["spaced"], [1, True])
        self.assertAlmostEqual(found["dragged"], 0.2, delta=0.03)
        self.assertEqual((found["nameless"], found["faint"], found["wide"], found["wrong"]), ([], [], 0, []))
        self.assertTrue(found["kept"])
        self.check_files(found)

    def test_an_edit_is_soon_seen(self) -> None:
        """In a song of four minutes, while the machine is not busy with something else."""
        if is_busy():
            self.skipTest("the machine is busy")
        found = self.run_page(self.write("long.lrc", long_song()), 240, "times")
        self.assertGreater(found["lines"], 50)
        self.assertEqual(len(found["times"]), 12)
        self.assertLess(min(found["times"]), 1000 * SOON, found["times"])

    def check_files(self, found: dict[str, Any]) -> None:
        """The saved lyrics have the tapped times, and `pair` makes the same graphics from them as the page."""
        song = read_song(self.folder / "song.lrc")
        self.assertEqual([line.start for line in song.lines], found["starts"])
        self.assertEqual(song.lines[2].text, "Another third line")
        self.assertEqual(desk("pair", self.folder / "song.lrc", "-o", self.folder / "b").status, 0)
        packs = (self.folder / "b.cdg").read_bytes()
        self.assertEqual((self.folder / "song.cdg").read_bytes(), packs)
        with Player() as player:
            player.draw(packs[: PACK * 300 * 8])
            self.assertEqual(checksum(player.screen()), found["shown"])


if __name__ == "__main__":
    unittest.main()
