"""`album`: each track begins clean from any screen, at its time, and nothing is drawn across a border; `pair`: the file
begins with presets and colours, and equals one made by hand."""
import os
import random
import re
import subprocess
import unittest
import zipfile
from pathlib import Path
from typing import Callable

from fixtures import (
    PAUSE, FolderTest, Ran, Word, author_files as author, desk, needs_cdrdao, needs_ffmpeg, needs_font, needs_pillow,
    needs_plan, needs_program, program, write_wav,
)  # fmt: skip

from ribjasper.common.library import BLOCK, PACK, RAW, SECTOR, packs_of_blocks
from ribjasper.common.player import Player
from ribjasper.common.planning import least_lead_in

Change = Callable[[str], str]
# The lengths of the three songs in blocks; the second one is not a whole number of seconds.
LENGTHS = (20 * 75, 18 * 75 + 31, 25 * 75)
GAP = 100
SHEET = 'FILE "a.wav" WAVE\nTRACK 01 AUDIO\nINDEX 01 00:00:00\n'
# Instructions without tiles: presets of memory and border, and colours.
PRESETS = [1, 2, 30, 31]


def song(number: int) -> str:
    """A song of two lines that ends with letters on the screen."""
    return (
        f"[ti:Song {number}]\n[ar:Singer {number}]\n"
        f"[00:0{6 + number}.00]<00:0{6 + number}.00>First <00:0{6 + number}.50>line <00:0{7 + number}.00>of {number}\n"
        f"[00:12.00]<00:12.00>Second <00:12.50>line <00:13.00>\u00e9t\u00e9 {number} <00:17.50>\n"
    )


def random_packs(seed: int) -> bytes:
    """Packs that leave a screen of random pixels, colours and border."""
    dice = random.Random(seed)

    def pack(instruction: int, symbols: list[int]) -> bytes:
        return bytes([9, instruction, 0, 0, *symbols, 0, 0, 0, 0])

    tiles = [
        pack(6, [dice.randrange(16), dice.randrange(16), row, column, *(dice.randrange(64) for _ in range(12))])
        for row in range(18)
        for column in range(50)
    ]
    colours = [pack(number, [dice.randrange(64) for _ in range(16)]) for number in (30, 31)]
    return b"".join([pack(2, [dice.randrange(16)] + 15 * [0]), *tiles, *colours])


@needs_plan
@needs_program
@needs_pillow
@needs_font
class SongsTest(FolderTest):
    def setUp(self) -> None:
        super().setUp()
        for number, length in enumerate(LENGTHS, 1):
            self.write(f"{number}.lrc", song(number))
            write_wav(self.folder / f"{number}.wav", 588 * length - 100)


class AlbumTest(SongsTest):
    def begun(self, change: Change = str) -> Path:
        """The list of the three songs, as `--new` writes it."""
        path = self.folder / "list.toml"
        ran = desk("album", "--new", *(self.folder / f"{number}.lrc" for number in (1, 2, 3)), "-o", path)
        self.assertEqual(ran.status, 0, ran.errors)
        path.write_text(change(path.read_text().replace("gap = 2\n", f"gap = {GAP / 75}\n")))
        return path

    def album(self, *words: Word, change: Change = str) -> Ran:
        ran = desk("album", self.begun(change), "-o", self.folder / "disc", *words)
        self.assertEqual(ran.status, 0, ran.errors)
        return ran

    def program(self) -> bytes:
        """The blocks of the stream, from the pause on."""
        sheet = (self.folder / "disc-sheet.cue").read_bytes()
        lead_in = least_lead_in(sheet, sum(LENGTHS) + 2 * GAP)
        return (self.folder / "disc.raw").read_bytes()[BLOCK * lead_in :]

    @staticmethod
    def starts() -> list[int]:
        """The places of the indexes 01, in blocks of the program."""
        return [PAUSE, PAUSE + LENGTHS[0] + GAP, PAUSE + sum(LENGTHS[:2]) + 2 * GAP]

    def test_the_list(self) -> None:
        text = self.begun().read_text()
        self.assertEqual(
            re.findall(r'^(lyrics|sound|title|singer) = "(.*)"', text, re.MULTILINE)[2:],
            [
                pair
                for number in (1, 2, 3)
                for pair in (
                    ("lyrics", f"{number}.lrc"),
                    ("sound", f"{number}.wav"),
                    ("title", f"Song {number}"),
                    ("singer", f"Singer {number}"),
                )
            ],
        )
        ran = desk("album", "--new", self.folder / "1.lrc")
        self.assertIn("[[track]]", ran.out)
        # Edits of a list are not lost.
        ran = desk("album", "--new", self.folder / "1.lrc", "-o", self.folder / "list.toml")
        self.assertEqual((ran.status, (self.folder / "list.toml").read_text()), (3, text), ran.errors)

    def test_each_track_begins_clean_from_any_screen(self) -> None:
        self.album()
        program = self.program()
        packs, counts = packs_of_blocks(program, RAW, 0)
        self.assertEqual((counts.bad, len(program) // BLOCK), (0, PAUSE + sum(LENGTHS) + 2 * GAP))
        for number, (start, length) in enumerate(zip(self.starts(), LENGTHS)):
            cut, _ = packs_of_blocks(program[BLOCK * start :], RAW, 0)
            with Player() as whole, Player() as skipped:
                whole.draw(packs[: PACK * 4 * start])
                skipped.draw(random_packs(number))
                self.assertNotEqual(whole.picture(), skipped.picture())
                done = 0
                seen: set[bytes] = set()
                # From the third block of the track on, and then every fifth of a second.
                for until in [12, *range(60, 4 * (length - 2), 60)]:
                    whole.draw(packs[PACK * (4 * start + done) : PACK * (4 * start + until)])
                    skipped.draw(cut[PACK * done : PACK * until])
                    done = until
                    self.assertEqual(whole.picture(), skipped.picture(), (number, until))
                    seen.add(skipped.picture())
                self.assertGreater(len(seen), 15)

    def test_nothing_is_sent_between_tracks(self) -> None:
        self.album()
        packs, _ = packs_of_blocks(self.program(), RAW, 0)
        ends = [0] + [start + length for start, length in zip(self.starts(), LENGTHS)]
        for end, start in zip(ends, self.starts()):
            # A pack is spread over eight slots. The last slot is seven slots after the first.
            self.assertFalse(any(packs[PACK * max(0, 4 * end - 7) : PACK * 4 * start]))
            presets = packs[PACK * 4 * start :][: 24 * 8]
            self.assertEqual([presets[at + 1] for at in range(0, len(presets), PACK) if presets[at]][:4], PRESETS)

    def test_words_are_lit_at_their_times(self) -> None:
        """The second line of each song, detected by the pixels that change colour."""
        self.album()
        packs, _ = packs_of_blocks(self.program(), RAW, 0)
        blue, white = (2 * 17, 8 * 17, 15 * 17), (255, 255, 255)
        for start in self.starts():
            with Player() as player:
                count = []
                for second in (11.98, 12.0, 12.48, 12.5, 12.98, 13.0):
                    player.begin(RAW, 0)
                    player.draw(packs[: PACK * (4 * (start + round(75 * second)) - 7)])
                    picture = player.picture()
                    pixels = [tuple(picture[at : at + 3]) for at in range(0, len(picture), 3)]
                    count.append((pixels.count(white), pixels.count(blue)))
            for before, after in ((0, 1), (2, 3), (4, 5)):
                self.assertLess(count[after][0], count[before][0])
                self.assertGreater(count[after][1], count[before][1])

    def test_image(self) -> None:
        self.album()
        image, blocks = (self.folder / "disc.bin").read_bytes(), self.program()[BLOCK * PAUSE :]
        self.assertEqual(len(image) % SECTOR, 0)
        sectors = [image[at : at + SECTOR] for at in range(0, len(image), SECTOR)]
        self.assertEqual(b"".join(sector[2352:] for sector in sectors), blocks)
        sound = b"".join(sector[:2352] for sector in sectors)
        for number, (start, length) in enumerate(zip(self.starts(), LENGTHS), 1):
            at = 2352 * (start - PAUSE)
            samples = (self.folder / f"{number}.wav").read_bytes()[44:]
            self.assertEqual(sound[at : at + 2352 * length], samples.ljust(2352 * length, b"\0"))
            self.assertFalse(any(sound[at + 2352 * length : at + 2352 * (length + GAP)]) and number < 3)

    @needs_cdrdao
    def test_cdrdao_finds_the_tracks(self) -> None:
        self.album()
        words = ["cdrdao", "show-toc", str(self.folder / "disc.toc")]
        shown = subprocess.run(words, capture_output=True, text=True, check=True).stdout
        found = [
            [int(at) for at in re.findall(r"(?:PREGAP|START|END) .*\( *(\d+)\)", part)]
            for part in re.split(r"^TRACK +", shown, flags=re.MULTILINE)[1:]
        ]
        starts = [start - PAUSE for start in self.starts()]
        self.assertEqual(
            [one[-2:] for one in found],
            [[0, starts[1] - GAP], [starts[1], starts[2] - GAP], [starts[2], starts[2] + LENGTHS[2]]],
        )
        self.assertEqual([one[0] for one in found[1:]], [GAP, GAP])

    def test_texts_and_codes(self) -> None:
        def change(text: str) -> str:
            text = text.replace('title = "Song 2"', 'title = "Songs \u03a9 \\"x\\""', 1)
            return text.replace('title = ""\n', 'title = "Caf\u00e9"\ncatalogue = "4006381333931"\n', 1).replace(
                '# isrc = "GBAAA2600001"', 'isrc = "GB-AAA-26-00001"', 1
            )

        ran = self.album(change=change)
        self.assertIn("track 2: Latin-1 has no \u03a9", ran.errors)
        cue = (self.folder / "disc.cue").read_bytes()
        self.assertTrue(cue.startswith(b'CATALOG 4006381333931\nTITLE "Caf\xe9"\n'), cue)
        self.assertIn(b"ISRC GBAAA2600001", cue)
        self.assertEqual(re.findall(rb'TITLE "(.*)"', cue), [b"Caf\xe9", b"Song 1", b"Song 3"])

    def test_scripts_are_those_of_the_tracks(self) -> None:
        self.album()
        sheet = self.write("a.cue", SHEET)
        for number in (1, 2, 3):
            ran = desk(
                "plan", sheet, self.folder / f"disc-{number:02}.script", "--audio", self.folder / f"{number}.wav"
            )
            self.assertEqual((ran.status, "0 of them late" in ran.errors), (0, True), ran.errors)

    def test_refusals(self) -> None:
        def refused(why: str, change: Change) -> None:
            ran = desk("album", self.begun(change), "-o", self.folder / "none", "--force")
            self.assertEqual((ran.status, why in ran.errors), (3, True), ran.errors)
            self.assertFalse([name for name in os.listdir(self.folder) if name.startswith("none")])
            os.unlink(self.folder / "list.toml")

        refused("4.lrc: no such file", lambda text: text.replace("3.lrc", "4.lrc"))
        refused("gap is 'long'", lambda text: re.sub("gap = .*", 'gap = "long"', text))
        refused("isrc is 'X'", lambda text: text.replace('# isrc = "GBAAA2600001"', 'isrc = "x"', 1))
        refused("has unknown keys: 'colour'", lambda text: text.replace("lyrics", "colour = 1\nlyrics", 1))
        refused("track 1 needs lyrics and sound", lambda text: text.replace("sound", "# sound", 1))
        refused("has 0 tables [[track]]", lambda text: text[: text.index("[[track]]")])
        refused("is not TOML", lambda text: text + "x\n")
        self.assertEqual(desk("album", self.folder / "1.lrc", self.folder / "2.lrc", "-o", self.folder / "x").status, 2)


class PairTest(SongsTest):
    def pair(self, *words: Word, name: str = "one", song: str = "1.lrc", status: int = 0) -> Ran:
        ran = desk("pair", self.folder / song, "-o", self.folder / name, *words)
        self.assertEqual(ran.status, status, ran.errors)
        return ran

    def instructions(self, packs: bytes, *range_: int) -> list[int]:
        return [packs[at + 1] for at in range(0, len(packs), PACK)][slice(*range_)]

    def test_the_pair(self) -> None:
        self.pair()
        packs = (self.folder / "one.cdg").read_bytes()
        self.assertEqual(len(packs), PACK * 4 * LENGTHS[0])
        self.assertEqual(self.instructions(packs, 12), [*PRESETS, 0, 0, 0, 0, *PRESETS])
        self.assertEqual((self.folder / "one.wav").read_bytes(), (self.folder / "1.wav").read_bytes())

    def test_it_is_what_hand_work_makes(self) -> None:
        self.pair()
        script = self.folder / "a.script"
        desk("lyrics", self.folder / "1.lrc", "--audio", self.folder / "1.wav", "-o", script)
        stream = author(self.write("a.cue", SHEET), script, "00:20:00", self.folder / "a.raw")
        packs = program("convert", "--lead-in", 60, "--", stream)[14_232:]
        pair = (self.folder / "one.cdg").read_bytes()
        self.assertEqual(pair[PACK * 12 :], packs[PACK * 12 :])
        self.assertFalse(any(packs[: PACK * 12]))
        with Player() as one, Player() as other:
            one.draw(random_packs(5) + pair[: PACK * 4])
            other.begin(RAW, 60)
            other.feed(stream.read_bytes()[: BLOCK * (60 + PAUSE + 2)])
            self.assertEqual(one.picture(), other.picture())

    def test_the_sound_that_is_there_stays(self) -> None:
        ran = self.pair(name="1")
        self.assertIn("which is there already", ran.errors)
        self.assertEqual(len((self.folder / "1.wav").read_bytes()), 44 + 4 * (588 * LENGTHS[0] - 100))
        write_wav(self.folder / "one.wav", 10)
        self.assertIn("one.wav: is there already", self.pair(status=3).errors)

    def test_zip(self) -> None:
        self.pair("--zip")
        with zipfile.ZipFile(self.folder / "one.zip") as together:
            self.assertEqual(together.namelist(), ["one.cdg", "one.wav"])
            self.assertEqual(together.read("one.wav"), (self.folder / "1.wav").read_bytes())
            self.assertEqual(self.instructions(together.read("one.cdg"), 4), PRESETS)
        self.assertFalse((self.folder / "one.cdg").exists())

    def test_files_of_others_stay(self) -> None:
        calls: tuple[tuple[str, tuple[str, ...]], ...] = (
            ("pair.cdg", ("pair", "1.lrc", "-o", "pair")),
            ("pair.wav", ("pair", "1.lrc", "-o", "pair")),
            ("packed.zip", ("pair", "1.lrc", "--zip", "-o", "packed")),
            ("burned.bin", ("pair", "1.lrc", "--karaoke-cd", "-o", "burned")),
            ("a.script", ("lyrics", "1.lrc", "-o", "a.script")),
        )
        for name, words in calls:
            outs = ("pair", "packed", "burned")
            call: list[Word] = [
                self.folder / word if "." in word or word in outs and place else word
                for place, word in enumerate(words)
            ]
            self.assertEqual(desk(*call).status, 0)
            made = (self.folder / name).read_bytes()
            # Once more, and again after the lyrics changed.
            self.assertEqual(desk(*call).status, 0, name)
            other = made[:-10] + bytes(byte ^ 1 for byte in made[-10:])
            (self.folder / name).write_bytes(other)
            ran = desk(*call)
            self.assertEqual((ran.status, (self.folder / name).read_bytes()), (3, other), name)
            self.assertIn("is there already, and", ran.errors)
            self.assertEqual(desk(*call, "--force").status, 0)
            self.write("1.lrc", song(1).replace("First", "Other"))
            self.assertEqual(desk(*call).status, 0, name)
            self.write("1.lrc", song(1))
        script = self.folder / "a.script"
        script.write_text(script.read_text() + "# by hand\n")
        ran = desk("lyrics", self.folder / "1.lrc", "-o", script)
        self.assertEqual((ran.status, script.read_text().endswith("# by hand\n")), (3, True), ran.errors)

    def test_modes_in_a_zip(self) -> None:
        self.pair("--zip")
        with zipfile.ZipFile(self.folder / "one.zip") as together:
            modes = [one.external_attr >> 16 & 0o777 for one in together.infolist()]
        self.assertEqual(modes, [0o644 if os.umask(0o22) == 0o22 else modes[0], modes[1]])
        self.assertTrue(all(mode & 0o444 == 0o444 for mode in modes), modes)

    @needs_ffmpeg
    def test_mp3(self) -> None:
        self.pair("--mp3")
        words = [
            "ffprobe",
            "-v",
            "error",
            "-show_entries",
            "format=duration:format_tags=title,artist:stream=codec_name",
            "-of",
            "default=nw=1",
            str(self.folder / "one.mp3"),
        ]
        output = subprocess.run(words, capture_output=True, text=True, check=True).stdout
        for word in ("codec_name=mp3", "TAG:title=Song 1", "TAG:artist=Singer 1"):
            self.assertIn(word, output)
        self.assertAlmostEqual(float(output.partition("duration=")[2].split()[0]), 20, delta=0.1)

    def test_karaoke_cd(self) -> None:
        self.pair("--karaoke-cd")
        image = self.folder / "one.bin"
        self.assertEqual(os.path.getsize(image), SECTOR * LENGTHS[0])
        packs, _ = packs_of_blocks(
            b"".join(image.read_bytes()[at + 2352 : at + SECTOR] for at in range(0, SECTOR * LENGTHS[0], SECTOR)),
            RAW,
            0,
        )
        # A reader of the image gets the packs of the file from the seventh on.
        self.assertEqual(packs[PACK:], (self.folder / "one.cdg").read_bytes()[PACK * 8 :])

    def test_no_sound(self) -> None:
        self.assertIn("4.lrc: no such file", self.pair(song="4.lrc", status=3).errors)
        os.unlink(self.folder / "1.wav")
        self.assertIn("has no sound with its name next to it", self.pair(status=3).errors)


if __name__ == "__main__":
    unittest.main()
