"""Albums of finished pairs and lyrics: each track begins clean from any screen, and the graphics of a pair stay in time
with its sound; and what a list may request for the sound."""
import array
import math
import os
import random
import struct
import subprocess
import unittest
import wave
import zipfile
from pathlib import Path

from fixtures import (
    PAUSE, FolderTest, Ran, Word, desk, needs_ffmpeg, needs_font, needs_pillow, needs_plan, needs_program, write_wav,
)  # fmt: skip

from ribjasper.common.library import BLOCK, PACK, RAW, SECTOR, packs_of_blocks
from ribjasper.common.player import Player
from ribjasper.common.planning import least_lead_in
from ribjasper.songs import audio
from ribjasper.songs.albums import check_digit
from ribjasper.songs.audio import Treatment
from ribjasper.songs.pairs import LEAD
from test_album import random_packs

LRC = "[ti:Song]\n[ar:Singer]\n[00:06.00]<00:06.00>First <00:06.50>line<00:07.50>\n[00:09.00]<00:09.00>Second <00:10.00>\n"
# The lines of a list for one track.
Lines = list[str]


def pack(instruction: int, *symbols: int) -> bytes:
    return bytes([9, instruction, 0, 0, *symbols, *bytes(16 - len(symbols)), 0, 0, 0, 0])


def colours(dice: random.Random) -> list[bytes]:
    return [pack(number, *(dice.randrange(64) for _ in range(16))) for number in (30, 31)]


def tiles(dice: random.Random, count: int) -> list[bytes]:
    return [
        pack(dice.choice((6, 38)), dice.randrange(16), dice.randrange(16), dice.randrange(18), dice.randrange(50),
             *(dice.randrange(64) for _ in range(12)))
        for _ in range(count)
    ]  # fmt: skip


def usual(dice: random.Random, seconds: int) -> bytes:
    """Graphics as most programs write them: the memory preset sixteen times, the border, the colours, and tiles from
    time to time."""
    packs = [pack(1, 5, number) for number in range(16)] + [pack(2, 3), *colours(dice)]
    while len(packs) < 300 * seconds:
        packs += dice.choice(([bytes(24)] * dice.randint(1, 40), tiles(dice, dice.randint(1, 60)), colours(dice)))
    return b"".join(packs[: 300 * seconds])


def hasty(dice: random.Random, seconds: int) -> bytes:
    """Graphics that draw in their first packs, with scrolls, and with P and Q bits in each byte, as in some rips."""
    packs = [*colours(dice), *tiles(dice, 200)]
    while len(packs) < 300 * seconds:
        packs += [pack(20, 2, dice.randrange(6), dice.randrange(12)), *tiles(dice, 50), *[bytes(24)] * 30]
    return bytes(byte | 0xC0 * (number % 7 == 0) for number, byte in enumerate(b"".join(packs[: 300 * seconds])))


def tone(path: Path, seconds: float, level: float = 0.3) -> Path:
    """A WAV file with a tone, and a click at each second."""
    values = array.array("h")
    for at in range(round(44_100 * seconds)):
        value = 32767 if at % 44_100 < 20 and at > 100 else round(32767 * level * math.sin(at * 0.06))
        values.extend((value, value))
    with wave.open(os.fspath(path), "wb") as file:
        file.setparams((2, 2, 44_100, 0, "NONE", ""))
        file.writeframes(values.tobytes())
    return path


@needs_plan
@needs_program
@needs_pillow
@needs_font
class PairsTest(FolderTest):
    def setUp(self) -> None:
        super().setUp()
        self.dice = random.Random(8)
        self.graphics = {"usual": usual(self.dice, 12), "hasty": hasty(self.dice, 9)}
        for name, packs in self.graphics.items():
            self.write(f"{name}.cdg", packs)
            write_wav(self.folder / f"{name}.wav", 44_100 * (len(packs) // 7200) + 1000)
        for name in ("one", "two"):
            self.write(f"{name}.lrc", LRC)
            write_wav(self.folder / f"{name}.wav", 44_100 * 14)

    def album(self, *tracks: Lines, words: tuple[Word, ...] = (), status: int = 0, head: str = "gap = 1\n") -> Ran:
        text = head + "".join("[[track]]\n" + "".join(f"{line}\n" for line in lines) for lines in tracks)
        words = words or ("-o", self.folder / "disc")
        ran = desk("album", self.write("list.toml", text), *words)
        self.assertEqual(ran.status, status, ran.errors)
        return ran

    def starts(self) -> list[int]:
        """The places of the indexes 01, from the sheet of the stream."""
        found = []
        for line in (self.folder / "disc-sheet.cue").read_text().splitlines():
            if line.strip().startswith("INDEX 01"):
                minutes, seconds, frames = map(int, line.split()[2].split(":"))
                found.append(PAUSE + 75 * (60 * minutes + seconds) + frames)
        return found

    def program(self) -> bytes:
        image = (self.folder / "disc.bin").stat().st_size // SECTOR
        sheet = (self.folder / "disc-sheet.cue").read_bytes()
        return (self.folder / "disc.raw").read_bytes()[BLOCK * least_lead_in(sheet, image) :]

    def zipped(self, name: str) -> Path:
        with zipfile.ZipFile(self.folder / f"{name}-zipped.zip", "w", zipfile.ZIP_DEFLATED) as together:
            together.write(self.folder / f"{name}.cdg", f"folder/{name.upper()}.CDG")
            together.write(self.folder / f"{name}.wav", f"folder/{name}.wav")
            together.writestr("__MACOSX/x.cdg", b"")
        return self.folder / f"{name}-zipped.zip"

    def test_an_album_of_four_pairs_and_two_lyrics(self) -> None:
        self.assertEqual(desk("pair", self.folder / "one.lrc", "-o", self.folder / "own").status, 0)
        self.zipped("hasty")
        self.zipped("usual")
        pairs = ("usual.cdg", "hasty-zipped.zip", "own.cdg", "usual-zipped.zip")
        tracks: list[Lines] = [[f'pair = "{name}"', f'title = "{name}"'] for name in pairs]
        lyrics = ['lyrics = "two.lrc"', 'sound = "two.wav"']
        tracks = [tracks[0], tracks[1], lyrics, tracks[2], tracks[3], lyrics]
        ran = self.album(*tracks)
        self.assertIn("hasty-zipped.zip: its first packs leave no room for presets", ran.errors)
        contents = [self.graphics["usual"], self.graphics["hasty"], b"", (self.folder / "own.cdg").read_bytes(),
                    self.graphics["usual"], b""]  # fmt: skip
        program, starts = self.program(), self.starts()
        self.assertEqual(len(starts), 6)
        whole, counts = packs_of_blocks(program, RAW, 0)
        self.assertEqual(counts.bad, 0)
        ends = [*(start - 75 for start in starts[1:]), len(program) // BLOCK]
        for number, (start, end, content) in enumerate(zip(starts, ends, contents)):
            later = LEAD if number == 1 else 0
            cut, _ = packs_of_blocks(program[BLOCK * start :], RAW, 0)
            with Player() as through, Player() as skipped, Player() as alone:
                through.draw(whole[: PACK * 4 * start])
                # The previous track ended with a scrolled picture.
                skipped.draw(random_packs(number) + pack(20, 1, 3, 7))
                done, drawn, seen = 0, 0, set[bytes]()
                # From a fifth of a second on, when the first tiles may already be drawn.
                for until in range(60, 4 * (end - start) - 8, 52):
                    through.draw(whole[PACK * (4 * start + done) : PACK * (4 * start + until)])
                    skipped.draw(cut[PACK * done : PACK * until])
                    # A reader that starts at a block gets the packs from the seventh place after it.
                    now = until + 7 - 4 * later
                    alone.draw(bytes(byte & 63 for byte in content[PACK * drawn : PACK * now]))
                    done, drawn = until, now
                    self.assertEqual(skipped.picture(), through.picture(), (number, until))
                    if content:
                        self.assertEqual(skipped.picture(), alone.picture(), (number, until))
                    seen.add(skipped.picture())
                self.assertGreater(len(seen), 10)
            first = [cut[at + 1] for at in range(0, PACK * 48, PACK) if cut[at]][:4]
            self.assertEqual(first, [1, 2, 30, 31], number)
        image = (self.folder / "disc.bin").read_bytes()
        for number, name in ((0, "usual"), (1, "hasty"), (4, "usual")):
            later = LEAD if number == 1 else 0
            at = SECTOR * (starts[number] - PAUSE + later)
            samples = (self.folder / f"{name}.wav").read_bytes()[44:]
            until = at + SECTOR * (len(samples) // 2352 + 1)
            sound = b"".join(image[place : place + 2352] for place in range(at, until, SECTOR))
            self.assertEqual(sound[: len(samples)], samples)

    def test_the_list_begins_with_pairs(self) -> None:
        ran = desk("album", "--new", self.folder / "usual.cdg", self.folder / "one.lrc")
        self.assertEqual(ran.status, 0, ran.errors)
        self.assertIn(f'pair = "{os.path.relpath(self.folder / "usual.cdg")}"', ran.out)
        self.assertIn('title = "Song"', ran.out)

    def test_check(self) -> None:
        tracks = [['pair = "usual.cdg"'], ['lyrics = "one.lrc"', 'sound = "one.wav"']]
        before = sorted(os.listdir(self.folder))
        ran = self.album(*tracks, words=("--check",))
        self.assertEqual(sorted(set(os.listdir(self.folder)) - {"list.toml"}), before)
        first, second = ran.rows()
        self.assertEqual((first["kind"], first["start"], first["length"]), ("pair", "00:00:00", "00:12:02"))
        self.assertEqual((second["start"], second["length"], second["title"]), ("00:13:02", "00:14:00", "Song"))
        self.assertEqual(second["left"], "79:29:73")
        self.assertIn("2 tracks, 00:27:02 of 79:57:00: 79:29:73 is left", ran.errors)
        ran = self.album(*tracks, words=("--check", "--capacity", "00:27"), status=1)
        self.assertEqual(ran.rows()[1]["left"], "-00:00:02")
        self.assertIn("it is 00:00:02 too long", ran.errors)

    def test_too_long(self) -> None:
        """A list of a hundred minutes is refused before its pictures are made."""
        with open(self.folder / "long.wav", "wb") as file:
            samples = 4 * 44_100 * 60 * 100
            file.write(audio.header(samples))
            file.truncate(44 + samples)
        tracks = [['lyrics = "one.lrc"', 'sound = "long.wav"']]
        ran = self.album(*tracks, status=3)
        self.assertIn("lasts 100:00:00, but the disc holds 79:57:00: it is 20:03:00 too long; --capacity", ran.errors)
        ran = self.album(*tracks, status=3, words=("-o", self.folder / "disc", "--capacity", "99:57"))
        self.assertIn("it is 00:03:00 too long", ran.errors)

    def test_refusals(self) -> None:
        self.write("none.cdg", bytes(2400))
        self.write("bad.zip", b"PK\3\4 no zip")
        with zipfile.ZipFile(self.folder / "empty.zip", "w") as together:
            together.writestr("a.cdg", b"")
        self.write("alone.cdg", self.graphics["usual"])
        lyrics = ['lyrics = "one.lrc"', 'sound = "one.wav"']
        for lines, why in (
            (['pair = "none.cdg"', 'sound = "one.wav"'], "none.cdg: has no graphics"),
            (['pair = "bad.zip"'], "bad.zip: is not a readable ZIP file"),
            (['pair = "empty.zip"'], "empty.zip: has 1 .cdg files and 0 sounds"),
            (['pair = "alone.cdg"'], "alone.cdg: has no sound with its name next to it"),
            (['pair = "gone.cdg"'], "gone.cdg: no such file"),
            (['pair = "usual.cdg"', "begin = 2"], "track 1: a pair cannot have begin"),
            ([*lyrics, 'pair = "usual.cdg"'], "track 1 needs lyrics and sound, or a pair"),
            ([*lyrics, "end = 20"], "one.wav: lasts 14.00 seconds, so it has no part from 0 to 20 seconds"),
            ([*lyrics, "loudness = 3"], "loudness is 3"),
            ([*lyrics, 'encoding = "x"'], "encoding is 'x'"),
            (
                [*lyrics, 'isrc = "GBAAA2600001"', "[[track]]", *lyrics, 'isrc = "GB-AAA-26-00001"'],
                "another track also has",
            ),
        ):
            ran = self.album(lines, status=3)
            self.assertIn(why, ran.errors)
        ran = self.album(lyrics, status=3, head='catalogue = "4006381333930"\n')
        self.assertIn("whose check digit is wrong: 4006381333931 has the right one", ran.errors)
        # A folder instead of a song is not a bug of the desk.
        os.mkdir(self.folder / "folder")
        for words in (("lyrics", "folder", "-o", "a.script"), ("pair", "folder", "--audio", "one.wav", "-o", "a"),
                      ("look", "folder", "--audio", "one.wav", "-o", "a.html"), ("album", "folder", "-o", "a")):  # fmt: skip
            call: list[Word] = [self.folder / it if "." in it or it in ("folder", "a") else it for it in words]
            ran = desk(*call)
            self.assertEqual((ran.status, "is a directory" in ran.errors), (3, True), ran.errors)
        ran = self.album(['lyrics = "folder"', 'sound = "one.wav"'], status=3)
        self.assertIn("folder: is a directory", ran.errors)

    def test_check_digits(self) -> None:
        # The numbers of printed articles.
        for number in ("4006381333931", "9783161484100", "0075678164828"):
            self.assertEqual(check_digit(number[:12]), number[12])

    def test_begin_end_and_intro_move_words_and_sound(self) -> None:
        tone(self.folder / "one.wav", 14)
        self.album(['lyrics = "one.lrc"', 'sound = "one.wav"', "begin = 2.5", "end = 13", "intro = 4"])
        image = (self.folder / "disc.bin").read_bytes()
        sound = b"".join(image[at : at + 2352] for at in range(0, len(image), SECTOR))
        self.assertEqual(len(image) // SECTOR, math.ceil(75 * (4 + 10.5)))
        samples = (self.folder / "one.wav").read_bytes()[44:]
        self.assertFalse(any(sound[: 4 * 44_100 * 4]))
        part = samples[4 * 110_250 : 4 * 44_100 * 13]
        self.assertEqual(sound[4 * 44_100 * 4 :][: len(part)], part)
        # The first word is sung at 6 s of the file, which is 7.5 s of the track.
        script = (self.folder / "disc-01.script").read_text()
        shows = [line.split()[1] for line in script.splitlines() if line.startswith("show")]
        self.assertIn("00:09:37", shows)  # with the pause of two seconds, and the nearest block

    @needs_ffmpeg
    def test_loudness_and_fades(self) -> None:
        quiet = tone(self.folder / "one.wav", 14, 0.02)
        made = audio.treated(quiet, Treatment(loudness=-18.0, fade_in=1.0, fade_out=2.0))
        output = subprocess.run(
            ["ffmpeg", "-nostdin", "-i", made, "-af", "ebur128", "-f", "null", "-"], capture_output=True, text=True
        ).stderr
        found = float(output.rpartition("I:")[2].split()[0])
        self.assertAlmostEqual(found, -18, delta=1.5)
        samples = struct.unpack(f"<{14 * 44_100 * 2}h", made.read_bytes()[44:])
        peaks = [max(abs(one) for one in samples[2 * 4410 * at : 2 * 4410 * (at + 1)]) for at in range(140)]
        self.assertLess(peaks[0], peaks[5])
        self.assertLess(peaks[139], peaks[125])
        # The sound is not moved: the clicks at each second are where they were.
        before = struct.unpack(f"<{14 * 44_100 * 2}h", quiet.read_bytes()[44:])
        for second in range(2, 11):
            window = range(second * 44_100 - 300, second * 44_100 + 300)
            places = [max((values[2 * at], -at) for at in window)[1] for values in (before, samples)]
            self.assertLess(abs(places[0] - places[1]), 22, second)

    def test_an_intro_makes_room_for_the_title(self) -> None:
        song = self.write("soon.lrc", "[ti:A title]\n[00:03.00]<00:03.00>Soon <00:04.00>\n")
        write_wav(self.folder / "soon.wav", 44_100 * 8)
        ran = desk("pair", song, "-o", self.folder / "out")
        found = ran.errors.partition("--intro ")[2].split()[0]
        self.assertIn("there is no room for the title: the first words come too early", ran.errors)
        ran = desk("pair", song, "-o", self.folder / "out", "--intro", found)
        self.assertNotIn("no room", ran.errors)
        with wave.open(os.fspath(self.folder / "out.wav")) as file:
            self.assertEqual(file.getnframes(), 44_100 * (8 + int(found)))
        self.assertEqual((self.folder / "out.cdg").stat().st_size, PACK * 300 * (8 + int(found)))


@needs_plan
@needs_program
@needs_pillow
@needs_font
class EndingTest(FolderTest):
    def test_a_changed_sound_without_an_ending(self) -> None:
        song = self.write("a.lrc", "[00:06.00]One\n[00:08.00]two\n")
        write_wav(self.folder / "sound", 44_100 * 12)
        for words in ((), ("--zip",)):
            ran = desk("pair", song, "--audio", self.folder / "sound", "--intro", "2", *words, "-o", self.folder / "b")
            self.assertEqual((ran.status, "--mp3 writes it as MP3" in ran.errors), (3, True), ran.errors)


if __name__ == "__main__":
    unittest.main()
