"""Songs as documents: opening and saving does not change a song, whatever the kind of its file; exports are read
back."""
import importlib
import random
import shutil
import unittest
from pathlib import Path
from typing import Any

from fixtures import SONG, FolderTest, desk, needs, needs_font, needs_pillow, needs_plan, needs_program

from ribjasper.common.failures import Refusal
from ribjasper.drawing.styles import read_style
from ribjasper.songs.document import Document, beside
from ribjasper.songs.exports import EXPORTS
from ribjasper.songs.song_files import open_document, read_song
from ribjasper.songs.song_script import Wishes, best
from ribjasper.songs.songs import Line, Song, Syllable

needs_mido = needs("mido", "python3-mido")
SONGS = 40
# Texts of words. Some of the words look like parts of a format.
WORDS = ["river", "under ", "M: ", "D:", "F: me", "a]b", "<", "100%", "it's", "\u6b4c", "e\u0301", "[x:y]", "v2: ", "...",
         "<00:01.00>", "~", "-", "\u201cyes\u201d", "{b}", "-->", "\\N", "#", "&", "night,"]  # fmt: skip
PLAIN = ["river", "under", "mor", "ning", "light", "it's", "\u6b4c", "e\u0301a", "\u201cyes\u201d", "100%", "night,"]
RICH = """[ti:A title]
[by:Nobody]
[re:An editor]
[by:Somebody else]
[offset:250]
[singer:Ann]
[00:10.00]<00:10.00>One <00:10.50>two <00:11.00>
[00:12.00]A line with one time
[00:14.00]
[singer:Bob]
[00:16.00]<00:16.00>Bob <00:16.40>sings<00:17.00><00:17.50>here<00:18.00>
[00:18.00]
[image:picture.png]
[00:30.00]D: All of them
[00:33.00]
[00:40.00][00:50.00]Again and again
[00:55.00]
"""


def values(song: Song) -> list[object]:
    """All values of a song on which its picture depends."""
    lines = [
        (line.is_whole, line.until, [(one.text, one.start, one.end, one.voice) for one in line.syllables])
        for line in song.lines
    ]
    inserts = [(one.what, one.start, one.after) for one in song.inserts]
    return [song.title, song.performer, song.singers, song.tags, inserts, lines]


def stamp(hundredths: int) -> str:
    return f"{hundredths // 6000:02d}:{hundredths // 100 % 60:02d}.{hundredths % 100:02d}"


def moment(thousandths: int, point: str) -> str:
    seconds, rest = divmod(thousandths, 1000)
    return f"{seconds // 3600:02d}:{seconds // 60 % 60:02d}:{seconds % 60:02d}{point}{rest:03d}"


class Dice(random.Random):
    def text(self, words: list[str]) -> str:
        return "".join(self.choice(words) + self.choice(["", " "]) for _ in range(self.randint(1, 3)))

    def lrc(self) -> str:
        rows, now = [self.choice(["[ti:A song]", "[ti: B ]", "[by:x]", "[offset:-120]", ""]) for _ in range(3)], 500
        names = [f"[singer:{name}]" for name in ("Ann", "Bob", "Ann & Bob", "both", "", "Cy")]
        for _ in range(self.randint(1, 12)):
            now += self.randint(0, 400)
            rows += [self.choice(names)] * self.chance(0.2) + ["no time"] * self.chance(0.05)
            rows += ["[image:a.png]", "[colour:#08F]", f"[{stamp(now)}][image:b.png]"][: self.randint(-6, 3)]
            mark = self.choice(["M: ", "F: ", "D: ", "v3: ", "v4: "]) * self.chance(0.3)
            row, at = f"[{stamp(now)}]{mark}", now
            if self.chance(0.4):
                again = f"[{stamp(now + 7000)}]" * self.chance(0.3)
                rows.append(again + row + self.text(WORDS))
                rows += [f"[{stamp(now + self.randint(20, 300))}]"] * self.chance(0.6)
                continue
            for _ in range(self.randint(1, 4)):
                row += f"<{stamp(at)}>{self.text(PLAIN)}"
                at += self.randint(0, 90)
                row += f"<{stamp(at)}>" * self.chance(0.4)
            rows.append(row + f"<{stamp(at)}>" * self.chance(0.7))
            now = max(now, at - 50)
        return self.choice(["\n", "\r\n"]).join([*rows, ""])

    def chance(self, part: float) -> bool:
        return self.random() < part

    def ass(self) -> str:
        form = "Layer, Start, End, Style, Name, MarginL, MarginR, MarginV, Effect, Text"
        rows, now = ["[Script Info]", "Title: One ] two", "[Events]", f"Format: {form}"], 500
        names = self.choice([[""], ["Ann", "Bob", "both", "Ann Bob"], ["both"], ["D", "a]b"]])
        for _ in range(self.randint(1, 10)):
            now += self.randint(0, 400)
            text, at = "", now
            for _ in range(self.randint(1, 4)):
                length = self.randint(0, 80)
                text += (
                    f"{{\\k{length}}}{self.text(WORDS[:-4])}" + "\\N" * self.chance(0.1) + "{\\k9}" * self.chance(0.2)
                )
                at += length + 9
            if self.chance(0.3):
                text = self.text(WORDS[:-4]) + "{\\i1}" + self.text(PLAIN) + "\\Nbelow" * self.chance(0.3)
            times = (f"{one // 360000}:{one // 6000 % 60:02}:{one // 100 % 60:02}.{one % 100:02}" for one in (now, at))
            rows.append(f"Dialogue: 0,{','.join(times)},Default,{self.choice(names)},0,0,0,,{text}")
        return "\n".join([*rows, ""])

    def ultrastar(self) -> str:
        rows, beat, has_two = ["#TITLE:x", "#ARTIST: y ]", f"#BPM:{self.randint(90, 400)},5", "#GAP:733"], 0, False
        if has_two := self.chance(0.4):
            rows += self.choice([["#P1:Ann", "#P2:Bob"], ["#P1:Ann"], ["#DUETSINGERP2:both"], []])
        for player in range(1 + has_two):
            rows += [f"P{player + 1}"] * has_two
            beat = 0
            for _ in range(self.randint(1, 6)):
                for _ in range(self.randint(1, 5)):
                    rows.append(f": {beat} {self.randint(1, 9)} {self.randint(-9, 9)} {self.text(WORDS)}")
                    beat += self.randint(1, 12)
                rows.append(f"- {beat}")
                beat += self.randint(0, 30)
        return "\n".join([*rows, "E", ""])

    def srt(self, point: str = ",", head: str = "") -> str:
        rows, now = [head] * bool(head), 4000
        for number in range(self.randint(1, 10)):
            now += self.randint(0, 4000)
            times = moment(now, point), moment(now + self.randint(0, 5000), point)
            texts = [self.text(PLAIN) for _ in range(self.randint(1, 3))]
            if head and self.chance(0.5):
                texts = [f"<v {self.choice(['Ann', 'Bob', 'a]b'])}>{text}" for text in texts]
            elif head and self.chance(0.5):
                texts = [f"{self.text(PLAIN)}<{moment(now + 40, point)}>{self.text(PLAIN)}"]
            rows += [str(number + 1), " --> ".join(times), *texts, ""]
        return "\n".join(rows)

    def vtt(self) -> str:
        return self.srt(".", "WEBVTT\n")

    def kar(self, path: Path) -> None:
        mido: Any = importlib.import_module("mido")
        track: Any = mido.MidiTrack()
        track.append(mido.MetaMessage("set_tempo", tempo=self.randint(300_000, 900_000), time=0))
        track += [mido.MetaMessage("text", text=text, time=0) for text in ("@TA title ]", "@TA singer")]
        for number in range(self.randint(1, 30)):
            text = ("/" if self.chance(0.2) or not number else "") + self.text(["la", "M: ", "o", "x]", " y"])
            track.append(mido.MetaMessage("text", text=text, time=self.randint(0, 900)))
        file = mido.MidiFile(ticks_per_beat=96)
        file.tracks.append(track)
        file.save(path)


KINDS = {"lrc": "lrc", "ass": "ass", "ultrastar": "txt", "srt": "srt", "vtt": "vtt", "kar": "kar"}


class DocumentTest(FolderTest):
    def random_song(self, kind: str, seed: int) -> Path:
        """A random song of a kind."""
        dice, path = Dice(f"{kind} {seed}"), self.folder / f"s{seed}.{KINDS[kind]}"
        if kind == "kar":
            dice.kar(path)
        else:
            path.write_bytes(getattr(dice, kind)().encode())
        return path

    def saved(self, document: Document, name: str = "saved") -> Path:
        lrc, toml = document.files()
        path = self.folder / name / "saved.lrc"
        path.parent.mkdir(exist_ok=True)
        path.write_bytes(lrc)
        beside(path).unlink(missing_ok=True)
        if toml is not None:
            beside(path).write_bytes(toml)
        return path

    def check_kind(self, kind: str) -> None:
        read = 0
        for seed in range(SONGS):
            path = self.random_song(kind, seed)
            try:
                song = read_song(path)
            except Refusal:
                continue
            read += 1
            document = open_document(path)
            again = read_song(self.saved(document))
            self.assertEqual(values(again), values(song), path.read_bytes())
            # A document without its files is written again.
            anew = self.saved(Document(document.song, document.rests, document.others))
            self.assertEqual(values(read_song(anew)), values(song), path.read_bytes())
            # Opening and saving a saved document does not change it.
            files = anew.read_bytes(), beside(anew).read_bytes() if beside(anew).exists() else None
            self.assertEqual(open_document(anew).files(), files)
        self.assertGreater(read, SONGS // 3)

    def test_lrc(self) -> None:
        self.check_kind("lrc")

    def test_ass(self) -> None:
        self.check_kind("ass")

    def test_ultrastar(self) -> None:
        self.check_kind("ultrastar")

    def test_subrip(self) -> None:
        self.check_kind("srt")

    def test_webvtt(self) -> None:
        self.check_kind("vtt")

    @needs_mido
    def test_karaoke_midi(self) -> None:
        self.check_kind("kar")

    def test_lrc_that_is_not_edited_is_saved_byte_for_byte(self) -> None:
        for seed in range(SONGS):
            path = self.random_song("lrc", seed)
            try:
                document = open_document(path)
            except Refusal:
                continue
            self.assertEqual(document.files(), (path.read_bytes(), None))

    def test_an_edit_keeps_all_else(self) -> None:
        document = open_document(self.write("a.lrc", RICH))
        self.assertEqual([document.song.singers, document.rests], [["Ann", "Bob"], [17.75]])
        document.song.lines[0].syllables[1].start = 10.35
        document.song.lines[0].syllables[0].end = 10.35
        lrc, toml = document.files()
        self.assertIsNone(toml)
        self.assertEqual(
            lrc.decode(),
            """[ti:A title]
[by:Nobody]
[re:An editor]
[by:Somebody else]
[singer:Ann]
[singer:Bob]
[singer:Ann]
[00:09.75]<00:09.75>One <00:10.35>two <00:10.75>
[00:11.75]A line with one time
[00:13.75]
[singer:Bob]
[00:15.75]<00:15.75>Bob <00:16.15>sings<00:16.75><00:17.25>here<00:17.75>
[00:17.75]
[image:picture.png]
[singer:both]
[00:29.75]All of them
[00:32.75]
[00:39.75]Again and again
[00:49.75]Again and again
[00:54.75]
""",
        )

    def test_a_line_with_two_times_that_is_edited(self) -> None:
        document = open_document(self.write("a.lrc", "[00:01.00][00:05.00]Twice\n[00:09.00]\n"))
        document.song.lines[1].syllables[0].start = 5.5
        again = read_song(self.saved(document))
        self.assertEqual([line.start for line in again.lines], [1.0, 5.5])
        self.assertEqual(values(again), values(document.song))

    def test_words_that_overlap_and_names_that_lrc_cannot_hold(self) -> None:
        words = [Syllable("One ", 1.0, 2.5, 0), Syllable("two\u2028", 2.0, 1 / 3 + 3, 1)]
        song = Song([Line(1, words)], 'A ] \x7f "B"\n', singers=["", "Bob"], tags={"p1": "x", "by": "me"})
        path = self.saved(Document(song))
        self.assertEqual(path.read_text(), "[by:me]\n[00:01.00]<00:01.00>One <00:02.00>two <00:03.33>\n")
        self.assertEqual(values(read_song(path)), values(song))

    def test_what_is_edited_elsewhere_holds(self) -> None:
        song = Song([Line(1, [Syllable(text, at, at + 1 / 3)]) for text, at in (("One", 1.0), ("Two", 3.0))], "A ]")
        path = self.saved(Document(song))
        path.write_text("[ti:New]\n" + path.read_text().replace("Two", "2"))
        again = read_song(path)
        found = [(line.text, line.end) for line in again.lines]
        self.assertEqual((again.title, found), ("New", [("One", 4 / 3), ("2", 3.33)]))
        self.assertEqual(
            [one.partition(": ")[2][:25] for one in again.notes],
            ["the title was changed in ", "a line was changed in the"],
        )

    def test_a_file_beside_lyrics_that_is_none(self) -> None:
        path = self.write("a.lrc", "[00:01.00]One\n")
        line = '[[line]]\nrow = 1\nlrc = "[00:01.00]One"\n'
        for content in (b"\xff", b"x", b"version = 2\n", b"version = 1\nline = 3\n", b"version = 1\ntitle = 1\n",
                        f"version = 1\n{line}starts = [1.0, 2.0]\n".encode(),
                        f"version = 1\n{line}voices = [9]\n".encode(),
                        f"version = 1\n{line}starts = [nan]\n".encode()):  # fmt: skip
            beside(path).write_bytes(content)
            with self.assertRaises(Refusal, msg=content):
                read_song(path)

    @needs_plan
    @needs_program
    @needs_pillow
    @needs_font
    def test_the_file_beside_lyrics_is_no_output(self) -> None:
        path = self.saved(Document(Song([Line(1, [Syllable("One", 5.0, 5.0 + 1 / 3)])])))
        before = beside(path).read_bytes()
        ran = desk("lyrics", path, "-o", beside(path), "--force")
        self.assertEqual((ran.status != 0, beside(path).read_bytes()), (True, before), ran.errors)

    @needs_plan
    @needs_program
    @needs_pillow
    @needs_font
    def test_the_script_is_the_same(self) -> None:
        """The whole script except its first line, which has the name of the lyrics."""
        shutil.copy(SONG / "song.lrc", self.folder / "example.lrc")
        paths = [self.folder / "example.lrc"]
        paths += [self.random_song(kind, 1) for kind in KINDS if kind != "kar"]
        image: Any = importlib.import_module("PIL.Image")
        for path in paths:
            document = open_document(path)
            anew = self.saved(Document(document.song, document.rests, document.others), path.suffix)
            for picture in (one.parent / name for one in (path, anew) for name in ("a.png", "b.png")):
                image.new("RGB", (30, 20), "red").save(picture)
            scripts = [best(read_song(one), Wishes(read_style("night"))).lines[1:] for one in (path, anew)]
            self.assertGreater(len(scripts[0]), 10)
            self.assertEqual(scripts[0], scripts[1], path.name)


class AnySongTest(FolderTest):
    @needs("hypothesis", "python3-hypothesis")
    def test_any_song_is_read_as_it_was_saved(self) -> None:
        """Any letters, any times in order, any voices, names and tags."""
        hypothesis: Any = importlib.import_module("hypothesis")
        some: Any = importlib.import_module("hypothesis.strategies")
        text = some.text(some.characters(blacklist_categories=["Cs"]) | some.sampled_from("[]<>:MFDv1 \n~"), max_size=6)
        sung, time = text.filter(str.strip), some.floats(0.5, 300) | some.integers(50, 30_000).map(
            lambda one: one / 100
        )
        word = some.tuples(sung, time, time, some.integers(0, 4))
        line = some.tuples(some.lists(word, min_size=1, max_size=4), some.booleans(), some.none() | time)
        tags = some.dictionaries(some.sampled_from(["by", "ti", "p1", "offset", "re"]), text, max_size=3)
        songs = some.tuples(some.lists(line, min_size=1, max_size=5), text, text, some.lists(text, max_size=5), tags)

        def check(drawn: Any) -> None:
            lines = []
            for number, (words, is_whole, until) in enumerate(drawn[0], 1):
                starts = sorted(start for _, start, _, _ in words)
                syllables = [
                    Syllable(text, at, max(at, end), voice) for at, (text, _, end, voice) in zip(starts, words)
                ]
                lines.append(Line(number, syllables, is_whole, until=until))
            lines.sort(key=lambda one: one.start)
            song = Song(lines, drawn[1], drawn[2], drawn[3], tags=drawn[4])
            path = self.folder / "any.lrc"
            lrc, toml = Document(song).files()
            path.write_bytes(lrc)
            beside(path).write_bytes(toml or b"version = 1\n")
            self.assertEqual(values(read_song(path, "utf-8")), values(song))

        hypothesis.settings(max_examples=120, deadline=None, database=None)(hypothesis.given(songs)(check))()


class ExportTest(FolderTest):
    """An exported song that is read again has the same words, and its times within the precision of the format."""

    def song(self, seed: int) -> Song:
        dice, now, lines = random.Random(seed), 2.0, list[Line]()
        voices = dice.choice(([0], [0, 1], [0, 1, 4]))
        for number in range(1, dice.randint(3, 9)):
            now += dice.uniform(0.3, 2.0)
            words = []
            for word in range(dice.randint(1, 5)):
                # No two lines are equal, so none is taken as sung by both voices.
                end = now + dice.uniform(0.05, 0.6)
                words.append(
                    Syllable(
                        f"{dice.choice(PLAIN)}{number}{' ' * (word % 2)}", now, end, voices[(number - 1) % len(voices)]
                    )
                )
                now = end + dice.choice((0.0, 0.0, dice.uniform(0.02, 0.5)))
            lines.append(Line(number, words))
        return Song(lines, "The title", "The band", ["Ann", "Bob"] if dice.random() < 0.5 else [])

    def again(self, song: Song, ending: str) -> Song:
        return read_song(self.write(f"again{ending}", EXPORTS[ending](song)))

    def test_words_and_times(self) -> None:
        for seed in range(SONGS):
            for ending in (".ass", ".txt"):
                song = self.song(seed)
                again = self.again(song, ending)
                self.assertEqual(again.title, song.title)
                self.assertEqual(len(again.lines), len(song.lines))
                for line, other in zip(song.lines, again.lines):
                    self.assertEqual([one.text for one in other.syllables], [one.text for one in line.syllables])
                    self.assertEqual([one.voice for one in other.syllables], [one.voice for one in line.syllables])
                    for one, two in zip(line.syllables, other.syllables):
                        self.assertAlmostEqual(one.start, two.start, delta=0.00501)
                        self.assertAlmostEqual(one.end, two.end, delta=0.00501)
                self.assertEqual(song.notes, [])

    def test_lines_of_subrip(self) -> None:
        for seed in range(SONGS):
            song = self.song(seed)
            again = self.again(song, ".srt")
            self.assertEqual([line.text for line in again.lines], [line.text for line in song.lines])
            for line, other in zip(song.lines, again.lines):
                self.assertAlmostEqual(line.start, other.start, delta=0.000501)
                self.assertAlmostEqual(line.end, other.end, delta=0.000501)

    def test_by_hand(self) -> None:
        words = [Syllable("Hel", 61.0, 61.25), Syllable("lo ", 61.25, 61.5), Syllable("you", 62.0, 62.5)]
        song = Song([Line(1, words)], "T", "P")
        dialogue = r"Dialogue: 0,0:01:01.00,0:01:02.50,Default,,0,0,0,,{\k25}Hel{\k25}lo {\k50}{\k50}you"
        self.assertEqual(EXPORTS[".ass"](song).splitlines()[-1], dialogue)
        self.assertEqual(EXPORTS[".srt"](song), "1\n00:01:01,000 --> 00:01:02,500\nHello you\n")
        self.assertEqual(
            EXPORTS[".txt"](song),
            "#TITLE:T\n#ARTIST:P\n#BPM:1500\n#GAP:0\n: 6100 25 0 Hel\n: 6125 25 0 lo \n: 6200 50 0 you\nE\n",
        )

    def test_letters_that_a_format_cannot_hold_are_reported(self) -> None:
        for ending, text, read in (
            (".srt", "a <b>", "a \u2039b\u203a"),
            (".ass", "{a}\\N", "(a)/N"),
            (".txt", "a~", "a\u223c"),
        ):
            song = Song([Line(7, [Syllable(text, 1.0, 2.0)])])
            self.assertEqual(self.again(song, ending).lines[0].text, read)
            self.assertRegex(song.notes[0], "line 7 has letters that")


if __name__ == "__main__":
    unittest.main()
