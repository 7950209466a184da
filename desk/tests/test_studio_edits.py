"""The model of the studio: edits of a score, undo and redo, the journal, and the saved files; without a page."""
import random
import unittest
from pathlib import Path

from fixtures import SONG, FolderTest

from ribjasper.common.failures import Refusal
from ribjasper.songs import hyphens
from ribjasper.songs.document import BESIDE
from ribjasper.songs.edits import BadEdit, Edit, edited
from ribjasper.songs.journal import History, Journal, history_of, read_journal
from ribjasper.songs.scores import Look, Score, ScoreLine, Word, document_for, look_of, score_of_text, split_words
from ribjasper.songs.song_files import open_document
from ribjasper.songs.songs import Song
from ribjasper.songs.studio import Opened, opened_from

TEXT = """First line of words
and a second one

[Chorus]
Third line
"""
RICH = """[ti:A title]
[by:Nobody]
[singer:Ann]
[00:10.00]<00:10.00>One <00:10.50>two <00:11.00>
[00:12.00]A line with one time
[00:16.00]Another
[00:18.00]
[singer:Bob]
[00:20.00]<00:20.00>Bob <00:20.40>sings<00:21.00><00:21.50>here<00:22.00>
[image:picture.png]
[00:30.00]D: All of them
[00:33.00]
"""
WORDS = ["river", "under ", "mor", "ning ", "\u6b4c", "e\u0301a ", "x", "night, "]


def score_of_plain(text: str = TEXT) -> Score:
    return score_of_text(text, Song([]))


def times(line: ScoreLine) -> list[tuple[float | None, float | None]]:
    return [(word.start, word.end) for word in line.words]


def texts(line: ScoreLine) -> list[str]:
    return [word.text for word in line.words]


def line_of(*words: tuple[str, float, float]) -> Score:
    return Score((ScoreLine(1, tuple(Word(*word) for word in words)),))


class TextTest(unittest.TestCase):
    def test_a_text_is_a_song_without_times(self) -> None:
        score = score_of_plain()
        self.assertEqual([line.text for line in score.lines], ["First line of words", "and a second one", "Third line"])
        self.assertEqual([line.new_page for line in score.lines], [False, False, True])
        self.assertEqual(texts(score.lines[0]), ["First ", "line ", "of ", "words"])
        self.assertEqual(score.untimed, [1, 2, 3])

    def test_words_keep_all_letters(self) -> None:
        for text in ("a b", " a  b ", "one", "\u6b4c x", "a\tb"):
            self.assertEqual("".join(split_words(text)), text)
        self.assertEqual(split_words("a b  c"), ["a ", "b  ", "c"])


class TapTest(unittest.TestCase):
    def test_taps_word_by_word(self) -> None:
        score = score_of_plain()
        for word, at in enumerate((1.0, 1.5, 2.0, 2.5)):
            score = edited(score, {"do": "tap", "line": 1, "word": word, "at": at})
        self.assertEqual(times(score.lines[0]), [(1.0, 1.5), (1.5, 2.0), (2.0, 2.5), (2.5, 5.5)])
        score = edited(score, {"do": "tap", "line": 2, "word": 0, "at": 3.25})
        self.assertEqual(times(score.lines[0])[-1], (2.5, 3.25))
        self.assertEqual(score.untimed, [2, 3])

    def test_taps_line_by_line(self) -> None:
        """A line with one time remains until the next line, and is lit with at most twelve letters per second."""
        score = score_of_plain()
        for key, at in ((1, 1.0), (2, 4.0), (3, 30.0)):
            score = edited(score, {"do": "tap", "line": key, "at": at})
        first, second, third = score.lines
        self.assertEqual((first.is_whole, first.start, first.until), (True, 1.0, 4.0))
        self.assertAlmostEqual(first.words[-1].end or 0, 1.0 + 16 / 12, places=3)
        self.assertEqual((second.until, third.start), (second.words[-1].end, 30.0))
        self.assertEqual(score.untimed, [])

    def test_going_back_and_tapping_again(self) -> None:
        score = line_of(("one ", 1.0, 2.0), ("two ", 2.0, 3.0), ("three", 3.0, 4.0))
        for word, at in enumerate((1.5, 3.5, 3.75)):
            score = edited(score, {"do": "tap", "line": 1, "word": word, "at": at})
        self.assertEqual([word.start for word in score.lines[0].words], [1.5, 3.5, 3.75])

    def test_a_line_ends(self) -> None:
        score = edited(score_of_plain(), {"do": "tap", "line": 1, "at": 2.0})
        score = edited(score, {"do": "end", "line": 1, "word": 0, "at": 3.5})
        self.assertEqual((score.lines[0].words[0].end, score.lines[0].until), (3.5, None))
        with self.assertRaises(BadEdit):
            edited(score, {"do": "end", "line": 2, "word": 0, "at": 3.5})


class MoveTest(unittest.TestCase):
    def setUp(self) -> None:
        self.score = line_of(("one ", 1.0, 2.0), ("two ", 2.0, 3.0), ("three", 3.5, 4.0))

    def test_a_word_gives_way_to_none(self) -> None:
        made = edited(self.score, {"do": "move", "words": [[1, 1]], "by": 5.0})
        self.assertEqual(times(made.lines[0]), [(1.0, 3.5), (3.5, 3.5), (3.5, 4.0)])
        made = edited(self.score, {"do": "move", "words": [[1, 1]], "by": -0.25})
        self.assertEqual(times(made.lines[0]), [(1.0, 1.75), (1.75, 2.75), (3.5, 4.0)])

    def test_lines_and_everything_from_here_on(self) -> None:
        made = edited(self.score, {"do": "move", "lines": [1], "by": -3})
        self.assertEqual(times(made.lines[0]), [(0.0, 1.0), (1.0, 2.0), (2.5, 3.0)])
        score = Score((*self.score.lines, ScoreLine(2, (Word("later", 9.0, 9.5),))), rests=(0.5, 6.0))
        made = edited(score, {"do": "move", "from": 3.5, "by": 0.5})
        self.assertEqual(times(made.lines[0]), [(1.0, 2.0), (2.0, 3.0), (4.0, 4.5)])
        self.assertEqual((times(made.lines[1]), made.rests), ([(9.5, 10.0)], (0.5, 6.5)))


class WordsTest(unittest.TestCase):
    def test_new_words_share_the_time_of_old_ones(self) -> None:
        score = line_of(("one ", 1.0, 2.0), ("morning ", 2.0, 3.0), ("three", 3.0, 4.0))
        made = edited(score, {"do": "text", "line": 1, "texts": ["one ", "mor", "ning ", "three"]})
        self.assertEqual(texts(made.lines[0]), ["one ", "mor", "ning ", "three"])
        self.assertEqual(times(made.lines[0])[0], (1.0, 2.0))
        self.assertEqual(times(made.lines[0])[3], (3.0, 4.0))
        self.assertEqual((made.lines[0].words[1].start, made.lines[0].words[2].end), (2.0, 3.0))
        self.assertAlmostEqual(made.lines[0].words[1].end or 0, 2 + 3 / 7, places=3)

    def test_lines_are_cut_and_joined(self) -> None:
        score = line_of(("one ", 1.0, 2.0), ("two", 2.0, 3.0))
        made = edited(score, {"do": "cut", "line": 1, "word": 1})
        self.assertEqual([(line.text, line.start) for line in made.lines], [("one", 1.0), ("two", 2.0)])
        self.assertEqual(edited(made, {"do": "glue", "line": 1}).lines[0].words, score.lines[0].words)
        edits: list[Edit] = [
            {"do": "cut", "line": 1, "word": 0},
            {"do": "glue", "line": 1},
            {"do": "remove", "lines": [1]},
        ]
        for edit in edits:
            with self.assertRaises(BadEdit):
                edited(score, edit)

    def test_only_files_of_the_folder_are_named(self) -> None:
        score = score_of_plain()
        for name in ("../a.png", "/etc/passwd", "a\\b.png", "..", "a\0"):
            looks: list[Edit] = [{"do": "look", "look": {key: name}} for key in ("title", "style")]
            for edit in [*looks, {"do": "picture", "what": name, "at": 1}]:
                with self.assertRaises(BadEdit):
                    edited(score, edit)
        made = edited(score, {"do": "look", "look": {"title": "a.png", "rows": 5}})
        self.assertEqual(made.look, Look(title="a.png", rows=5))
        self.assertEqual(look_of(made.look.table()), made.look)
        self.assertEqual(edited(made, {"do": "look", "look": {"rows": None, "title": None}}), score)

    def test_a_look_that_does_not_fit(self) -> None:
        bad = {
            "rows": 7,
            "size": "x",
            "lead": -1,
            "between": ["/x"],
            "title": "../x",
            "style": 3,
            "sweep": 1,
            "other": 2,
        }
        self.assertEqual(look_of(bad), Look())
        for name, value in bad.items():
            with self.subTest(name=name), self.assertRaises(BadEdit):
                edited(score_of_plain(), {"do": "look", "look": {name: value}})

    def test_what_is_no_edit_is_refused(self) -> None:
        score = score_of_plain()
        edits: list[Edit] = [{}, {"do": "x"}, {"do": "tap"}, {"do": "tap", "line": 9, "at": 1}, {"do": "tap", "line": 1, "at": "1"},
                     {"do": "tap", "line": True, "at": 1}, {"do": "tap", "line": 1, "word": 9, "at": 1},
                     {"do": "tap", "line": 1, "at": float("nan")}, {"do": "voice", "lines": [1], "voice": 7},
                     {"do": "text", "line": 1, "texts": [" "]}, {"do": "text", "line": 1, "texts": 3},
                     {"do": "move", "words": [[1]], "by": 1}, {"do": "head", "title": 5}]  # fmt: skip
        for edit in edits:
            with self.subTest(edit=edit), self.assertRaises(BadEdit):
                edited(score, edit)

    @unittest.skipUnless("en_US" in hyphens.languages(), "python3-pyphen or hyphen-en-us is not installed")
    def test_syllables_are_proposed(self) -> None:
        self.assertEqual(hyphens.syllables_of("morning light", "en_US"), ["morn", "ing ", "light"])

    def test_edits_that_are_undone_together(self) -> None:
        history = History(score_of_plain())
        edits: list[Edit] = [{"do": "tap", "line": 1, "at": 1.0}, {"do": "tap", "line": 2, "at": 2.0}]
        history.do({"do": "several", "edits": edits})
        self.assertEqual(history.score.untimed, [3])
        self.assertEqual(history.undo(), score_of_plain())
        for bad in ([*edits, {"do": "tap", "line": 9, "at": 1.0}], [{"do": "several", "edits": []}], 3):
            with self.assertRaises(BadEdit):
                history.do({"do": "several", "edits": bad})

    def test_syllables_without_a_dictionary(self) -> None:
        self.assertEqual(hyphens.syllables_of("morning light", "xx_XX"), ["morning ", "light"])


class Dice(random.Random):
    """Random edits of a score."""

    def edit(self, score: Score) -> Edit:
        line = self.choice(score.lines)
        word, at = self.randrange(len(line.words)), round(self.uniform(0, 60), 2)
        by = round(self.uniform(-5, 5), 2)
        some = [one.key for one in self.sample(score.lines, self.randint(1, min(3, len(score.lines))))]
        return self.choice(
            [
                {"do": "tap", "line": line.key, "word": word, "at": at},
                {"do": "tap", "line": line.key, "at": at},
                {"do": "start", "line": line.key, "word": word, "at": at},
                {"do": "end", "line": line.key, "word": word, "at": at},
                {"do": "move", "lines": some, "by": by},
                {"do": "move", "words": [[line.key, word]], "by": by},
                {"do": "move", "from": at, "by": by},
                {"do": "clear", "lines": some},
                {"do": "text", "line": line.key, "texts": self.choices(WORDS, k=self.randint(1, 5))},
                {"do": "add", "after": self.choice([None, line.key]), "text": "".join(self.choices(WORDS, k=3))},
                {"do": "remove", "lines": some[:1]},
                {"do": "cut", "line": line.key, "word": word},
                {"do": "glue", "line": line.key},
                {"do": "voice", "lines": some, "voice": self.randint(0, 4)},
                {"do": "page", "line": line.key, "page": self.random() < 0.5},
                {"do": "head", "title": self.choice(WORDS), "singers": ["Ann", "Bob"]},
                {"do": "look", "look": {"rows": self.choice([None, 3, 5]), "sweep": True}},
                {"do": "picture", "what": "a.png", "at": at},
                {"do": "unpicture", "place": 0},
            ]
        )


class HistoryTest(FolderTest):
    def opened(self, name: str, content: str) -> Opened:
        path = self.write(name, content)
        return opened_from(path, path.read_bytes(), None, None)

    def check_times(self, score: Score) -> None:
        for line in score.lines:
            found = [word for word in line.words if word.start is not None]
            self.assertEqual(found, list(line.words[: len(found)]))
            starts = [word.start or 0.0 for word in found]
            self.assertEqual(starts, sorted(starts))
            for word in found:
                assert word.start is not None and word.end is not None
                self.assertLessEqual(0, word.start)
                self.assertLessEqual(word.start, word.end)
        self.assertEqual(len({line.key for line in score.lines}), len(score.lines))

    def check_edits(self, opened: Opened, count: int, seed: int) -> History:
        dice, history = Dice(seed), History(opened.score)
        done = 0
        while done < count:
            chance = dice.random()
            if chance < 0.08:
                history.undo()
            elif chance < 0.12:
                history.redo()
            else:
                try:
                    history.do(dice.edit(history.score))
                except BadEdit:
                    continue
            done += 1
            self.check_times(history.score)
        return history

    def test_a_thousand_edits(self) -> None:
        """Times stay in order, undoing all edits restores the first file byte for byte, and redoing them the last
        score."""
        for seed, (name, content) in enumerate((("a.lrc", RICH), ("b.txt", TEXT))):
            opened = self.opened(name, content)
            history = self.check_edits(opened, 1_000, seed)
            self.assertGreater(len(history.edits), 200)
            last = history.go(len(history.edits))
            while history.at:
                history.undo()
            self.assertEqual(history.score, opened.score)
            if name.endswith(".lrc"):
                files = document_for(history.score, opened.document, opened.score).files()
                self.assertEqual(files, (content.encode(), None))
            while history.at < len(history.edits):
                history.redo()
            self.assertIs(history.score, last)

    def test_what_is_saved_is_what_was_edited(self) -> None:
        """An edited song that is saved and opened again has the same score, except for the keys of its lines."""
        opened, dice = self.opened("a.lrc", RICH), Dice(5)
        history, saved = History(opened.score), 0
        for _ in range(150):
            try:
                history.do(dice.edit(history.score))
            except BadEdit:
                continue
            if history.score.untimed:
                history.undo()
                continue
            lrc, toml = document_for(history.score, opened.document, opened.score).files()
            self.write("c.lrc", lrc)
            (self.folder / f"c{BESIDE}").unlink(missing_ok=True)
            if toml is not None:
                self.write(f"c{BESIDE}", toml)
            again = opened_from(self.folder / "c.lrc", lrc, toml, None).score
            ordered = sorted(history.score.lines, key=lambda line: line.start or 0.0)
            self.assertEqual([line.words for line in again.lines], [line.words for line in ordered])
            self.assertEqual([line.new_page for line in again.lines], [line.new_page for line in ordered])
            self.assertEqual((again.title, again.singers), (history.score.title, history.score.singers))
            self.assertEqual(again.look, history.score.look)
            saved += 1
        self.assertGreater(saved, 20)

    def test_the_journal_restores_a_history(self) -> None:
        opened = self.opened("a.lrc", RICH)
        history = self.check_edits(opened, 100, 3)
        history.go(len(history.edits) - 2)
        journal = Journal(RICH.encode(), None, history.edits, history.at)
        found = read_journal(Path("a"), journal.content())
        self.assertEqual(found, journal)
        again = history_of(Path("a"), opened.score, found)
        self.assertEqual((again.score, again.at, again.edits), (history.score, history.at, history.edits))
        self.assertEqual(again.redo(), history.redo())

    def test_what_is_no_journal_is_refused(self) -> None:
        journal = Journal(RICH.encode(), None, [{"do": "remove", "lines": [1]}], 1)
        rows = journal.content().decode().splitlines()
        score = self.opened("a.lrc", RICH).score
        for bad in (
            "",
            "{}",
            "\n".join(rows[:1]),
            "\n".join(["[]", *rows[1:]]),
            rows[0].replace(": 1", ": 2") + "\n" + rows[-1],
        ):
            with self.subTest(bad=bad[:60]), self.assertRaises(Refusal):
                read_journal(Path("a"), bad.encode())
        with self.assertRaises(Refusal):
            history_of(Path("a"), score, Journal(b"", None, [{"do": "remove", "lines": [99]}], 1))

    def test_page_breaks_and_looks_are_saved(self) -> None:
        opened = self.opened("a.lrc", RICH)
        made = edited(
            edited(opened.score, {"do": "page", "line": 2, "page": True}), {"do": "look", "look": {"rows": 3}}
        )
        lrc, toml = document_for(made, opened.document, opened.score).files()
        assert toml
        self.assertIn(b"page = true", toml)
        self.write("c.lrc", lrc)
        self.write(f"c{BESIDE}", toml)
        document = open_document(self.folder / "c.lrc")
        self.assertEqual([line.new_page for line in document.song.lines], [False, True, False, False, False])
        self.assertEqual(document.look, {"rows": 3})
        self.assertEqual(document.files(), (lrc, toml))

    def test_every_example_is_saved_as_it_was(self) -> None:
        for path in sorted(SONG.parent.glob("*/*.lrc")):
            content = path.read_bytes()
            opened = opened_from(path, content, None, None)
            self.assertEqual(document_for(opened.score, opened.document, opened.score).files()[0], content)


if __name__ == "__main__":
    unittest.main()
