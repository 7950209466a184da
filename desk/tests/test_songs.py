"""Lyrics of all formats and encodings are read, and all their errors are reported together."""
import random
import struct
import sys
import unittest
from unittest import mock

from fixtures import FolderTest, needs
from languages import CORPORA

from ribjasper.common.failures import Refusal
from ribjasper.songs.song_files import read_song
from ribjasper.songs.songs import BOTH, FIRST, FOURTH, SECOND, THIRD, Song

ASS = """[Script Info]
Title: Two lines
[V4+ Styles]
Format: Name, Fontname
Style: Default,Arial
[Events]
Format: Layer, Start, End, Style, Name, MarginL, MarginR, MarginV, Effect, Text
Comment: 0,0:00:01.00,0:00:09.00,Default,,0,0,0,,{\\k50}not {\\k50}sung
Dialogue: 0,0:00:05.00,0:00:08.00,Default,,0,0,0,,{\\k50}One, {\\kf70}two{\\K30}fold, {\\k20}{\\an8\\k100}three
Dialogue: 0,0:00:06.00,0:00:07.00,Default,,0,0,0,,{\\p1}m 0 0 l 9 9{\\p0}
Dialogue: 0,0:00:10.50,0:00:12.00,Default,,0,0,0,,plain\\hline\\Nand, with commas, another
"""
DUET = """[Events]
Format: Layer, Start, End, Style, Name, MarginL, MarginR, MarginV, Effect, Text
Dialogue: 0,0:00:01.00,0:00:02.00,Anna,,0,0,0,,{\\k50}I {\\k50}sing
Dialogue: 0,0:00:03.00,0:00:04.00,Ben,,0,0,0,,{\\k50}I {\\k50}too
Dialogue: 0,0:00:05.00,0:00:06.00,Both,,0,0,0,,{\\k50}We {\\k50}all
"""
TEMPLATER = """[Events]
Format: Layer, Start, End, Style, Name, MarginL, MarginR, MarginV, Effect, Text
Comment: 0,0:00:00.00,0:00:00.00,Default,,0,0,0,template syl,{\\pos($x,$y)\\k99}
Comment: 0,0:00:00.00,0:00:00.00,Default,,0,0,0,code once,k = 1
Comment: 0,0:00:05.00,0:00:08.00,Default,,0,0,0,karaoke,{\\k50}Sa{\\k30}ku|<ku{\\k40}ra {\\k60\\-high}sky
Comment: 0,0:00:01.00,0:00:02.00,Default,,0,0,0,,{\\k50}an old line
Dialogue: 0,0:00:04.80,0:00:05.50,Default,,0,0,0,fx,{\\pos(1,2)}Sa
Dialogue: 0,0:00:05.30,0:00:05.80,Default,,0,0,0,fx,{\\pos(1,2)}ku
"""
ULTRASTAR = """#TITLE:Stars
#ARTIST:Somebody
#BPM:150
#GAP:2000
: 0 4 60 Twin
: 4 4 60 kle
: 8 4 67  twin
* 12 4 67 kle
- 18
: 20 4 69 lit
: 24 8 69 tle
: 32 8 69 ~
F 40 4 69  star
E
"""
PLAYERS = """#TITLE:Two
#BPM:150
#GAP:1000
#P1:Anna
#P2:Ben
P1
: 0 4 60 I
- 6
: 20 4 60 We
E
"""


def words(song: Song) -> list[list[tuple[str, float]]]:
    return [[(syllable.text, round(syllable.start, 2)) for syllable in line.syllables] for line in song.lines]


def voices(song: Song) -> list[int]:
    return [line.voice for line in song.lines]


class SongTest(FolderTest):
    def song(self, text: str | bytes, name: str = "a.lrc") -> Song:
        return read_song(self.write(name, text))

    def refused(self, text: str | bytes, name: str = "a.lrc") -> str:
        with self.assertRaises(Refusal) as refused:
            self.song(text, name)
        return str(refused.exception)


class LrcTest(SongTest):
    def test_lines_with_times(self) -> None:
        song = self.song(
            "[ti:A song]\n[ar: Somebody ]\n[00:05.50]First line\n[00:10]Second\n[00:12.5]\n" "[01:00.00]Third\n"
        )
        self.assertEqual((song.title, song.performer), ("A song", "Somebody"))
        self.assertEqual(words(song), [[("First line", 5.5)], [("Second", 10)], [("Third", 60)]])
        # A line without an end time is lit with at least twelve letters per second, and remains until the next line.
        self.assertEqual([line.end for line in song.lines], [6.5, 12.5, 61])
        self.assertEqual([line.stays for line in song.lines], [10, 12.5, 61])
        self.assertEqual([line.is_open for line in song.lines], [True, False, True])
        self.assertEqual([line.is_whole for line in song.lines], [True] * 3)

    def test_words_with_times(self) -> None:
        song = self.song("[00:05.00]<00:05.10>One <00:05.60>two<00:05.90>fold <00:06.40>\n[00:09.00]So <00:09.50>on\n")
        self.assertEqual(words(song), [[("One ", 5.1), ("two", 5.6), ("fold ", 5.9)], [("So ", 9), ("on", 9.5)]])
        self.assertEqual([line.end for line in song.lines], [6.4, 12.5])
        self.assertEqual([line.is_whole for line in song.lines], [False] * 2)

    def test_a_line_that_comes_twice(self) -> None:
        song = self.song("[00:05.00][00:25.00]<00:05.00>La <00:06.00>la\n[00:10.00]Other\n")
        self.assertEqual(words(song), [[("La ", 5), ("la", 6)], [("Other", 10)], [("La ", 25), ("la", 26)]])
        self.assertEqual(song.notes, [])

    def test_offset_makes_earlier(self) -> None:
        self.assertEqual(words(self.song("[offset:+500]\n[00:05.00]La\n")), [[("La", 4.5)]])
        self.assertEqual(words(self.song("[offset:-500]\n[00:05.00]La\n")), [[("La", 5.5)]])

    def test_what_has_no_time_is_reported(self) -> None:
        song = self.song("A title\n[00:05.00]La\n")
        self.assertEqual(len(song.notes), 1)
        self.assertIn("line 1 has no time", song.notes[0])

    def test_marks_of_voices_are_not_shown(self) -> None:
        song = self.song(
            "[00:01.00]Before\n[00:05.00]F: She\n[00:06.00]still she\n[00:07.00]M:He\n"
            "[00:08.00]<00:08.00>D: <00:08.50>We\n[00:09.00]A: no mark\n"
        )
        self.assertEqual([line.text for line in song.lines], ["Before", "She", "still she", "He", "We", "A: no mark"])
        self.assertEqual(voices(song), [FIRST, SECOND, SECOND, FIRST, BOTH, BOTH])

    def test_singers_by_name(self) -> None:
        song = self.song(
            "[singer:Anna]\n[00:01.00]a\n[singer:Ben]\n[00:02.00]b\n[singer:Anna & Ben]\n[00:03.00]c\n"
            "[singer:Anna]\n[00:04.00]d\n[singer:Ann]\n[00:05.00]e\n[singer:Dora]\n[00:06.00]f\n[singer:Eva]\n"
            "[00:07.00]g\n[singer:Annabell]\n[00:08.00]h\n"
        )
        self.assertEqual(song.singers, ["Anna", "Ben", "Ann", "Dora", "Eva", "Annabell"])
        self.assertEqual(voices(song), [FIRST, SECOND, BOTH, FIRST, THIRD, FOURTH, FOURTH, FOURTH])
        self.assertEqual(song.voices, 4)
        self.assertEqual(len(song.notes), 1)
        self.assertIn("line 13 has a fifth singer, Eva", song.notes[0])

    def test_four_voices_by_their_marks(self) -> None:
        song = self.song("[00:01.00]v1: a\n[00:02.00]v2:b\n[00:03.00]v3: c\n[00:04.00]v4: d\n[00:05.00]D: e\n")
        self.assertEqual(voices(song), [FIRST, SECOND, THIRD, FOURTH, BOTH])
        self.assertEqual([line.text for line in song.lines], list("abcde"))

    def test_times_of_words_in_square_brackets(self) -> None:
        song = self.song(
            "[00:06.00]Down[00:06.50] by [00:07.00]the[00:07.80]\n[00:09.00][00:29.00]Riv[00:09.40]er [00:10.00]side\n"
        )
        self.assertEqual(
            words(song),
            [
                [("Down", 6), (" by ", 6.5), ("the", 7)],
                [("Riv", 9), ("er ", 9.4), ("side", 10)],
                [("Riv", 29), ("er ", 29.4), ("side", 30)],
            ],
        )
        self.assertEqual(song.lines[0].end, 7.8)
        for line in song.lines:
            self.assertNotIn("[", line.text)
            self.assertFalse(line.is_whole)

    def test_a_line_is_swept_over_as_fast_as_its_letters(self) -> None:
        song = self.song(
            "[00:05.00]Twenty four letters, a line\n[00:30.00]La\n[00:31.00]\u65e5\u672c\u8a9e\u306e\u6b4c\n"
        )
        first, second, third = song.lines
        letters = len("Twentyfourletters,aline")
        self.assertAlmostEqual(first.end - first.start, letters / 12)
        self.assertAlmostEqual(first.stays, first.end)
        self.assertEqual((second.end, second.stays), (31, 31))
        # A character for a whole syllable counts as three letters.
        self.assertAlmostEqual(third.end - third.start, 5 * 3 / 12)

    def test_pictures_between_verses(self) -> None:
        song = self.song(
            "[00:05.00]La\n[image: a b.png]\n[00:30.00]Lo\n[00:45.00][colour:#08F]\n[00:50.00]Lu\n[re:x]\n"
        )
        self.assertEqual(
            [(one.number, one.what, one.start, one.after) for one in song.inserts],
            [(2, "a b.png", None, 5.0), (4, "#08F", 45.0, 30.0)],
        )
        self.assertEqual([line.text for line in song.lines], ["La", "Lo", "Lu"])
        self.assertEqual(song.tags, {"re": "x"})

    def test_times_before_the_audio(self) -> None:
        song = self.song("[offset:+2000]\n[00:00.00]Heading\n[00:01.00]Gone\n[00:01.50]Half\n[00:05.00]La\n")
        self.assertEqual(words(song), [[("Half", 0)], [("La", 3)]])
        self.assertEqual([line.stays for line in song.lines][:1], [3])
        notes = "\n".join(song.notes)
        self.assertIn("line 2 at [00:00.00] would be sung before the audio begins, and is omitted: Heading", notes)
        self.assertIn("line 4 at [00:01.50] would begin 0.50 seconds before the audio", notes)

    def test_order_is_reported_with_the_times_as_they_are_written(self) -> None:
        song = self.song("[00:05.00]One\n[0:03.0]Two\n[00:05.00]Three\n[00:05.00]Four\n")
        self.assertEqual([line.text for line in song.lines], ["Two", "One", "Three", "Four"])
        self.assertEqual(len(song.notes), 2)
        self.assertIn("line 2 is at [0:03.0], before line 1 at [00:05.00]", song.notes[0])
        self.assertIn("line 4 is at the same time as line 3, [00:05.00]", song.notes[1])

    def test_refusals(self) -> None:
        self.assertIn("no line has a time", self.refused("La\n"))
        errors = self.refused("[offset:x]\n[00:01.00]<00:02.00>a <00:01.00>b\n[00:05.00]<00:06.00>La <00:05.50>la\n")
        self.assertIn("line 1: the offset x", errors)
        self.assertIn("line 2: a word begins before the word in front of it", errors)
        self.assertIn("line 3: a word begins before the word in front of it", errors)


class LettersTest(SongTest):
    def test_other_letters(self) -> None:
        text = "[00:05.00]\u00dcber \u2019n See\n"
        for encoding, note in (
            ("utf-8", ""),
            ("utf-8-sig", ""),
            ("utf-16", "UTF-16"),
            ("utf-16-le", "UTF-16"),
            ("utf-16-be", "UTF-16"),
            ("cp1252", "Windows-1252, a guess"),
        ):
            song = self.song(text.encode(encoding))
            self.assertEqual(song.lines[0].text, "\u00dcber \u2019n See", encoding)
            self.assertIn(note, "".join(song.notes))
            self.assertEqual(bool(song.notes), bool(note))
        errors = self.refused(b"[00:01.00]a\n[00:05.00]\x81ber\n")
        self.assertIn("is not UTF-8 (line 2, byte 22), and its encoding cannot be guessed; --encoding names it", errors)

    def test_an_encoding_that_is_asked_for(self) -> None:
        for name in ("cp1251", "koi8-r", "utf-16", "shift_jis", "mac-cyrillic"):
            path = self.write("a.lrc", "[00:05.00]\u0420\u0435\u043a\u0430\n".encode(name))
            song = read_song(path, name)
            self.assertEqual((song.lines[0].text, song.notes), ("\u0420\u0435\u043a\u0430", []))
        with self.assertRaises(Refusal) as refused:
            read_song(self.write("a.lrc", b"[00:01.00]a\n[00:05.00]\xff\n"), "shift_jis")
        self.assertIn("is not encoded as shift_jis: line 2, byte 22", str(refused.exception))

    @needs("chardet", "python3-chardet")
    def test_guesses_of_encodings(self) -> None:
        """Songs of random lines in many languages, each in the encoding of old programs."""
        dice, seen = random.Random(3), 0
        for language, (encodings, lines) in CORPORA.items():
            for encoding in encodings:
                for _ in range(12):
                    some = dice.sample(lines, dice.randint(3, len(lines)))
                    text = "".join(f"[00:{5 + 3 * number:02}.00]{line}\n" for number, line in enumerate(some))
                    content = text.encode(encoding)
                    if not content.isascii():
                        song, seen = self.song(content), seen + 1
                        self.assertEqual([line.text for line in song.lines], some, (language, encoding))
                        self.assertIn("a guess; --encoding names another encoding", song.notes[0])
        self.assertGreater(seen, 200)

    def test_without_a_detector_letters_of_no_known_alphabet_are_refused(self) -> None:
        with mock.patch.dict(sys.modules, {"chardet": None, "charset_normalizer": None}):
            text = "[00:05.00]\u0412\u043e \u043f\u043e\u043b\u0435 \u0431\u0435\u0440\u0451\u0437\u0430\n"
            self.assertIn("cannot be guessed; --encoding names it", self.refused(text.encode("cp1251")))
            self.assertEqual(self.song("[00:05.00]\u00dcber\n".encode("cp1252")).lines[0].text, "\u00dcber")
            self.assertEqual(
                self.song("[00:05.00]\u017b\u00f3\u0142w\n".encode("cp1250")).lines[0].text, "\u017b\u00f3\u0142w"
            )

    def test_ends_of_lines(self) -> None:
        for end in ("\r\n", "\r"):
            self.assertEqual(words(self.song(f"[00:05.00]La{end}[00:06.00]Lo{end}")), [[("La", 5)], [("Lo", 6)]])


class AssTest(SongTest):
    def test_events(self) -> None:
        song = self.song(ASS, "a.ass")
        self.assertEqual(song.title, "Two lines")
        self.assertEqual(
            words(song),
            [
                [("One, ", 5), ("two", 5.5), ("fold, ", 6.2), ("three", 6.7)],
                [("plain line", 10.5)],
                [("and, with commas, another", 10.5)],
            ],
        )
        self.assertEqual(voices(song), [FIRST] * 3)
        self.assertEqual([line.is_whole for line in song.lines], [False, True, True])

    def test_styles_and_names_are_voices(self) -> None:
        song = self.song(DUET, "a.ass")
        self.assertEqual((song.singers, voices(song)), (["Anna", "Ben"], [FIRST, SECOND, BOTH]))
        song = self.song(DUET.replace("Anna,,", "Default,Eva,").replace("Ben,,", "Default,Adam,"), "a.ass")
        self.assertEqual(song.singers[:2], ["Eva", "Adam"])

    def test_all_faults_at_once(self) -> None:
        errors = self.refused(ASS.replace("0:00:05.00", "5 seconds").replace("0:00:12.00", "0:x"), "a.ass")
        self.assertIn("line 9: 5 seconds is not a time", errors)
        self.assertIn("line 11: 0:x is not a time", errors)

    def test_what_the_templater_reads_and_makes(self) -> None:
        song = self.song(TEMPLATER, "a.ass")
        self.assertEqual(words(song), [[("Sa", 5), ("ku", 5.5), ("ra ", 5.8), ("sky", 6.2)]])
        # Without the comments, only the output of the templater is missing.
        plain = "".join(f"{line}\n" for line in TEMPLATER.splitlines() if "Comment" not in line)
        song = self.song(plain + "Dialogue: 0,0:00:09.00,0:00:10.00,Default,,0,0,0,,Plain\n", "a.ass")
        self.assertEqual(words(song), [[("Plain", 9)]])


class UltraStarTest(SongTest):
    def test_changes_of_tempo(self) -> None:
        song = self.song(
            "#BPM:150\n#GAP:1000\n: 0 8 60 a\nB 16 300\n: 12 8 60 b\n- 24\nB 32 75\n: 36 4 60 c\nE\n", "a.txt"
        )
        # A tenth of a second per beat, then half of that, then two tenths.
        found = [[(round(one.start, 3), round(one.end, 3)) for one in line.syllables] for line in song.lines]
        self.assertEqual(found, [[(1.0, 1.8), (2.2, 2.8)], [(4.2, 5.0)]])
        self.assertEqual(song.notes, [])
        self.assertIn("line 2: the tempo 0 is not a number", self.refused("#BPM:150\nB 16 0\n: 0 4 60 a\nE\n", "a.txt"))

    def test_notes(self) -> None:
        song = self.song(ULTRASTAR, "a.txt")
        self.assertEqual((song.title, song.performer), ("Stars", "Somebody"))
        # 150 beats per minute, four of the file's beats for each: a tenth of a second.
        self.assertEqual(
            words(song),
            [[("Twin", 2), ("kle", 2.4), (" twin", 2.8), ("kle", 3.2)], [("lit", 4), ("tle", 4.4), (" star", 6)]],
        )
        self.assertEqual([round(line.end, 2) for line in song.lines], [3.6, 6.4])
        self.assertEqual(round(song.lines[1].syllables[1].end, 2), 6)

    def test_relative_beats(self) -> None:
        song = self.song(
            "#BPM:150,0\n#GAP:0\n#RELATIVE:YES\n: 0 4 1 a\n- 10 12\n: 0 4 1 b\n- 8 8\n: 2 4 1 c\n", "a.txt"
        )
        self.assertEqual([round(line.start, 2) for line in song.lines], [0, 1.2, 2.2])

    def test_two_players(self) -> None:
        song = self.song(PLAYERS.replace("E\n", "") + "P2\n: 10 4 60 You\n- 16\n: 20 4 60 We\nE\n", "a.txt")
        self.assertEqual([line.text for line in song.lines], ["I", "You", "We"])
        self.assertEqual((song.singers, voices(song)), (["Anna", "Ben"], [FIRST, SECOND, BOTH]))

    def test_faults(self) -> None:
        self.assertIn("line 1: a note comes before a line #BPM", self.refused(": 0 4 1 a\n", "a.txt"))
        errors = self.refused("#BPM:fast\n#GAP:soon\n: 0 4 1 a\n", "a.txt")
        self.assertIn("line 1: #BPM is fast", errors)
        self.assertIn("line 2: #GAP is soon", errors)


WEB_VTT = """WEBVTT - A song

STYLE
::cue { color: red }

NOTE
00:00:01.000 --> 00:00:02.000
not sung

first
00:05.500 --> 00:09.500 align:start
<v Anna><i>Four</i> &amp; more</v>
<v.loud Ben>fold

00:01:00.000 --> 00:01:02.000
One <00:01:00.500><c>two</c><00:01:01.250>fold
<00:01:01.500>three
"""


class VttTest(SongTest):
    def test_cues(self) -> None:
        song = self.song(WEB_VTT, "a.vtt")
        self.assertEqual(
            words(song),
            [
                [("Four & more", 5.5)],
                [("fold", 8.43)],
                [("One ", 60), ("two", 60.5), ("fold", 61.25)],
                [("three", 61.5)],
            ],
        )
        self.assertEqual([round(line.end, 2) for line in song.lines], [8.43, 9.5, 61.5, 62])
        self.assertEqual((song.singers, voices(song)), (["Anna", "Ben"], [FIRST, SECOND, FIRST, FIRST]))
        self.assertEqual([line.is_whole for line in song.lines], [True, True, False, False])

    def test_faults(self) -> None:
        errors = self.refused("WEBVTT\n\n00:05.5 -> 00:06\na\n\n0:5 --> 0:7\nb\n", "a.vtt")
        self.assertIn("line 6: 0:5 --> 0:7 is not a time", errors)


class SrtTest(SongTest):
    def test_stretches(self) -> None:
        song = self.song(
            "1\n00:00:05,500 --> 00:00:09,500\n<i>Four</i>\n{\\an8}fold\n\n2\n00:01:00,000 --> 00:01:02,000\n" "Last\n",
            "a.srt",
        )
        self.assertEqual(words(song), [[("Four", 5.5)], [("fold", 7.5)], [("Last", 60)]])
        self.assertEqual([line.end for line in song.lines], [7.5, 9.5, 62])
        self.assertEqual([line.number for line in song.lines], [3, 4, 8])

    def test_faults(self) -> None:
        errors = self.refused("1\n00:00:05,500 --> 00:00:09,500\na\n\n2\n0:5 --> 0:7\nb\n\n3\nx --> y\nc\n", "a.srt")
        self.assertIn("line 6: 0:5 --> 0:7 is not a time", errors)
        self.assertIn("line 10: x --> y is not a time", errors)


def variable(number: int) -> bytes:
    """A number in a MIDI file, with seven bits per byte."""
    digits = [number & 127]
    while number := number >> 7:
        digits.append(number & 127 | 128)
    return bytes(reversed(digits))


def midi(*events: tuple[int, int, bytes], division: int = 480) -> bytes:
    """A MIDI file with one track: meta events, with the ticks since the previous event."""
    track = b"".join(
        variable(ticks) + b"\xff" + bytes([kind]) + variable(len(text)) + text for ticks, kind, text in events
    )
    track += b"\0\xff\x2f\0"
    return b"MThd" + struct.pack(">IHHH", 6, 0, 1, division) + b"MTrk" + struct.pack(">I", len(track)) + track


@needs("mido", "python3-mido")
class KarTest(SongTest):
    # Half a second per beat, and then a quarter.
    SLOW, FAST = (500_000).to_bytes(3, "big"), (250_000).to_bytes(3, "big")

    def test_texts(self) -> None:
        song = self.song(
            midi(
                (0, 0x51, self.SLOW),
                (0, 1, b"@TA title"),
                (0, 1, b"@TSomebody"),
                (960, 1, b"\\Gr\xfcn"),
                (480, 1, b" ist"),
                (0, 0x51, self.FAST),
                (480, 1, b"/weit"),
            ),
            "a.kar",
        )
        self.assertEqual((song.title, song.performer), ("A title", "Somebody"))
        self.assertEqual(words(song), [[("Gr\u00fcn", 1), (" ist", 1.5)], [("weit", 1.75)]])
        self.assertEqual(song.lines[0].end, 1.75)

    def test_lyrics(self) -> None:
        song = self.song(midi((0, 0x51, self.SLOW), (480, 5, b"One "), (480, 5, b"two\r"), (480, 5, b"three")), "a.mid")
        self.assertEqual(words(song), [[("One ", 0.5), ("two", 1)], [("three", 1.5)]])

    def test_refusals(self) -> None:
        whole = midi((0, 0x51, self.SLOW), (480, 5, b"One"))
        for size in (6, 20, len(whole) - 5):
            self.assertRegex(self.refused(whole[:size], "a.kar"), r"is not a readable MIDI file: \w+")

    def test_an_encoding(self) -> None:
        text = "\\\u0412\u043e \u043f\u043e\u043b\u0435".encode(
            "cp1251"
        ), "/\u0431\u0435\u0440\u0451\u0437\u0430".encode("cp1251")
        path = self.write("a.kar", midi(*((480, 1, one) for one in text)))
        self.assertEqual(read_song(path, "cp1251").lines[1].text, "\u0431\u0435\u0440\u0451\u0437\u0430")


if __name__ == "__main__":
    unittest.main()
