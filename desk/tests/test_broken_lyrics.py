"""Damaged lyrics of all kinds: a command reads them or refuses them in one line, and never crashes."""
import random
import struct
import time
import unittest
from pathlib import Path
from typing import Iterator
from unittest import mock

from fixtures import FolderTest, desk, needs, needs_font, needs_pillow, needs_plan

from ribjasper.songs import song_script
from ribjasper.songs.songs import LONGEST_MESSAGE

RUSSIAN = "[ti:Песня]\n[00:08.00]Шла большая река по долине\n[00:12.00]и никто её не видал\n[00:16.00]\n"
EVENTS = "[Events]\nFormat: Layer, Start, End, Style, Name, MarginL, MarginR, MarginV, Effect, Text\n"
LRC = "[ti:A song]\n[ar:Somebody]\n[offset:+200]\n[00:08.00]First line\n[00:11.00]Second\n[00:14.00]\n[00:30.00]Third\n"


def midi(events: list[tuple[int, bytes]], kind: int) -> bytes:
    """A MIDI file with texts at some ticks, 480 per beat."""
    body, last = b"", 0
    for tick, text in events:
        after, last = tick - last, tick
        body += bytes([128 | after >> 7, after & 127, 255, kind, len(text)]) + text
    body += b"\0\xff\x2f\0"
    return struct.pack(">4sIHHH4sI", b"MThd", 6, 0, 1, 480, b"MTrk", len(body)) + body


FORMATS = {
    "plain.lrc": LRC.encode(),
    "words.lrc": b"[00:08.00]<00:08.00>One <00:08.50>two <00:09.00>\n[00:11.00]<00:11.00>Four <00:12.00>\n",
    "brackets.lrc": b"[00:08.00]Down[00:08.50] by [00:09.00]the[00:10.00]\n[00:12.00]And[00:12.50] on[00:13.00]\n",
    "voices.lrc": b"[00:08.00]v1: One\n[00:10.00]v2: two\n[00:12.00]v3: three\n[00:14.00]v4: four\n[00:16.00]D: all\n",
    "singers.lrc": b"[singer:Anna]\n[00:08.00]One\n[singer:Ben]\n[00:10.00]two\n[singer:both]\n[00:12.00]three\n",
    "inserts.lrc": b"[00:08.00]One\n[00:10.00]\n[colour: #08F]\n[00:40.00]two\n[image: none.png]\n[01:20.00]three\n",
    "bom.lrc": b"\xef\xbb\xbf" + LRC.encode(),
    "utf16.lrc": LRC.encode("utf-16"),
    "utf16be.lrc": RUSSIAN.encode("utf-16-be"),
    "cp1251.lrc": RUSSIAN.encode("cp1251"),
    "sjis.lrc": "[00:08.00]ひらがなとカタカナの歌\n[00:12.00]そしてもうひとつ\n[00:16.00]\n".encode("cp932"),
    "bidi.lrc": "[00:10.00]<00:10.00>שלום <00:11.00>hello <00:12.00>world <00:13.00>תודה\n".encode(),
    "k.ass": (EVENTS + "Dialogue: 0,0:00:08.00,0:00:11.00,A,Ann,0,0,0,,{\\k50}One, {\\kf70}two\\N{\\k30}three\n").encode(),
    "templater.ass": (EVENTS + "Comment: 0,0:00:08.00,0:00:11.00,A,,0,0,0,karaoke,{\\k50}One, {\\kf70}two|x\n"
                      "Dialogue: 0,0:00:08.00,0:00:11.00,A,,0,0,0,fx,{\\an5\\p1}m 0 0 l 1 1{\\p0}One\n").encode(),
    "beats.txt": b"#TITLE:A\n#BPM:150\n#GAP:8000\n: 0 4 60 One\n: 4 4 60 ~\n* 8 4 60  two\n- 16\nB 40 300\nF 48 8 1  x\nE\n",
    "relative.txt": b"#BPM:150,5\n#RELATIVE:YES\n#GAP:8000\n: 0 4 60 One\n- 16 20\n: 0 4 60 three\nE\n",
    "players.txt": b"#BPM:150\n#P1:Ann\n#P2:Ben\n#GAP:8000\nP1\n: 0 4 60 One\n- 16\nP2\n: 0 4 60 One\n: 40 4 60 four\nE\n",
    "a.srt": b"1\n00:00:08,000 --> 00:00:10,500\n<i>One</i> two\nthree\n\n2\n00:00:12,000 --> 00:00:14,000\nFour\n",
    "a.vtt": b"WEBVTT\n\nNOTE x\n\n00:08.000 --> 00:10.000\n<v Anna>One <00:08.500>two</v>\n<v Ben>three &amp; four\n",
    "a.kar": midi([(0, b"@KMIDI KARAOKE FILE"), (0, b"@TSong"), (7680, b"\\One "), (8160, b"two"), (9600, b"/three")], 1),
    "a.mid": midi([(7680, b"One "), (8160, b"two\r"), (9600, b"three "), (10080, b"four\n")], 5),
}  # fmt: skip
ODD = (
    "\0",
    "9" * 400,
    "-1",
    "1e999",
    "٣",
    "\u202e",
    "\u0301" * 50,
    "\U0010ffff",
    "\u2028",
    "\x1b[31m",
    "{\\k",
    "<",
    "[",
    "]",
    "\ufeff",
)
MEGABYTE = 1_000_000


def damaged(content: bytes, dice: random.Random) -> Iterator[bytes]:
    """Variants of a file as it may arrive."""
    yield from (b"", content, content + bytes(1000), content.replace(b"\n", b"\r"), content.replace(b"\n", b" "))
    yield from (content[: dice.randrange(len(content))] for _ in range(4))
    yield content[dice.randrange(len(content)) :]
    for count in (1, 3, 20):
        changed = bytearray(content)
        for _ in range(count):
            changed[dice.randrange(len(changed))] = dice.randrange(256)
        yield bytes(changed)
    for name in ("utf-16", "utf-16-be", "utf-32", "cp1251", "cp932", "cp037"):
        yield content.decode("latin-1").encode(name, "replace")
    yield b"\xff\xfe" + content
    for odd in dice.sample(ODD, 4):
        place = dice.randrange(len(content))
        yield content[:place] + odd.encode() + content[place:]
    yield b"\n".join(dice.sample(content.split(b"\n"), content.count(b"\n") + 1))
    yield content + dice.choice(list(FORMATS.values()))


@needs("mido", "python3-mido")
class ReadTest(FolderTest):
    def read(self, path: Path) -> int:
        """Reads lyrics with a command that draws nothing."""
        ran = desk("album", "--new", path)
        self.assertIn(ran.status, (0, 3), (path.name, ran.errors))
        self.assertNotIn("Traceback", ran.errors)
        self.assertLess(max(map(len, ran.errors.splitlines()), default=0), 2 * LONGEST_MESSAGE)
        return ran.status

    def test_damage(self) -> None:
        found = set()
        for name, content in FORMATS.items():
            dice = random.Random(name)
            status = self.read(self.write(name, content))
            # Only the detector of encodings knows Windows-1251.
            self.assertTrue(not status or name == "cp1251.lrc", (name, status))
            for spoiled in damaged(content, dice):
                found.add(self.read(self.write(name, spoiled)))
        self.assertEqual(found, {0, 3})

    def test_a_megabyte_in_a_line(self) -> None:
        """The reading time is proportional to the size of the file: a line of a megabyte takes seconds."""
        begun = time.monotonic()
        for name in ("plain.lrc", "k.ass", "beats.txt", "a.srt", "a.vtt"):
            for mark in (b"x", b"<", b"{", b"\n", b"-->"):
                self.read(self.write(name, FORMATS[name] + mark * (MEGABYTE // len(mark))))
        for name, line in (("plain.lrc", b"[00:01.00]"), ("plain.lrc", b"[00:20.00]a\n"), ("a.srt", FORMATS["a.srt"])):
            self.read(self.write(name, FORMATS[name] + line * (MEGABYTE // 10 // len(line))))
        # A quadratic search would take hours.
        self.assertLess(time.monotonic() - begun, 120)


@needs_plan
@needs_pillow
@needs_font
class ManyTest(FolderTest):
    def lyrics(self, text: str) -> tuple[int, str]:
        ran = desk("lyrics", self.write("a.lrc", text), "-o", self.folder / "a.script", "--force")
        return ran.status, ran.errors

    def test_too_many_letters(self) -> None:
        status, errors = self.lyrics(f"[00:08.00]{'la ' * 300_000}\n[00:20.00]\n")
        self.assertEqual((status, "line 1: it has 899,999 letters; the maximum is 2,000" in errors), (3, True), errors)
        status, errors = self.lyrics("[00:08.00]la\n" * 10_001)
        self.assertEqual((status, "there are 10,001 sung lines; the maximum is 10,000" in errors), (3, True))
        status, errors = self.lyrics("no time\n" * 5000 + "[00:20.00]la\n[00:21.00]\n")
        self.assertEqual((status, "there are 4900 more notes like these" in errors, errors.count("\n")), (0, True, 102))

    def test_a_title_of_a_megabyte(self) -> None:
        for title in ("x" * MEGABYTE, "la " * (MEGABYTE // 3)):
            status, errors = self.lyrics(f"[ti:{title}]\n[00:20.00]la\n[00:21.00]\n")
            self.assertEqual((status, "none is late" in errors), (0, True), errors)

    def test_too_many_pictures(self) -> None:
        text = "".join(f"[00:{second}.00]One two\n" for second in range(10, 20))
        with mock.patch.object(song_script, "MOST_PICTURES", 50):
            status, errors = self.lyrics(text)
        self.assertEqual((status, "pictures, and a script has 50 at most" in errors), (3, True), errors)
        self.assertEqual(self.lyrics(text)[0], 0)

    def test_the_last_minutes_of_the_longest_disc(self) -> None:
        self.assertEqual(self.lyrics("[98:50.00]la\n[98:55.00]\n")[0], 0)
        status, errors = self.lyrics("[99:50.00]la\n[99:55.00]\n")
        self.assertEqual((status, "is at [99:50.00], but a disc ends after 99 minutes" in errors), (3, True), errors)


if __name__ == "__main__":
    unittest.main()
