"""`sheet`: the sheet of an authored stream equals the original up to spelling, and `author` accepts it."""
import re
import unittest

from fixtures import (
    BLOCK, HELLO, LEAD_IN, FolderTest, as_sectors, author, desk, hello, hello_packs, needs_library, program,
    with_bad_q,
)  # fmt: skip

RICH = rb"""CATALOG 0123456789012
PERFORMER "The Makers"
TITLE "Half a dozen"
SONGWRITER "M. Aker"
FILE "album.wav" WAVE
  TRACK 01 AUDIO
    TITLE "First"
    FLAGS DCP PRE
    ISRC DEXYZ2600001
    INDEX 01 00:00:00
    INDEX 02 00:10:10
    INDEX 03 00:10:20
  TRACK 02 AUDIO
    TITLE "Second"
    PERFORMER "Somebody Else"
    FLAGS 4CH
    INDEX 00 00:20:00
    INDEX 01 00:22:37
  TRACK 03 AUDIO
    ISRC GBAAA2600003
    INDEX 01 00:30:00
  TRACK 04 AUDIO
    TITLE "Caf\xe9 "
    INDEX 00 00:38:00
    INDEX 01 00:39:00
    INDEX 02 00:40:49
"""
PLAIN = b"""FILE "a.wav" WAVE
  TRACK 05 AUDIO
    INDEX 01 00:00:00
  TRACK 06 AUDIO
    INDEX 01 00:04:30
"""
GAPS = b"""FILE "a.wav" WAVE
  TRACK 01 AUDIO
    PREGAP 00:03:00
    INDEX 01 00:00:00
    POSTGAP 00:00:30
  TRACK 02 AUDIO
    PREGAP 00:02:00
    INDEX 01 00:08:00
    POSTGAP 00:01:00
"""


def plain(sheet: bytes) -> list[bytes]:
    """The lines of a sheet without remarks, indentation and the name of the file."""
    lines = [line.strip() for line in sheet.splitlines()]
    return [re.sub(rb"^FILE .*", b"FILE", line) for line in lines if not line.startswith(b"REM")]


def in_order(sheet: bytes) -> list[list[bytes]]:
    """The lines of the album and of each track, each part sorted."""
    parts: list[list[bytes]] = [[]]
    for line in plain(sheet):
        if line.startswith(b"TRACK"):
            parts.append([])
        parts[-1].append(b" ".join([b"FLAGS", *sorted(line.split()[1:])]) if line.startswith(b"FLAGS") else line)
    return [sorted(part) for part in parts]


@needs_library
class SheetTest(FolderTest):
    def sheet(self, stream: bytes, status: int = 0) -> bytes:
        out = self.folder / "out.cue"
        self.ran = desk("sheet", self.write("album", stream), "-o", out)
        self.assertEqual(self.ran.status, status, self.ran.errors)
        return out.read_bytes()

    def again(self, sheet: bytes) -> bytes:
        """The stream that `author` makes with the options in the first line of the sheet."""
        words = sheet.splitlines()[0].decode().split()
        self.assertEqual(words[:3], ["REM", "ribjasper", "author"])
        return author(sheet, words[6], self.folder, int(words[4]))

    def test_the_sheet_that_was_given(self) -> None:
        for given, length in ((RICH, "00:50:00"), (PLAIN, "00:09:00")):
            stream = author(given, length, self.folder, 60)
            back = self.sheet(stream)
            self.assertEqual(in_order(back), in_order(given))
            self.assertEqual(self.again(back), stream)
            self.assertEqual(self.ran.errors, "")

    def test_gaps_are_pauses(self) -> None:
        stream = author(GAPS, "00:12:00", self.folder)
        back = self.sheet(stream)
        self.assertNotIn(b"PREGAP", back)
        self.assertEqual(self.again(back), stream)

    def test_every_place_of_an_index(self) -> None:
        """Blocks with a code have no index; wherever a pause or an index begins, the same stream is made again."""
        for place in (*range(40, 54), *range(95, 104)):
            given = (
                f'CATALOG 0123456789012\nFILE "a" WAVE\nTRACK 01 AUDIO\nISRC DEXYZ2600001\nINDEX 01 00:00:00\n'
                f"INDEX 02 00:02:{place % 75:02}\nTRACK 02 AUDIO\nISRC DEXYZ2600002\n"
                f"INDEX 00 00:{4 + place // 75:02}:{place % 75:02}\nINDEX 01 00:08:{place % 75:02}\n"
            ).encode()
            stream = author(given, "00:12:00", self.folder)
            self.assertEqual(self.again(self.sheet(stream)), stream, place)

    def test_other_forms(self) -> None:
        wanted = in_order(HELLO[0].read_bytes())
        for stream in (program("planar", stdin=hello()), as_sectors(hello())):
            self.assertEqual(in_order(self.sheet(stream)), wanted)

    def test_without_a_lead_in(self) -> None:
        back = self.sheet(hello()[BLOCK * (LEAD_IN + 150) :])
        self.assertIn(b"--lead-in 0 --length 00:22:00", back)
        lines = [line for line in plain(HELLO[0].read_bytes()) if not re.match(rb"TITLE|PERFORMER|SONGWRITER", line)]
        self.assertEqual(plain(back), lines)

    def test_damage_does_not_matter(self) -> None:
        stream = hello()
        for block in (30, 31, 180, 181, 930, 931, 932, 1080, 1081):
            stream = with_bad_q(stream, block)
        self.assertEqual(in_order(self.sheet(stream)), in_order(HELLO[0].read_bytes()))

    def test_refusals(self) -> None:
        packs = hello_packs() + bytes(-len(hello_packs()) % BLOCK)
        for content, cause in ((packs, "no Q channel"), (b"x" * 960, "no known form fits")):
            path = self.write("dump", content)
            ran = desk("sheet", path)
            self.assertEqual((ran.status, ran.out), (3, ""))
            self.assertIn(f"{path}: ", ran.errors)
            self.assertIn(cause, ran.errors)


if __name__ == "__main__":
    unittest.main()
