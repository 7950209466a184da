"""`texts --all`: disc identification, genre, all languages and character codes, from packs whose content is known."""
import unittest

import known_dumps as known
from fixtures import FolderTest, desk, needs_library

SPOKEN = {0: 0x09, 1: 0x69, 2: 0x08}


def packs() -> list[bytes]:
    """The packs of three tracks: English in Latin-1, Japanese in MS-JIS, German in ASCII."""
    english = {
        0x80: ["Café".encode("latin-1"), b"One", b"\t", b"A title that needs more than one pack of text"],
        0x81: [b"The Band", b"", b"Guest", b""],
        0x86: [b"XY 123-4"],
        0x87: [bytes([0, 14]) + b"Smooth\0"],
        0x88: [bytes(range(1, 25))],
        0x8D: [b"for the makers\0"],
        0x8E: [b"0123456789012", b"DEXYZ2600001", b"", b""],
    }
    japanese = {0x80: ["日本".encode("cp932"), "一".encode("cp932"), "二".encode("cp932"), "三".encode("cp932")]}
    german = {0x80: [b"Kaffee", b"Eins", b"Zwei", b"Drei"]}
    made: list[list[bytes]] = []
    for language, (kinds, code, width) in enumerate(((english, 0x00, 1), (japanese, 0x80, 2), (german, 0x01, 1))):
        made.append(known.text_packs(language, 0, kinds, width))
    last = {language: len(own) + 2 for language, own in enumerate(made)}
    result = []
    for language, (own, code) in enumerate(zip(made, (0x00, 0x80, 0x01))):
        result += own + known.size_packs(language, len(own), code, 3, own, SPOKEN, last)
    return result


@needs_library
class TextPacksTest(FolderTest):
    def rows(self, found: list[bytes], *words: str) -> list[tuple[str, ...]]:
        disc = known.album(0.2, 1)
        disc.texts = b"".join(found)
        path = self.write("dump", known.lead_in(disc, 120) + known.program(disc, 0, disc.end, 0))
        self.ran = desk("texts", path, *words)
        self.assertEqual(self.ran.status, 0, self.ran.errors)
        return [tuple(row.values()) for row in self.ran.rows()]

    def test_all(self) -> None:
        rows = self.rows(packs(), "--all")
        english = [row[1:] for row in rows if row[0] == "English"]
        self.assertEqual(
            [row for row in english if row[0] == "title"],
            [("title", "00", "Café"), ("title", "01", "One"), ("title", "02", "One"),
             ("title", "03", "A title that needs more than one pack of text")],
        )  # fmt: skip
        self.assertEqual(
            [row for row in english if row[0] == "performer"],
            [("performer", "00", "The Band"), ("performer", "02", "Guest")],
        )
        self.assertIn(("disc-id", "00", "XY 123-4"), english)
        self.assertIn(("genre", "00", "Jazz: Smooth"), english)
        self.assertIn(("closed", "00", "for the makers"), english)
        self.assertIn(("code", "00", "0123456789012"), english)
        self.assertIn(("toc", "00", f"{bytes(range(1, 13)).hex()} {bytes(range(13, 25)).hex()}"), english)
        self.assertEqual([row[3] for row in rows if row[:2] == ("Japanese", "title")], ["日本", "一", "二", "三"])
        self.assertEqual([row[3] for row in rows if row[:2] == ("German", "title")], ["Kaffee", "Eins", "Zwei", "Drei"])

    def test_that_there_is_more_is_reported(self) -> None:
        self.rows(packs())
        self.assertIn("which --all prints: 3 languages, closed, disc-id, genre, toc, ASCII, MS-JIS", self.ran.errors)

    def test_a_pack_that_is_missing(self) -> None:
        """Texts with a part in this pack are left out, and all others stay with their tracks."""
        titles = [b"The album of the year", b"One", b"Two", b"Three", b"Four and a half", b"Five"]
        own = known.text_packs(0, 0, {0x80: titles})
        sizes = known.size_packs(0, len(own), 0, 5, own, {0: 9}, {0: len(own) + 2})
        rows = self.rows([*own[:2], *own[3:], *sizes], "--all")
        found = {int(row[2]): row[3] for row in rows if row[1] == "title"}
        self.assertEqual(found[0], "The album of the year")
        self.assertEqual(found[5], "Five")
        for track, text in found.items():
            self.assertEqual(text.encode(), titles[track])

    def test_latin_1_stands_as_bytes_without_it(self) -> None:
        self.rows(packs())
        self.assertIn("title 00 Caf\\e9", self.ran.out)


if __name__ == "__main__":
    unittest.main()
