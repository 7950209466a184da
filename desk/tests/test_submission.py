"""`report --submission`: the data that databases request about a disc, for a disc whose content is known."""
import hashlib
import json
import random
import unittest
import zlib
from typing import Any

import known_dumps as known
from fixtures import BLOCK, FolderTest, Word, desk, needs_library
from known_dumps import AUDIO, Disc, Track, program


def game() -> Disc:
    """A data track, an audio track with a pause and a code, a catalogue number, and texts."""
    disc = Disc(
        [Track(1, 150, 0, control=4), Track(2, 1850, 1700, control=2, isrc="DEXYZ2600002", indexes={2: 2000})], 2400
    )
    disc.catalogue = "0123456789012"
    texts = known.text_packs(0, 0, {0x80: [b"Game", b"Program", b"Music"]})
    texts += known.size_packs(0, len(texts), 0, 2, texts, {0: 9}, {0: len(texts) + 2})
    disc.texts = b"".join(texts)
    return disc


@needs_library
class SubmissionTest(FolderTest):
    def setUp(self) -> None:
        super().setUp()
        self.disc = game()
        self.blocks = known.split(program(self.disc, 0, self.disc.end, 0))

    def found(self, content: bytes, *words: Word, name: str = "game.bin") -> dict[str, Any]:
        ran = desk("report", self.write(name, content), "--submission", "--json", *words)
        self.assertEqual(ran.status, 0, ran.errors)
        found: dict[str, Any] = json.loads(ran.out)
        return found

    def test_a_stream(self) -> None:
        found = self.found(known.lead_in(self.disc, 60) + b"".join(self.blocks), name="game.raw")
        self.assertEqual((found["catalogue"], found["lead_in"], found["sectors"]), ("0123456789012", 60, 2460))
        self.assertEqual(
            found["sessions"],
            [{"number": 1, "first_track": 1, "last_track": 2, "lead_out": 2250, "known_by": "contents"}],
        )
        first, second = found["tracks"]
        self.assertEqual((first["type"], first["pregap"], first["length"], first["isrc"]), ("data", 0, 1550, ""))
        self.assertEqual(
            (second["type"], second["pregap"], second["length"], second["isrc"]), ("audio", 150, 550, "DEXYZ2600002")
        )
        self.assertEqual((second["indexes"], second["flags"], second["crc32"]), ({"1": 1700, "2": 1850}, ["DCP"], None))
        self.assertEqual(found["texts"], {"English": ["title 00 Game", "title 01 Program", "title 02 Music"]})
        self.assertEqual(found["libcrypt"], [])

    def test_an_image(self) -> None:
        """Checksums of the tracks, changed frames and errors by kind."""
        chance = random.Random(1)
        blocks = self.blocks[150:]
        changed = {}
        for at in (300, 305, 700, 705):
            frame = known.libcrypt(self.disc.program_frame(150 + at), at)
            changed[at] = frame
            blocks[at] = known.with_q(bytes(BLOCK), frame)
        for at in (900, 901, 1200):
            blocks[at] = known.with_q(bytes(BLOCK), bytes([blocks[at][0] ^ 1]) + chance.randbytes(11))
        blocks[1500] = bytes(BLOCK)
        sectors = [known.data_sector(150 + at) if at < 1550 else chance.randbytes(AUDIO) for at in range(len(blocks))]
        sectors[40] = sectors[40][:100] + bytes([sectors[40][100] ^ 1]) + sectors[40][101:]
        content = b"".join(a + b for a, b in zip(sectors, blocks))
        found = self.found(content)
        bounds = [(0, 1550), (1550, 2250)]
        for track, (a, b) in zip(found["tracks"], bounds):
            cut = b"".join(sectors[a:b])
            sums = len(cut), f"{zlib.crc32(cut):08x}", hashlib.md5(cut).hexdigest(), hashlib.sha1(cut).hexdigest()
            self.assertEqual((track["size"], track["crc32"], track["md5"], track["sha1"]), sums)
        self.assertEqual([track["edc_bad"] for track in found["tracks"]], [1, None])
        frames = [(it["lba"], it["frame"], it["check_differs"]) for it in found["libcrypt"]]
        self.assertEqual(frames, [(at, frame.hex(" "), "8001") for at, frame in changed.items()])
        errors = found["errors"]
        self.assertEqual(
            (errors["q-bad-check"], errors["q-changed"], errors["q-can-be-filled"], errors["empty"]), (8, 4, 4, 1)
        )
        text = desk("report", self.folder / "game.bin", "--submission").out
        for word in (
            "Catalogue number: 0123456789012",
            "LibCrypt: 4 frames",
            changed[300].hex(" "),
            "1 sectors with a wrong EDC",
            "pregap 00:02:00",
            "q-can-be-filled: 4",
            "ISRC DEXYZ2600002",
        ):
            self.assertIn(word, text)

    def test_two_sessions(self) -> None:
        first = Disc([Track(1, 150, 0), Track(2, 1650)], 150 + 75 * 40)
        found = self.found(known.two_sessions(first, known.after(first, 1, 30, control=4)), name="two.raw")
        sessions = found["sessions"]
        self.assertEqual([it["lead_out"] for it in sessions], [3000, 3000 + 11_400 + 2250])

    def test_outputs_and_refusals(self) -> None:
        dump = self.write("game.raw", b"".join(self.blocks))
        out = self.folder / "out.txt"
        self.assertEqual(desk("report", dump, "--submission", "-o", out).status, 0)
        self.assertEqual(out.read_text(), desk("report", dump, "--submission").out)
        self.assertEqual(desk("report", dump, "--submission", "-o", dump, "--force").status, 3)
        self.assertEqual(desk("report", self.folder).status, 2)
        self.assertEqual(desk("report", self.folder, "-o", self.folder / "o", "--json").status, 2)
        packs = self.write("a.cdg", known.file_of_packs(4001))
        self.assertIn("has no Q channel", desk("report", packs, "--submission").errors)


if __name__ == "__main__":
    unittest.main()
