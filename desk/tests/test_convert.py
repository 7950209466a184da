"""`convert` of the desk: every form into every other form, parts by their addresses, and packs pressed into blocks."""
import unittest
from pathlib import Path

import known_dumps as known
from fixtures import BLOCK, PACK, FolderTest, desk, needs_library, program as run_program
from known_dumps import album, program

DISC = album(0.5, 1)


@needs_library
class ConvertTest(FolderTest):
    def setUp(self) -> None:
        super().setUp()
        self.raw = program(DISC, 150, DISC.end)
        self.packs = run_program("convert", "--lead-in", 0, stdin=self.raw)

    def converted(self, content: bytes, name: str, *words: str | Path, status: int = 0, given: str = "dump") -> bytes:
        out = self.folder / name
        self.ran = desk("convert", self.write(given, content), "-o", out, "--force", *words)
        self.assertEqual(self.ran.status, status, self.ran.errors)
        return out.read_bytes()

    def test_from_each_form_into_each(self) -> None:
        planar = known.as_planar(self.raw)
        sectors = known.in_sectors(known.split(self.raw))
        planar_sectors = known.in_sectors(known.split(planar))
        given = {
            "raw": self.raw, "planar": planar, "sector": sectors, "sector-planar": planar_sectors,
            "raw-reversed": known.bits_reversed(self.raw), "raw-swapped": known.bytes_swapped(self.raw),
        }  # fmt: skip
        for source, content in given.items():
            for target, ending in (("raw", ".raw"), ("raw", ".subcode"), ("planar", ".sub"), ("cdg", ".cdg")):
                wanted = {"raw": self.raw, "planar": planar, "cdg": self.packs}[target]
                self.assertEqual(self.converted(content, f"out{ending}"), wanted, (source, ending))
        for target in ("sector", "sector-planar"):
            self.assertEqual(self.converted(sectors, "out.bin", "--as", target), given[target])
        whole_blocks = self.packs + bytes(-len(self.packs) % BLOCK)
        self.assertEqual(self.converted(sectors, "out", "--as", "cooked"), whole_blocks)
        pq = b"".join(map(known.formatted_q, known.split(self.raw)))
        self.assertEqual(self.converted(planar, "out", "--as", "pq"), pq)
        self.assertEqual(
            self.converted(pq, "out.raw"),
            known.without_rw(self.raw).translate(bytes(byte & 0xC0 for byte in range(256))),
        )

    def test_audio_of_sectors(self) -> None:
        sound = known.sound(len(self.raw) // BLOCK)
        wanted = known.in_sectors(known.split(self.raw))
        path = self.write("audio.bin", b"".join(sound))
        self.assertEqual(self.converted(self.raw, "out.bin", "--audio", path), wanted)
        silent = known.in_sectors(known.split(self.raw), silent=True)
        self.assertEqual(self.converted(self.raw, "out.bin", "--silent"), silent)
        ran = desk("convert", self.write("dump", self.raw), "-o", self.folder / "none.bin")
        self.assertEqual(ran.status, 3)
        self.assertIn("no audio for sectors", ran.errors)
        self.assertFalse((self.folder / "none.bin").exists())

    def test_a_part(self) -> None:
        wanted = self.raw[BLOCK * 300 : BLOCK * 600]
        for words in (("--from", "300", "--to", "600"), ("--from", "00:06:00", "--to", "00:10:00")):
            self.assertEqual(self.converted(self.raw, "out.raw", *words), wanted)
        sectors = known.in_sectors(known.split(self.raw))
        self.assertEqual(
            self.converted(sectors, "out.bin", "--from", "300", "--to", "600"), sectors[2448 * 300 : 2448 * 600]
        )
        self.assertEqual(
            self.converted(sectors, "out.sub", "--from", "00:06:00"), known.as_planar(self.raw[BLOCK * 300 :])
        )
        ran = desk(
            "convert", self.write("dump", self.raw), "-o", self.folder / "none.raw", "--from", "600", "--to", "600"
        )
        self.assertEqual(ran.status, 3)

    def test_from_packs(self) -> None:
        """Pressed packs are read again at their places."""
        for content, name in (
            (known.file_of_packs(1000), "a.cdg"),
            (known.file_of_packs(1001), "b.cdg"),
            (known.file_of_packs(1000), "dump"),
        ):
            raw = self.converted(content, "out.raw", given=name)
            again = run_program("convert", "--lead-in", 0, stdin=raw)
            before = PACK * (4 * 150 - 7)
            self.assertEqual(again[before : before + len(content)], content)
        bare = known.without_parity(content := known.file_of_packs(1001))
        raw = self.converted(bare, "out.raw", given="bare.cdg")
        again = run_program("convert", "--lead-in", 0, stdin=raw)
        self.assertEqual(again[before : before + len(content)], content)
        self.assertEqual(self.converted(bare, "out.cdg", given="bare.cdg"), bare)

    def test_lost_packs(self) -> None:
        worn = known.scratched(self.raw, 3, 40, 96)
        self.converted(worn, "out.cdg", status=1)
        self.assertIn("have no codeword and are zeros", self.ran.errors)

    def test_an_output_without_a_form(self) -> None:
        ran = desk("convert", self.write("dump", self.raw), "-o", self.folder / "out.xyz")
        self.assertEqual(ran.status, 3)
        self.assertIn("names no form", ran.errors)


if __name__ == "__main__":
    unittest.main()
