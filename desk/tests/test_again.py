"""`damage --again`: the blocks to read again of discs with known damage, in each form of list; and the errors that a
drive reported."""
import random
import re
import unittest

import known_dumps as known
from fixtures import BLOCK, FolderTest, Ran, Word, desk, needs_library
from known_dumps import album, program
from ribjasper.dumps.drive_errors import drive_errors

DISC = album(1, 2)
PAUSE = 150


def bad_q(stream: bytes, blocks: list[int]) -> bytes:
    """A stream in which some Q frames have wrong checks."""
    changed = bytearray(stream)
    for block in blocks:
        changed[BLOCK * block + 90] ^= 0x40
    return bytes(changed)


class DriveErrorsTest(FolderTest):
    """These tests do not need the library."""

    def test_masks(self) -> None:
        chance, blocks = random.Random(1), 9000
        wrong = sorted(chance.sample(range(blocks), 40))
        dump = self.write("a.sub", b"dump")
        c2, state = bytearray(294 * blocks), bytearray(b"\4" * (588 * (blocks + 7)))
        for block in wrong:
            c2[294 * block + chance.randrange(294)] = 1 << chance.randrange(8)
            state[588 * block + chance.randrange(588)] = chance.choice((0, 1))
        state[588 * 5] = 2  # a state that is no error
        for name, content in (("a.c2", c2), ("a.state", state)):
            self.write(name, bytes(content))
            found = drive_errors(str(dump), blocks)
            assert found is not None
            self.assertEqual([block for block in range(blocks) if found.mask[block]], wrong)
            self.assertEqual((found.total, len(found.mask), found.names), (40, blocks, [name]))
            self.assertEqual(found.within(wrong[3], wrong[7] + 1), 5)
            (self.folder / name).unlink()
        self.assertIsNone(drive_errors(str(dump), blocks))

    def test_both_files_are_joined(self) -> None:
        dump = self.write("a.sub", b"dump")
        c2, state = bytearray(296 * 100), bytearray(b"\4" * 58_800)
        c2[296 * 3], state[588 * 60 + 587] = 1, 1
        self.write("a.c2", bytes(c2))
        self.write("a.STATE", bytes(state))
        found = drive_errors(str(dump), 100)
        assert found is not None
        self.assertEqual([block for block in range(100) if found.mask[block]], [3, 60])

    def test_files_of_another_length_tell_nothing(self) -> None:
        dump = self.write("a.sub", b"dump")
        self.write("a.c2", bytes(294 * 99))
        self.write("a.state", bytes(588 * 99))
        self.assertIsNone(drive_errors(str(dump), 100))


@needs_library
class AgainTest(FolderTest):
    def again(self, content: bytes, *words: Word, name: str = "dump.sub") -> str:
        out = self.folder / "again"
        self.ran: Ran = desk("damage", self.write(name, content), "--again", out, "--force", *words)
        self.assertIn(self.ran.status, (0, 1), self.ran.errors)
        return out.read_text()

    def rows(self, content: bytes) -> list[list[str]]:
        names, *rows = [line.split("\t") for line in self.again(content).splitlines()]
        self.assertEqual(names, ["first-lba", "last-lba", "from", "to", "sectors", "why"])
        return rows

    def test_nothing(self) -> None:
        for lead in (b"", known.lead_in(DISC, 60) + program(DISC, 0, 150)):
            self.assertEqual(self.rows(lead + program(DISC, 150, DISC.end)), [])

    def test_what_is_damaged(self) -> None:
        """Bad Q frames, empty blocks and missing blocks, by their addresses, wherever the dump begins."""
        stream = program(DISC, 150, DISC.end, 0)
        stream = bad_q(stream, [100, 101, 500])
        stream = stream[: BLOCK * 1000] + bytes(BLOCK * 20) + stream[BLOCK * 1020 :]
        stream = stream[: BLOCK * 2000] + stream[BLOCK * 2100 :]
        wanted = [
            ["100", "101", "00:03:25", "00:03:26", "2", "q"],
            ["500", "500", "00:08:50", "00:08:50", "1", "q"],
            ["1000", "1019", "00:15:25", "00:15:44", "20", "empty,q"],
            ["2000", "2099", "00:28:50", "00:29:74", "100", "missing"],
        ]
        for lead in (
            b"",
            known.lead_in(DISC, 60) + program(DISC, 0, 150, 0),
            bytes(BLOCK * 45_000) + program(DISC, 0, 150, 0),
        ):
            self.assertEqual(self.rows(lead + stream), wanted)

    def test_lost_words(self) -> None:
        """A word is spread over three blocks: all damaged blocks among them are read again."""
        stream = bytearray(program(DISC, 150, DISC.end, 1))
        chance = random.Random(2)
        for place in range(BLOCK * 700, BLOCK * 703):
            stream[place] ^= chance.randrange(64)
        (row,) = self.rows(bytes(stream))
        self.assertTrue(698 <= int(row[0]) <= 700 and 702 <= int(row[1]) <= 705, row)
        self.assertEqual(row[5], "words")

    def test_what_the_drive_said(self) -> None:
        stream = program(DISC, 150, DISC.end, 0)
        blocks = len(stream) // BLOCK
        c2 = bytearray(294 * blocks)
        c2[294 * 321 + 7] = 4
        self.write("dump.c2", bytes(c2))
        (row,) = self.rows(bad_q(stream, [322]))
        self.assertEqual((row[0], row[1], row[5]), ("321", "322", "drive,q"))
        self.assertIn("the drive reported errors in 1 sectors (dump.c2)", self.ran.errors)

    def test_forms(self) -> None:
        stream = bad_q(program(DISC, 150, DISC.end, 0), [100, 101, 4000])
        wanted = {
            "lba": "100-101\n4000-4000\n",
            "msf": "00:03:25-00:03:26\n00:55:25-00:55:25\n",
            "redumper": "--lba-start=100 --lba-end=102\n--lba-start=4000 --lba-end=4001\n",
            "readcd": "sectors=100-102\nsectors=4000-4001\n",
            "cdparanoia": "[00:01.25]-[00:01.26]\n[00:53.25]-[00:53.25]\n",
        }
        for form, text in wanted.items():
            self.assertEqual(self.again(stream, "--again-as", form), text)
        lines = [line for line in self.again(stream, "--again-as", "ddrescue").splitlines() if not line.startswith("#")]
        self.assertRegex(lines[0], r"^0x[0-9A-F]+ +[?*/\-+F] +\d+$")
        areas = [(int(at, 16), int(size, 16), status) for at, size, status in map(str.split, lines[1:])]
        # Areas follow each other without a gap up to the end of the disc.
        for before, behind in zip(areas, areas[1:]):
            self.assertEqual(before[0] + before[1], behind[0])
        self.assertEqual((areas[0][0], areas[-1][0] + areas[-1][1]), (0, 2048 * (DISC.end - PAUSE)))
        self.assertEqual(
            [(at, size) for at, size, status in areas if status == "-"], [(204_800, 4096), (8_192_000, 2048)]
        )

    def test_refusals(self) -> None:
        out = self.folder / "out"
        cdg = self.write("a.cdg", known.file_of_packs(4001))
        ran = desk("damage", cdg, "--again", out)
        self.assertEqual((ran.status, out.exists()), (3, False))
        self.assertIn("has no Q channel", ran.errors)
        self.assertEqual(desk("damage", cdg, "--again-as", "lba").status, 2)
        stream = self.write("b.sub", bad_q(program(DISC, 150, DISC.end, 0), [9]))
        for ending in ("c2", "state"):
            beside = self.write(f"b.{ending}", bytes((294 if ending == "c2" else 588) * (DISC.end - 150)))
            ran = desk("damage", stream, "--again", beside, "--force")
            self.assertEqual(ran.status, 3)
            self.assertIn("is an input", ran.errors)
            self.assertFalse(re.search(rb"[^\0]", beside.read_bytes()))


if __name__ == "__main__":
    unittest.main()
