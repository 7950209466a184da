"""`damage`: every run of damage is reported, no other one is, and the map shows it."""
import unittest

from fixtures import (
    BLOCK, LEAD_IN, FolderTest, Word, as_sectors, desk, hello, hello_packs, needs_library, needs_pillow, program,
    with_bad_q, with_burst, with_zeros, without,
)  # fmt: skip

NAMES = ["kind", "first", "last", "from", "to", "track", "bad", "corrected", "q-bad", "empty"]


@needs_library
class DamageTest(FolderTest):
    def found(self, content: bytes, *words: Word, status: int = 1) -> list[dict[str, str]]:
        ran = desk("damage", self.write("dump", content), *words)
        self.assertEqual(ran.status, status, ran.errors)
        self.assertEqual(ran.out.splitlines()[0].split("\t"), NAMES)
        return ran.rows()

    def test_none_is_invented(self) -> None:
        for content in (hello(), program("planar", stdin=hello()), as_sectors(hello()), hello()[BLOCK * 180 :]):
            self.assertEqual(self.found(content, status=0), [])
        packs = hello_packs() + bytes(-len(hello_packs()) % BLOCK)
        self.assertEqual(self.found(packs, status=0), [])

    def test_a_bad_frame(self) -> None:
        rows = self.found(with_bad_q(hello(), 500))
        self.assertEqual([list(row.values()) for row in rows], ["run 500 500 00:06:20 00:06:20 01 0 0 1 0".split()])

    def test_a_wrong_symbol(self) -> None:
        """A wrong symbol is counted at the block that completes its word, up to two blocks later."""
        rows = self.found(with_burst(hello(), 1600, 1))
        self.assertEqual(len(rows), 1)
        self.assertEqual((rows[0]["kind"], rows[0]["bad"], rows[0]["corrected"]), ("run", "0", "1"))
        self.assertEqual(rows[0]["first"], rows[0]["last"])
        self.assertIn(int(rows[0]["first"]), (1600, 1601, 1602))

    def test_a_lost_stretch(self) -> None:
        rows = self.found(with_burst(hello(), 1600, 300))
        self.assertTrue(all(row["kind"] == "run" for row in rows))
        self.assertGreaterEqual(int(rows[0]["first"]), 1600)
        self.assertLessEqual(int(rows[-1]["last"]), 1600 + 300 // BLOCK + 2)
        self.assertGreater(sum(int(row["bad"]) for row in rows), 0)

    def test_empty_blocks(self) -> None:
        rows = self.found(with_zeros(hello(), 700, 719))
        run = rows[0]
        self.assertEqual((run["first"], run["from"], run["q-bad"], run["empty"]), ("700", "00:08:70", "20", "20"))
        self.assertTrue(719 <= int(run["last"]) <= 721)

    def test_missing_and_repeated_sectors(self) -> None:
        rows = self.found(without(hello(), 1000, 1074))
        jump = next(row for row in rows if row["kind"] == "jump")
        self.assertEqual((jump["first"], jump["from"], jump["to"]), ("1000", "00:12:69", "00:13:70"))
        stream = hello()
        stream = stream[: BLOCK * 1200] + stream[BLOCK * 1190 :]
        jumps = [row for row in self.found(stream) if row["kind"] == "jump"]
        self.assertEqual([(row["first"], row["from"], row["to"]) for row in jumps], [("1200", "00:15:44", "00:15:35")])

    def test_jump_behind_bad_frames(self) -> None:
        """If the frames around a gap are bad, it is reported at the next block whose time is known."""
        stream = without(hello(), 1000, 1074)
        for block in range(995, 1005):
            stream = with_bad_q(stream, block)
        jumps = [row for row in self.found(stream) if row["kind"] == "jump"]
        self.assertEqual([row["first"] for row in jumps], ["1005"])

    def test_sums_are_those_of_check(self) -> None:
        stream = program("scratch", "--lead-in", LEAD_IN, "--seed", 9, stdin=with_burst(hello(), 900, 400))
        for block in (40, 41, 950):
            stream = with_bad_q(stream, block)
        rows = self.found(stream)
        output = program("check", "--lead-in", LEAD_IN, stdin=stream, statuses=(0, 1)).decode()
        counts = dict(line.split() for line in output.splitlines())
        self.assertEqual(sum(int(row["bad"]) for row in rows), int(counts["bad"]))
        self.assertEqual(sum(int(row["corrected"]) for row in rows), int(counts["one"]) + int(counts["two"]))
        self.assertEqual(sum(int(row["q-bad"]) for row in rows), int(counts["q-bad"]))

    def test_runs_are_apart(self) -> None:
        rows = self.found(with_burst(with_burst(hello(), 1600, 40), 1700, 40))
        runs = [(int(row["first"]), int(row["last"])) for row in rows]
        self.assertTrue(all(first <= last for first, last in runs))
        self.assertTrue(all(before[1] + 1 < after[0] for before, after in zip(runs, runs[1:])))

    def test_lead_in_and_form_that_are_named(self) -> None:
        self.assertEqual(self.found(hello(), "--lead-in", LEAD_IN, "--form", "raw", status=0), [])
        self.assertNotEqual(self.found(hello(), "--form", "planar"), [])

    def test_torn_file(self) -> None:
        ran = desk("damage", self.write("dump", hello()[:-17]))
        self.assertEqual((ran.status, ran.rows()), (1, []))
        self.assertIn("torn: 79 bytes behind the last whole unit", ran.errors)

    def test_refusals_name_the_file(self) -> None:
        for path in (self.write("foreign", b"text " * 1000), self.write("empty", b""), self.folder / "missing"):
            ran = desk("damage", path)
            self.assertEqual((ran.status, ran.out), (3, ""))
            self.assertIn(str(path), ran.errors)
            self.assertNotIn("Traceback", ran.errors)

    @needs_pillow
    def test_map(self) -> None:
        from PIL import Image

        from ribjasper.dumps.damage_map import CELL, LEFT, STATES, TOP

        stream = hello()[: BLOCK * LEAD_IN] + hello()[BLOCK * LEAD_IN :] * 3
        stream = with_zeros(stream, 75 * 62, 75 * 62 + 5)
        picture = self.folder / "map.png"
        desk("damage", self.write("dump", stream), "--lead-in", LEAD_IN, "--map", picture)
        image = Image.open(picture)
        self.assertEqual(image.getpixel((LEFT + 2 * CELL + 4, TOP + CELL + 4)), STATES[4][1])
        self.assertEqual(image.getpixel((LEFT + 10 * CELL + 4, TOP + 4)), STATES[0][1])

    @needs_pillow
    def test_map_that_cannot_be_written(self) -> None:
        ran = desk("damage", self.write("dump", hello()), "--map", self.folder / "no" / "map.png")
        self.assertEqual(ran.status, 6)
        self.assertIn("no such file or directory", ran.errors)


if __name__ == "__main__":
    unittest.main()
