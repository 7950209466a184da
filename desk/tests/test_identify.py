"""`identify`: a dump of each form, the lead-in, the content, and files that are not dumps."""
import os
import random
import unittest

from fixtures import (
    BLOCK, LEAD_IN, FolderTest, as_sectors, author, blocks, desk, hello, hello_packs, needs_library, program,
    with_burst,
)  # fmt: skip

NAMES = ["file", "form", "lead-in", "graphics", "texts", "q-good", "notes"]


@needs_library
class IdentifyTest(FolderTest):
    def identified(self, content: bytes, status: int = 0) -> list[str]:
        """The cells after the name of a dump, without the notes."""
        path = self.write("dump", content)
        ran = desk("identify", path)
        self.assertEqual(ran.status, status, ran.errors)
        names, row = (line.split("\t") for line in ran.out.splitlines())
        self.assertEqual(names, NAMES)
        self.assertEqual(row[0], str(path))
        return row[1:-1]

    def test_raw(self) -> None:
        self.assertEqual(self.identified(hello()), ["raw", "30", "yes", "yes", "1.0000"])

    def test_planar(self) -> None:
        self.assertEqual(self.identified(program("planar", stdin=hello())), ["planar", "30", "yes", "yes", "1.0000"])

    def test_sector(self) -> None:
        self.assertEqual(self.identified(as_sectors(hello())), ["sector", "30", "yes", "yes", "1.0000"])

    def test_cooked(self) -> None:
        packs = hello_packs() + bytes(-len(hello_packs()) % BLOCK)
        self.assertEqual(self.identified(packs), ["cooked", "0", "yes", "no", "-"])
        self.assertEqual(self.identified(as_sectors(packs)), ["cooked-sector", "0", "yes", "no", "-"])

    def test_dump_from_the_first_sector(self) -> None:
        self.assertEqual(self.identified(hello()[BLOCK * (LEAD_IN + 150) :]), ["raw", "0", "yes", "no", "1.0000"])

    def test_lead_in_is_found_by_any_frame(self) -> None:
        """If the first frames of the program are bad, later ones give N."""
        zeros = bytes(BLOCK * 40)
        stream = hello()[: BLOCK * LEAD_IN] + zeros + hello()[BLOCK * (LEAD_IN + 40) :]
        self.assertEqual(self.identified(stream)[1], "30")

    def test_share_of_good_frames(self) -> None:
        stream = hello()
        for block in range(100, 283):
            stream = (
                stream[: BLOCK * block + 5] + bytes([stream[BLOCK * block + 5] ^ 0x40]) + stream[BLOCK * block + 6 :]
            )
        self.assertEqual(self.identified(stream)[-1], "0.9000")

    def test_without_q_the_words_tell(self) -> None:
        stream = bytes(byte & 63 for byte in hello()[BLOCK * LEAD_IN :])
        self.assertEqual(self.identified(stream), ["raw", "0", "yes", "no", "0.0000"])

    def test_without_graphics(self) -> None:
        sheet = b'FILE "a.wav" WAVE\nTRACK 01 AUDIO\nINDEX 01 00:00:00\n'
        self.assertEqual(
            self.identified(author(sheet, "00:04:00", self.folder)), ["raw", "60", "not read", "no", "1.0000"]
        )

    def test_damage_in_each_block(self) -> None:
        stream = program("scratch", "--lead-in", LEAD_IN, "--seed", 3, stdin=hello())
        self.assertEqual(self.identified(stream)[:4], ["raw", "30", "yes", "yes"])
        for block in range(LEAD_IN, len(stream) // BLOCK):
            stream = with_burst(stream, block, 30, block)
        self.assertEqual(self.identified(stream)[0], "raw")

    def test_long_dump(self) -> None:
        """The beginning and the end of this dump are damaged, and only samples of it are read."""
        clean = blocks(hello()[BLOCK * LEAD_IN :])
        stream = b"".join([bytes(BLOCK * 4000), *clean * 3, bytes(BLOCK * 4000)])
        self.assertEqual(self.identified(stream)[0], "raw")

    def test_what_is_no_dump(self) -> None:
        """Each file has one line, which says what it is or what to do; -v also says what rules out each form."""
        chance = random.Random(5)
        unknown = "no known form fits; give --form, --lead-in or --skip if you know them (details: identify -v)"
        for content, cause, against in (
            (chance.randbytes(96 * 500), unknown, "of 500 Q frames are good"),
            (chance.randbytes(2448 * 50), unknown, "sector"),
            (b"short", unknown, "the size is 0 units of 96 bytes and 5 more"),
            (b"", "is empty", ""),
            (bytes(96 * 100), "all bytes are zeros", ""),
        ):
            path = self.write("dump", content)
            ran = desk("identify", path)
            self.assertEqual(ran.status, 3)
            self.assertEqual(ran.rows()[0]["form"], "none")
            self.assertEqual(ran.errors, f"ribjasper-desk: {path}: {cause}\n")
            ran = desk("identify", "-v", path)
            self.assertIn(against, ran.errors)
            self.assertEqual(len(ran.errors.splitlines()), 10 if against else 1)
            self.assertTrue(all(str(path) in line for line in ran.errors.splitlines()))
            for command in ("damage", "sheet", "texts", "q-fix"):
                self.assertEqual(desk(command, path).errors, f"ribjasper-desk: {path}: {cause}\n")

    def test_file_that_is_too_long(self) -> None:
        path = self.folder / "long"
        with open(path, "wb") as file:
            file.truncate(2448 * 96 * 10_500)
        ran = desk("identify", path)
        self.assertEqual((ran.status, ran.rows()[0]["form"]), (3, "none"))

    def test_other_files_go_on(self) -> None:
        good = self.write("good", hello())
        locked = self.write("locked", hello())
        locked.chmod(0)
        missing = self.folder / "missing"
        ran = desk("identify", missing, self.folder, good)
        self.assertEqual(ran.status, 3)
        self.assertEqual([row["file"] for row in ran.rows()], [str(good)])
        lines = ran.errors.splitlines()
        self.assertIn(f"{missing}: no such file or directory", lines[0])
        self.assertIn(f"{self.folder}: is a directory", lines[1])
        if os.geteuid() != 0:
            self.assertIn(f"{locked}: permission denied", desk("identify", locked).errors)

    def test_names_are_bytes(self) -> None:
        path = os.fsencode(self.folder) + b"/na\xffme\tof"
        with open(path, "wb") as file:
            file.write(hello())
        ran = desk("identify", path)
        row = ran.out.splitlines()[1].encode(errors="surrogateescape")
        self.assertTrue(row.startswith(os.fsencode(self.folder) + b"/na\xffme\\tof\traw\t"))

    def test_wrong_words(self) -> None:
        self.assertEqual(desk("identify").status, 2)
        self.assertEqual(desk("nothing").status, 2)
        self.assertEqual(desk("damage", "a", "b").status, 2)
        self.assertEqual(desk("damage", "a", "--lead-in", "-3").status, 2)


if __name__ == "__main__":
    unittest.main()
