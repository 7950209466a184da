"""`texts`: the packs of a lead-in for other tools, and back."""
import subprocess
import sys
import unittest

from fixtures import BLOCK, LEAD_IN, TOP, FolderTest, Word, as_sectors, author, desk, hello, needs_library, program


@needs_library
class TextsTest(FolderTest):
    def packs(self, stream: bytes, *words: Word) -> bytes:
        out = self.folder / "packs"
        ran = desk("texts", self.write("dump", stream), "--packs", out, *words)
        self.assertEqual(ran.status, 0, ran.errors)
        self.listed = ran.out
        return out.read_bytes()

    def test_the_texts_are_those_of_the_program(self) -> None:
        packs = self.packs(hello())
        output = program("text", "--lead-in", LEAD_IN, stdin=hello()).decode()
        self.assertEqual(self.listed, output)
        script = TOP / "tests" / "peers" / "lead_in_packs.py"
        cycle = subprocess.run([sys.executable, script], input=hello()[: BLOCK * LEAD_IN], capture_output=True).stdout
        self.assertEqual(packs, cycle)
        self.assertEqual(self.packs(as_sectors(hello())), cycle)

    def test_four_bytes_in_front(self) -> None:
        packs, headed = self.packs(hello()), self.packs(hello(), "--header")
        self.assertEqual(headed, (len(packs) + 2).to_bytes(2, "big") + bytes(2) + packs)

    def test_damaged_packs_are_taken_from_another_copy(self) -> None:
        packs, stream = self.packs(hello()), bytearray(hello())
        for place in range(5, BLOCK * 6, 24):
            stream[place] ^= 1
        self.assertEqual(self.packs(bytes(stream)), packs)

    def test_back(self) -> None:
        packs, listed = self.packs(hello()), self.listed
        length = (len(packs) + 2).to_bytes(2, "big") + bytes(2)
        for content in (packs, length + packs, length + packs + b"\0", packs + b"\0"):
            out = self.folder / "blocks"
            ran = desk("texts", "--back", self.write("given", content), "--blocks", out, "--force")
            self.assertEqual(ran.status, 0, ran.errors)
            lines = [line for line in listed.splitlines() if not line.startswith("packs ")]
            self.assertEqual(ran.out.splitlines()[:-1], lines)
            blocks = out.read_bytes()
            self.assertEqual(len(blocks) % BLOCK, 0)
            output = program("text", "--lead-in", len(blocks) // BLOCK, stdin=blocks).decode()
            self.assertEqual(output, ran.out)

    def test_no_texts(self) -> None:
        sheet = b'FILE "a.wav" WAVE\nTRACK 01 AUDIO\nINDEX 01 00:00:00\n'
        ran = desk("texts", self.write("dump", author(sheet, "00:01:00", self.folder)))
        self.assertEqual(ran.status, 0)
        self.assertIn("has no text pack", ran.errors)

    def test_a_file_of_packs_names_the_option(self) -> None:
        packs = self.packs(hello())
        for content in (packs, (len(packs) + 2).to_bytes(2, "big") + bytes(2) + packs + b"\0"):
            path = self.write("disc.cdt", content)
            ran = desk("texts", path)
            self.assertEqual(ran.status, 3)
            self.assertEqual(ran.errors, f"ribjasper-desk: {path}: is a file of text packs, which texts --back reads\n")

    def test_refusals(self) -> None:
        for content in (b"", bytes(17), bytes(19) + b"x", bytes(18 * 3 + 7)):
            path = self.write("given", content)
            ran = desk("texts", "--back", path)
            self.assertEqual(ran.status, 3, content)
            self.assertIn(f"{path}: does not consist of whole packs", ran.errors)
        dump = self.write("dump", hello())
        self.assertEqual(desk("texts", dump, "--blocks", self.folder / "out").status, 2)
        self.assertEqual(desk("texts", "--back", dump, "--packs", self.folder / "out").status, 2)


if __name__ == "__main__":
    unittest.main()
