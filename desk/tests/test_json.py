"""With --json a command prints its table as one object per row, with the names and values of the plain table."""

import json
from typing import Any

from fixtures import HELLO, FolderTest, Word, desk, hello, needs_library, needs_plan


def spelled(row: dict[str, Any]) -> dict[str, str]:
    """A row of JSON with its values as the plain table spells them."""
    return {name: "-" if value is None else str(value) for name, value in row.items()}


@needs_library
class Json(FolderTest):
    def compare(self, *words: Word) -> list[dict[str, Any]]:
        plain, as_json = desk(*words), desk(*words, "--json")
        self.assertEqual(as_json.status, plain.status)
        self.assertEqual(as_json.errors, plain.errors)
        found = [json.loads(line) for line in as_json.out.splitlines()]
        self.assertEqual([spelled(row) for row in found], plain.rows())
        self.assertTrue(found)
        return found

    def test_identify(self) -> None:
        row = self.compare("identify", self.write("hello.raw", hello()))[0]
        self.assertEqual((row["form"], row["lead-in"], row["notes"]), ("raw", 30, None))

    def test_damage(self) -> None:
        stream = hello()
        dump = self.write("gap.raw", stream[: 96 * 700] + stream[96 * 775 :])
        jump = self.compare("damage", dump)[0]
        self.assertEqual((jump["kind"], jump["first"], jump["from"], jump["to"]), ("jump", 700, "00:08:69", "00:09:70"))

    def test_sums(self) -> None:
        row = self.compare("sums", self.write("three", b"abc"))[0]
        self.assertEqual((row["size"], row["sha1"]), (3, "a9993e364706816aba3e25717850c26c9cd0d89d"))

    @needs_plan
    def test_plan(self) -> None:
        rows = self.compare("plan", *HELLO, "--length", "00:22:00")
        self.assertEqual([row["picture"] for row in rows], list(range(len(rows))))

    def test_an_option_has_one_spelling(self) -> None:
        self.assertEqual(desk("identify", self.write("hello.raw", hello()), "--js").status, 2)


if __name__ == "__main__":
    import unittest

    unittest.main()
