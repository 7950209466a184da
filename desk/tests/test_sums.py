"""`sums`: checksums of files compared with other programs, the list of Logiqx, and the result of a check against it."""
import subprocess
import unittest
import xml.etree.ElementTree as xml

from fixtures import FolderTest, desk


class SumsTest(FolderTest):
    def setUp(self) -> None:
        super().setUp()
        self.files = [
            self.write("one.bin", b"123456789"),
            self.write("one.sub", bytes(100_000)),
            self.write("two & <2>.bin", b""),
        ]

    def test_sums(self) -> None:
        ran = desk("sums", *self.files)
        self.assertEqual(ran.status, 0, ran.errors)
        rows = ran.rows()
        self.assertEqual(rows[0]["crc32"], "cbf43926")
        for row, path in zip(rows, self.files):
            self.assertEqual(int(row["size"]), path.stat().st_size)
            for name in ("md5", "sha1", "sha256"):
                output = subprocess.run([f"{name}sum", path], capture_output=True, text=True).stdout.lstrip("\\")
                self.assertEqual(row[name], output.split()[0])

    def test_a_list(self) -> None:
        dat = self.folder / "out.dat"
        ran = desk("sums", *self.files, "--dat", dat, "--name", "my dumps")
        self.assertEqual(ran.status, 0, ran.errors)
        top = xml.parse(dat).getroot()
        self.assertEqual((top.tag, top.findtext("header/name")), ("datafile", "my dumps"))
        self.assertEqual([game.get("name") for game in top.iter("game")], ["one", "two & <2>"])
        roms = {rom.get("name"): rom.attrib for rom in top.iter("rom")}
        self.assertEqual((roms["one.bin"]["size"], roms["one.bin"]["crc"]), ("9", "cbf43926"))
        self.assertEqual(set(roms["one.sub"]), {"name", "size", "crc", "md5", "sha1", "sha256"})
        ran = desk("sums", *self.files, "--check", dat)
        self.assertEqual(ran.status, 0, ran.errors)
        self.assertEqual([row["found"] for row in ran.rows()], ["same"] * 3)

    def test_what_a_check_finds(self) -> None:
        dat = self.folder / "out.dat"
        desk("sums", *self.files, "--dat", dat)
        self.files[0].write_bytes(b"123456780")
        self.files[1].rename(self.folder / "renamed.sub")
        new = self.write("new", b"x")
        ran = desk("sums", self.files[0], self.folder / "renamed.sub", new, "--check", dat)
        self.assertEqual(ran.status, 1)
        self.assertEqual(
            [row["found"] for row in ran.rows()], ["differs: crc32, md5, sha1, sha256", "same as one.sub", "not listed"]
        )
        self.assertIn("two & <2>.bin is missing", ran.errors)

    def test_a_list_with_fewer_sums(self) -> None:
        dat = self.write(
            "a.dat",
            '<?xml version="1.0"?><datafile><game name="g"><rom name="one.bin" size="9" crc="CBF43926"/></game></datafile>',
        )
        ran = desk("sums", self.files[0], "--check", dat)
        self.assertEqual((ran.status, ran.rows()[0]["found"]), (0, "same"))

    def test_no_list(self) -> None:
        for content in (b"", b"text", b"<a/>"):
            ran = desk("sums", self.files[0], "--check", self.write("no.dat", content))
            self.assertEqual(ran.status, 3)
            self.assertIn("is not a list of checksums", ran.errors)


if __name__ == "__main__":
    unittest.main()
