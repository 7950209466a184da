"""Files beside a dump: what each one says, and that a file without usable information changes nothing."""
import struct
import unittest

import known_dumps as known
from fixtures import BLOCK, FolderTest, desk, needs_library

DISC = known.album(0.3, 1)


def without_q(stream: bytes) -> bytes:
    return stream.translate(bytes(byte & 63 for byte in range(256)))


@needs_library
class CompanionsTest(FolderTest):
    def found(self, content: bytes, name: str, **beside: bytes) -> dict[str, str]:
        path = self.write(name, content)
        for ending, other in beside.items():
            path.with_suffix(f".{ending}").write_bytes(other)
        ran = desk("identify", path)
        self.assertEqual(ran.status, 0, ran.errors)
        return ran.rows()[0]

    def test_state_of_redumper(self) -> None:
        """If Q was not read, it gives the lead-in, provided that it is as long as the dump."""
        stream = without_q(known.redumper(DISC, 100))
        blocks = len(stream) // BLOCK
        row = self.found(stream, "a.subcode", state=bytes(588 * blocks))
        self.assertEqual((row["form"], row["lead-in"], row["graphics"]), ("raw", "45000", "yes"))
        self.assertIn("next to it: a.state", row["notes"])
        row = self.found(stream, "b.subcode", state=bytes(588 * blocks - 1))
        self.assertEqual(row["lead-in"], "0")
        self.assertIn("b.state is not as long as the dump", row["notes"])

    def test_q_tells_before_it(self) -> None:
        stream = known.lead_in(DISC, 60) + known.program(DISC, 0, DISC.end)
        row = self.found(stream, "a.subcode", state=bytes(588 * (len(stream) // BLOCK)))
        self.assertEqual(row["lead-in"], "60")

    def test_sheets(self) -> None:
        stream = known.as_planar(known.program(DISC, 150, DISC.end))
        ccd = b"[CloneCD]\r\nVersion=3\r\n[Disc]\r\nSessions=2\r\n"
        self.assertIn("2 sessions", self.found(stream, "a.sub", ccd=ccd)["notes"])
        cue = b'FILE "b.bin" BINARY\nREM SESSION 01\nTRACK 01 AUDIO\nINDEX 01 00:00:00\nREM SESSION 02\nTRACK 02 AUDIO\nINDEX 01 01:00:00\n'
        self.assertIn("2 sessions", self.found(stream, "b.sub", cue=cue)["notes"])
        self.assertIn("next to it: c.toc", self.found(stream, "c.sub", toc=b"CD_DA\n\nTRACK AUDIO\n")["notes"])
        mds = bytearray(b"MEDIA DESCRIPTOR" + bytes(0x70))
        struct.pack_into("<H", mds, 0x14, 3)
        struct.pack_into("<I", mds, 0x50, 0x58)
        struct.pack_into("<i", mds, 0x58, -150)
        self.assertIn("3 sessions", self.found(stream, "d.sub", mds=bytes(mds))["notes"])

    def test_what_tells_nothing(self) -> None:
        stream = known.program(DISC, 150, DISC.end)
        for number, (ending, content) in enumerate(
            (
                ("mds", b"text"),
                ("mds", b"MEDIA DESCRIPTOR"),
                ("ccd", b"no section"),
                ("ccd", b"[Entry 0]\nPoint=x\n"),
                ("cue", b"\xff\xfe\0"),
            )
        ):
            row = self.found(stream, f"{number}.sub", **{ending: content})
            self.assertEqual((row["form"], row["lead-in"]), ("raw", "0"))
        self.assertIn("3.ccd has no usable information", self.found(stream, "3.sub")["notes"])

    def test_other_files(self) -> None:
        stream = known.program(DISC, 150, DISC.end)
        self.write("z.cue", b"REM SESSION 02\n")
        self.assertEqual(self.found(stream, "a.raw")["notes"], "-")


if __name__ == "__main__":
    unittest.main()
