"""`q-fix`: a frame is restored if only one frame can be at its block, and otherwise left; changed frames of copy
protection; P, and the order of blocks."""
import random
import unittest
from typing import Callable

import known_dumps as known
import test_known_dumps
from fixtures import BLOCK, FolderTest, Ran, desk, needs_library
from known_dumps import Disc, Track, program


def disc() -> Disc:
    tracks = [Track(1, 150, 0, isrc="DEXYZ2600001"), Track(2, 150 + 75 * 20, 150 + 75 * 18), Track(3, 150 + 75 * 40)]
    return Disc(tracks, 150 + 75 * 60)


def with_frame(stream: bytes, block: int, frame: bytes) -> bytes:
    own = stream[BLOCK * block : BLOCK * (block + 1)].translate(bytes(byte & 0xBF for byte in range(256)))
    return stream[: BLOCK * block] + known.with_q(own, frame) + stream[BLOCK * (block + 1) :]


def in_sectors(stream: bytes) -> bytes:
    return known.in_sectors(known.split(stream))


def spoiled(stream: bytes, block: int, bits: int = 1 << 3) -> bytes:
    """A stream in which some bits of a block's Q frame are flipped."""
    frame = int.from_bytes(known.planar(stream[BLOCK * block : BLOCK * (block + 1)])[12:24], "big") ^ bits
    return with_frame(stream, block, frame.to_bytes(12, "big"))


@needs_library
class QFixTest(FolderTest):
    def setUp(self) -> None:
        super().setUp()
        self.disc = disc()
        self.whole = program(self.disc, 150, self.disc.end)

    def fixed(self, content: bytes, status: int = 0) -> tuple[bytes, list[dict[str, str]]]:
        out = self.folder / "fixed"
        self.ran: Ran = desk("q-fix", self.write("dump", content), "-o", out)
        self.assertEqual(self.ran.status, status, self.ran)
        content = out.read_bytes()
        out.unlink()
        return content, self.ran.rows()

    def test_nothing_to_do(self) -> None:
        copy, rows = self.fixed(self.whole)
        self.assertEqual((copy, rows), (self.whole, []))

    def test_frames_between_good_ones(self) -> None:
        stream = self.whole
        for block in (500, 501, 502, 700, 1360, 2000):
            stream = spoiled(stream, block, 0x5A5A << block % 61)
        stream = stream[: BLOCK * 900] + bytes(BLOCK * 10) + stream[BLOCK * 910 :]
        forms: list[Callable[[bytes], bytes]] = [bytes, known.as_planar, known.bytes_swapped, in_sectors]
        for form in forms:
            copy, rows = self.fixed(form(stream))
            self.assertEqual([row["kind"] for row in rows], ["filled"] * 16)
            self.assertEqual([int(row["block"]) for row in rows], [500, 501, 502, 700, *range(900, 910), 1360, 2000])
            wanted = form(self.whole)
            if form is bytes:
                # For blocks that the drive gave up, only Q is restored.
                for block in range(900, 910):
                    wanted = (
                        wanted[: BLOCK * block]
                        + known.with_q(bytes(BLOCK), self.disc.program_frame(150 + block))
                        + wanted[BLOCK * (block + 1) :]
                    )
                self.assertEqual(copy, wanted)
            self.assertEqual(len(copy), len(wanted))

    def test_a_bad_code_becomes_a_code(self) -> None:
        """A frame with the recording code of its track and one wrong bit is restored to that frame."""
        block = next(at for at in range(300, 600) if self.disc.frame(150 + at) != self.disc.program_frame(150 + at))
        copy, rows = self.fixed(spoiled(self.whole, block))
        self.assertEqual(copy, self.whole)
        self.assertEqual(len(rows), 1)

    def test_where_a_track_begins_nothing_is_filled_in(self) -> None:
        stream = spoiled(spoiled(self.whole, 75 * 20), 75 * 40 - 1)
        copy, rows = self.fixed(stream, status=1)
        self.assertEqual(copy, stream)
        self.assertEqual([row["kind"] for row in rows], ["left", "left"])
        self.assertIn("begins within", rows[0]["what"])

    def test_where_the_time_jumps_nothing_is_filled_in(self) -> None:
        stream = spoiled(self.whole, 600)
        stream = stream[: BLOCK * 601] + stream[BLOCK * 650 :]
        copy, rows = self.fixed(stream, status=1)
        self.assertEqual((copy, rows[0]["kind"]), (stream, "left"))
        self.assertIn("jumps", rows[0]["what"])

    def protected(self) -> tuple[bytes, dict[int, bytes]]:
        """A dump with eight pairs of changed frames: one or two bits of the times differ, and the checks too."""
        stream, changed = self.whole, {}
        for pair in range(8):
            for block in (400 + 60 * pair, 405 + 60 * pair):
                right = self.disc.program_frame(150 + block)
                content = right[:5] + bytes([right[5] ^ 0x02]) + right[6:9] + bytes([right[9] ^ 0x02])
                check = known.check(content)
                frame = content + bytes([check[0] ^ 0x80, check[1] ^ 0x01])
                changed[150 + block] = frame
                stream = with_frame(stream, block, frame)
        return stream, changed

    def test_copy_protection(self) -> None:
        stream, changed = self.protected()
        copy, rows = self.fixed(spoiled(stream, 2000))
        self.assertEqual(copy, stream)
        self.assertEqual([row["kind"] for row in rows], ["changed"] * 16 + ["filled"])
        self.assertIn("16 frames belong to pairs like those of LibCrypt", self.ran.errors)
        out = self.folder / "dump.sbi"
        ran = desk("q-fix", self.write("dump", stream), "--sbi", out)
        self.assertEqual(ran.status, 0, ran.errors)
        content = out.read_bytes()
        self.assertEqual((content[:4], len(content)), (b"SBI\0", 4 + 14 * 16))
        first = min(changed)
        self.assertEqual(content[4:18], known.time(first) + b"\1" + changed[first][:10])

    def spoil_others(self, stream: bytes, but: set[int], count: int, chance: random.Random) -> tuple[bytes, list[int]]:
        """A stream in which `count` other frames are damaged."""
        parts = known.split(stream)
        others = chance.sample([block for block in range(1, len(parts) - 1) if block not in but], count)
        for block in others:
            frame = known.damaged_frame(self.disc.frame(150 + block), chance)
            own = parts[block].translate(bytes(byte & 0xBF for byte in range(256)))
            parts[block] = known.with_q(own, frame)
        return b"".join(parts), others

    def test_copy_protection_among_other_bad_frames(self) -> None:
        """The eight pairs are unchanged, whatever else is bad, and the lists contain them."""
        self.disc = known.album(2, 2)
        whole = program(self.disc, 150, self.disc.end, 0)
        for seed, count in enumerate((0, 5, 50, 500) * 6):
            chance = random.Random(seed)
            firsts = [400 + 900 * pair + chance.randrange(600) for pair in range(8)]
            kind, of_content = ((0x8001, False), (0x8001, True), (0x0080, False))[seed // 4 % 3]
            frames = {}
            for block in (first + step for first in firsts for step in (0, 5)):
                frames[block] = known.libcrypt(
                    self.disc.program_frame(150 + block), 100 * seed + block, kind, of_content
                )
            stream = whole
            for block, frame in frames.items():
                stream = with_frame(stream, block, frame)
            spoiled_stream, _ = self.spoil_others(stream, set(frames), count, chance)
            dump = self.write("dump", spoiled_stream)
            out, sbi, lsd = (self.folder / f"out.{ending}" for ending in ("sub", "sbi", "lsd"))
            ran = desk("q-fix", dump, "-o", out, "--sbi", sbi, "--lsd", lsd, "--force")
            self.assertIn(ran.status, (0, 1), ran.errors)
            copy, rows = out.read_bytes(), ran.rows()
            for block, frame in frames.items():
                self.assertEqual(known.planar(copy[BLOCK * block : BLOCK * (block + 1)])[12:24], frame, (seed, block))
            self.assertEqual(
                {int(row["block"]) for row in rows if row["kind"] == "changed"}, set(frames), (seed, count)
            )
            times = [known.time(150 + block) for block in sorted(frames)]
            own = [frames[block] for block in sorted(frames)]
            self.assertEqual(sbi.read_bytes(), b"SBI\0" + b"".join(at + b"\1" + it[:10] for at, it in zip(times, own)))
            self.assertEqual(lsd.read_bytes(), b"".join(at + it for at, it in zip(times, own)))
            # All other frames are restored or listed as left.
            changed = [
                block
                for block in range(len(copy) // BLOCK)
                if copy[BLOCK * block : BLOCK * (block + 1)] != spoiled_stream[BLOCK * block : BLOCK * (block + 1)]
            ]
            self.assertEqual({int(row["block"]) for row in rows if row["kind"] == "filled"}, set(changed))
            self.assertGreaterEqual(len(changed), 0.9 * count - 2)
            for block in changed:
                frame = known.planar(copy[BLOCK * block : BLOCK * (block + 1)])[12:24]
                self.assertIn(frame, (self.disc.frame(150 + block), self.disc.program_frame(150 + block)))

    def test_frames_of_a_protected_disc_as_they_were_published(self) -> None:
        """The frames at 03:08:05 and 03:08:10 of a disc with one data track."""
        self.disc = Disc([Track(1, 150, 0, control=4)], 150 + 75 * 60 * 4)
        stream = program(self.disc, 150, self.disc.end, 0)
        published = {14105: "410101070605002308053839", 14110: "4101010306110003089 05da0".replace(" ", "")}
        for time, frame in published.items():
            stream = with_frame(stream, time - 150, bytes.fromhex(frame))
        copy, rows = self.fixed(spoiled(stream, 9000))
        self.assertEqual(copy, stream)
        self.assertEqual([row["kind"] for row in rows], ["filled", "changed", "changed"])
        self.assertEqual([row["time"] for row in rows[1:]], ["03:08:05", "03:08:10"])

    def test_a_doubtful_frame_stays(self) -> None:
        """A changed frame whose partner was damaged, and a pair with one wrong bit in the times and right checks."""
        right = [self.disc.program_frame(150 + block) for block in (400, 900, 905)]
        one_bit = [it[:9] + bytes([it[9] ^ 4]) + it[10:] for it in right]
        stream = with_frame(self.whole, 400, known.libcrypt(right[0], 1))
        stream = spoiled(stream, 405, 0x5A5A << 30)
        stream = with_frame(with_frame(stream, 900, one_bit[1]), 905, one_bit[2])
        copy, rows = self.fixed(stream, status=1)
        self.assertEqual(
            [(row["kind"], row["block"]) for row in rows],
            [("doubtful", "400"), ("filled", "405"), ("doubtful", "900"), ("doubtful", "905")],
        )
        self.assertEqual(copy[: BLOCK * 405], stream[: BLOCK * 405])
        self.assertEqual(copy[BLOCK * 406 :], stream[BLOCK * 406 :])
        self.assertNotIn("LibCrypt changes them", self.ran.errors)

    def test_no_disc_of_the_known_dumps_is_protected(self) -> None:
        """Whatever is wrong with them, and with 500 more bad frames."""
        for case, truth in test_known_dumps.FORMS.items():
            ran = desk("q-fix", self.write("dump", truth.make()))
            with self.subTest(case):
                self.assertIn(ran.status, (0, 1, 3), ran.errors)
                self.assertNotIn("LibCrypt changes them", ran.errors)
                self.assertNotIn("\nchanged\t", ran.out)
        self.disc = known.album(4, 3)
        whole = program(self.disc, 150, self.disc.end, 0)
        for seed in range(20):
            content, _ = self.spoil_others(whole, set(), 500, random.Random(seed))
            ran = desk("q-fix", self.write("dump", content))
            self.assertNotIn("LibCrypt changes them", ran.errors)
            self.assertNotIn("\nchanged\t", ran.out)

    def test_frames_with_a_regular_pattern(self) -> None:
        """Frames that all differ in the same bits, and good frames that all have the same wrong distance, are unchanged
        and listed."""
        stream, blocks = self.whole, [300 + 131 * k for k in range(6)]
        for block in blocks:
            stream = spoiled(stream, block, 0b1011 << 40)
        moved = [2500 + 77 * k for k in range(5)]
        for block in moved:
            stream = with_frame(stream, block, self.disc.program_frame(150 + block + 20))
        stream = spoiled(stream, 2300)
        copy, rows = self.fixed(stream, status=1)
        self.assertEqual({int(row["block"]) for row in rows if row["kind"] == "regular"}, {*blocks, *moved})
        self.assertEqual([row["block"] for row in rows if row["kind"] == "filled"], ["2300"])
        self.assertEqual(copy, with_frame(stream, 2300, self.disc.frame(150 + 2300)))
        self.assertNotIn("LibCrypt", self.ran.errors)

    def test_no_copy_protection(self) -> None:
        stream = self.whole
        for block in range(400, 1200, 37):
            stream = spoiled(stream, block, 2 << 20)
        _, rows = self.fixed(stream)
        self.assertEqual({row["kind"] for row in rows}, {"filled"})
        ran = desk("q-fix", self.write("dump", stream), "--sbi", self.folder / "out.sbi")
        self.assertEqual(ran.status, 3)
        self.assertFalse((self.folder / "out.sbi").exists())

    def test_order_of_indexes(self) -> None:
        other = disc()
        other.tracks[2].indexes = {4: 150 + 75 * 50}
        _, rows = self.fixed(program(other, 150, other.end), status=1)
        self.assertEqual([row["kind"] for row in rows], ["order"])
        self.assertIn("track 03 index 04 comes behind track 03 index 01", rows[0]["what"])

    def test_p(self) -> None:
        """P is 1 during the pause, and 0 from index 01 on."""
        parts = known.split(self.whole)
        for block in range(75 * 18, 75 * 20):
            parts[block] = bytes(byte | 0x80 for byte in parts[block])
        for block in range(75 * 40 - 150, 75 * 40):
            parts[block] = bytes(byte | 0x80 for byte in parts[block])
        right = [
            bytes(byte & 0x7F for byte in part) if block in (75 * 40,) else part for block, part in enumerate(parts)
        ]
        _, rows = self.fixed(b"".join(right))
        self.assertEqual(rows, [])
        late = list(right)
        for block in range(75 * 20, 75 * 20 + 30):
            late[block] = bytes(byte | 0x80 for byte in late[block])
        _, rows = self.fixed(b"".join(late), status=1)
        self.assertEqual([(row["kind"], row["block"]) for row in rows], [("p", str(75 * 20))])

    def test_refusals(self) -> None:
        bare = self.write("bare", self.whole.translate(bytes(byte & 63 for byte in range(256))))
        ran = desk("q-fix", bare)
        self.assertEqual(ran.status, 3)
        self.assertIn("its Q channel was not read", ran.errors)


if __name__ == "__main__":
    unittest.main()
