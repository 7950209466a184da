"""`mend`: the best of any number of readings, aligned by their times; never worse than the best reading."""
import binascii
import itertools
import random
import re
import subprocess
import unittest

import known_dumps as known

from ribjasper.common.failures import Refusal
from ribjasper.dumps.loading import DumpOptions
from ribjasper.dumps.readings import read_reading

from fixtures import (
    BLOCK, LEAD_IN, PACK, PROGRAM_BLOCKS, FolderTest, Word, as_sectors, desk, has, hello, hello_packs, needs_library,
    program, with_bad_q, with_burst, with_zeros, without,
)  # fmt: skip

NAMES = ["reading", "words", "of-reading", "left-out", "lost"]
needs_mending = unittest.skipUnless(has("ribjasper_mend_report"), "lib/ has no ribjasper_mend_report")


def noisy(stream: bytes, places: range, seed: int, length: int = 60) -> bytes:
    """A reading with lost words at these blocks."""
    for block in places:
        stream = with_burst(stream, block, length, seed + block)
    return stream


def wrong(packs: bytes, truth: bytes) -> int:
    """The number of packs that are wrong."""
    return sum(packs[at : at + PACK] != truth[at : at + PACK] for at in range(0, len(truth), PACK))


def is_frame(block: bytes) -> bool:
    """Whether the check of a block's Q channel matches its first 80 bits."""
    frame = int("".join(str(byte >> 6 & 1) for byte in block), 2).to_bytes(12, "big")
    return binascii.crc_hqx(frame[:10], 0) ^ 0xFFFF == int.from_bytes(frame[10:], "big")


def channels(block: bytes) -> bytes:
    """Channels P and Q of a block."""
    return bytes(byte & 0xC0 for byte in block)


def without_q(stream: bytes) -> bytes:
    """A reading in which no bit of channel Q is set."""
    return bytes(byte & 0xBF for byte in stream)


def blocks_of(stream: bytes) -> list[bytes]:
    return [stream[at : at + BLOCK] for at in range(0, len(stream), BLOCK)]


class MendCase(FolderTest):
    def mended(self, *readings: bytes, status: int = 0, words: tuple[Word, ...] = (), name: str = "out.cdg") -> bytes:
        names = [self.write(f"reading-{number}", content) for number, content in enumerate(readings)]
        out = self.folder / name
        self.ran = desk("mend", *names, "-o", out, "--force", *words)
        self.assertEqual(self.ran.status, status, self.ran)
        return out.read_bytes()


@needs_library
@needs_mending
class MendTest(MendCase):
    def test_two_noisy_readings(self) -> None:
        first = noisy(hello(), range(100, 1800, 40), 1)
        second = noisy(hello(), range(120, 1800, 40), 2)
        for reading in (first, second):
            lost = program("check", "--lead-in", LEAD_IN, stdin=reading, statuses=(1,)).decode()
            self.assertGreater(int(dict(line.split() for line in lost.splitlines())["bad"]), 50)
        self.assertEqual(self.mended(first, second), hello_packs())
        rows = self.ran.rows()
        self.assertEqual(list(rows[0]), NAMES)
        self.assertEqual([int(row["words"]) for row in rows], [4 * PROGRAM_BLOCKS - 7] * 2)
        self.assertGreater(int(rows[0]["of-reading"]), 50)
        self.assertGreater(int(rows[1]["of-reading"]), 50)
        self.assertEqual(sum(int(row["of-reading"]) for row in rows), 4 * PROGRAM_BLOCKS - 7)

    def test_a_lost_second_beside_a_whole_reading(self) -> None:
        self.assertEqual(self.mended(without(hello(), 700, 774), hello()), hello_packs())
        self.assertEqual(self.mended(hello(), without(hello(), 700, 774)), hello_packs())

    def test_a_lost_second_beside_a_noisy_reading(self) -> None:
        second = noisy(hello(), range(1000, 1800, 40), 2)
        self.assertEqual(self.mended(without(hello(), 700, 774), second), hello_packs())

    def test_other_starts_and_forms(self) -> None:
        """A dump with its lead-in, one from the first sector on, and a planar one."""
        first = noisy(hello(), range(300, 1800, 40), 1)
        late = noisy(hello(), range(320, 1800, 40), 2)[BLOCK * (LEAD_IN + 150) :]
        self.assertEqual(self.mended(first, as_sectors(late)), hello_packs())
        self.assertEqual(self.mended(program("planar", stdin=first), late), hello_packs())

    def test_a_shorter_reading(self) -> None:
        self.assertEqual(self.mended(hello()[: BLOCK * 1000], hello()), hello_packs())
        self.assertEqual(self.mended(hello()[: BLOCK * 1200], hello()[BLOCK * 1000 :]), hello_packs())

    def test_blocks_that_a_drive_gave_up(self) -> None:
        self.assertEqual(self.mended(with_zeros(hello(), 600, 700), with_zeros(hello(), 900, 1000)), hello_packs())

    def test_repeated_sectors(self) -> None:
        stream = hello()[: BLOCK * 1200] + hello()[BLOCK * 1150 :]
        self.assertEqual(self.mended(stream, hello()), hello_packs())

    def test_frames_that_are_bad(self) -> None:
        first = hello()
        for block in range(400, 1400, 2):
            first = with_bad_q(first, block)
        self.assertEqual(self.mended(first, without(hello(), 700, 774)), hello_packs())

    def test_without_any_time(self) -> None:
        """Readings without usable Q are aligned at their beginnings if they have the same length. If everything is
        zero, nobody can know whether it was read."""
        bare = bytes(byte & 63 for byte in hello()[BLOCK * LEAD_IN :])
        first, second = noisy(bare, range(100, 1700, 40), 1), noisy(bare, range(120, 1700, 40), 2)
        self.assertEqual(self.mended(first, second, status=1), hello_packs())
        names = self.write("a", first), self.write("b", second[BLOCK:])
        ran = desk("mend", *names, "-o", self.folder / "none.cdg")
        self.assertEqual(ran.status, 3)
        self.assertIn("its Q frames have no time", ran.errors)
        self.assertFalse((self.folder / "none.cdg").exists())

    def test_three_readings(self) -> None:
        """Words that each pair of three readings has lost are found in all three."""
        chance, readings = random.Random(4), []
        for number in range(3):
            stream = noisy(hello(), range(100 + 40 * number, 1800, 120), number)
            for block in range(60, 1800, 300):
                if chance.randrange(3) == number:
                    stream = with_zeros(stream, block, block + 5)
            readings.append(stream)
        both_lost = noisy(noisy(hello(), range(800, 1000, 40), 7), range(400, 500, 30), 8)
        self.assertEqual(self.mended(*readings), hello_packs())
        third = noisy(hello(), range(1300, 1400, 30), 9)
        self.assertEqual(self.mended(both_lost, noisy(hello(), range(800, 1000, 40), 3), third), hello_packs())
        self.assertEqual(len(self.ran.rows()), 3)

    def test_what_none_has(self) -> None:
        both = noisy(hello(), range(800, 810), 1, 96), noisy(hello(), range(800, 810), 2, 96)
        map_of, ddrescue = self.folder / "map", self.folder / "ddrescue"
        packs = self.mended(*both, status=1, words=("--map", map_of, "--ddrescue-map", ddrescue))
        self.assertEqual(len(packs), len(hello_packs()))
        self.assertEqual(packs[: PACK * 3000], hello_packs()[: PACK * 3000])
        self.assertRegex(self.ran.errors, r"\d+ words have no codeword")
        names, *rows = [line.split("\t") for line in map_of.read_text().splitlines()]
        self.assertEqual(names, ["pack", "time", "packs"])
        lost = {pack for row in rows for pack in range(int(row[0]), int(row[0]) + int(row[2]))}
        truth = hello_packs()
        differ = {
            n for n in range(len(packs) // PACK) if packs[PACK * n : PACK * (n + 1)] != truth[PACK * n : PACK * (n + 1)]
        }
        self.assertLessEqual(differ, lost)
        self.assertIn(f"{len(lost)} words have no codeword", self.ran.errors)
        first = min(lost)
        # The first lost words begin up to two blocks before the damage.
        self.assertTrue(4 * (800 - LEAD_IN - 2) <= first <= 4 * (800 - LEAD_IN + 1) and len(lost) <= 60, rows)
        block = first // 4
        self.assertEqual(rows[0][1], f"00:{block // 75:02}:{block % 75:02}")
        parts = [line.split() for line in ddrescue.read_text().splitlines() if not line.startswith("#")][1:]
        self.assertEqual([part[2] for part in parts][:2], ["-", "+"])
        self.assertEqual(int(parts[1][0], 16), PACK * first)
        self.assertEqual(sum(int(part[1], 16) for part in parts), len(packs))

    def test_refusals(self) -> None:
        whole = self.write("whole", hello())
        packs = self.write("packs", hello_packs() + bytes(-len(hello_packs()) % BLOCK))
        self.assertEqual(desk("mend", whole, "-o", self.folder / "out.cdg").status, 2)
        self.assertEqual(desk("mend", whole, whole).status, 2)
        for other, cause in (
            (packs, "is cooked"),
            (self.folder / "missing", "no such file"),
            (self.folder, "directory"),
        ):
            ran = desk("mend", whole, other, "-o", self.folder / "out.cdg")
            self.assertEqual(ran.status, 3)
            self.assertIn(f"{other}: ", ran.errors)
            self.assertIn(cause, ran.errors)
        self.assertFalse((self.folder / "out.cdg").exists())


class DiscCase(MendCase):
    """Tests with a disc whose packs are known."""

    def setUp(self) -> None:
        super().setUp()
        self.disc = known.album(1, 2)
        self.whole = known.program(self.disc, 0, self.disc.end)
        self.truth = program("convert", "--lead-in", 0, stdin=self.whole)


@needs_library
@needs_mending
class KnownReadingsTest(DiscCase):
    """Readings of such a disc."""

    def test_a_reading_without_graphics(self) -> None:
        bare = known.without_rw(self.whole)
        for readings in ((self.whole, bare), (bare, self.whole), (bare, self.whole, bare)):
            self.assertEqual(self.mended(*readings), self.truth)
            self.assertEqual([int(row["lost"]) for row in self.ran.rows()], [0] * len(readings))
            for reading, row in zip(readings, self.ran.rows()):
                left = len(self.truth) // PACK if reading == bare else 0
                self.assertEqual(int(row["left-out"]), left)

    def test_a_reading_without_graphics_in_a_part(self) -> None:
        first, end = 1000, 3000
        part = (
            self.whole[: BLOCK * first]
            + known.without_rw(self.whole[BLOCK * first : BLOCK * end])
            + self.whole[BLOCK * end :]
        )
        self.assertEqual(self.mended(part, self.whole), self.truth)
        self.assertTrue(abs(int(self.ran.rows()[0]["left-out"]) - 4 * (end - first)) < 48, self.ran.rows())

    def test_a_scratched_reading_beside_one_without_graphics(self) -> None:
        worn = known.scratched(self.whole, 3, 10, 60)
        alone = program("convert", "--lead-in", 0, stdin=worn, statuses=(0, 1))
        packs = self.mended(worn, known.without_rw(self.whole), status=1)
        self.assertLessEqual(wrong(packs, self.truth), wrong(alone, self.truth))

    def test_a_perfect_reading_beside_noise(self) -> None:
        chance = random.Random(5)
        noise = bytes(byte & 0xC0 | chance.randrange(64) for byte in self.whole)
        self.assertEqual(self.mended(self.whole, noise), self.truth)
        self.assertEqual(self.mended(noise, known.scratched(self.whole, 6), self.whole), self.truth)

    def test_idle_beside_noise(self) -> None:
        """If the disc has no graphics, noise in another reading does not become graphics."""
        disc = known.album(1, 1)
        quiet = known.program(disc, 0, disc.end, 0.002)
        truth = program("convert", "--lead-in", 0, stdin=quiet)
        chance = random.Random(6)
        noise = bytes(byte & 0xC0 | chance.randrange(64) for byte in quiet)
        self.assertEqual(self.mended(quiet, noise), truth)
        self.assertEqual(self.ran.rows()[0]["left-out"], "0")

    def test_never_less_than_the_better_reading(self) -> None:
        chance = random.Random(7)
        for case in range(12):
            readings = [self.reading(chance) for _ in range(chance.randrange(2, 5))]
            alone = [
                wrong(program("convert", "--lead-in", 0, stdin=it, statuses=(0, 1)), self.truth) for it in readings
            ]
            names = [self.write(f"{case}-{number}", content) for number, content in enumerate(readings)]
            out = self.folder / f"{case}.cdg"
            ran = desk("mend", *names, "-o", out)
            self.assertIn(ran.status, (0, 1), ran.errors)
            self.assertLessEqual(wrong(out.read_bytes(), self.truth), min(alone), (case, alone, ran.errors))
            if ran.status == 0:
                self.assertEqual(out.read_bytes(), self.truth)

    def reading(self, chance: random.Random) -> bytes:
        """A reading with one of the usual faults."""
        kind = chance.randrange(5)
        if kind == 0:
            return known.scratched(self.whole, chance.randrange(1000), chance.choice((5, 40)), 60)
        if kind == 1:
            return known.without_rw(self.whole)
        if kind == 2:
            first = chance.randrange(len(self.whole) // BLOCK - 300)
            return self.whole[: BLOCK * first] + bytes(BLOCK * 300) + self.whole[BLOCK * (first + 300) :]
        if kind == 3:
            first = chance.randrange(2000)
            return self.whole[: BLOCK * first] + known.without_rw(self.whole[BLOCK * first :])
        return known.scratched(self.whole, chance.randrange(1000), 15, 90)

    def test_another_disc_is_refused(self) -> None:
        other = known.Disc([known.Track(5, 150, 0), known.Track(6, 2000)], self.disc.end)
        for stream in (known.program(other, 0, other.end, 0.5), known.program(other, 0, other.end, 0)):
            names = self.write("one", self.whole), self.write("two", stream)
            ran = desk("mend", *names, "-o", self.folder / "out.cdg")
            self.assertEqual(ran.status, 3, ran.errors)
            self.assertIn("readings 1 and 2 seem to be of different discs", ran.errors)
            self.assertFalse((self.folder / "out.cdg").exists())
            ran = desk("mend", *names, "-o", self.folder / "out.cdg", "--force")
            self.assertIn(ran.status, (0, 1), ran.errors)
            (self.folder / "out.cdg").unlink()

    def test_graphics_of_another_disc(self) -> None:
        symbols = known.symbols_of(0.5, seed=77)
        other = b"".join(
            known.with_q(symbols[BLOCK * (block % 300) : BLOCK * (block % 300) + BLOCK], self.disc.frame(block))
            for block in range(self.disc.end)
        )
        ran = desk("mend", self.write("one", self.whole), self.write("two", other), "-o", self.folder / "out.cdg")
        self.assertEqual(ran.status, 3, ran.errors)
        self.assertIn("seem to be of different discs", ran.errors)

    def test_compare(self) -> None:
        later = known.scratched(self.whole[BLOCK * 150 :], 3, 500, 10)
        ran = desk("mend", self.write("one", self.whole), self.write("two", later), "--compare")
        self.assertEqual(ran.status, 1)
        self.assertIn("the dumps seem to be of one disc", ran.errors)
        self.assertIn("block n of the first dump is block n - 150 of the second dump", ran.errors)
        rows = ran.rows()
        self.assertEqual((rows[0]["first"], rows[0]["last"], rows[0]["from"]), ("0", "149", "00:00:00"))
        differing = sum(int(row["last"]) - int(row["first"]) + 1 for row in rows)
        wanted = sum(
            self.whole[BLOCK * (150 + k) : BLOCK * (151 + k)] != later[BLOCK * k : BLOCK * (k + 1)]
            for k in range(len(later) // BLOCK)
        )
        self.assertEqual(differing, 150 + wanted)
        ran = desk("mend", self.write("one", self.whole), self.write("two", known.as_planar(self.whole)), "--compare")
        self.assertEqual((ran.status, ran.rows()), (0, []))


@needs_library
@needs_mending
class MendedStreamTest(MendCase):
    def setUp(self) -> None:
        super().setUp()
        self.disc = known.album(1, 2)
        self.whole = known.lead_in(self.disc, 60) + known.program(self.disc, 0, self.disc.end)

    def test_streams(self) -> None:
        first = known.scratched(self.whole, 1, 40)
        second = self.whole[: BLOCK * 20] + known.scratched(self.whole[BLOCK * 20 :], 1, 40)
        first = self.whole[: BLOCK * 100] + first[BLOCK * 100 :]
        for name in ("out.raw", "out.subcode"):
            stream = self.mended(first, second, name=name)
            self.assertIn("the lead-in of 60 blocks comes from reading 1", self.ran.errors)
            self.assertIn(f"block 60 of {self.folder / name} is at the absolute time 00:00:00", self.ran.errors)
            # Symbols in the last two blocks that belong to no whole word come from a reading; P is never corrected.
            bits = bytes(byte & 0x7F for byte in range(256))
            self.assertEqual(stream[: -2 * BLOCK].translate(bits), self.whole[: -2 * BLOCK].translate(bits))
        planar = self.mended(first, second, name="out.sub")
        self.assertEqual(planar, known.as_planar(stream))

    def test_packs_of_a_stream_are_the_mended_ones(self) -> None:
        """A word without a codeword has symbols of several readings in the stream. Some of these words have a codeword there,
        and nearly always the right one."""
        first, second = known.scratched(self.whole, 1, 12, 70), known.scratched(self.whole, 2, 13, 70)
        packs = self.mended(first, second, status=1)
        none = int(re.search(r"(\d+) words have no codeword", self.ran.errors)[1])  # type: ignore[index]
        stream = self.mended(first, second, status=1, name="out.raw")
        again = program("convert", "--lead-in", 60, stdin=stream, statuses=(0, 1))
        truth = program("convert", "--lead-in", 60, stdin=self.whole)
        words = [slice(at, at + PACK) for at in range(0, len(packs), PACK)]
        found = [word for word in words if again[word] != packs[word]]
        self.assertFalse([word for word in found if any(packs[word])])
        right = sum(again[word] == truth[word] for word in found)
        self.assertGreater(right, 9 * len(found) // 10)
        checked = program("check", "--lead-in", 60, stdin=stream, statuses=(0, 1)).decode()
        counts = {name: int(count) for name, count in (line.split() for line in checked.splitlines())}
        self.assertLessEqual(max(len(found), counts["one"] + counts["two"]), none - counts["bad"])

    def test_frames_are_good_ones(self) -> None:
        """P and Q of each block come from a reading with a good frame there, if there is one."""
        chance, readings = random.Random(11), []
        for _ in range(3):
            worn = bytearray(self.whole)
            for block in chance.sample(range(60, len(self.whole) // BLOCK), 400):
                worn[BLOCK * block + chance.randrange(BLOCK)] ^= 0x40
                worn[BLOCK * block + chance.randrange(BLOCK)] ^= 0x80
            readings.append(bytes(worn))
        stream = self.mended(*readings, name="out.raw")
        columns, others = [blocks_of(reading) for reading in readings], 0
        for block, own in enumerate(blocks_of(stream)):
            here = [column[block] for column in columns]
            good = [it for it in here if is_frame(it)] or here
            others += len(good) < 3
            self.assertIn(channels(own), [channels(it) for it in good], block)
        self.assertGreater(others, 300)
        for order in itertools.permutations(readings):
            self.assertEqual(self.mended(*order, name="out.raw"), stream)

    def test_the_order_of_readings_changes_nothing(self) -> None:
        """Noise and a whole reading: words that both ends cut come from the whole one too. Three damaged readings, of
        which one begins later and one has no lead-in: each order writes the same bytes."""
        chance = random.Random(12)
        noise = bytes(byte & 0xC0 | chance.randrange(64) for byte in self.whole)
        for readings in ((self.whole, noise), (noise, self.whole)):
            self.assertEqual(self.mended(*readings, name="out.raw"), self.whole)
        later = known.scratched(self.whole[BLOCK * 2000 :], 13, 8, 90)
        damaged = known.scratched(self.whole, 11, 9, 90), known.scratched(self.whole[BLOCK * 60 :], 12, 7, 90), later
        for name in ("out.raw", "out.cdg"):
            orders = [self.mended(*order, status=1, name=name) for order in itertools.permutations(damaged)]
            self.assertEqual(len(set(orders)), 1, name)

    def test_packs_of_all_forms(self) -> None:
        """The program finds the packs of the .cdg file in a stream of each form, and no wrong symbol."""
        first, second = known.scratched(self.whole, 21, 30), known.scratched(self.whole, 22, 30)
        packs = self.mended(first, second)
        for name in ("out.raw", "out.subcode", "out.sub"):
            stream = self.mended(first, second, name=name)
            raw = program("raw", stdin=stream) if name.endswith(".sub") else stream
            self.assertEqual(program("convert", "--lead-in", 60, stdin=raw), packs)
            counts = dict(line.split() for line in program("check", "--lead-in", 60, stdin=raw).decode().splitlines())
            self.assertEqual((counts["one"], counts["two"], counts["bad"]), ("0", "0", "0"))

    def test_sectors_with_drive_errors(self) -> None:
        """C2 errors and states of samples are reported, and do not drop a word: here an error-free reading is marked
        where the other one is scratched."""
        other, blocks = self.whole, len(self.whole) // BLOCK
        for block in range(700, 760, 2):
            other = with_burst(other, block, 90, block)
        c2, state = bytearray(294 * blocks), bytearray(b"\4" * (588 * blocks))
        for block in range(690, 770):
            c2[294 * block + block % 294] = 1
        state[588 * 1000] = 1
        self.write("reading-0.c2", bytes(c2))
        self.write("reading-1.state", bytes(state))
        self.assertEqual(self.mended(self.whole, other), program("convert", "--lead-in", 60, stdin=self.whole))
        self.assertRegex(self.ran.errors, r"reading-0: the drive reported errors in 80 sectors \(reading-0\.c2\)")
        self.assertRegex(self.ran.errors, r"reading-1: the drive reported errors in 1 sectors \(reading-1\.state\)")

    def test_a_file_that_becomes_shorter(self) -> None:
        """Blocks that are read a second time must still be there."""
        path = self.write("reading.raw", self.whole)
        reading = read_reading(str(path), DumpOptions())
        self.assertEqual(b"".join(content for _, content in reading.blocks(0, 700)), self.whole[: BLOCK * 700])
        path.write_bytes(self.whole[: BLOCK * 699 + 95])
        with self.assertRaisesRegex(Refusal, "became shorter"):
            list(reading.blocks(0, 700))

    def test_q_of_a_reading_that_is_left_out(self) -> None:
        """A reading without graphics provides its Q where the Q of the other one is bad."""
        bare, other = known.without_rw(self.whole), self.whole
        for block in range(1000, 1100):
            other = with_bad_q(other, block)
        stream = self.mended(bare, other, name="out.raw")
        self.assertEqual(stream[: -2 * BLOCK], self.whole[: -2 * BLOCK])


@needs_library
@needs_mending
class FaultsTest(MendCase):
    """Dumps with known content that earlier versions mended wrongly."""

    def setUp(self) -> None:
        super().setUp()
        self.disc = known.album(1, 2)
        self.chance = random.Random(31)
        self.whole = self.with_idle_seconds(known.program(self.disc, 0, self.disc.end))
        self.truth = program("convert", "--lead-in", 0, stdin=self.whole)

    def with_idle_seconds(self, stream: bytes) -> bytes:
        """A program without packs for some seconds, as in an instrumental."""
        for first in (600, 1800, 3200):
            stream = self.with_idle(stream, first, first + 700)
        return stream

    @staticmethod
    def with_idle(stream: bytes, first: int, end: int) -> bytes:
        """A program without the packs of the slots between two blocks."""
        content = bytearray(stream)
        for slot in range(4 * first, 4 * end):
            for place in known.PLACES:
                if 24 * slot + place < len(content):
                    content[24 * slot + place] &= 0xC0
        return bytes(content)

    def worn(self, stream: bytes, count: int, length: int) -> bytes:
        content = bytearray(stream)
        for _ in range(count):
            at = self.chance.randrange(len(content) - length)
            content[at : at + length] = self.chance.randbytes(length)
        return bytes(content)

    def test_a_perfect_reading_with_idle_seconds(self) -> None:
        """One in 267 scratched idle words is near a codeword; these are no sign that a reading lacks graphics."""
        for scratched in (self.worn(self.whole, 250, 60) for _ in range(3)):
            for readings in ((self.whole, scratched), (scratched, self.whole)):
                self.assertEqual(self.mended(*readings), self.truth, self.ran.errors)
                place = readings.index(self.whole)
                self.assertEqual(self.ran.rows()[place]["left-out"], "0")
                self.assertEqual(self.ran.rows()[place]["lost"], "0")

    def test_a_perfect_reading_with_bad_q(self) -> None:
        """Noise near a codeword does not replace an idle pack whose Q frames are bad."""
        quiet = self.with_idle(known.program(self.disc, 0, self.disc.end), 300, 4400)
        truth = program("convert", "--lead-in", 0, stdin=quiet)
        perfect = quiet
        for block in range(300, 4400):
            if block % 40:
                perfect = with_bad_q(perfect, block)
        noise = bytes(byte & 0xC0 | self.chance.randrange(64) for byte in quiet)
        self.assertEqual(self.mended(perfect, noise), truth)

    def test_stale_blocks_have_their_own_place(self) -> None:
        """A hundred blocks from another place, with good Q frames, do not replace the blocks at whose place they
        are."""
        stale = self.whole[: BLOCK * 2000] + self.whole[BLOCK * 700 : BLOCK * 800] + self.whole[BLOCK * 2100 :]
        stale_busy = self.whole[: BLOCK * 2000] + self.whole[BLOCK * 100 : BLOCK * 200] + self.whole[BLOCK * 2100 :]
        for worse in (stale, stale_busy):
            for readings in ((self.whole, worse), (worse, self.whole)):
                self.assertEqual(self.mended(*readings), self.truth, self.ran.errors)
                self.assertIn("repeat the times of other blocks", self.ran.errors)

    def test_zeros_of_a_reading_without_graphics_are_never_believed(self) -> None:
        half = self.whole[: BLOCK * (len(self.whole) // BLOCK // 2)]
        packs = self.mended(half, known.without_rw(self.whole), status=1)
        lost = re.search(r"(\d+) words have no codeword", self.ran.errors)
        assert lost
        words = len(self.truth) // PACK
        self.assertEqual(packs[: len(packs) // 2 - 48 * PACK], self.truth[: len(packs) // 2 - 48 * PACK])
        self.assertTrue(abs(int(lost[1]) - words // 2) < 20, self.ran.errors)

    def test_maps_count_the_written_file(self) -> None:
        lead_in = known.lead_in(self.disc, 60)
        lost = noisy(lead_in + self.whole, range(2060, 2063), 1, 96), noisy(
            lead_in + self.whole, range(2060, 2063), 2, 96
        )
        map_of, ddrescue = self.folder / "map", self.folder / "domain"
        stream = self.mended(*lost, status=1, words=("--map", map_of, "--ddrescue-map", ddrescue), name="out.raw")
        row = map_of.read_text().splitlines()[1].split("\t")
        self.assertTrue(2058 <= int(row[0]) <= 2060, row)
        block = int(row[0]) - 60
        self.assertEqual(row[1], f"00:{block // 75:02}:{block % 75:02}")
        # With the map, ddrescue reads only the lost blocks from another dump of the same size.
        whole = self.write("whole.raw", lead_in + self.whole)
        out = self.folder / "again.raw"
        words = ["ddrescue", "-q", "-b", "96", "-m", str(ddrescue), str(whole), str(out)]
        subprocess.run(words, check=True, stdin=subprocess.DEVNULL)
        first, end = int(row[0]), int(row[0]) + int(row[2])
        copied = out.read_bytes()
        self.assertEqual(copied[BLOCK * first : BLOCK * end], (lead_in + self.whole)[BLOCK * first : BLOCK * end])
        self.assertFalse(any(copied[: BLOCK * first]))
        self.assertEqual(len(stream), len(lead_in + self.whole))

    def test_maps_of_dumps_are_read(self) -> None:
        """Blocks that a map lists as unread do not count, whatever the dump contains there."""
        bad = self.whole[: BLOCK * 1000] + self.chance.randbytes(BLOCK * 60) + self.whole[BLOCK * 1060 :]
        first, second = self.write("one.raw", bad), self.write("two.raw", self.whole)
        size = len(bad)
        lines = [
            "0x0 + 1",
            f"0x0 {BLOCK * 1000:#x} +",
            f"{BLOCK * 1000:#x} {BLOCK * 60:#x} -",
            f"{BLOCK * 1060:#x} {size - BLOCK * 1060:#x} +",
        ]
        for name in ("one.map", "one.raw.map"):
            map_of = self.write(name, "".join(f"{line}\n" for line in lines).encode())
            ran = desk("mend", first, second, "-o", self.folder / "out.cdg", "--unread", map_of, "--force")
            self.assertEqual(ran.status, 0, ran)
            self.assertIn("60 blocks are unread according to", ran.errors)
            self.assertEqual((self.folder / "out.cdg").read_bytes(), self.truth)
        for name, content, cause in (
            ("three.map", b"0x0 +\n0 96 +\n", "belongs to no reading"),
            ("one.map", b"words\n", "not a map of ddrescue"),
        ):
            ran = desk("mend", first, second, "-o", self.folder / "no.cdg", "--unread", self.write(name, content))
            self.assertEqual(ran.status, 3, ran)
            self.assertIn(cause, ran.errors)

    def test_every_number_is_true(self) -> None:
        """Readings that contradict each other: a word is reported as lost if a reading has it and the result does
        not."""
        busy = [n for n in range(len(self.truth) // PACK) if any(self.truth[PACK * n : PACK * (n + 1)])]
        turned = self.chance.sample(busy, 200)
        first, other = bytearray(self.whole), known.pictures(3, 9)
        for n in turned:
            pack = next(it for it in other if it != self.truth[PACK * n : PACK * (n + 1)])
            for place, symbol in zip(known.PLACES, pack):
                first[PACK * n + place] = first[PACK * n + place] & 0xC0 | symbol
        packs = self.mended(bytes(first), self.whole, status=1)
        self.assertEqual([(row["lost"], row["left-out"]) for row in self.ran.rows()], [("200", "0")] * 2)
        self.assertIn("200 words have no codeword", self.ran.errors)
        lost = {
            n
            for n in range(len(packs) // PACK)
            if packs[PACK * n : PACK * (n + 1)] != self.truth[PACK * n : PACK * (n + 1)]
        }
        self.assertEqual(lost, set(turned))
        self.assertEqual(self.mended(bytes(first), self.whole, self.whole, status=1), self.truth)
        self.assertEqual([row["lost"] for row in self.ran.rows()], ["200", "0", "0"])

    def test_the_limit_of_readings_comes_first(self) -> None:
        ran = desk("mend", *["missing"] * 255, "-o", self.folder / "out.cdg")
        self.assertEqual(ran.status, 2)
        self.assertIn("at most 254 readings can be mended", ran.errors)

    def test_unknown_endings_and_nothing_to_mend(self) -> None:
        names = self.write("a", known.without_rw(self.whole)), self.write("b", known.without_rw(self.whole))
        for name in ("out.bin", "out.doc", "out.cdg.bak"):
            ran = desk("mend", *names, "-o", self.folder / name)
            self.assertEqual(ran.status, 3, ran)
            self.assertIn("the name must end in .cdg", ran.errors)
        ran = desk("mend", *names, "-o", self.folder / "out.cdg")
        self.assertEqual(ran.status, 9, ran)
        self.assertIn("nothing to mend", ran.errors)
        self.assertFalse((self.folder / "out.cdg").exists())

    def test_p_and_q_alone_are_compared(self) -> None:
        names = self.write("one", self.whole), self.write("two", known.without_rw(self.whole))
        ran = desk("mend", *names, "--compare")
        self.assertEqual((ran.status, ran.rows()), (0, []), ran)
        self.assertIn("only P and Q are compared", ran.errors)


@needs_library
@needs_mending
class PlacingTest(DiscCase):
    """Readings without a good Q frame, or with good frames only in stale blocks."""

    def setUp(self) -> None:
        super().setUp()
        self.bare = without_q(self.whole)

    def with_stale(self, stream: bytes, first: int, other: int, count: int) -> bytes:
        """A stream in which some blocks come from another time."""
        end, stale = BLOCK * (first + count), self.whole[BLOCK * other : BLOCK * (other + count)]
        return stream[: BLOCK * first] + stale + stream[end:]

    def test_stale_frames_do_not_place_a_reading(self) -> None:
        """A reading without Q is as long as the other one, and its words agree with it."""
        gap = with_zeros(self.whole, 3000, 3100)
        for first, other, count in ((2000, 777, 3), (2000, 777, 100), (0, 2011, 200), (777, 2222, 400)):
            worse = self.with_stale(self.bare, first, other, count)
            for readings in ((gap, worse), (worse, gap)):
                self.assertEqual(self.mended(*readings), self.truth, (first, other, count, self.ran.errors))
                self.assertIn("is at the absolute time 00:00:00", self.ran.errors)

    def test_a_reading_of_the_same_length_where_nothing_is_shared(self) -> None:
        """Only the reading without Q has graphics: it is aligned with a reading of the same length."""
        frames = known.without_rw(self.whole)
        worse = self.with_stale(self.bare, 2000, 777, 100)
        stale = range(4 * 2000 - 8, 4 * 2100)
        packs = self.mended(frames, worse, status=1)
        self.assertEqual(len(packs), len(self.truth))
        for n in range(len(packs) // PACK):
            if n not in stale:
                self.assertEqual(packs[PACK * n : PACK * (n + 1)], self.truth[PACK * n : PACK * (n + 1)], n)

    def test_two_stale_runs_with_one_lag(self) -> None:
        """Blocks between two stale runs with the same distance keep their place."""
        worse = self.with_stale(self.with_stale(self.bare, 2000, 1963, 20), 2100, 2063, 20)
        gap = with_zeros(self.whole, 2025, 2095)
        self.assertEqual(self.mended(gap, worse), self.truth, self.ran.errors)

    def test_stale_blocks_at_the_end(self) -> None:
        """Blocks without Q behind a stale run are placed by the frames before the run."""
        end = len(self.whole) // BLOCK
        worse = self.with_stale(
            self.whole[: BLOCK * (end - 300)] + self.bare[BLOCK * (end - 300) :], end - 400, 311, 100
        )
        gap = with_zeros(self.whole, end - 250, end - 50)
        self.assertEqual(self.mended(gap, worse), self.truth, self.ran.errors)

    def test_a_reading_with_many_unplaced_blocks_is_refused(self) -> None:
        """Stale frames in a reading without Q that begins and ends elsewhere: the place of its other blocks is
        unknown."""
        worse = self.with_stale(self.bare[BLOCK * 1000 : BLOCK * 4000], 2000, 777, 100)
        first = with_zeros(self.whole, 4000, 4010)
        out = self.folder / "out.cdg"
        names = self.write("one", first), self.write("two", worse)
        ran = desk("mend", *names, "-o", out)
        self.assertEqual(ran.status, 3, ran)
        self.assertIn(f"no Q frame or pack determines the place of 2900 of the 3000 blocks of {names[1]}", ran.errors)
        self.assertIn("--force mends the readings without these blocks", ran.errors)
        self.assertFalse(out.exists())
        alone = program("convert", "--lead-in", 0, stdin=first, statuses=(0, 1))
        self.assertEqual(self.mended(first, worse, status=1), alone)
        self.assertIn("2900 blocks are omitted", self.ran.errors)

    def test_a_reading_without_q_begins_or_ends_as_another(self) -> None:
        """Its words agree there, whatever its length."""
        gap = with_zeros(self.whole, 1500, 1600)
        for part in (self.bare[: BLOCK * 3000], self.bare[BLOCK * 1111 :]):
            self.assertEqual(self.mended(gap, part), self.truth, self.ran.errors)
            self.assertEqual(self.mended(self.with_stale(part, 1000, 555, 40), gap), self.truth, self.ran.errors)

    def test_a_single_stale_block(self) -> None:
        """A drive returned a block twice: the second one does not count if another reading has the right frame. If all
        readings have the same frame of another time, it is on the disc, and its block counts."""
        twice = self.whole[: BLOCK * 1000] + self.whole[BLOCK * 999 : BLOCK * 1000] + self.whole[BLOCK * 1001 :]
        gap = with_zeros(self.whole, 3000, 3010)
        for readings in ((twice, gap), (gap, twice)):
            self.assertEqual(self.mended(*readings), self.truth, self.ran.errors)
        q = bytes(one & 0x3F | other & 0xC0 for one, other in zip(self.block(1500), self.block(1400)))
        strange = self.whole[: BLOCK * 1500] + q + self.whole[BLOCK * 1501 :]
        self.assertEqual(self.mended(strange, strange), self.truth, self.ran.errors)

    def block(self, number: int) -> bytes:
        return self.whole[BLOCK * number : BLOCK * (number + 1)]

    def test_a_missing_block_in_a_reading_without_q(self) -> None:
        """The parts before and after the missing block are placed separately, except for some blocks."""
        bare = self.bare[: BLOCK * 2222] + self.bare[BLOCK * 2223 :]
        gap = with_zeros(with_zeros(self.whole, 1000, 1100), 3000, 3100)
        for readings in ((bare, gap), (gap, bare)):
            self.assertEqual(self.mended(*readings), self.truth, self.ran.errors)
        self.assertRegex(self.ran.errors, r"\d\d blocks are omitted")

    def test_stale_frames_alone_say_no_time(self) -> None:
        """Two readings without Q, one with stale blocks: they stay aligned block by block, and their time is
        unknown."""
        worse = self.with_stale(self.bare, 2000, 1611, 100)
        gap = with_zeros(self.bare, 3000, 3100)
        self.assertEqual(self.mended(gap, worse), self.truth, self.ran.errors)
        self.assertIn("no Q frame determines its absolute time", self.ran.errors)


if __name__ == "__main__":
    unittest.main()
