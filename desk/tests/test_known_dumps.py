"""Dumps whose content is known, in the forms of other tools: the form, header, lead-in, state and damage are right for
each one."""
import functools
import json
import random
import re
import shutil
import tempfile
import unittest
from pathlib import Path
from typing import Callable, NamedTuple

import known_dumps as known
from fixtures import FolderTest, Word, desk, needs_library
from known_dumps import BLOCK, REDUMPER_LEAD_IN, album, program
from ribjasper.dumps.detection import form_of
from ribjasper.dumps.dump import DumpFile

DISC = album(4, 3, catalogue="0123456789012")
SHORT = album(0.5, 1)


class Truth(NamedTuple):
    """The facts about a dump: how it is made, the result of `identify`, and its state in a report."""

    make: Callable[[], bytes]
    form: str
    lead_in: int = 0
    graphics: str = "yes"
    state: str = "good"
    name: str = "dump"
    note: str = ""  # a part of the notes


@functools.lru_cache(maxsize=8)
def raw(disc: known.Disc = DISC, density: float = 0.5) -> bytes:
    return program(disc, 150, disc.end, density)


@functools.lru_cache(maxsize=8)
def with_lead_in(blocks: int = 300) -> bytes:
    return known.lead_in(DISC, blocks) + program(DISC, 0, DISC.end)


def stale(stream: bytes, block: int, frame_of: int) -> bytes:
    """A stream in which a block has the frame of another place."""
    own = stream[BLOCK * block : BLOCK * (block + 1)].translate(bytes(byte & 0xBF for byte in range(256)))
    return stream[: BLOCK * block] + known.with_q(own, DISC.program_frame(frame_of)) + stream[BLOCK * (block + 1) :]


def with_gap(stream: bytes, block: int, count: int) -> bytes:
    return stream[: BLOCK * block] + stream[BLOCK * (block + count) :]


def zeros(stream: bytes, block: int, count: int) -> bytes:
    return stream[: BLOCK * block] + bytes(BLOCK * count) + stream[BLOCK * (block + count) :]


def sectors(stream: bytes, **how: bool) -> bytes:
    return known.in_sectors(known.split(stream), **how)


def packs(count: int = 4000, density: float = 0.5) -> bytes:
    return known.file_of_packs(count, density)


def cooked_sectors(content: bytes, **how: bool) -> bytes:
    return known.in_sectors(known.split(content), **how)


def high_bits(content: bytes) -> bytes:
    chance = random.Random(8)
    return bytes(byte | chance.randrange(4) << 6 for byte in content)


# Dumps with a part of the disc, or of another disc.
PARTS = (
    "a block",
    "three blocks",
    "a few blocks",
    "pq, torn",
    "a sector",
    "lacks",
    "begun",
    "given up at",
    "sector, header",
)
HEADER = random.Random(9).randbytes
FORMS: dict[str, Truth] = {
    "raw": Truth(raw, "raw"),
    "raw, sparse": Truth(lambda: raw(density=0.02), "raw"),
    "raw, dense": Truth(lambda: raw(density=1), "raw"),
    "raw, with lead-in": Truth(with_lead_in, "raw", 300),
    "raw, from 00:00:00": Truth(lambda: program(DISC, 0, DISC.end), "raw"),
    "raw, begun at 00:01:00": Truth(lambda: program(DISC, 4500, DISC.end), "raw"),
    "raw, redumper": Truth(
        lambda: known.redumper(DISC), "raw", REDUMPER_LEAD_IN, note="45000 blocks in front, 3000 behind"
    ),
    "raw, redumper, sparse": Truth(lambda: known.redumper(DISC, 3000, 0.02), "raw", REDUMPER_LEAD_IN),
    "raw, redumper, a multiple of 2,448": Truth(
        lambda: known.redumper(DISC, -(REDUMPER_LEAD_IN + DISC.end) % 51 + 51 * 60), "raw", REDUMPER_LEAD_IN
    ),
    "raw, redumper, no graphics": Truth(lambda: known.redumper(DISC, 3000, 0), "raw", REDUMPER_LEAD_IN, "not read"),
    "raw, without R to W": Truth(lambda: known.without_rw(raw()), "raw", graphics="not read"),
    "raw, without P and Q": Truth(
        lambda: raw().translate(bytes(byte & 63 for byte in range(256))), "raw", note="Q: not read"
    ),
    "raw, scratched": Truth(lambda: known.scratched(raw(), 1), "raw", state="damaged"),
    "raw, much scratched": Truth(lambda: known.scratched(raw(), 2, every=3), "raw", state="damaged"),
    "raw, scratched, with lead-in": Truth(lambda: known.scratched(with_lead_in(), 3), "raw", 300, state="damaged"),
    "raw, stale frame in front": Truth(lambda: stale(with_lead_in(), 5, 9000), "raw", 300, state="damaged"),
    "raw, redumper, stale frame": Truth(
        lambda: stale(known.redumper(DISC), 100, 9000), "raw", REDUMPER_LEAD_IN, state="damaged"
    ),
    "raw, stale frame behind": Truth(lambda: stale(with_lead_in(), 4000, 12), "raw", 300, state="damaged"),
    "raw, stale frame first": Truth(lambda: stale(raw(), 0, 15_000), "raw", state="damaged"),
    "raw, lacks a second": Truth(lambda: with_gap(with_lead_in(), 1000, 75), "raw", 300, state="damaged"),
    "raw, given up within": Truth(lambda: zeros(raw(), 2000, 200), "raw", state="damaged"),
    "raw, given up at the ends": Truth(lambda: zeros(zeros(raw(), 0, 300), 17_500, 500), "raw"),
    "raw, torn": Truth(lambda: raw()[:-17], "raw", state="torn", note="torn: 79 bytes"),
    "raw, redumper, torn": Truth(
        lambda: known.redumper(DISC)[:-50], "raw", REDUMPER_LEAD_IN, state="torn", note="torn: 46"
    ),
    "raw, a block": Truth(lambda: raw()[:BLOCK], "raw", graphics="no"),
    "raw, a block and a half": Truth(lambda: raw()[: BLOCK + 48], "raw", graphics="no", state="torn"),
    "raw, three blocks": Truth(lambda: raw()[: 3 * BLOCK], "raw"),
    "raw, header": Truth(lambda: HEADER(44) + raw(), "raw", note="header: 44 bytes"),
    "raw, header of 128": Truth(lambda: HEADER(128) + raw(), "raw", note="header: 128 bytes"),
    "raw, header, torn": Truth(lambda: HEADER(44) + raw()[:-5], "raw", state="torn", note="header: 44 bytes"),
    "raw, header, with lead-in": Truth(lambda: HEADER(61) + with_lead_in(), "raw", 300, note="header: 61 bytes"),
    "raw-reversed": Truth(lambda: known.bits_reversed(raw()), "raw-reversed", note="in reverse"),
    "raw-swapped": Truth(lambda: known.bytes_swapped(with_lead_in()), "raw-swapped", 300, note="exchanged"),
    "planar": Truth(lambda: known.as_planar(raw()), "planar"),
    "planar, with lead-in": Truth(lambda: known.as_planar(with_lead_in()), "planar", 300),
    "planar, scratched": Truth(lambda: known.as_planar(known.scratched(raw(), 4)), "planar", state="damaged"),
    "planar, unread": Truth(lambda: known.as_planar(known.redumper(DISC)), "planar", REDUMPER_LEAD_IN),
    "planar, header": Truth(lambda: HEADER(10) + known.as_planar(raw()), "planar", note="header: 10 bytes"),
    "planar, header, short, torn, a few blocks": Truth(
        lambda: HEADER(10) + known.as_planar(raw()[: BLOCK * 20])[:-30], "planar", state="torn", note="header: 10 bytes"
    ),
    "planar, torn": Truth(lambda: known.as_planar(raw())[:-90], "planar", state="torn"),
    "planar, a block": Truth(lambda: known.as_planar(raw()[:BLOCK]), "planar", graphics="no"),
    "planar-reversed": Truth(lambda: known.bits_reversed(known.as_planar(raw())), "planar-reversed"),
    "planar-swapped": Truth(lambda: known.bytes_swapped(known.as_planar(raw())), "planar-swapped"),
    "sector": Truth(lambda: sectors(raw()), "sector"),
    "sector, silent": Truth(lambda: sectors(raw(), silent=True), "sector"),
    "sector, scratched": Truth(lambda: sectors(known.scratched(raw(), 5)), "sector", state="damaged"),
    "sector, torn": Truth(lambda: sectors(raw())[:-1000], "sector", state="torn", note="torn: 1448 bytes"),
    "sector, a sector": Truth(lambda: sectors(raw()[:BLOCK]), "sector", graphics="no"),
    "sector, header": Truth(lambda: HEADER(44) + sectors(raw(SHORT)), "sector", note="header: 44 bytes"),
    "sector-planar": Truth(lambda: known.in_sectors(list(map(known.planar, known.split(raw())))), "sector-planar"),
    "sector-planar, a sector": Truth(
        lambda: known.in_sectors([known.planar(raw()[:BLOCK])]), "sector-planar", graphics="no"
    ),
    "sector-planar, silent": Truth(
        lambda: known.in_sectors(list(map(known.planar, known.split(raw()))), silent=True), "sector-planar"
    ),
    "planar, a few blocks of many": Truth(
        lambda: known.as_planar(bytes(BLOCK * 803) + known.scratched(raw()[: BLOCK * 20], 6, 8)),
        "planar",
        803 - 150,
        state="damaged",
    ),
    "sector-pq, a few blocks of many": Truth(
        lambda: known.in_sectors(
            [
                known.formatted_q(it, False)
                for it in known.split(bytes(BLOCK * 1363) + raw()[: BLOCK * 60] + bytes(BLOCK * 500))
            ]
        ),
        "sector-pq",
        1363 - 150,
        "not read",
    ),
    "sector-pq": Truth(
        lambda: known.in_sectors(list(map(known.formatted_q, known.split(raw())))), "sector-pq", graphics="not read"
    ),
    "sector-pq, without checks": Truth(
        lambda: known.in_sectors([known.formatted_q(it, False) for it in known.split(raw())]),
        "sector-pq",
        graphics="not read",
    ),
    "pq, torn": Truth(
        lambda: b"".join(map(known.formatted_q, known.split(raw()[: BLOCK * 300])))[:-12],
        "pq",
        graphics="not read",
        state="torn",
    ),
    "pq": Truth(lambda: b"".join(map(known.formatted_q, known.split(raw()))), "pq", graphics="not read"),
    "cooked": Truth(packs, "cooked"),
    "cooked, sparse": Truth(lambda: packs(40_000, 0.01), "cooked"),
    "cooked, a block": Truth(lambda: packs(4, 1), "cooked"),
    "cooked-sector": Truth(lambda: cooked_sectors(packs()), "cooked-sector"),
    "cooked-sector, silent": Truth(lambda: cooked_sectors(packs(), silent=True), "cooked-sector"),
    "cdg": Truth(lambda: packs(4001), "cdg"),
    "cdg, by its name": Truth(packs, "cdg", name="song.CDG"),
    "cdg, without parity": Truth(lambda: known.without_parity(packs(4001)), "cdg"),
    "cdg, without parity, whole blocks": Truth(lambda: known.without_parity(packs(4000)), "cdg"),
    "cdg, high bits": Truth(lambda: high_bits(packs(4003)), "cdg"),
    "cdg, high bits, without parity": Truth(lambda: high_bits(known.without_parity(packs(4002))), "cdg"),
    "cdg, torn": Truth(lambda: packs(4001)[:-7], "cdg", state="torn", note="torn: 17 bytes"),
    "cdg, ten packs": Truth(lambda: packs(10, 1), "cdg"),
}


@needs_library
class KnownDumpsTest(FolderTest):
    """`identify`, and the state in a report."""

    dumps: Path

    @classmethod
    def setUpClass(cls) -> None:
        """All dumps, which are made once."""
        cls.dumps = Path(tempfile.mkdtemp(prefix="ribjasper-test-"))
        cls.addClassCleanup(shutil.rmtree, cls.dumps)
        for number, truth in enumerate(FORMS.values()):
            cls.dump(number, truth).write_bytes(truth.make())

    @classmethod
    def dump(cls, number: int, truth: Truth) -> Path:
        return cls.dumps / f"{number:02}-{truth.name}"

    def found(self, path: Path, *words: Word) -> dict[str, str]:
        ran = desk("identify", path, *words)
        self.assertEqual(ran.status, 0, ran.errors)
        (row,) = ran.rows()
        return row

    def test_forms(self) -> None:
        for number, (case, truth) in enumerate(FORMS.items()):
            with self.subTest(case):
                path = self.dump(number, truth)
                row = self.found(path)
                result = row["form"], int(row["lead-in"]), row["graphics"]
                self.assertEqual(result, (truth.form, truth.lead_in, truth.graphics), row)
                self.assertIn(truth.note, row["notes"])
                self.check_sheet(case, truth, path)

    def check_sheet(self, case: str, truth: Truth, path: Path) -> None:
        """The tracks of the disc in a sheet; dumps without Q are refused, and dumps of a part of the disc give a
        part."""
        ran = desk("sheet", path)
        has_q = "cooked" not in truth.form and "cdg" not in truth.form and "Q: not read" not in truth.note
        self.assertEqual(ran.status, 0 if has_q else 3, ran.errors)
        if has_q and not any(word in case for word in PARTS):
            tracks = re.findall(r"TRACK (\d\d) AUDIO(?:(?!TRACK).)*?INDEX 01 (\S+)", ran.out, re.DOTALL)
            self.assertEqual(tracks, [("01", "00:00:00"), ("02", "01:20:00"), ("03", "02:40:00")])

    def test_packs_have_no_header(self) -> None:
        """The first pack is the first of the file, unless --skip says otherwise: for any number of packs, with and
        without parity, dense and sparse, with a torn last pack, and behind idle packs."""
        chance = random.Random(1)
        for number in range(16):
            content = packs(chance.randrange(15_990, 20_000), chance.choice((0.05, 0.5, 1)))
            content = content if number % 3 else known.without_parity(content)
            content = bytes(24 * chance.choice((0, 1, 400))) + content[: len(content) - chance.choice((0, 0, 5))]
            path = self.write(f"song{number}.{('cdg', 'bin')[number % 2]}", content)
            found, _ = form_of(DumpFile(path))
            assert found is not None
            self.assertEqual(found.skip, 0)
            self.assertEqual(
                found.form.name, "cooked" if number % 2 and number % 3 and len(content) % 96 == 0 else "cdg"
            )
        ran = desk("identify", path, "--skip", 24)
        self.assertIn("header: 24 bytes in front", ran.out)

    def test_a_file_that_convert_writes_is_read_whole(self) -> None:
        """A minute of packs, whose number is not a multiple of four."""
        out, again = self.folder / "out.cdg", self.folder / "again.cdg"
        self.assertEqual(desk("convert", self.write("a.raw", raw()), "-o", out).status, 0)
        whole = out.read_bytes()
        self.assertGreater(len(whole) // 24, 16_000)
        self.assertTrue(len(whole) // 24 % 4)
        self.assertEqual(desk("convert", out, "-o", again).status, 0)
        self.assertEqual(again.read_bytes(), whole)
        ran = desk("damage", out)
        self.assertEqual((ran.status, ran.rows()), (0, []))
        self.assertNotIn("header", ran.errors)

    def test_states(self) -> None:
        out = self.folder / "report"
        ran = desk("report", self.dumps, "-o", out, "--no-pictures", "--quiet")
        self.assertEqual(ran.status, 0, ran.errors)
        rows = [json.loads(line) for line in (out / "table.jsonl").read_text().splitlines()]
        found = {case: (row["form"], row["lead-in"], row["status"]) for case, row in zip(FORMS, rows)}
        self.assertEqual(found, {case: (truth.form, truth.lead_in, truth.state) for case, truth in FORMS.items()})


if __name__ == "__main__":
    unittest.main()
