"""`sums --tracks`: tracks compared with those that other code cuts, the disc of a list, the offset of its audio, and
error detection codes."""
import hashlib
import random
import subprocess
import unittest
import zlib
from pathlib import Path

import known_dumps as known
from fixtures import FolderTest, Ran, Word, author_files, desk, needs_library, write_wav
from known_dumps import AUDIO, Disc, Track
from ribjasper.dumps import cutting, edc

PAUSE = 150


def mixed() -> Disc:
    """A data track and two audio tracks with pauses, as on discs of games."""
    return Disc([Track(1, 150, 0, control=4), Track(2, 850, 700), Track(3, 1300, 1225)], 1700)


def sectors_of(disc: Disc, seed: int = 1) -> list[bytes]:
    """The content of each sector of a disc, from the absolute time 00:02:00 on."""
    chance = random.Random(seed)
    found = []
    for block in range(150, disc.end):
        track = disc.track(block)
        found.append(known.data_sector(block) if track.control & 4 else chance.randbytes(AUDIO))
    return found


def dat(games: dict[str, list[tuple[str, bytes]]]) -> str:
    """A list of discs with the files of their tracks, and a sheet, which is not a track."""
    lines = ['<?xml version="1.0"?>', "<datafile><header><name>a list</name></header>"]
    for name, files in games.items():
        lines.append(f'<game name="{name}"><rom name="{name}.cue" size="5" crc="00000001" md5="x" sha1="y"/>')
        for file, content in files:
            crc, md5, sha1 = (
                f"{zlib.crc32(content):08X}",
                hashlib.md5(content).hexdigest(),
                hashlib.sha1(content).hexdigest(),
            )
            lines.append(f'<rom name="{file}" size="{len(content)}" crc="{crc}" md5="{md5}" sha1="{sha1}"/>')
        lines.append("</game>")
    return "\n".join([*lines, "</datafile>"])


def moved(tracks: list[bytes], whole: bytes, starts: list[int], samples: int) -> list[bytes]:
    """Tracks whose audio begins `samples` samples later in the image, with silence where there is no audio."""
    padded = bytes(4 * 5000) + whole + bytes(4 * 5000)
    return [padded[4 * 5000 + AUDIO * at + 4 * samples :][: len(track)] for at, track in zip(starts, tracks)]


class EdcTest(unittest.TestCase):
    def test_codes(self) -> None:
        """The codes of each mode, compared with codes computed bit by bit; and a known sector: zeros have the code
        zero."""
        sectors = [
            known.data_sector(150 + k, mode, form) for k, (mode, form) in enumerate(((1, 1), (2, 1), (2, 2)) * 5)
        ]
        sectors += [known.data_sector(190, 0)]
        found = edc.EdcCount()
        edc.count(b"".join(sectors), 7, found)
        self.assertEqual((found.sectors, found.without, found.bad), (16, 1, []))
        self.assertEqual(edc.edc_codes([bytes(AUDIO)], edc.MODE_1), [bytes(4)])

    def test_what_is_wrong(self) -> None:
        chance = random.Random(3)
        for mode, form in ((1, 1), (2, 1), (2, 2)):
            sectors = [bytearray(known.data_sector(150 + k, mode, form)) for k in range(20)]
            wrong = sorted(chance.sample(range(20), 6))
            for number in wrong:
                sectors[number][chance.randrange(16, 2000)] ^= 1 << chance.randrange(8)
            found = edc.EdcCount()
            edc.count(b"".join(sectors), 100, found)
            self.assertEqual(found.bad, [100 + number for number in wrong])
        found = edc.EdcCount()
        edc.count(chance.randbytes(AUDIO), 0, found)
        self.assertEqual(found.bad, [0])

    def test_a_form_without_a_code(self) -> None:
        sector = bytearray(known.data_sector(150, 2, 2))
        sector[2348:] = bytes(4)
        found = edc.EdcCount()
        edc.count(bytes(sector), 0, found)
        self.assertEqual((found.without, found.bad), (1, []))


class PlacesTest(unittest.TestCase):
    def test_places_of_a_checksum(self) -> None:
        """The checksums of all places are those of zlib."""
        chance = random.Random(4)
        for length in (4, 8, 100, 2352):
            content = chance.randbytes(4 * 300 + length)
            place = chance.randrange(300)
            wanted = zlib.crc32(content[4 * place : 4 * place + length])
            self.assertIn((place, wanted), list(cutting.offsets_with(content, length, {wanted})))
            every = {zlib.crc32(content[4 * at : 4 * at + length]): at for at in range(301)}
            self.assertEqual({crc: at for at, crc in cutting.offsets_with(content, length, set(every))}, every)


class TracksTest(FolderTest):
    """The tracks of a .bin file with its sheet; these tests do not need the library."""

    def setUp(self) -> None:
        super().setUp()
        self.disc = mixed()
        self.sectors = sectors_of(self.disc)
        self.whole = b"".join(self.sectors)
        # Data from index 01 on, audio from the pause on, each up to the beginning of the next track.
        self.bounds = [(0, 550), (550, 1075), (1075, 1550)]
        self.cut = [self.whole[AUDIO * a : AUDIO * b] for a, b in self.bounds]
        self.cue = (
            'FILE "disc.bin" BINARY\n  TRACK 01 MODE1/2352\n    INDEX 01 00:00:00\n  TRACK 02 AUDIO\n'
            "    INDEX 00 00:07:25\n    INDEX 01 00:09:25\n  TRACK 03 AUDIO\n    INDEX 00 00:14:25\n    INDEX 01 00:15:25\n"
        )

    def image(self, content: bytes | None = None) -> Path:
        self.write("disc.cue", self.cue)
        return self.write("disc.bin", self.whole if content is None else content)

    def tracks(self, *words: Word, status: int = 0) -> Ran:
        ran = desk("sums", "--tracks", *words)
        self.assertEqual(ran.status, status, ran.errors)
        return ran

    def check_rows(self, ran: Ran, cut: list[bytes]) -> None:
        """The sums of the tracks are those of other programs for the cut files."""
        rows = ran.rows()
        self.assertEqual(len(rows), len(cut))
        for number, (row, content) in enumerate(zip(rows, cut), 1):
            path = self.write("cut", content)
            self.assertEqual((row["track"], int(row["size"])), (f"{number:02}", len(content)))
            for name in ("md5", "sha1"):
                output = subprocess.run([f"{name}sum", path], capture_output=True, text=True).stdout
                self.assertEqual(row[name], output.split()[0])
            self.assertEqual(row["crc32"], f"{zlib.crc32(content):08x}")

    def test_a_bin_with_its_sheet(self) -> None:
        image = self.image()
        for path in (image, self.folder / "disc.cue"):
            ran = self.tracks(path)
            self.check_rows(ran, self.cut)
            self.assertEqual([row["type"] for row in ran.rows()], ["data", "audio", "audio"])
            self.assertEqual([row["edc-bad"] for row in ran.rows()], ["0", "-", "-"])

    def test_a_sheet_of_several_files(self) -> None:
        lines = []
        for number, content in enumerate(self.cut, 1):
            self.write(f"disc (Track {number}).bin", content)
            kind, pause = ("MODE1/2352", 0) if number == 1 else ("AUDIO", (150, 75)[number - 2])
            lines.append(f'FILE "disc (Track {number}).bin" BINARY\n  TRACK {number:02} {kind}')
            lines += ["    INDEX 00 00:00:00"] * bool(pause) + [f"    INDEX 01 00:0{pause // 75}:00"]
        self.check_rows(self.tracks(self.write("disc.cue", "\n".join(lines))), self.cut)
        (self.folder / "disc (Track 2).bin").unlink()
        ran = self.tracks(self.folder / "disc.cue", status=3)
        self.assertIn("names the file disc (Track 2).bin, which does not exist", ran.errors)

    def test_a_data_track_begins_with_index_01(self) -> None:
        """The sectors of its pause belong to no track, and a note says so."""
        self.cue = (
            'FILE "disc.bin" BINARY\n  TRACK 01 AUDIO\n    INDEX 01 00:00:00\n  TRACK 02 MODE1/2352\n'
            "    INDEX 00 00:07:25\n    INDEX 01 00:09:25\n"
        )
        chance = random.Random(9)
        sound = chance.randbytes(AUDIO * 550)
        data = b"".join(known.data_sector(850 + k) for k in range(300))
        ran = self.tracks(self.image(sound + bytes(AUDIO * 150) + data))
        self.check_rows(ran, [sound, data])
        self.assertIn("150 sectors before data track 02 are in no track", ran.errors)

    def test_an_offset(self) -> None:
        image = self.image()
        for samples in (1, -1, 30, -588, 589, 2000, -2940):
            wanted = [
                self.cut[0],
                *moved(self.cut[1:], bytes(AUDIO * 550) + self.whole[AUDIO * 550 :], [550, 1075], samples),
            ]
            self.check_rows(self.tracks(image, "--offset", samples), wanted)
        self.assertEqual(desk("sums", "--tracks", image, "--offset", "2941").status, 2)
        self.assertEqual(desk("sums", image, "--offset", "3").status, 2)

    def names(self, cut: list[bytes], name: str = "Game") -> list[tuple[str, bytes]]:
        return [(f"{name} (Track {number}).bin", content) for number, content in enumerate(cut, 1)]

    def test_the_disc_of_a_list(self) -> None:
        image = self.image()
        other = b"".join(sectors_of(mixed(), 7))
        others = [other[AUDIO * a : AUDIO * b] for a, b in self.bounds]
        games = {
            "Other": self.names(others, "Other"),
            "Game (Europe)": self.names(self.cut),
            "Short": self.names(self.cut[:1], "Short"),
        }
        ran = self.tracks(image, "--check", self.write("list.dat", dat(games)))
        self.assertEqual([row["found"] for row in ran.rows()], ["same"] * 3)
        self.assertIn("is Game (Europe): 3 of 3 tracks are the same", ran.errors)
        changed = bytearray(self.whole)
        changed[AUDIO * 600] ^= 1
        ran = self.tracks(self.image(bytes(changed)), "--check", self.folder / "list.dat", status=1)
        self.assertEqual([row["found"] for row in ran.rows()], ["same", "differs: crc32, md5, sha1", "same"])
        ran = self.tracks(
            self.image(), "--check", self.write("none.dat", dat({"Other": self.names(others)[1:]})), status=1
        )
        self.assertIn("no disc in the list has a track of this image", ran.errors)

    def test_an_offset_by_the_list(self) -> None:
        """In the list, the audio begins elsewhere in the image, as if another drive had read it."""
        image = self.image()
        for samples in (6, -30, 667, -1182, 2940):
            cut = [
                self.cut[0],
                *moved(self.cut[1:], bytes(AUDIO * 550) + self.whole[AUDIO * 550 :], [550, 1075], samples),
            ]
            ran = self.tracks(image, "--check", self.write("list.dat", dat({"Game": self.names(cut)})))
            self.assertIn(f"the audio fits the list with an offset of {samples} samples", ran.errors)
            self.assertEqual([row["found"] for row in ran.rows()], ["same"] * 3)
            self.assertIn("is Game: 3 of 3 tracks are the same", ran.errors)

    def test_a_silent_track_tells_no_offset(self) -> None:
        """The last and shortest track is silent; the other one gives the offset."""
        self.whole = self.whole[: AUDIO * 1075] + bytes(AUDIO * 475)
        image = self.image()
        audio = bytes(AUDIO * 550) + self.whole[AUDIO * 550 :]
        cut = [self.cut[0], *moved([self.cut[1], bytes(AUDIO * 475)], audio, [550, 1075], 102)]
        ran = self.tracks(image, "--check", self.write("list.dat", dat({"Game": self.names(cut)})))
        self.assertIn("an offset of 102 samples", ran.errors)
        self.assertEqual([row["found"] for row in ran.rows()], ["same"] * 3)

    def test_wrong_codes_of_sectors(self) -> None:
        changed = bytearray(self.whole)
        for sector in (3, 77, 540):
            changed[AUDIO * sector + 1000] ^= 0x10
        ran = self.tracks(self.image(bytes(changed)), status=1)
        self.assertEqual([row["edc-bad"] for row in ran.rows()], ["3", "-", "-"])

    def test_a_list_of_tracks(self) -> None:
        self.tracks(self.image(), "--dat", self.folder / "own.dat")
        ran = self.tracks(self.folder / "disc.bin", "--check", self.folder / "own.dat")
        self.assertEqual([row["found"] for row in ran.rows()], ["same"] * 3)
        self.assertIn('name="disc (Track 1).bin"', (self.folder / "own.dat").read_text())

    def test_refusals(self) -> None:
        image = self.image()
        ran = desk("sums", "--tracks", self.folder / "disc.cue", "--dat", image, "--force")
        self.assertEqual(ran.status, 3)
        self.assertIn("is an input", ran.errors)
        self.assertEqual(image.read_bytes(), self.whole)


@needs_library
class ImageTracksTest(TracksTest):
    """The same tracks in an image of sectors with subcode, cut by its Q channel."""

    def image(self, content: bytes | None = None) -> Path:
        whole = self.whole if content is None else content
        disc = self.disc
        if len(whole) != len(self.whole):
            disc = Disc([Track(1, 150, 0), Track(2, 150 + 700, 150 + 550, control=4)], 150 + 1000)
        subcode = known.program(disc, 150, disc.end, 0)
        parts = zip(known.split(whole, AUDIO), known.split(subcode))
        return self.write("disc.bin", b"".join(sector + block for sector, block in parts))

    def test_a_bin_with_its_sheet(self) -> None:
        self.check_rows(self.tracks(self.image()), self.cut)

    test_a_sheet_of_several_files = None  # type: ignore[assignment]

    def test_refusals(self) -> None:
        alone = self.write("alone.bin", self.whole[: AUDIO * 20])
        self.assertEqual(desk("sums", "--tracks", alone).status, 3)
        stream = self.write("a.raw", known.program(self.disc, 150, self.disc.end, 0))
        ran = desk("sums", "--tracks", stream)
        self.assertEqual(ran.status, 3)
        self.assertIn("has no sectors with Q", ran.errors)

    def test_a_second_session(self) -> None:
        """The data track of the second session begins with index 01, and the lead-out ends the first session."""
        first = Disc([Track(1, 150, 0), Track(2, 550)], 1000)
        second = known.after(first, 1, 4, control=4)
        subcode = known.split(known.two_sessions(first, second))
        start = second.tracks[0].start
        chance = random.Random(2)
        sectors = [chance.randbytes(AUDIO) for _ in range(first.end - 150)]
        sectors += [bytes(AUDIO)] * (start - first.end) + [
            known.data_sector(start + k) for k in range(second.end - start)
        ]
        path = self.write("disc.bin", b"".join(a + b for a, b in zip(sectors, subcode)))
        bounds = [(0, 400), (400, 850), (start - 150, second.end - 150)]
        self.check_rows(self.tracks(path), [b"".join(sectors[a:b]) for a, b in bounds])

    def test_a_disc_made_by_image(self) -> None:
        sheet = self.write(
            "made.cue",
            'FILE "made.wav" WAVE\n  TRACK 01 AUDIO\n    INDEX 01 00:00:00\n  TRACK 02 AUDIO\n    INDEX 00 00:08:10\n'
            "    INDEX 01 00:10:00\n  TRACK 03 AUDIO\n    INDEX 01 00:15:33\n",
        )
        wav = write_wav(self.folder / "made.wav", 44_100 * 24)
        stream = author_files(sheet, self.write("made.script", b""), "00:24:00", self.folder / "made.raw")
        ran = desk("image", sheet, stream, "--audio", wav, "-o", self.folder / "out")
        self.assertEqual(ran.status, 0, ran.errors)
        image = (self.folder / "out.bin").read_bytes()
        sectors = [image[at : at + AUDIO] for at in range(0, len(image), AUDIO + 96)]
        bounds = [(0, 75 * 8 + 10), (75 * 8 + 10, 75 * 15 + 33), (75 * 15 + 33, 75 * 24)]
        self.check_rows(self.tracks(self.folder / "out.bin"), [b"".join(sectors[a:b]) for a, b in bounds])


if __name__ == "__main__":
    unittest.main()
