#!/usr/bin/env python3
"""Tests sentences of docs/FORMATS.md: try_formats.py PROGRAM [--windows]

A second program was written from this document only, and these sentences were missing then. The expected results are
computed here from the sentences, without code of the program."""
from __future__ import annotations

import site
import subprocess
import sys
import tempfile
import unittest
from itertools import islice
from pathlib import Path

site.addsitedir(str(Path(__file__).resolve().parents[1] / "peers"))
from subcode import check, words_of  # noqa: E402

PROGRAM, WINDOWS = "", False
FILE, TRACK, INDEX = 'FILE "a.wav" WAVE', "TRACK 01 AUDIO", "INDEX 01 00:00:00"
FRAME = bytes([0x01, 1, 1, 0, 0, 0, 0, 0, 2, 0])


def block(frame: bytes) -> bytes:
    """A block with the ten bytes of a frame and their check in channel Q, and zeros in the other channels."""
    bits = "".join(f"{byte:08b}" for byte in frame + check(frame))
    return bytes(int(bit) << 6 for bit in bits)


def recording_code(characters: list[int]) -> bytes:
    bits = "00000011" + "".join(f"{code:06b}" for code in characters) + "00" + 28 * "0" + "0000" + 8 * "0"
    return int(bits, 2).to_bytes(10, "big")


def text_packs(stream: bytes, blocks: int) -> set[bytes]:
    """The packs in the slots of a lead-in."""
    slots = (stream[at : at + 24] for at in range(0, 96 * blocks, 24))
    return {int("".join(f"{byte & 63:06b}" for byte in slot), 2).to_bytes(18, "big") for slot in slots}


class FormatsTest(unittest.TestCase):
    def setUp(self) -> None:
        folder = tempfile.TemporaryDirectory()
        self.addCleanup(folder.cleanup)
        self.folder = Path(folder.name)

    def write(self, name: str, content: bytes | str) -> str:
        (self.folder / name).write_bytes(content.encode() if isinstance(content, str) else content)
        return name

    def run_program(self, words: str, *names: str | bytes, content: bytes = b"") -> tuple[int, bytes, str]:
        call = [PROGRAM, *words.split(), *(["--", *names] if names else [])]
        ran = subprocess.run(call, input=content, capture_output=True, cwd=self.folder)
        return ran.returncode, ran.stdout, ran.stderr.decode().rstrip("\n")

    def message(self, words: str, *names: str | bytes, content: bytes = b"") -> str:
        """The line on standard error, or `done`."""
        return self.run_program(words, *names, content=content)[2] or "done"

    def author(self, sheet: list[str], script: str = "", lead_in: int = 30, length: str = "00:20:00") -> tuple[int, bytes, str]:
        texts = self.write("sheet", "".join(f"{line}\n" for line in sheet)), self.write("script", script)
        return self.run_program(f"author --lead-in {lead_in} --length {length}", *texts)

    def sheet_message(self, *lines: str) -> str:
        return self.author(list(lines))[2] or "done"

    def script_message(self, script: str) -> str:
        return self.author([FILE, TRACK, INDEX], script)[2] or "done"

    def frame_line(self, frame: bytes) -> str:
        return self.run_program("q --lead-in 0", content=block(frame))[1].decode().rstrip("\n")

    def test_quotes_of_files_and_tracks(self) -> None:
        for file in ('"a.wav" "WAVE"', '"a.wav"WAVE', '"a"b"c', '"" WAVE', 'a W"E', "a b WAVE"):
            self.assertEqual(self.sheet_message(f"FILE {file}", TRACK, INDEX), "done", file)
        for file in ('"a.wav" WAVE x', '"a"b c" X', '"a.wav"', '"a WAVE', "a.wav"):
            self.assertEqual(self.sheet_message(f"FILE {file}", TRACK, INDEX), "refused cue 1 bad-argument", file)
        self.assertEqual(self.sheet_message(FILE, 'TRACK 01 "AUDIO"', INDEX), "refused cue 2 not-audio")
        self.assertEqual(self.sheet_message(FILE, TRACK, 'INDEX 01 "00:00:00"'), "refused cue 3 bad-argument")

    def test_the_first_track_may_have_any_number(self) -> None:
        for number in (1, 42, 99):
            self.assertEqual(self.sheet_message(FILE, f"TRACK {number:02} AUDIO", INDEX), "done")
        self.assertEqual(self.sheet_message(FILE, "TRACK 00 AUDIO", INDEX), "refused cue 2 bad-argument")

    def test_scripts(self) -> None:
        for script in ("\ufefffill 1\n", " \t# a remark\n#another\n", "fill 1\r\n"):
            self.assertEqual(self.script_message(script), "done", script)
        for line in ("rect 0 0 0 1 1", "rect 0 0 1 0 1", "rect 288 0 1 1 1", "fill 16"):
            self.assertEqual(self.script_message(line), "refused script 1 out-of-range", line)

    def test_inputs(self) -> None:
        empty, wrong = self.write("empty", b""), self.write("wrong", "x\n")
        sheet = self.write("sheet", f"{FILE}\n{TRACK}\n{INDEX}\n")
        author = "author --lead-in 0 --length 00:01:00"
        self.assertEqual(self.message("convert --lead-in 0", "missing"), "read fault first")
        self.assertEqual(self.message(author, sheet, "missing"), "read fault second")
        self.assertEqual(self.message(author, wrong, "missing"), "refused cue 1 unknown-command")
        self.assertEqual(self.message("convert --lead-in 0", empty, "missing"), "done")
        self.assertEqual(self.message("gen --seed 1 --pictures 1", "missing", "gone"), "done")
        for words in ("convert --lead-in 00", "q --lead-in 0 --form cooked", "text --lead-in 0 --form cooked"):
            self.assertEqual(self.message(words, "missing"), "usage", words)
        self.assertEqual(self.message("convert --lead-in 0", "a", "b", "c"), "usage")
        if not WINDOWS:  # wine cannot pass bytes that are not text
            self.assertEqual(self.message("gen --seed 1 --pictures 1", b"\xff"), "usage")
        self.assertEqual(self.run_program("convert --lead-in 0 --", content=bytes(192)), (0, bytes(24), ""))

    def test_numbers_of_blocks_and_packs(self) -> None:
        lines = self.run_program("q --lead-in 2", content=4 * block(FRAME))[1].decode().splitlines()
        self.assertEqual([line.split()[0] for line in lines], [f"{number:06}" for number in range(4)])
        self.assertEqual(self.message("check --lead-in 1", content=bytes(96 * 3 + 1)), "refused torn 3")
        self.assertEqual(self.message("thin", content=bytes(25)), "refused pack-torn 1")

    def test_frames(self) -> None:
        self.assertEqual((check(b"123456789"), check(bytes(10))), (b"\xce\x3c", b"\xff\xff"))
        for mode in (0, 4, 9, 15):
            line = self.frame_line(bytes([0x20 | mode, *range(1, 10)]))
            self.assertEqual(line, f"000000 2 other {mode:x} 010203040506070809")
        self.assertEqual(self.frame_line(bytes([0x01, 0x1A]) + bytes(8)), "000000 bad field 8")
        self.assertEqual(self.frame_line(recording_code([0x11, 0x2A, 0, 0x11, 9])), "000000 0 isrc AZ0A90000000 frame 00")
        for place, code in ((0, 0x10), (1, 0x2B), (2, 0x0A), (2, 0x2B), (0, 0)):
            characters = [0x11, 0x2A, 0, 0x11, 9]
            characters[place] = code
            self.assertEqual(self.frame_line(recording_code(characters)), f"000000 bad field {8 + 6 * place}")

    def test_good_frames(self) -> None:
        stream = block(FRAME) + bytes(96) + block(bytes([0x01, 0x1A]) + bytes(8)) + block(FRAME)
        for form, expected in (("raw", "q-good 2\nq-bad 2\n"), ("cooked", "q-good 0\nq-bad 0\n")):
            counts = self.run_program(f"check --lead-in 1 --form {form}", content=stream)[1].decode()
            self.assertEqual(counts[counts.index("q-good") :], expected)

    def test_text_packs(self) -> None:
        titles = [f"Song number {number} of them" for number in range(1, 13)]
        tracks = [line for number, title in enumerate(titles, 1)
                  for line in (f"TRACK {number:02} AUDIO", f'TITLE "{title}"', f"INDEX 01 00:{number:02}:00")]
        sheet = ['TITLE "Album"', FILE, *tracks]
        status, stream, _ = self.author(sheet, lead_in=60)
        packs = sorted(text_packs(stream, 60), key=lambda pack: pack[2])
        needed = -(-sum(len(text) + 1 for text in ("Album", *titles)) // 12)
        self.assertEqual((status, len(packs), max(pack[1] for pack in packs if pack[0] == 0x80)), (0, needed + 3, 12))
        sizes = b"".join(pack[4:16] for pack in packs if pack[0] == 0x8F)
        expected = bytes([0, 1, 12, 0, needed, *14 * [0], 3, needed + 2, *7 * [0], 9, *7 * [0]])
        self.assertEqual(sizes, expected)
        self.assertEqual(self.author(sheet, lead_in=1)[2], f"refused lead-in-short {max(3 * 12 + 9, -(-(needed + 3) // 4))}")
        # A string of this length, an empty one, and three size packs; each block has four packs.
        for letters, lead_in, line in ((1000, 13, "refused lead-in-short 22"), (5000, 99, "refused text-too-long 420"),
                                       (5000, 0, "")):
            self.assertEqual(self.author([f'TITLE "{letters * "x"}"', FILE, TRACK, INDEX], lead_in=lead_in)[2], line)

    def test_checkpoints(self) -> None:
        status, file, _ = self.run_program("save --lead-in 0", content=96 * b"\x05")
        self.assertEqual((status, len(file), file[24:192]), (0, 65_045, bytes(72) + 96 * b"\x05"))
        self.assertEqual(file[-2:], check(file[:-2]))
        changed = file[:26] + b"\1" + file[27:-2]
        for content, line in ((file, "refused before-save 1"), (changed + check(changed), "refused bad-save 26")):
            self.assertEqual(self.message("resume --at 00:00:00", self.write("file", content)), line)

    def test_the_generator(self) -> None:
        for seed in (0, 1, 42, 2**64 - 1):
            script = self.run_program(f"gen --seed {seed} --pictures 1")[1].decode().splitlines()
            words = list(islice(words_of(seed), 6))
            for line, a, b in zip(script[16:19], words[::2], words[1::2]):
                x, y = (a & 0xFFFF) % 288, (a >> 16) % 192
                expected = x, y, 1 + (b & 0xFFFF) % (288 - x), 1 + (b >> 16) % (192 - y), b // 256 % 16
                self.assertEqual(line, "rect " + " ".join(map(str, expected)))

    def test_scratches(self) -> None:
        """In a file, whose blocks are processed together, the lead-in is unchanged, and the program has the bursts of the
        seed."""
        lead_in, stream = 40, bytes(byte % 256 for byte in range(96 * 700))
        scratched, end, words = bytearray(stream), 96 * lead_in, words_of(7)
        while end < len(stream):
            word = next(words)
            start, count = end + 192 + word % 64, 1 + word // 256 % 16
            for place in range(start, min(start + count, len(stream))):
                scratched[place] ^= 1 + (word >> 16) % 63
            end = start + count
        ran = self.run_program(f"scratch --lead-in {lead_in} --seed 7", self.write("stream", stream))
        self.assertEqual(ran, (0, bytes(scratched), ""))

    def test_an_output_that_is_full(self) -> None:
        """If the buffered output cannot be written at the end, this is reported."""
        with open("/dev/full", "wb") as full:
            call = [PROGRAM, "convert", "--lead-in", "0"]
            ran = subprocess.run(call, input=bytes(192), stdout=full, stderr=subprocess.PIPE)
        self.assertEqual((ran.returncode, ran.stderr), (6, b"write fault\n"))


if __name__ == "__main__":
    if len(sys.argv) < 2:
        sys.exit("try_formats.py PROGRAM [--windows]")
    PROGRAM = str(Path(sys.argv.pop(1)).resolve())
    WINDOWS = "--windows" in sys.argv
    sys.argv = [word for word in sys.argv if word != "--windows"]
    unittest.main()
