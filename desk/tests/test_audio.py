"""The sound of a disc: which WAV files are used unchanged, what ffmpeg converts, and what is refused."""
import os
import struct
import subprocess
import unittest
from pathlib import Path
from unittest import mock

from fixtures import FolderTest, needs_ffmpeg, write_wav

from ribjasper.songs import audio
from ribjasper.common.failures import Refusal

SAMPLES = bytes(range(240)) * 49


def chunk(name: bytes, content: bytes) -> bytes:
    return name + struct.pack("<I", len(content)) + content + b"\0" * (len(content) & 1)


def wav(
    samples: bytes = SAMPLES,
    form: int = 1,
    channels: int = 2,
    rate: int = 44_100,
    bits: int = 16,
    size: int | None = None,
    more: bytes = b"",
    rest: bytes = b"",
) -> bytes:
    """A WAV file, byte by byte."""
    block = channels * bits // 8
    head = struct.pack("<HHIIHH", form, channels, rate, rate * block, block, bits) + rest
    data = b"data" + struct.pack("<I", len(samples) if size is None else size) + samples
    content = b"WAVE" + chunk(b"fmt ", head) + more + data
    return b"RIFF" + struct.pack("<I", len(content)) + content


def extensible(form: int = 1, bits: int = 16) -> bytes:
    """The longer header, whose last sixteen bytes contain the form."""
    tail = struct.pack("<HHIH", 22, bits, 3, form) + bytes.fromhex("000000001000800000aa00389b71")
    return wav(form=0xFFFE, rest=tail, bits=bits)


class BesideTest(FolderTest):
    def test_names_in_capitals(self) -> None:
        for lyrics, sound, is_found in (
            ("A.LRC", "A.WAV", True),
            ("b.lrc", "B.Mp3", True),
            ("c.LRC", "c.flac", True),
            ("d.lrc", "dd.WAV", False),
        ):
            path, other = self.write(lyrics, ""), self.write(sound, "")
            self.assertEqual(audio.sound_beside(path), other if is_found else None, lyrics)
        # If several files match, the one with the same upper and lower case is used.
        self.write("E.WAV", "")
        self.assertEqual(audio.sound_beside(self.write("e.lrc", "")), self.folder / "E.WAV")
        self.write("e.WAV", "")
        self.assertEqual(audio.sound_beside(self.folder / "e.lrc"), self.folder / "e.WAV")


class AudioTest(FolderTest):
    def sound(self, content: bytes, name: str = "a.wav") -> Path:
        return self.write(name, content)

    def samples(self, path: Path) -> bytes:
        return b"".join(audio.sectors(path))

    def refused(self, path: Path) -> str:
        with self.assertRaises(Refusal) as refused:
            audio.length(path)
        return str(refused.exception)

    def test_plain_samples(self) -> None:
        path = self.sound(wav())
        self.assertEqual(audio.length(path), 5)
        self.assertEqual(self.samples(path), SAMPLES)

    def test_the_last_block_is_filled_up(self) -> None:
        path = self.sound(wav(SAMPLES[:2400]))
        self.assertEqual((audio.length(path), self.samples(path)), (2, SAMPLES[:2400] + bytes(2304)))

    def test_other_chunks(self) -> None:
        path = self.sound(wav(more=chunk(b"LIST", b"INFOISFT\3\0\0\0abc"), rest=b"\0\0") + chunk(b"id3 ", b"tag"))
        self.assertEqual(self.samples(path), SAMPLES)

    def test_the_longer_header(self) -> None:
        self.assertEqual(self.samples(self.sound(extensible())), SAMPLES)

    def test_a_stream_of_unknown_length(self) -> None:
        for size in (0, 0xFFFF_FFFF):
            path = self.sound(wav(size=size), f"{size}.wav")
            self.assertEqual(self.samples(path), SAMPLES)

    def test_cut_files_are_reported(self) -> None:
        whole = wav(bytes(4 * 44_100))
        errors = self.refused(self.sound(whole[: len(whole) // 2]))
        self.assertIn("is cut off: it contains only 0.50 of 1.00 seconds", errors)
        self.assertIn("ffmpeg -i ", errors)
        self.assertIn("ends before its samples begin", self.refused(self.sound(whole[:30], "b.wav")))

    def test_without_ffmpeg_the_line_is_reported(self) -> None:
        for path, what in (
            (write_wav(self.folder / "b.wav", 100, rate=48_000), "has 48000 Hz, 2 channels, 16 bits"),
            (write_wav(self.folder / "c.wav", 100, channels=1), "has 44100 Hz, 1 channel, 16 bits"),
            (write_wav(self.folder / "d.wav", 100, width=3), "has 44100 Hz, 2 channels, 24 bits"),
            (self.sound(extensible(form=3, bits=32), "e.wav"), "has 44100 Hz, 2 channels, 32 bits"),
            (self.sound(b"ID3 no sound", "f.mp3"), "is not a WAV file"),
        ):
            with mock.patch.dict(os.environ, {"PATH": str(self.folder)}):
                errors = self.refused(path)
            self.assertIn(f"{what}, and ffmpeg is not installed", errors)
            self.assertIn(f"`ffmpeg -i {path} -vn -ar 44100 -ac 2 -c:a pcm_s16le OUT.wav` makes such a file", errors)

    @needs_ffmpeg
    def test_other_forms_are_converted(self) -> None:
        source = write_wav(self.folder / "a.wav", 44_100)
        forms: dict[str, list[str]] = {
            "a.flac": [],
            "b.wav": ["-ar", "48000"],
            "c.wav": ["-ac", "1"],
            "d.wav": ["-c:a", "pcm_s24le"],
            "a.mp3": [],
        }
        for name, words in forms.items():
            path = self.folder / name
            subprocess.run(["ffmpeg", "-v", "error", "-i", str(source), *words, str(path)], check=True)
            self.assertIn(audio.length(path), range(75, 80), name)
        self.assertEqual(self.samples(self.folder / "a.flac"), self.samples(source))
        self.assertEqual(self.samples(self.folder / "d.wav"), self.samples(source))

    @needs_ffmpeg
    def test_what_ffmpeg_cannot_read(self) -> None:
        self.assertIn("is not a WAV file, and ffmpeg cannot convert it", self.refused(self.sound(b"no sound", "a.mp3")))
        self.assertIn("no such file", self.refused(self.folder / "none.wav"))

    def test_a_header_for_samples(self) -> None:
        path = self.sound(audio.header(len(SAMPLES)) + SAMPLES)
        self.assertEqual(self.samples(path), SAMPLES)
        self.assertEqual(path.read_bytes(), wav())


if __name__ == "__main__":
    unittest.main()
