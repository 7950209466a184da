#!/usr/bin/env python3
"""Tests that a live stream is not delayed: bin/ribjasper writes the output for some units before it waits for more.

No clause says when a program waits. So each command that processes a stream reads one from a pipe, unit by unit. While
the pipe stays open, the command must write its output for the units so far. Needs bin/ribjasper."""
import os
import pathlib
import random
import selectors
import subprocess
import tempfile
import time
import unittest
from collections.abc import Iterator
from contextlib import contextmanager
from typing import IO

PROGRAM = pathlib.Path(__file__).resolve().parents[2] / "bin" / "ribjasper"

# The longest time for the program to write its output, in seconds.
PATIENCE = 20.0

BLOCK = 96
PACK = 24


def setUpModule() -> None:
    """Skips the tests if the program is not built."""
    if not os.access(PROGRAM, os.X_OK):
        raise unittest.SkipTest("there is no bin/ribjasper (make)")


def stream(size: int) -> bytes:
    """Some bytes, the same in each run."""
    return random.Random(96).randbytes(size)


def output_of(words: list[str], content: bytes) -> bytes:
    """The output of a command for an input that ends."""
    return subprocess.run([PROGRAM, *words], input=content, stdout=subprocess.PIPE, stderr=subprocess.DEVNULL).stdout


@contextmanager
def running(words: list[str], source: int) -> Iterator[subprocess.Popen[bytes]]:
    """Runs a command that reads from a pipe, and kills it at the end."""
    process = subprocess.Popen([PROGRAM, *words], stdin=source, stdout=subprocess.PIPE, stderr=subprocess.DEVNULL)
    try:
        yield process
    finally:
        process.kill()
        process.communicate()


def read_in_time(output: IO[bytes], count: int) -> bytes:
    """Reads `count` bytes of an output, or fewer if the rest does not arrive in time."""
    content = b""
    until = time.monotonic() + PATIENCE
    with selectors.DefaultSelector() as selector:
        selector.register(output, selectors.EVENT_READ)
        while len(content) < count and (left := until - time.monotonic()) > 0:
            if selector.select(left):
                piece = os.read(output.fileno(), count - len(content))
                if not piece:
                    break
                content += piece
    return content


def is_quiet(output: IO[bytes]) -> bool:
    """Whether nothing can be read from an output at once."""
    with selectors.DefaultSelector() as selector:
        selector.register(output, selectors.EVENT_READ)
        return not selector.select(0.05)


class LiveStream(unittest.TestCase):
    """Commands that process a stream unit by unit."""

    def check_stream(self, words: list[str], unit: int, counts: list[int]) -> None:
        """Checks that after each of these numbers of units, the complete output for them has been written, and no more."""
        whole = stream(unit * counts[-1])
        source, feed = os.pipe()
        with running(words, source) as process, open(feed, "wb", buffering=0) as feeder:
            os.close(source)
            assert process.stdout is not None
            sent, seen = 0, b""
            for count in counts:
                # The first half of a unit has no output.
                for end in (count * unit - unit // 2, count * unit):
                    feeder.write(whole[sent:end])
                    sent = end
                    expected = output_of(words, whole[: sent - sent % unit])
                    seen += read_in_time(process.stdout, len(expected) - len(seen))
                    self.assertEqual(len(seen), len(expected), f"{words} after {sent} bytes")
                    self.assertEqual(seen, expected, f"{words} after {sent} bytes")
                    self.assertTrue(is_quiet(process.stdout), f"{words} writes more than the output for {sent} bytes")
            feeder.close()
            self.assertEqual(process.stdout.read(), b"", f"{words} writes more at the end")

    def test_frames_of_blocks(self) -> None:
        self.check_stream(["q", "--lead-in", "0"], BLOCK, [1, 2, 3, 10, 700, 701])

    def test_packs_of_a_stream(self) -> None:
        self.check_stream(["convert", "--lead-in", "0"], BLOCK, [1, 2, 8, 9, 640, 1300])

    def test_a_thinned_file(self) -> None:
        self.check_stream(["thin"], PACK, [1, 2, 50, 3000])

    def test_a_pipe_with_a_name(self) -> None:
        words = ["convert", "--lead-in", "0"]
        with tempfile.TemporaryDirectory() as folder:
            name = os.path.join(folder, "pipe")
            os.mkfifo(name)
            with running([*words, "--", name], subprocess.DEVNULL) as process:
                assert process.stdout is not None
                with open(name, "wb", buffering=0) as feed:
                    whole = stream(BLOCK * 20)
                    feed.write(whole)
                    expected = output_of(words, whole)
                    self.assertTrue(expected)
                    self.assertEqual(read_in_time(process.stdout, len(expected)), expected)

    def test_two_readings(self) -> None:
        words = ["merge", "--lead-in", "0"]
        blocks = [stream(BLOCK * 30)[at : at + BLOCK] for at in range(0, BLOCK * 30, BLOCK)]
        with tempfile.TemporaryDirectory() as folder:
            names = [os.path.join(folder, name) for name in ("first", "second")]
            for name in names:
                os.mkfifo(name)
            with running([*words, "--", *names], subprocess.DEVNULL) as process:
                assert process.stdout is not None
                # The program opens the second input only after it has read a block of the first.
                with open(names[0], "wb", buffering=0) as first:
                    first.write(blocks[0])
                    with open(names[1], "wb", buffering=0) as second:
                        seen = b""
                        for count, block in enumerate(blocks, 1):
                            second.write(block)
                            seen += read_in_time(process.stdout, merged_size(count) - len(seen))
                            self.assertEqual(len(seen), merged_size(count), f"after {count} pairs")
                            if count < len(blocks):
                                first.write(blocks[count])


def merged_size(blocks: int) -> int:
    """The size of the packs that a merge writes for some pairs of blocks: four packs per block, except for the first
    seven."""
    return max(4 * blocks - 7, 0) * PACK


if __name__ == "__main__":
    unittest.main()
