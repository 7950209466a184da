"""Every failure outside the desk is reported in a line that names the file, with its own exit status."""
import errno
import os
import resource
import struct
import unittest
import warnings
import wave
from typing import Callable
from unittest import mock

from fixtures import FolderTest, Word, desk, hello, needs_library, needs_pillow

from ribjasper import main
from ribjasper.common import output
from ribjasper.common.failures import (
    Failure,
    Fault,
    Missing,
    NoMemory,
    Refusal,
    Refusals,
    Several,
    Unwritten,
    failure_of,
    reading,
)


def called(error: BaseException, writing: bool = False) -> tuple[type[Failure], str, int]:
    """The failure that an exception is turned into."""
    failure = failure_of(error, "a\tb", writing)
    return type(failure), str(failure), failure.status


class TableTest(unittest.TestCase):
    def test_what_the_system_refuses(self) -> None:
        for number, message in (
            (errno.EACCES, "permission denied"),
            (errno.ENOENT, "no such file or directory"),
            (errno.EIO, "input/output error"),
            (errno.EISDIR, "is a directory"),
        ):
            error = OSError(number, os.strerror(number))
            self.assertEqual(called(error), (Refusal, f"a\\tb: {message}", 3))
            self.assertEqual(called(error, True), (Unwritten, f"a\\tb: {message}", 6))
        self.assertEqual(called(OSError("odd"))[1], "a\\tb: odd")
        self.assertEqual(called(OSError())[1], "a\\tb: oserror")

    def test_what_is_wrong_with_a_file(self) -> None:
        for error, message, status in (
            (MemoryError(), "there is not enough memory for it", 7),
            (RecursionError(), "is nested too deeply", 3),
            (EOFError(), "ends too early", 3),
            (wave.Error("odd"), "cannot be read", 3),
            (struct.error("odd"), "cannot be read", 3),
            (UnicodeDecodeError("utf-8", b"\xff", 0, 1, "odd"), "is not UTF-8 text", 3),
        ):
            self.assertEqual(called(error)[1:], (f"a\\tb: {message}", status))
        self.assertIs(called(MemoryError())[0], NoMemory)

    @needs_pillow
    def test_pictures(self) -> None:
        from PIL import Image

        self.assertEqual(called(Image.DecompressionBombError())[1], "a\\tb: has too many pixels for an image")
        self.assertEqual(called(Image.UnidentifiedImageError("odd"))[1], "a\\tb: is not a readable image")
        with self.assertRaises(Refusal), reading("x"):
            warnings.warn("could be decompression bomb DOS attack", Image.DecompressionBombWarning)

    def test_what_nobody_thought_of(self) -> None:
        kind, message, status = called(KeyError("x\ny"))
        self.assertEqual((kind, status, "\n" in message), (Fault, 8, False))
        self.assertIn("an internal error of the desk", message)

    def test_failures_stay(self) -> None:
        for failure in (Missing("this needs x"), Refusal("a", "b"), Unwritten("a", "b")):
            self.assertIs(failure_of(failure, "other"), failure)

    def test_several_at_once(self) -> None:
        wrong = Refusals("x")
        wrong.end()
        wrong.add("line 1: one")
        wrong.add("line 2: two")
        with self.assertRaises(Refusal) as caught:
            wrong.end()
        self.assertEqual(caught.exception.lines, ("x: line 1: one", "x: line 2: two"))
        both = Several([Unwritten("a", "b"), caught.exception])
        self.assertEqual((both.lines, both.status), (("a: b", "x: line 1: one", "x: line 2: two"), 6))


class MainTest(FolderTest):
    def ended(self, error: BaseException) -> tuple[int, str]:
        """The exit status and the errors of a command in which this happens."""
        path = self.write("x", b"dump")
        with mock.patch("ribjasper.dumps.loading.DumpFile", side_effect=error):
            ran = desk("identify", path)
        self.assertEqual(ran.errors.count("\n"), 1)
        return ran.status, ran.errors.removeprefix(f"ribjasper-desk: {path}: ").rstrip("\n")

    @needs_library
    def test_each_end(self) -> None:
        self.assertEqual(self.ended(MemoryError()), (7, "there is not enough memory for it"))
        self.assertEqual(self.ended(RecursionError()), (3, "is nested too deeply"))
        self.assertEqual(self.ended(OSError(errno.EIO, "Input/output error")), (3, "input/output error"))
        self.assertEqual(self.ended(ZeroDivisionError())[0], 8)
        self.assertEqual(desk("no such command").status, 2)

    def test_a_second_signal_while_files_are_put_away(self) -> None:
        with main.stopping():
            with self.assertRaises(main.Stopped) as caught:
                os.kill(os.getpid(), 15)
                signal_comes()
            os.kill(os.getpid(), 15)
            signal_comes()
        self.assertEqual(caught.exception.number, 15)


def signal_comes() -> None:
    """Time for a signal of this process to be handled."""
    for _ in range(1000):
        pass


@needs_library
class MemoryTest(FolderTest):
    def test_a_process_that_is_given_little(self) -> None:
        """Dumps of a whole disc, with little more memory than the desk needs."""
        dump = self.folder / "dump"
        with open(dump, "wb") as file:
            for _ in range(96_000_000 // len(hello())):
                file.write(hello())

        def little() -> None:
            resource.setrlimit(resource.RLIMIT_AS, (150 << 20, 150 << 20))

        calls: tuple[tuple[Word, ...], ...] = (
            ("identify", dump),
            ("damage", dump),
            ("mend", dump, dump, "-o", self.folder / "new.cdg"),
            ("texts", dump),
            ("sheet", dump, "-o", self.folder / "new.cue"),
            ("film", dump, "--stills", self.folder / "new.png"),
        )
        for words in calls:
            ran = desk(*words, preexec_fn=little)
            message = f"ribjasper-desk: {dump}: there is not enough memory for it\n"
            self.assertEqual((ran.status, ran.errors), (7, message), words)
            self.assertEqual(os.listdir(self.folder), ["dump"])


class ReadTest(FolderTest):
    def test_a_file_that_changes_while_it_is_read(self) -> None:
        path = self.write("x", b"before")
        real = open

        def opened(name: str, mode: str) -> object:
            file = real(name, mode)
            read: Callable[[int], bytes] = file.read

            def late(count: int) -> bytes:
                if path.read_bytes() == b"before":
                    path.write_bytes(b"before and after")
                return read(count)

            wrapped = mock.Mock(wraps=file, read=late, fileno=file.fileno)
            wrapped.__enter__ = lambda _: wrapped
            wrapped.__exit__ = lambda *_: file.close()
            return mock.MagicMock(__enter__=lambda _: wrapped, __exit__=lambda *_: file.close())

        with mock.patch("builtins.open", opened), self.assertRaises(Refusal) as caught:
            output.read_file(path)
        self.assertEqual(str(caught.exception), f"{path}: was changed while it was read")

    def test_a_file_without_an_end(self) -> None:
        with mock.patch("ribjasper.common.output.MOST_READ", 5_000_000), self.assertRaises(Refusal) as caught:
            output.read_file("/dev/zero")
        self.assertEqual(str(caught.exception), "/dev/zero: has more than 5,000,000 bytes, which is too long")

    def test_a_file_that_is_not_there(self) -> None:
        with self.assertRaises(Refusal) as caught:
            output.read_file(self.folder / "none")
        self.assertEqual(str(caught.exception), f"{self.folder}/none: no such file or directory")


if __name__ == "__main__":
    unittest.main()
