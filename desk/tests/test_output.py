"""How the desk writes: what is refused, what is written in place, and that either all outputs appear or none."""
import errno
import os
import signal
import socket
import stat
import subprocess
import sys
import threading
import unittest
from pathlib import Path
from unittest import mock

from fixtures import TOP, FolderTest

from ribjasper.common import beside, kinds, output, records
from ribjasper.common.failures import Failure, Name, Refusal, Unwritten
from ribjasper.common.output import Outputs, write_file

ANY = kinds.Kind("anything", lambda head, size: True)
PNG = kinds.PNG_MARK + b"picture"


class OutputTest(FolderTest):
    def path(self, name: str) -> Path:
        return self.folder / name

    def names(self) -> list[str]:
        return sorted(set(os.listdir(self.folder)) - {records.RECORD})

    def refused(self, why: str, reads: list[Name], writes: list[tuple[Name, kinds.Kind]], **how: bool) -> None:
        before = {name: self.content(name) for name in self.names()}
        with self.assertRaises(Failure) as caught:
            Outputs(reads, writes, **how)
        self.assertIn(why, str(caught.exception))
        self.assertEqual({name: self.content(name) for name in self.names()}, before)

    def content(self, name: str) -> bytes | None:
        path = self.path(name)
        return path.read_bytes() if path.is_file() else None

    def test_a_new_file(self) -> None:
        with Outputs([], [(self.path("a"), kinds.CDG)]) as outputs:
            outputs.write(self.path("a"), b"one")
            self.assertFalse(self.path("a").exists())
        self.assertEqual(self.path("a").read_bytes(), b"one")
        self.assertEqual(stat.S_IMODE(os.stat(self.path("a")).st_mode), beside.new_mode())
        self.assertEqual(self.names(), ["a"])

    def test_what_is_not_opened_does_not_appear(self) -> None:
        with Outputs([], [(self.path("a"), ANY), (None, ANY)]):
            pass
        self.assertEqual(self.names(), [])

    def test_the_mode_of_what_is_replaced_is_kept(self) -> None:
        path = self.write("a", "old")
        path.chmod(0o640)
        write_file(path, b"new", ANY)
        self.assertEqual((path.read_bytes(), stat.S_IMODE(path.stat().st_mode)), (b"new", 0o640))

    def test_an_output_that_is_read(self) -> None:
        path, other = self.write("in", "dump"), self.path("other")
        os.link(path, self.path("hard"))
        os.symlink("in", self.path("soft"))
        os.symlink("soft", self.path("softer"))
        os.mkdir(self.path("folder"))
        for name in ("in", "hard", "soft", "softer", "folder/../in"):
            for force in (False, True):
                self.refused("is an input", [path], [(self.path(name), ANY)], force=force)
        self.refused("is an input", [other], [(other, ANY)])
        self.refused("is an input", [path, other], [(self.path("new"), ANY), (path, ANY)])

    def test_an_output_that_is_read_meanwhile(self) -> None:
        """Whoever opens it for reading, and by whichever name, sees nothing."""
        path, new = self.write("in", "dump"), self.path("new")
        os.link(path, self.path("hard"))
        for name in ("in", "hard"):
            for force in (False, True):
                with self.assertRaises(Failure) as caught, Outputs([], [(new, ANY), (path, ANY)], force) as outputs:
                    outputs.write(new, b"new")
                    outputs.write(path, b"other")
                    with open(self.path(name), "rb") as file:
                        file.read()
                self.assertIn("is an input", str(caught.exception))
                self.assertEqual((path.read_bytes(), new.exists()), (b"dump", False))
        with self.assertRaises(Failure), Outputs([], [(path, ANY)]) as outputs:
            path.read_text()
            outputs.open(path)
        # Bytes read before and after it do not count.
        path.read_text()
        with Outputs([], [(path, ANY)]) as outputs:
            outputs.write(path, b"other")
        self.assertEqual(path.read_text(), "other")

    def test_two_outputs_in_one_place(self) -> None:
        os.mkdir(self.path("folder"))
        os.symlink("folder", self.path("there"))
        os.symlink("folder/a", self.path("dangling"))
        for one, two in (("a", "a"), ("a", "./a"), ("folder/a", "there/a"), ("dangling", "folder/a")):
            self.refused(
                "is the same file as another output", [], [(self.path(one), ANY), (f"{self.folder}/{two}", ANY)]
            )
        self.write("b", "x")
        os.link(self.path("b"), self.path("c"))
        self.refused("is the same file as another output", [], [(self.path("b"), ANY), (self.path("c"), ANY)])
        self.refused("is the same file as another output", [], [("-", ANY), ("-", ANY)])
        Outputs([], [("-", ANY), ("./-", ANY)])

    def test_all_refusals_at_once(self) -> None:
        dump, other = self.write("dump", "x"), self.write("notes.txt", "precious")
        with self.assertRaises(Failure) as caught:
            Outputs([dump], [(dump, ANY), (other, kinds.PNG), (self.folder, ANY), (f"{self.folder}/new/", ANY)])
        self.assertEqual(len(caught.exception.lines), 4, caught.exception.lines)

    def test_a_file_of_another_kind(self) -> None:
        for name, content in (
            ("s.script", b"show 00:00:01 00:00:02\n"),
            ("notes.png", b"not a picture"),
            ("x.cdg", b"any"),
        ):
            path = self.write(name, content)
            self.refused("is there already, and is not a PNG picture; --force replaces it", [], [(path, kinds.PNG)])
            write_file(path, PNG, kinds.PNG, force=True)
            write_file(path, PNG + b"again", kinds.PNG)
            self.assertEqual(path.read_bytes(), PNG + b"again")
        write_file(self.write("nothing", b""), PNG, kinds.PNG)
        self.refused(
            "the desk did not write it, or it was changed since; --force replaces it",
            [],
            [(self.write("a.raw", bytes(96)), kinds.STREAM)],
        )

    def test_only_own_outputs_are_replaced(self) -> None:
        contents = {
            kinds.PNG: PNG,
            kinds.CDG: bytes(24),
            kinds.ZIP: b"PK\3\4",
            kinds.SOUND: b"RIFF",
            kinds.SCRIPT: b"show 00:00:01 00:00:02\n",
            kinds.CUE: b"TRACK 01 AUDIO\n",
            kinds.TOC: b"CD_DA\n",
            kinds.IMAGE: bytes(2448),
            kinds.STREAM: bytes(96),
            kinds.FILM: b"OggS",
            kinds.ALBUM: b"gap = 2\n",
        }
        for kind, content in contents.items():
            path = self.write("a" + "".join(kind.endings), content)
            self.refused("the desk did not write it, or it was changed since", [], [(path, kind)])
            path.unlink()
            for again in (content, content + content, content):
                write_file(path, again, kind)
            # A manual change, and one that keeps the size and the time.
            for other in (content * 3, content[:-1] + bytes([content[-1] ^ 1])):
                times = os.stat(path)
                path.write_bytes(other)
                os.utime(path, ns=(times.st_atime_ns, times.st_mtime_ns))
                self.refused("is there already", [], [(path, kind)])
            write_file(path, content, kind, force=True)
            write_file(path, content, kind)
            path.unlink()

    def test_a_record_that_is_lost_or_spoiled(self) -> None:
        path = self.path("a.cdg")
        for spoil in (b"", b'\0\xff\n[\n0 1\nx "a.cdg"\n'):
            write_file(path, b"one", kinds.CDG)
            self.path(records.RECORD).write_bytes(spoil)
            self.refused("the desk did not write it", [], [(path, kinds.CDG)])
            write_file(path, b"two", kinds.CDG, force=True)
            write_file(path, b"three", kinds.CDG)
            path.unlink()
        os.unlink(self.path(records.RECORD))
        os.mkdir(self.path(records.RECORD))
        write_file(path, b"one", kinds.CDG)
        self.refused("the desk did not write it", [], [(path, kinds.CDG)])

    def test_a_record_stays_short(self) -> None:
        name = self.path("a.cdg")
        with mock.patch.object(records, "LONGEST", 1000):
            for number in range(100):
                write_file(name, b"%d" % number, kinds.CDG)
            write_file(self.path("b.cdg"), b"b", kinds.CDG)
            write_file(name, b"last", kinds.CDG)
            write_file(self.path("b.cdg"), b"again", kinds.CDG)
        self.assertLess(self.path(records.RECORD).stat().st_size, 1200)

    def test_names_of_any_bytes_are_recorded(self) -> None:
        for name in (b"\xff\n.cdg", "\u00fc \u2028.cdg".encode(), b'"\\.cdg'):
            path = os.fsencode(self.folder) + b"/" + name
            write_file(path, b"one", kinds.CDG)
            write_file(path, b"two", kinds.CDG)
            with open(path, "rb") as file:
                self.assertEqual(file.read(), b"two")

    def test_a_file_that_is_protected(self) -> None:
        path = self.write("a", "old")
        path.chmod(0o444)
        self.refused("is write-protected", [], [(path, ANY)])
        write_file(path, b"new", ANY, force=True)
        self.assertEqual(path.read_bytes(), b"new")

    def test_no_output(self) -> None:
        self.write("file", "x")
        self.refused("is a directory", [], [(self.folder, ANY)], force=True)
        self.refused("is not the name of a file", [], [("", ANY)])
        with self.assertRaises(Unwritten) as caught:
            write_file(self.path("none/a"), b"", ANY)
        self.assertEqual(str(caught.exception), f"{self.path('none/a')}: no such file or directory")
        with self.assertRaises(Failure):
            write_file(self.path("file/a"), b"", ANY)
        os.symlink("loop", self.path("loop"))
        with self.assertRaises(Failure) as loop:
            write_file(self.path("loop"), b"", ANY)
        self.assertIn("symbolic links", str(loop.exception))

    def test_links_stay(self) -> None:
        os.mkdir(self.path("there"))
        target = self.write("there/a", "old")
        os.symlink("there/a", self.path("link"))
        os.symlink("there/new", self.path("dangling"))
        write_file(self.path("link"), b"new", ANY)
        write_file(self.path("dangling"), b"more", ANY)
        self.assertEqual(os.readlink(self.path("link")), "there/a")
        self.assertEqual(os.readlink(self.path("dangling")), "there/new")
        self.assertEqual((target.read_bytes(), self.path("there/new").read_bytes()), (b"new", b"more"))
        self.assertEqual(sorted(os.listdir(self.path("there"))), ["a", "new"])

    def test_a_pipe(self) -> None:
        pipe, found = self.path("pipe"), list[bytes]()
        os.mkfifo(pipe)
        reader = threading.Thread(target=lambda: found.append(pipe.read_bytes()))
        reader.start()
        write_file(pipe, b"content" * 100_000, kinds.CDG)
        reader.join()
        self.assertEqual(found, [b"content" * 100_000])
        self.assertTrue(stat.S_ISFIFO(os.stat(pipe).st_mode))
        self.assertEqual(self.names(), ["pipe"])

    def test_a_device(self) -> None:
        node = self.path("node")
        try:
            os.mknod(node, 0o666 | stat.S_IFCHR, os.makedev(1, 3))
            node.open("wb").close()
        except PermissionError:
            self.skipTest("no device can be made here")
        write_file(node, b"content", kinds.CDG)
        os.symlink("node", self.path("link"))
        with Outputs([node], [(node, kinds.CDG), (self.path("link"), kinds.PNG)]) as outputs:
            outputs.write(node, b"content")
            outputs.write(self.path("link"), b"content")
        self.assertTrue(stat.S_ISCHR(os.lstat(node).st_mode))
        full = self.path("full")
        os.mknod(full, 0o666 | stat.S_IFCHR, os.makedev(1, 7))
        with self.assertRaises(Unwritten) as caught, Outputs([], [(full, ANY), (self.path("a"), ANY)]) as outputs:
            outputs.write(self.path("a"), b"content")
            outputs.write(full, b"content")
        self.assertEqual(str(caught.exception), f"{full}: no space left on device")
        self.assertEqual(self.names(), ["full", "link", "node"])

    def test_a_disk(self) -> None:
        node = self.path("disk")
        try:
            # A device number without a driver.
            os.mknod(node, 0o666 | stat.S_IFBLK, os.makedev(250, 250))
        except PermissionError:
            self.skipTest("no device can be made here")
        self.refused("is a disk", [], [(node, ANY)])

    def test_a_socket(self) -> None:
        path, found = self.path("socket"), list[bytes]()
        with socket.socket(socket.AF_UNIX) as listening:
            listening.bind(os.fspath(path))
            listening.listen()

            def receive() -> None:
                connected = listening.accept()[0]
                with connected, connected.makefile("rb") as file:
                    found.append(file.read())

            reader = threading.Thread(target=receive)
            reader.start()
            write_file(path, b"content" * 1000, ANY)
            reader.join()
        self.assertEqual(found, [b"content" * 1000])
        self.assertTrue(stat.S_ISSOCK(os.stat(path).st_mode))

    def test_a_name_as_long_as_can_be(self) -> None:
        for name in ("a" * 255, "a." + "b" * 253):
            write_file(self.path(name), b"content", ANY)
            self.assertEqual(self.path(name).read_bytes(), b"content")
        with self.assertRaises(Failure) as caught:
            write_file(self.path("a" * 256), b"content", ANY)
        self.assertIn("file name too long", str(caught.exception))

    def test_several_appear_together(self) -> None:
        old, new = self.write("old", "before"), self.path("new")
        with self.assertRaises(ZeroDivisionError), Outputs([], [(old, ANY), (new, ANY)]) as outputs:
            outputs.write(new, b"content")
            outputs.write(old, b"content")
            raise ZeroDivisionError
        self.assertEqual((self.names(), old.read_bytes()), (["old"], b"before"))
        with Outputs([], [(old, ANY), (new, ANY)]) as outputs:
            outputs.write(new, b"content")
            outputs.write(old, b"content")
        self.assertEqual((self.names(), old.read_bytes(), new.read_bytes()), (["new", "old"], b"content", b"content"))

    def test_what_was_put_is_taken_back(self) -> None:
        """The third of four files cannot be renamed."""
        one, two = self.write("1", "one"), self.path("2")
        three, four = self.write("3", "three"), self.write("4", "four")
        three_stat = three.stat()
        for links in (True, False):
            real_replace, real_link = os.replace, os.link

            def replace(source: str, target: str) -> None:
                if os.fspath(target) == os.path.realpath(three) and "3" not in self.content_of(source):
                    raise OSError(errno.ENOSPC, "No space left on device")
                real_replace(source, target)

            def link(source: str, target: str) -> None:
                if not links:
                    raise OSError(errno.EPERM, "Operation not permitted")
                real_link(source, target)

            with mock.patch("os.replace", replace), mock.patch("os.link", link):
                with self.assertRaises(Unwritten), Outputs(
                    [], [(path, ANY) for path in (one, two, three, four)]
                ) as outputs:
                    for path in (one, two, three, four):
                        outputs.write(path, b"new")
            self.assertEqual(self.names(), ["1", "3", "4"])
            self.assertEqual([path.read_bytes() for path in (one, three, four)], [b"one", b"three", b"four"])
        self.assertEqual(three.stat().st_size, three_stat.st_size)

    @staticmethod
    def content_of(path: str) -> str:
        content = Path(path).read_text()
        return {"three": "3"}.get(content, "")

    def test_what_came_meanwhile_is_not_replaced(self) -> None:
        path = self.path("a.png")
        with self.assertRaises(Refusal) as caught, Outputs([], [(path, kinds.PNG)]) as outputs:
            outputs.write(path, PNG)
            path.write_bytes(b"precious")
        self.assertIn("is there already", str(caught.exception))
        self.assertEqual((self.names(), path.read_bytes()), (["a.png"], b"precious"))
        path.unlink()
        with self.assertRaises(Refusal), Outputs([], [(path, kinds.PNG)]) as outputs:
            outputs.write(path, PNG)
            os.mkdir(path)
        self.assertEqual(os.listdir(path), [])

    def test_names_that_the_file_system_takes_for_one(self) -> None:
        """As on a file system that ignores case: the second name exists as soon as the first file is written."""
        one, two = self.path("a"), self.path("A")
        real = beside.give_name

        def name(part: str, path: str) -> None:
            real(part, path)
            if path == os.path.realpath(one):
                os.link(path, two)

        with mock.patch.object(output, "give_name", name):
            with self.assertRaises(Refusal), Outputs([], [(one, ANY), (two, ANY)]) as outputs:
                outputs.write(one, b"one")
                outputs.write(two, b"two")
        self.assertFalse(one.exists())

    def test_folders(self) -> None:
        path = self.path("new/folder/a")
        with self.assertRaises(KeyError), Outputs([], [(path, ANY)], folders=True) as outputs:
            outputs.write(path, b"content")
            raise KeyError
        self.assertEqual(self.names(), [])
        with Outputs([], [(path, ANY)], folders=True) as outputs:
            outputs.write(path, b"content")
        self.assertEqual(path.read_bytes(), b"content")

    def test_a_name_for_another_program(self) -> None:
        with Outputs([], [(self.path("a.mp4"), kinds.FILM), (self.path("b"), kinds.FILM)]) as outputs:
            name = outputs.path(self.path("a.mp4"))
            self.assertTrue(name.endswith(".mp4") and outputs.path(self.path("b"), ".mkv").endswith(".mkv"))
            Path(name).write_bytes(b"film")
        self.assertEqual(self.path("a.mp4").read_bytes(), b"film")

    def test_a_full_disk(self) -> None:
        mount = self.path("small")
        mount.mkdir()
        words = ["mount", "-t", "tmpfs", "-o", "size=64k", "none", str(mount)]
        if os.geteuid() or subprocess.run(words, capture_output=True).returncode:
            self.skipTest("no small file system can be made here")
        self.addCleanup(subprocess.check_call, ["umount", mount])
        old = self.write("small/old", "before")
        with self.assertRaises(Unwritten) as caught, Outputs([], [(mount / "new", ANY), (old, ANY)]) as outputs:
            outputs.write(old, b"little")
            out = outputs.open(mount / "new")
            for _ in range(100):
                out.write(bytes(4096))
        self.assertEqual(str(caught.exception), f"{mount / 'new'}: no space left on device")
        self.assertEqual((os.listdir(mount), old.read_bytes()), (["old"], b"before"))

    def test_signals(self) -> None:
        """A process that is stopped while it writes leaves nothing behind, whichever signal stops it; and a program
        that was started with a signal ignored continues."""
        code = (
            "import sys, time\nfrom ribjasper.common import kinds, output\nfrom ribjasper.main import stopping\n"
            "with stopping(), output.Outputs([], [(sys.argv[1], kinds.CDG)]) as outputs:\n"
            "    outputs.write(sys.argv[1], bytes(100000)); print('begun', flush=True)\n"
            "    time.sleep(float(sys.argv[2]))\n"
        )

        def begun(*words: str) -> subprocess.Popen[bytes]:
            running = subprocess.Popen(
                words,
                stdout=subprocess.PIPE,
                stderr=subprocess.DEVNULL,
                env={**os.environ, "PYTHONPATH": str(TOP / "desk")},
            )
            assert running.stdout is not None
            running.stdout.readline()
            return running

        old = self.path("old.cdg")
        write_file(old, b"before", kinds.CDG)
        for number in (signal.SIGINT, signal.SIGTERM, signal.SIGHUP):
            for path in (old, self.path("new.cdg")):
                with begun(sys.executable, "-c", code, str(path), "60") as running:
                    running.send_signal(number)
                    self.assertNotEqual(running.wait(), 0)
                self.assertEqual((self.names(), old.read_bytes()), (["old.cdg"], b"before"))
        with begun("nohup", sys.executable, "-c", code, str(old), "0.5") as running:
            running.send_signal(signal.SIGHUP)
            self.assertEqual(running.wait(), 0)
        self.assertEqual(old.read_bytes(), bytes(100000))


class KindTest(FolderTest):
    def is_kind(self, kind: kinds.Kind, content: bytes, name: str = "a") -> bool:
        return kind.has(os.fspath(self.write(name, content)))

    def test_by_content(self) -> None:
        self.assertTrue(self.is_kind(kinds.CUE, b'\xef\xbb\xbfREM x\r\n\r\nFILE "a" WAVE\r\n  TRACK 01 AUDIO\r\n'))
        self.assertFalse(self.is_kind(kinds.CUE, b"REM x\nDear diary\n", "a.cue"))
        self.assertTrue(self.is_kind(kinds.SCRIPT, b"# a song\ncolour 0 0FFF\nshow 00:00:01 00:00:02\n"))
        self.assertFalse(self.is_kind(kinds.SCRIPT, b"#!/bin/sh\nrm -rf x\n", "a.script"))
        self.assertFalse(self.is_kind(kinds.SCRIPT, b"shower\n"))
        self.assertTrue(self.is_kind(kinds.SCRIPT, b"colour 0 0FFF\n" * 10_000))
        self.assertTrue(self.is_kind(kinds.FILM, b"\0\0\0 ftypisom"))
        self.assertFalse(self.is_kind(kinds.FILM, b"RIFF\0\0\0\0WAVEfmt ", "a.mp4"))
        self.assertTrue(self.is_kind(kinds.TEXT_PACKS, b"\0\x14\0\0\x80" + bytes(17)))
        self.assertTrue(self.is_kind(kinds.TEXT_PACKS, b"\x80" + bytes(17)))
        self.assertFalse(self.is_kind(kinds.TEXT_PACKS, bytes(18)))
        for length in range(1, 18):
            self.assertFalse(self.is_kind(kinds.TEXT_PACKS, b"\x80" * length), length)
        self.assertTrue(
            self.is_kind(kinds.PAGE, (TOP / "desk" / "ribjasper" / "commands" / "publish" / "look.html").read_bytes())
        )
        self.assertFalse(
            self.is_kind(kinds.PAGE, b"<!DOCTYPE html>\n<html><head><title>My garden</title></head></html>")
        )

    def test_by_ending(self) -> None:
        self.assertTrue(self.is_kind(kinds.CDG, b"anything", "A.CDG"))
        self.assertFalse(self.is_kind(kinds.CDG, b"anything", "a.raw"))
        self.assertTrue(self.is_kind(kinds.IMAGE, bytes(2448), "a.bin"))
        self.assertFalse(self.is_kind(kinds.IMAGE, bytes(2352), "a.bin"))


if __name__ == "__main__":
    unittest.main()
