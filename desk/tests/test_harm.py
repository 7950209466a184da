"""No command destroys a file of a user: outputs that are also inputs, in each command and option; outputs that are
pipes, links, devices and standard output; and existing outputs."""
import hashlib
import os
import signal
import stat
import subprocess
import sys
import threading
import unittest

from fixtures import (
    DESK, HELLO, FolderTest, Ran, Word, desk, hello, hello_packs, needs_ffmpeg, needs_font, needs_library, needs_pillow,
    needs_plan, text, with_burst, word, write_wav,
)  # fmt: skip

from ribjasper.common import kinds

LRC = "[00:08.00]One line\n[00:12.00]Another\n"


def png() -> bytes:
    from io import BytesIO

    from PIL import Image

    out = BytesIO()
    Image.new("RGB", (12, 12), "#F00").save(out, "PNG")
    return out.getvalue()


class CallsTest(FolderTest):
    """A folder with an input of each kind, and its content before and after a call."""

    def content(self) -> dict[str, str]:
        """The checksums of all files. Files may be long, and a failed comparison prints both sides."""
        return {
            os.fspath(path.relative_to(self.folder)): hashlib.sha256(path.read_bytes()).hexdigest()
            for path in sorted(self.folder.rglob("*"))
            if path.is_file()
        }

    def refuses(self, *words: Word, why: str = "is an input", status: int = 3) -> Ran:
        """A call that is refused and changes nothing."""
        before = self.content()
        ran = desk(*words)
        self.assertEqual(ran.status, status, (words, ran.errors))
        self.assertIn(why, ran.errors)
        self.assertEqual(ran.out, "", words)
        self.assertEqual(self.content(), before, words)
        return ran


class SameFileTest(CallsTest):
    """An output that is an input is refused before anything is done; these tests do not need the library."""

    def test_each_command(self) -> None:
        dump = self.write("x", b"dump")
        a, b = self.write("a.raw", b"a"), self.write("b.raw", b"b")
        lrc, image, cdg = self.write("s.lrc", LRC), self.write("l.png", b"png"), self.write("f.cdg", bytes(24))
        sheet, script = self.write("s.cue", b"TRACK"), self.write("s.script", b"show")
        wav = write_wav(self.folder / "s.wav", 100)
        toc = self.write("h.toc", b"script")
        calls: tuple[tuple[Word, ...], ...] = (
            ("mend", a, b, "-o", a),
            ("mend", a, b, "-o", b),
            ("sheet", dump, "-o", dump),
            ("damage", dump, "--map", dump),
            ("texts", dump, "--packs", dump),
            ("texts", "--back", dump, "--blocks", dump),
            ("lyrics", lrc, "-o", lrc),
            ("lyrics", lrc, "--title", image, "-o", image),
            ("lyrics", lrc, "--audio", wav, "-o", wav),
            ("lyrics", lrc, "--font", image, "-o", image),
            ("picture", image, "-o", image),
            ("plan", sheet, script, "--length", "00:22:00", "--chart", script),
            ("plan", sheet, script, "--length", "00:22:00", "--chart", sheet),
            ("plan", sheet, script, "--length", "00:22:00", "--latin-1", sheet),
            ("plan", sheet, script, "--audio", wav, "--chart", wav),
            ("film", cdg, "--stills", cdg),
            ("film", cdg, "-o", cdg),
            ("film", cdg, "--audio", wav, "-o", wav),
            ("image", sheet, a, "--audio", wav, "--hold-through-pause", toc, "-o", self.folder / "h"),
            ("image", sheet, a, "--audio", wav, "-o", self.folder / "s"),
            ("report", self.folder, "-o", self.folder),
        )
        for words in calls:
            forces: tuple[tuple[str, ...], ...] = ((), ("--force",))
            for force in forces:
                why = "is an input" if words[0] != "report" else "is the folder with the dumps"
                errors = self.refuses(*words, *force, why=why).errors
                self.assertEqual(len(errors.splitlines()), 1, errors)

    def test_through_links(self) -> None:
        dump = self.write("x", b"dump")
        os.symlink("x", self.folder / "soft")
        os.link(dump, self.folder / "hard")
        for name in ("soft", "hard"):
            self.refuses("sheet", dump, "-o", self.folder / name)
            self.refuses("sheet", self.folder / name, "-o", dump)

    def test_two_outputs_of_one_name(self) -> None:
        sheet, script = self.write("s.cue", b"TRACK"), self.write("s.script", b"show")
        out = self.folder / "out"
        words = ("plan", sheet, script, "--length", "00:22:00")
        self.refuses(*words, "--chart", out, "--latin-1", out, why="is the same file as another output")
        os.symlink("out", self.folder / "link")
        self.refuses(
            "film", script, "--stills", out, "-o", self.folder / "link", why="is the same file as another output"
        )

    def test_what_is_of_another_kind(self) -> None:
        dump, notes = self.write("x", b"dump"), self.write("notes", b"Dear diary,\n")
        calls: tuple[tuple[Word, ...], ...] = (
            ("sheet", dump, "-o", notes),
            ("damage", dump, "--map", notes),
            ("texts", dump, "--packs", notes),
            ("mend", dump, dump, "-o", notes),
            ("film", dump, "--stills", notes, "-o", notes.parent / "new"),
            ("film", dump, "-o", notes),
        )
        for words in calls:
            self.refuses(*words, why="is there already, and is not")
        self.refuses("texts", "--back", dump, "--blocks", notes, why="is there already, and the desk did not write it")

    def test_names_of_which_several_files_cannot_be_made(self) -> None:
        file = write_wav(self.folder / "s.wav", 100)
        for name, why in (("-", "means standard output"), ("", "is not"), ("..", "is not")):
            self.refuses("image", file, file, "--audio", file, "-o", name, why=why)
            self.refuses("pair", file, "--audio", file, "-o", name, why=why)
            if name in ("-", ""):
                self.refuses("report", self.folder, "-o", name, why="is not the name of a folder")

    def test_a_report_takes_a_folder_of_its_own(self) -> None:
        self.write("dumps/x", b"dump")
        self.write("mine/pictures/holiday.png", b"precious")
        self.refuses(
            "report",
            self.folder / "dumps",
            "-o",
            self.folder / "mine",
            "--no-pictures",
            why="is not the folder of a report",
        )


@needs_library
class CompanionsTest(CallsTest):
    """Files that a command reads although no argument names them are inputs."""

    def setUp(self) -> None:
        super().setUp()
        stream = hello()
        self.dump = self.write("rip.raw", stream)
        blocks = len(stream) // 96
        self.write("rip.cue", 'REM by hand\nFILE "rip.bin" BINARY\n  TRACK 01 AUDIO\n    INDEX 01 00:00:00\n')
        self.write("rip.toc", 'CD_DA\n\nTRACK AUDIO\nFILE "a.wav" 0\n')
        self.write("rip.ccd", "[CloneCD]\nVersion=3\n[Disc]\nSessions=1\n")
        self.write("rip.state", bytes(588 * blocks))
        self.write("rip.c2", bytes(294 * blocks))

    def test_a_companion_is_no_output(self) -> None:
        calls: dict[str, tuple[Word, ...]] = {
            "rip.cue": ("sheet", self.dump, "-o"),
            "rip.toc": ("sheet", self.dump, "--toc", "-o"),
            "rip.ccd": ("sheet", self.dump, "--ccd", "-o"),
            "rip.state": ("damage", self.dump, "--again"),
            "rip.c2": ("damage", self.dump, "--again"),
        }
        for name, words in calls.items():
            self.refuses(*words, self.folder / name, "--force", why="is an input and would be overwritten")
            ran = desk(*words, self.folder / name)
            self.assertEqual(ran.status, 3)
            os.link(self.folder / name, self.folder / "other")
            self.refuses(*words, self.folder / "other", "--force", why="is an input as")
            (self.folder / "other").unlink()
        os.link(self.folder / "rip.cue", self.folder / "linked.raw")
        others: tuple[tuple[Word, ...], ...] = (
            ("q-fix", self.dump, "-o", self.folder / "rip.cue"),
            ("convert", self.dump, "--as", "raw", "-o", self.folder / "rip.cue"),
            ("mend", self.dump, self.dump, "-o", self.folder / "linked.raw"),
        )
        for words in others:
            before = self.content()
            ran = desk(*words, "--force")
            self.assertEqual((ran.status, self.content()), (3, before), words)
            self.assertIn("is an input", ran.errors)
        (self.folder / "linked.raw").unlink()
        self.refuses("texts", self.dump, "--packs", self.folder / "rip.cue", "--force", why="is an input")

    def test_other_names_are_outputs(self) -> None:
        self.assertEqual(desk("sheet", self.dump, "-o", self.folder / "new.cue").status, 0)
        self.assertTrue((self.folder / "new.cue").exists())


@needs_library
class OutputsTest(CallsTest):
    def setUp(self) -> None:
        super().setUp()
        self.dump = self.write("x.raw", hello())

    def calls(self, out: Word) -> dict[str, tuple[Word, ...]]:
        """A call of each command with one output, which is written to this name."""
        packs = self.folder / "packs"
        if not packs.exists():
            packs.write_bytes(self.text_packs())
        found: dict[str, tuple[Word, ...]] = {
            "mend": ("mend", self.dump, self.dump, "-o", out),
            "sheet": ("sheet", self.dump, "-o", out),
            "texts": ("texts", self.dump, "--packs", out),
            "back": ("texts", "--back", packs, "--blocks", out),
        }
        return found

    def text_packs(self) -> bytes:
        desk("texts", self.dump, "--packs", self.folder / "made")
        made = (self.folder / "made").read_bytes()
        (self.folder / "made").unlink()
        return made

    def expected(self) -> dict[str, bytes]:
        """The bytes that each call writes to a file."""
        found = {}
        for name, words in self.calls(self.folder / "plain").items():
            ran = desk(*words)
            self.assertEqual(ran.status, 0, (words, ran.errors))
            found[name] = (self.folder / "plain").read_bytes()
            (self.folder / "plain").unlink()
        self.assertEqual(found["mend"], hello_packs())
        return found

    def test_standard_output(self) -> None:
        expected = self.expected()
        for name, words in self.calls("-").items():
            before = self.content()
            ran = desk(*words, cwd=self.folder)
            self.assertEqual(ran.status, 0, ran.errors)
            self.assertEqual(ran.out.encode("utf-8", "surrogateescape"), expected[name], name)
            self.assertEqual(self.content(), before, name)
            self.assertFalse((self.folder / "-").exists())

    def test_a_pipe(self) -> None:
        expected, pipe = self.expected(), self.folder / "pipe"
        os.mkfifo(pipe)
        for name, words in self.calls(pipe).items():
            found: list[bytes] = []
            reader = threading.Thread(target=lambda: found.append(pipe.read_bytes()))
            reader.start()
            self.assertEqual(desk(*words).status, 0, name)
            reader.join()
            self.assertEqual(found, [expected[name]], name)
            self.assertTrue(stat.S_ISFIFO(os.lstat(pipe).st_mode), name)

    def test_a_link(self) -> None:
        expected = self.expected()
        for name, words in self.calls(self.folder / "link").items():
            (self.folder / "target").write_bytes(b"")
            os.symlink("target", self.folder / "link")
            self.assertEqual(desk(*words).status, 0, name)
            self.assertEqual(os.readlink(self.folder / "link"), "target")
            self.assertEqual((self.folder / "target").read_bytes(), expected[name], name)
            (self.folder / "link").unlink()
            (self.folder / "target").unlink()

    def test_a_device(self) -> None:
        node = self.folder / "null"
        try:
            os.mknod(node, 0o666 | stat.S_IFCHR, os.makedev(1, 3))
        except PermissionError:
            self.skipTest("no device can be made here")
        for name, words in self.calls(node).items():
            self.assertEqual(desk(*words).status, 0, name)
            self.assertTrue(stat.S_ISCHR(os.lstat(node).st_mode), name)

    def test_a_full_device(self) -> None:
        node = self.folder / "full"
        try:
            os.mknod(node, 0o666 | stat.S_IFCHR, os.makedev(1, 7))
        except PermissionError:
            self.skipTest("no device can be made here")
        for name, words in self.calls(node).items():
            ran = desk(*words)
            self.assertEqual(
                (ran.status, f"{node}: no space left on device" in ran.errors), (6, True), (name, ran.errors)
            )

    def test_again(self) -> None:
        """A command overwrites its own outputs without asking, until somebody changes them."""
        for name, words in self.calls(self.folder / "out.cdg").items():
            for _ in range(2):
                self.assertEqual(desk(*words).status, 0, name)
            (self.folder / "out.cdg").write_bytes(b"something else")
            self.refuses(*words, why="is there already")
            self.assertEqual(desk(*words, "--force").status, 0, name)
            (self.folder / "out.cdg").unlink()

    def test_standard_output_that_takes_no_more(self) -> None:
        before = self.content()
        with open("/dev/full", "wb") as full:
            calls: tuple[tuple[Word, ...], ...] = (
                ("identify", self.dump),
                ("damage", self.dump),
                ("sheet", self.dump),
                ("--version",),
                ("--help",),
                ("mend", self.dump, self.dump, "-o", self.folder / "new.cdg"),
            )
            for words in calls:
                ran = self.process(full, *words)
                self.assertEqual(
                    (ran.status, ran.errors.splitlines()[-1]),
                    (6, "ribjasper-desk: standard output: no space left on device"),
                )
        self.assertEqual(self.content(), before)
        ran = self.process(None, "mend", self.dump, self.dump, "-o", self.folder / "new.cdg")
        self.assertEqual((ran.status, self.content()), (6, before), ran.errors)

    @staticmethod
    def process(out: object, *words: Word) -> Ran:
        """A call whose standard output is a file, or closed."""
        how = {"stdout": out} if out else {"preexec_fn": lambda: os.close(1)}
        ran = subprocess.run([sys.executable, DESK, *map(word, words)], stderr=subprocess.PIPE, **how)  # type: ignore
        return Ran(ran.returncode, "", text(ran.stderr))


@needs_library
@needs_pillow
class SeveralTest(CallsTest):
    """Commands with several outputs: if one of them cannot be written, none appears."""

    @needs_plan
    def test_image(self) -> None:
        wav = write_wav(self.folder / "a.wav", 588 * 75 * 22)
        stream = self.write("a.raw", hello())
        words = ("image", HELLO[0], stream, "--audio", wav, "-o", self.folder / "disc")
        (self.folder / "disc.cue").mkdir()
        self.refuses(*words, why="disc.cue: is a directory")
        (self.folder / "disc.cue").rmdir()
        notes = self.write("disc.toc", b"Dear diary,\n")
        self.refuses(*words, why="disc.toc: is there already, and is not a sheet for cdrdao")
        notes.unlink()
        self.assertEqual(desk(*words).status, 0)
        first = self.content()
        self.assertEqual(desk(*words).status, 0)
        self.assertEqual(self.content(), first)

    def test_map_that_cannot_be_written(self) -> None:
        dump = self.write("x.raw", with_burst(hello(), 900, 100))
        ran = desk("damage", dump, "--map", self.folder / "no" / "map.png")
        self.assertEqual(ran.status, 6)
        self.assertIn("no such file or directory", ran.errors)


@needs_plan
@needs_pillow
class DrawnTest(CallsTest):
    @needs_font
    def test_lyrics_and_picture(self) -> None:
        lrc, image = self.write("s.lrc", LRC), self.write("l.png", png())
        calls: tuple[tuple[Word, ...], ...] = (("lyrics", lrc), ("picture", image))
        for words in calls:
            out = self.folder / "out.script"
            self.assertEqual(desk(*words, "-o", out).status, 0)
            made = out.read_bytes()
            self.assertTrue(kinds.SCRIPT.has(os.fspath(out)))
            self.assertEqual(desk(*words, "-o", out).status, 0)
            self.assertEqual(desk(*words, "-o", "-", cwd=self.folder).out.encode(), made)
            self.assertFalse((self.folder / "-").exists())
            out.unlink()

    @needs_ffmpeg
    def test_film(self) -> None:
        cdg = self.write("f.cdg", bytes(24 * 300))
        pipe, found = self.folder / "pipe", list[bytes]()
        os.mkfifo(pipe)
        reader = threading.Thread(target=lambda: found.append(pipe.read_bytes()))
        reader.start()
        self.assertEqual(desk("film", cdg, "-o", pipe).status, 0)
        reader.join()
        self.assertEqual(found[0][4:8], b"ftyp")
        film = self.folder / "f.mp4"
        for _ in range(2):
            self.assertEqual(desk("film", cdg, "-o", film, "--stills", self.folder / "f.png").status, 0)
        before = self.content()
        self.assertEqual(desk("film", cdg, "-o", film, "--stills", self.folder / "none" / "f.png").status, 6)
        self.assertEqual(self.content(), before)


class StoppedTest(CallsTest):
    """A command that is stopped during its work leaves nothing behind, and says so."""

    def test_each_signal(self) -> None:
        song, script = self.folder / "song", self.write("s.script", b"# old\n")
        os.mkfifo(song)
        for number in (signal.SIGINT, signal.SIGTERM, signal.SIGHUP):
            for out in (script, self.folder / "new"):
                words = [sys.executable, str(DESK), "lyrics", str(song), "-o", str(out), "--force"]
                with subprocess.Popen(words, stderr=subprocess.PIPE) as running:
                    # The pipe opens when the command begins to read it.
                    with open(song, "wb"):
                        running.send_signal(number)
                        errors = running.communicate(timeout=60)[1]
                self.assertEqual((running.returncode, errors), (128 + number, b"ribjasper-desk: stopped\n"))
                self.assertEqual(sorted(os.listdir(self.folder)), ["s.script", "song"])
                self.assertEqual(script.read_bytes(), b"# old\n")


if __name__ == "__main__":
    unittest.main()
