"""What all commands share: the version, help, and the message if something has to be installed or built."""
import os
import subprocess
import sys
import unittest

from fixtures import DESK, TOP, FolderTest, Word, desk, has, hello, needs_library

COMMANDS = "identify damage mend report sheet texts plan picture lyrics image film album pair look studio".split()


class MainTest(FolderTest):
    def test_help(self) -> None:
        ran = desk("--help")
        self.assertEqual(ran.status, 0)
        for command in COMMANDS:
            self.assertIn(f"    {command} ", ran.out)
            self.assertEqual(desk(command, "--help").status, 0, command)

    @unittest.skipUnless(has("ribjasper_version"), "lib/ or the program is not built (make library, make)")
    def test_version(self) -> None:
        self.assertEqual(
            desk("--version").out, f"ribjasper-desk {(TOP / 'VERSION').read_text().strip().removesuffix('-dev')}\n"
        )

    def test_without_the_library(self) -> None:
        path = self.write("dump", bytes(96))
        ran = desk("identify", path, env={**os.environ, "RIBJASPER_LIBRARY": str(self.folder / "none.so")})
        self.assertEqual(ran.status, 5)
        self.assertIn("'make library' builds it", ran.errors)
        self.assertNotIn("Traceback", ran.errors)

    @needs_library
    def test_without_a_package(self) -> None:
        """Each missing package is named where it is needed."""
        for module in ("PIL", "distributed"):
            folder = self.folder / "broken" / module
            folder.mkdir(parents=True)
            (folder / "__init__.py").write_text("raise ImportError('not here')\n")
        how = dict(env={**os.environ, "PYTHONPATH": str(self.folder / "broken")})
        dump = self.write("dumps/dump", hello())
        self.assertEqual(desk("identify", dump, **how).status, 0)
        self.assertEqual(desk("damage", dump, **how).status, 0)
        calls: tuple[tuple[tuple[Word, ...], str], ...] = (
            (("damage", dump, "--map", self.folder / "map.png"), "python3-pil"),
            (("report", dump.parent, "-o", self.folder / "out"), "python3-pil"),
            (
                ("report", dump.parent, "-o", self.folder / "out", "--no-pictures", "--cluster", "a:1"),
                "python3-distributed",
            ),
        )
        for words, package in calls:
            ran = desk(*words, **how)
            self.assertEqual(ran.status, 5, ran.errors)
            self.assertIn(f"apt-get install {package}", ran.errors)
            self.assertNotIn("Traceback", ran.errors)

    @needs_library
    def test_a_reader_that_has_seen_enough(self) -> None:
        path = self.write("dump", bytes(960))
        words = [sys.executable, str(DESK), "identify", *[str(path)] * 50]
        with subprocess.Popen(words, stdout=subprocess.PIPE, stderr=subprocess.PIPE) as running:
            assert running.stdout and running.stderr
            running.stdout.close()
            errors = running.stderr.read()
        self.assertEqual(errors.splitlines()[-1], b"ribjasper-desk: standard output: broken pipe")
        self.assertEqual(running.returncode, 6)


if __name__ == "__main__":
    unittest.main()
