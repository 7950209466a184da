"""What scripts and terminals get: `-q`, a progress bar, and completions of two shells."""
import contextlib
import io
import os
import shutil
import subprocess
import sys
import unittest
from unittest import mock

from fixtures import LEAD_IN, TOP, FolderTest, Word, desk, hello, needs, needs_ffmpeg, needs_library, with_zeros

from ribjasper import main
from ribjasper.common import output, progress

COMPLETIONS = TOP / "desk" / "completions.py"


class Terminal(io.StringIO):
    """A standard error that is a terminal."""

    def isatty(self) -> bool:
        return True


@needs_library
class QuietTest(FolderTest):
    def test_notes_are_left_out_and_errors_are_not(self) -> None:
        dump = self.write("dump", with_zeros(hello(), 0, LEAD_IN) + bytes(10))
        loud, quiet = desk("damage", dump), desk("damage", "-q", dump)
        self.assertIn("torn: 10 bytes", loud.errors)
        self.assertEqual((quiet.status, quiet.out, quiet.errors), (loud.status, loud.out, ""))
        calls: tuple[tuple[Word, ...], ...] = (
            ("identify", "-q", self.folder / "none"),
            ("identify", self.write("zeros", bytes(960)), "--quiet"),
        )
        for words in calls:
            ran = desk(*words)
            self.assertEqual((ran.status, len(ran.errors.splitlines())), (3, 1), ran)
        # The next call prints its notes again.
        self.assertIn("torn", desk("damage", dump).errors)

    def test_each_command_has_it(self) -> None:
        for command in main.COMMANDS:
            self.assertIn("-q, --quiet", desk(command, "--help").out, command)


class ProgressTest(FolderTest):
    def on_a_terminal(self, *words: object) -> str:
        """The output of a call on a terminal, with a progress bar that appears at once."""
        shown = Terminal()
        with contextlib.redirect_stderr(shown), contextlib.redirect_stdout(io.TextIOWrapper(io.BytesIO())):
            with mock.patch.object(progress, "DELAY", 0):
                self.assertEqual(main.main([os.fspath(word) for word in words]), 0)  # type: ignore[call-overload]
        return shown.getvalue()

    @needs("tqdm", "python3-tqdm")
    @needs_ffmpeg
    @needs_library
    def test_a_film(self) -> None:
        """A progress bar of frames on a terminal, and none with -q or elsewhere."""
        stream = self.write("a.raw", hello())
        self.assertIn("frames/s", self.on_a_terminal("film", stream, "-o", self.folder / "a.mp4"))
        self.assertEqual(self.on_a_terminal("film", "-q", stream, "-o", self.folder / "b.mp4"), "")
        self.assertNotIn("frames/s", desk("film", stream, "-o", self.folder / "c.mp4").errors)

    @needs("tqdm", "python3-tqdm")
    def test_sums(self) -> None:
        self.assertIn("B/s", self.on_a_terminal("sums", self.write("a", bytes(3 << 20))))

    def test_without_tqdm(self) -> None:
        with mock.patch.dict(sys.modules, {"tqdm": None}):
            self.assertEqual(self.on_a_terminal("sums", self.write("a", bytes(3 << 20))), "")

    def test_a_quick_loop_shows_nothing(self) -> None:
        shown = Terminal()
        with contextlib.redirect_stderr(shown):
            self.assertEqual(list(progress.progress(range(5), 5, "things")), [0, 1, 2, 3, 4])
        self.assertEqual(shown.getvalue(), "")
        self.assertIsNone(output.shown_bar())

    @needs("tqdm", "python3-tqdm")
    def test_one_bar_at_a_time(self) -> None:
        """A loop inside another one has no progress bar; a note clears the bar first."""
        shown = Terminal()
        with contextlib.redirect_stderr(shown), mock.patch.object(progress, "DELAY", 0):
            for _ in progress.progress(range(2), 2, "outer"):
                list(progress.progress(range(3), 3, "inner"))
                output.tell("a note")
        self.assertIn("outer", shown.getvalue())
        self.assertNotIn("inner", shown.getvalue())
        self.assertIn("\rribjasper-desk: a note\n", shown.getvalue())


class CompletionsTest(FolderTest):
    def completions(self, shell: str) -> str:
        return subprocess.run([sys.executable, COMPLETIONS, shell], capture_output=True, text=True, check=True).stdout

    @needs("shtab", "python3-shtab")
    @unittest.skipUnless(shutil.which("bash"), "bash is not installed")
    def test_bash(self) -> None:
        """The completions of bash: commands, options, and names of files."""
        self.write("a.cue", "")
        script = self.write("desk.bash", self.completions("bash"))

        def completed(*words: str) -> set[str]:
            quoted = " ".join(f'"{word}"' for word in words)
            call = f"source {script}; COMP_WORDS=({quoted}); COMP_CWORD={len(words) - 1}; _shtab_ribjasper_desk"
            ran = subprocess.run(
                ["bash", "-c", f'{call}; printf "%s\\n" "${{COMPREPLY[@]}}"'],
                capture_output=True,
                text=True,
                cwd=self.folder,
            )
            return set(ran.stdout.split())

        self.assertEqual(completed("ribjasper-desk", "id"), {"identify"})
        self.assertLess({"album", "mend", "q-fix"}, completed("ribjasper-desk", ""))
        self.assertLess({"--compare", "--quiet", "--json"}, completed("ribjasper-desk", "mend", "--"))
        self.assertEqual(completed("ribjasper-desk", "plan", "a."), {"a.cue"})

    @needs("shtab", "python3-shtab")
    @unittest.skipUnless(shutil.which("zsh"), "zsh is not installed")
    def test_zsh(self) -> None:
        script = self.write("_desk", self.completions("zsh"))
        self.assertTrue(script.read_text().startswith("#compdef ribjasper-desk"))
        self.assertEqual(subprocess.run(["zsh", "-n", script], capture_output=True).returncode, 0)

    def test_without_shtab(self) -> None:
        (self.folder / "shtab.py").write_text("raise ImportError('not here')\n")
        ran = subprocess.run(
            [sys.executable, COMPLETIONS, "bash"],
            capture_output=True,
            text=True,
            env={**os.environ, "PYTHONPATH": str(self.folder)},
        )
        self.assertEqual((ran.returncode, ran.stdout), (5, ""))
        self.assertIn("skipped", ran.stderr)


if __name__ == "__main__":
    unittest.main()
