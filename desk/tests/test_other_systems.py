"""The desk on Windows and macOS, as far as Linux can show it: functions that these systems lack are removed from
Python, and others are changed to behave as they do there. Commands then write the same files, with the names and
places of the system."""
import os
import subprocess
import sys
import unittest
from pathlib import Path

from fixtures import LEAD_IN, FolderTest, PROGRAM, TOP, hello, needs_library, with_burst

from ribjasper.common import library

# These are removed after the modules of Python that use them are loaded.
LACKS = """
import concurrent.futures.process, ctypes.util, multiprocessing.spawn, multiprocessing.popen_spawn_posix, os, shutil, signal, \
    socket, subprocess, sys, tempfile, threading, types
lacking = {os: ("fork", "O_CLOEXEC", "geteuid", "getegid", "getuid", "chown", "O_DIRECTORY", "O_NOCTTY", "sched_getaffinity"),
           signal: ("SIGHUP", "pthread_sigmask"), socket: ("AF_UNIX",)}
for module, names in lacking.items():
    for name in names:
        if hasattr(module, name):
            delattr(module, name)
plain_rename = os.rename

def rename(old, new):
    if os.path.lexists(new):
        raise FileExistsError(17, "Cannot create a file when that file already exists", new)
    plain_rename(old, new)

os.rename = rename
locked = []
sys.modules["msvcrt"] = types.SimpleNamespace(LK_LOCK=1, locking=lambda number, how, count: locked.append(number))
sys.platform = "win32"
"""
RUN = f"{LACKS}\nfrom ribjasper.main import main\nsys.exit(main(sys.argv[1:]))"


class OtherSystemsTest(FolderTest):
    def python(self, code: str, *words: str | Path) -> subprocess.CompletedProcess[bytes]:
        environment = {**os.environ, "PYTHONPATH": str(TOP / "desk"), "PYTHONDONTWRITEBYTECODE": "1"}
        environment |= {"RIBJASPER_LIBRARY": next(library.candidates()), "RIBJASPER_PROGRAM": PROGRAM or ""}
        return subprocess.run(
            [sys.executable, "-c", code, *words], capture_output=True, cwd=self.folder, env=environment
        )

    def both(self, *words: str, status: int = 0, again: bool = False) -> bytes:
        """Runs a command here and on the system that lacks functions, and compares its output, which is named `OUT`,
        and its table. Returns the table."""
        plain = "import sys\nfrom ribjasper.main import main\nsys.exit(main(sys.argv[1:]))"
        tables, outputs = [], []
        for code, out in ((plain, "here.cdg"), (RUN, "there.cdg")):
            if not again:
                (self.folder / out).unlink(missing_ok=True)
            ran = self.python(code, *(out if word == "OUT" else word for word in words))
            self.assertEqual(ran.returncode, status, ran.stderr.decode())
            tables.append(ran.stdout)
            outputs.append((self.folder / out).read_bytes() if "OUT" in words else b"")
        self.assertEqual((tables[0], outputs[0]), (tables[1], outputs[1]))
        return outputs[0] or tables[0]

    @needs_library
    def test_commands(self) -> None:
        self.write("a.raw", hello())
        self.write("b.raw", with_burst(hello(), 400, 500))
        lead_in = ("--lead-in", str(LEAD_IN))
        self.assertIn(b"a.raw", self.both("identify", "a.raw"))
        self.both("sums", "a.raw", "b.raw", "--dat", "OUT")
        self.both("damage", *lead_in, "b.raw", status=1)
        self.both("mend", *lead_in, "a.raw", "b.raw", "-o", "OUT")
        # A second run overwrites the output of the first.
        self.both("mend", *lead_in, "b.raw", "a.raw", "-o", "OUT", again=True)
        self.both("convert", *lead_in, "a.raw", "-o", "OUT")
        self.assertEqual(
            [name for name in os.listdir(self.folder) if name.startswith(".ribjasper") and name != ".ribjasper-desk"],
            [],
        )

    @needs_library
    def test_report_in_two_processes(self) -> None:
        """Processes are spawned, because there is no fork."""
        dumps = self.folder / "dumps"
        dumps.mkdir()
        (dumps / "a.raw").write_bytes(hello())
        (dumps / "b.raw").write_bytes(with_burst(hello(), 400, 500))
        # Python itself starts processes in another way on Windows, which this test cannot do.
        code = RUN.replace('"win32"', '"darwin"')
        ran = self.python(code, "report", "dumps", "-o", "out", "--jobs", "2", "--no-pictures", "--quiet")
        self.assertEqual(ran.returncode, 0, ran.stderr.decode())
        table = (self.folder / "out" / "table.tsv").read_text().splitlines()
        self.assertEqual([line.split("\t")[0] for line in table[1:]], ["a.raw", "b.raw"])

    def test_an_interrupt_waits_until_a_file_has_its_name(self) -> None:
        """Signals cannot be blocked there: they are recorded, and handled right afterwards."""
        code = (
            LACKS
            + """
from ribjasper.common import beside
made = []
try:
    with beside.held_back():
        signal.raise_signal(signal.SIGINT)
        made.append("after")
except KeyboardInterrupt:
    made.append("stopped")
print(made, signal.getsignal(signal.SIGINT) is signal.default_int_handler)
"""
        )
        ran = self.python(code)
        self.assertEqual(ran.stdout.decode().strip(), "['after', 'stopped'] True", ran.stderr.decode())

    def test_names_of_the_library_and_the_program(self) -> None:
        show = "from ribjasper.common import library, program\nprint(library.NAME, program.NAME)"
        for system, names in (
            ("win32", "ribjasper.dll ribjasper.exe"),
            ("darwin", "libribjasper.0.dylib ribjasper"),
            ("linux", "libribjasper.so.0 ribjasper"),
        ):
            ran = self.python(f"import ctypes, subprocess, sysconfig, tempfile, sys\nsys.platform = {system!r}\n{show}")
            self.assertEqual(ran.stdout.decode().strip(), names, ran.stderr.decode())

    def test_names_in_other_letters_are_one_file(self) -> None:
        """On Windows and macOS, two new outputs may not differ only in upper and lower case."""
        code = """
import sys, tempfile
from ribjasper.common.targets import Target
sys.platform = {system!r}
print(Target("New.cdg").identity() == Target("nEW.CDG").identity())
"""
        for system, answer in (("win32", "True"), ("darwin", "True"), ("linux", "False")):
            ran = self.python(code.format(system=system))
            self.assertEqual(ran.stdout.decode().strip(), answer, ran.stderr.decode())


if __name__ == "__main__":
    unittest.main()
