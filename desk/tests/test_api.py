"""`import ribjasper` for programs and notebooks: its names, its arrays, and the examples of docs/API.md."""
import contextlib
import importlib.util
import inspect
import io
import os
import re
import subprocess
import sys
import unittest
from pathlib import Path

from fixtures import (
    BLOCK, LEAD_IN, PACK, PROGRAM_BLOCKS, TOP, FolderTest, hello, hello_packs, needs, needs_library, needs_plan, program,
    with_bad_q, with_burst,
)  # fmt: skip

import ribjasper

PAGE = TOP / "docs" / "API.md"
# The public names with their parameters, one per line.
PUBLIC = Path(__file__).resolve().parent / "public_names.txt"
needs_numpy = needs("numpy", "python3-numpy")


def examples() -> list[str]:
    return re.findall(r"^```python\n(.*?)^```", PAGE.read_text(), re.MULTILINE | re.DOTALL)


def described() -> list[str]:
    """Each public name with its parameters, and the public methods and fields of classes with theirs."""
    lines = []
    for name in sorted(ribjasper.__all__):
        found = getattr(ribjasper, name)
        if not inspect.isclass(found):
            lines.append(f"{name}({', '.join(inspect.signature(found).parameters)})")
            continue
        members = {member for member in dir(found) if not member.startswith("_")}
        if not issubclass(found, Exception):
            members |= set(getattr(found, "__annotations__", ()))
        members -= set(
            dir(tuple if issubclass(found, tuple) else Exception if issubclass(found, Exception) else object)
        )
        lines.append(f"{name}: {' '.join(sorted(members))}".rstrip())
    return lines


class NamesTest(unittest.TestCase):
    def test_the_list_of_public_names(self) -> None:
        """Removing a public name or member breaks programs, and adding one is a promise. The list has all of them."""
        self.assertEqual(described(), PUBLIC.read_text().splitlines())
        self.assertEqual(sorted(set(ribjasper.__all__)), sorted(ribjasper.__all__))

    def test_the_page_names_all(self) -> None:
        named = set(re.findall(r"^\| `(\w+)", PAGE.read_text(), re.MULTILINE))
        self.assertEqual(named, set(ribjasper.__all__))

    def test_all_is_described(self) -> None:
        for name in ribjasper.__all__:
            self.assertTrue(inspect.getdoc(getattr(ribjasper, name)), name)

    def test_unknown_names(self) -> None:
        with self.assertRaises(AttributeError):
            getattr(ribjasper, "nothing")
        self.assertIn("load", dir(ribjasper))


class ImportTest(FolderTest):
    def run_code(self, code: str, **environment: str) -> str:
        ran = subprocess.run(
            [sys.executable, "-c", code],
            capture_output=True,
            text=True,
            env={**os.environ, "PYTHONPATH": str(TOP / "desk"), **environment},
        )
        self.assertEqual((ran.returncode, ran.stderr), (0, ""))
        return ran.stdout

    def test_it_loads_nothing_else(self) -> None:
        code = "import sys, ribjasper; print(*sorted(name for name in sys.modules if name.startswith('ribjasper')))"
        self.assertEqual(self.run_code(code), "ribjasper\n")
        code = "import sys, ribjasper; print([name for name in ('ctypes', 'argparse', 'numpy') if name in sys.modules])"
        self.assertEqual(self.run_code(code), "[]\n")

    def test_lyrics_without_the_library(self) -> None:
        path = self.write("a.lrc", "[ti:Name]\n[00:01.00]One\n[00:02.50]Two\n")
        code = f"import ribjasper; song = ribjasper.read_song({str(path)!r}); print(song.title, song.lines[1].start)"
        self.assertEqual(self.run_code(code, RIBJASPER_LIBRARY=str(self.folder / "none.so")), "Name 2.5\n")

    def test_a_missing_library(self) -> None:
        dump = self.write("dump.raw", bytes(960))
        code = f"""
import ribjasper
try:
    ribjasper.load({str(dump)!r}, form="raw")
except ribjasper.Missing as missing:
    print(isinstance(missing, ribjasper.Failure), "make library" in str(missing))
"""
        self.assertEqual(self.run_code(code, RIBJASPER_LIBRARY=str(self.folder / "none.so")), "True True\n")

    @needs_library
    def test_a_missing_numpy(self) -> None:
        """Only arrays need numpy."""
        (self.folder / "numpy").mkdir()
        (self.folder / "numpy" / "__init__.py").write_text("raise ImportError('not here')\n")
        dump = self.write("dump.raw", hello())
        code = f"""
import ribjasper
dump = ribjasper.load({str(dump)!r})
print(len(dump.packs()), len(ribjasper.mend(dump, dump).content))
for array in (dump.survey().table, dump.player().array):
    try:
        array()
    except ribjasper.Missing as missing:
        print("python3-numpy" in str(missing))
"""
        paths = os.pathsep.join((str(self.folder), str(TOP / "desk")))
        length = len(hello_packs())
        self.assertEqual(self.run_code(code, PYTHONPATH=paths), f"{length} {length}\nTrue\nTrue\n")


@needs_library
class DumpTest(FolderTest):
    def load(self, content: bytes, name: str = "dump.raw", **words: int | str) -> ribjasper.Dump:
        return ribjasper.load(self.write(name, content), **words)  # type: ignore[arg-type]

    def test_blocks_and_packs(self) -> None:
        dump = self.load(hello())
        self.assertEqual((dump.form, dump.lead_in, len(dump)), ("raw", LEAD_IN, LEAD_IN + PROGRAM_BLOCKS))
        self.assertEqual((dump.blocks, dump.packs()), (hello(), hello_packs()))
        self.assertEqual(dump.path, str(self.folder / "dump.raw"))
        self.assertFalse(dump.is_packs)

    def test_frames(self) -> None:
        """The frames of the program count the time block by block; a bad frame is left out."""
        dump = self.load(with_bad_q(hello(), LEAD_IN + 700))
        frames = {frame.block: frame for frame in dump.frames()}
        self.assertNotIn(LEAD_IN + 700, frames)
        self.assertIsNone(dump.time(LEAD_IN + 700))
        for block in (LEAD_IN + 203, LEAD_IN + 690, LEAD_IN + 1001):
            self.assertEqual(frames[block].kind, "program")
            self.assertEqual((frames[block].absolute, dump.time(block)), (block - LEAD_IN, block - LEAD_IN))
        self.assertEqual((frames[LEAD_IN + 203].track, frames[LEAD_IN + 203].index), (1, 1))
        self.assertEqual(frames[LEAD_IN + 203].time, 53)
        codes = {frame.text for frame in frames.values() if frame.kind == "isrc"}
        self.assertEqual(codes, {"GBAAA2600001", "GBAAA2600002"})
        self.assertIn("4006381333931", {frame.text for frame in frames.values() if frame.kind == "catalogue"})
        self.assertTrue(all(frames[block].kind in ("track", "first", "last", "lead-out") for block in range(LEAD_IN)))
        for block in (-1, len(dump)):
            with self.assertRaises(IndexError):
                dump.time(block)

    def test_packs_have_no_frames(self) -> None:
        dump = self.load(hello_packs(), "dump.cdg")
        self.assertEqual((dump.form, dump.is_packs, list(dump.frames()), dump.texts()), ("cdg", True, [], {}))
        self.assertEqual(dump.packs(), hello_packs())

    def test_texts(self) -> None:
        dump = self.load(hello())
        lines = program("text", "--lead-in", LEAD_IN, stdin=hello()).decode().splitlines()
        found = [f"{kind} {track} {text}" for (kind, track), text in dump.texts().items()]
        self.assertEqual(found, [re.sub(r" 0(\d) ", r" \1 ", line) for line in lines if not line.startswith("packs ")])

    def test_damages(self) -> None:
        self.assertEqual(self.load(hello()).damages(), [])
        found = self.load(with_burst(hello(), 500, 60)).damages()
        self.assertTrue(found and 500 <= found[0].first <= found[-1].last <= 502)

    def test_other_forms(self) -> None:
        dump = self.load(hello())
        planar = ribjasper.convert(dump, "planar")
        self.assertEqual(planar, program("planar", stdin=hello()))
        again = self.load(planar, "dump.sub")
        self.assertEqual((again.form, again.blocks), ("planar", hello()))
        self.assertEqual(ribjasper.convert(dump, "cdg"), hello_packs())
        silent = ribjasper.convert(dump, "sector", is_silent=True)
        self.assertEqual(
            silent, b"".join(bytes(2352) + hello()[at : at + BLOCK] for at in range(0, len(hello()), BLOCK))
        )
        with self.assertRaises(ribjasper.Refusal):
            ribjasper.convert(dump, "sector")
        with self.assertRaisesRegex(ValueError, "forms: raw, pq, planar"):
            ribjasper.convert(dump, "mp3")

    def test_named_forms(self) -> None:
        dump = self.load(hello(), form="raw", lead_in=10, skip=96)
        self.assertEqual((len(dump), dump.lead_in), (LEAD_IN + PROGRAM_BLOCKS - 1, 10))
        with self.assertRaises(ValueError):
            self.load(hello(), form="blah")
        with self.assertRaisesRegex(ribjasper.Refusal, "is empty"):
            self.load(b"")

    def test_mending(self) -> None:
        first, second = with_burst(hello(), 500, 90), with_burst(hello(), 900, 90, 2)
        mended = ribjasper.mend(self.load(first, "a.raw"), self.load(second, "b.raw"))
        self.assertEqual((bytes(mended.content), mended.none), (hello_packs(), 0))
        self.assertEqual(len(mended.sources), len(hello_packs()) // PACK)
        stream = ribjasper.mend(self.load(first, "a.raw"), self.load(second, "b.raw"), as_stream=True)
        self.assertEqual(bytes(stream.content), hello()[BLOCK * LEAD_IN :])
        # The dumps are unchanged.
        dump = self.load(first, "a.raw")
        ribjasper.mend(dump, self.load(second, "b.raw"))
        self.assertEqual((len(dump.damages()) > 0, dump.packs() != b"", dump.time(LEAD_IN + 203)), (True, True, 203))
        with self.assertRaises(ValueError):
            ribjasper.mend(self.load(first))
        with self.assertRaisesRegex(ribjasper.Refusal, "no blocks of subcode to mend"):
            ribjasper.mend(self.load(first), self.load(hello_packs(), "c.cdg"))

    @needs_numpy
    def test_the_table_of_a_survey(self) -> None:
        import numpy

        table = self.load(with_burst(hello(), 500, 60)).survey().table()
        self.assertEqual(table.shape, (LEAD_IN + PROGRAM_BLOCKS,))
        self.assertEqual(table.dtype.names, ("absolute", "clean", "one", "two", "bad", "q", "track", "index", "empty"))
        counted = program("check", "--lead-in", LEAD_IN, stdin=with_burst(hello(), 500, 60), statuses=(1,)).decode()
        counts = dict(line.split() for line in counted.splitlines())
        for name in ("clean", "one", "two", "bad"):
            self.assertEqual(int(table[name].sum()), int(counts[name]), name)
        self.assertEqual(int(table["absolute"][LEAD_IN + 300]), 300)
        self.assertFalse(table.flags.writeable)
        self.assertTrue(bool(numpy.all(table["empty"] == 0)))


@needs_library
class PlayerTest(FolderTest):
    def screens(self, stream: bytes, blocks: int) -> bytes:
        """The screen that the program writes after some blocks of the stream."""
        path, at = self.write("stream.raw", stream), blocks - LEAD_IN
        time = f"{at // 4500:02}:{at // 75 % 60:02}:{at % 75:02}"
        return program("screen", "--lead-in", LEAD_IN, "--at", time, "--", path)[15:]

    @needs_numpy
    def test_seeking_and_arrays(self) -> None:
        dump = ribjasper.load(self.write("dump.raw", hello()))
        with dump.player() as player:
            for block in (LEAD_IN + 900, LEAD_IN + 400, len(dump), LEAD_IN + 901, 0):
                player.seek(block)
                array = player.array()
                self.assertEqual((array.shape, str(array.dtype)), ((216, 300, 3), "uint8"))
                expected = self.screens(hello(), block) if block else bytes(3 * 300 * 216)
                self.assertEqual(array.tobytes(), expected, block)
                self.assertEqual(player.picture(), expected)
            with self.assertRaises(ribjasper.Refusal):
                player.seek(len(dump) + 1)
            player.seek(LEAD_IN + 900)
            with_opacity = player.array(has_opacity=True)
            self.assertEqual(with_opacity.shape, (216, 300, 4))
            self.assertEqual(with_opacity[:, :, :3].tobytes(), self.screens(hello(), LEAD_IN + 900))
            self.assertEqual(set(with_opacity[:, :, 3].flat), {255})

    def test_feeding(self) -> None:
        player = ribjasper.Player(lead_in=LEAD_IN)
        player.feed(hello()[: BLOCK * (LEAD_IN + 900)])
        self.assertEqual(player.picture(), self.screens(hello(), LEAD_IN + 900))
        player.close()
        player.close()

    def test_packs(self) -> None:
        """Packs of a .cdg file are drawn at their times, not two blocks later."""
        player = ribjasper.load(self.write("dump.cdg", hello_packs())).player()
        player.seek(1000)
        drawn = ribjasper.Player(is_packs=True)
        drawn.draw(hello_packs()[: PACK * 4000])
        self.assertEqual(player.picture(), drawn.picture())
        self.assertNotEqual(player.picture(), bytes(len(player.picture())))


@needs_plan
class PlanTest(unittest.TestCase):
    def test_a_script_that_is_refused(self) -> None:
        sheet = (TOP / "examples" / "hello.cue").read_bytes()
        with self.assertRaises(ribjasper.NoPlan) as refused:
            ribjasper.plan(sheet, b"blah\n", 1650)
        self.assertEqual((refused.exception.line, refused.exception.why.word), (1, "script-refused"))


@needs_library
class ExamplesTest(FolderTest):
    @unittest.skipUnless(importlib.util.find_spec("numpy"), "python3-numpy is not installed")
    def test_the_examples_of_the_page(self) -> None:
        """Each example runs by itself, in a folder with `hello.raw` and `examples`."""
        self.assertEqual(len(examples()), 5)
        self.write("hello.raw", hello())
        (self.folder / "examples").symlink_to(TOP / "examples")
        before = os.getcwd()
        os.chdir(self.folder)
        self.addCleanup(os.chdir, before)
        printed = []
        for code in examples():
            out = io.StringIO()
            with contextlib.redirect_stdout(out):
                exec(compile(code, str(PAGE), "exec"), {})  # pylint: disable=exec-used
            printed.append(out.getvalue().splitlines())
        self.assertEqual(printed[0], [f"raw {LEAD_IN} {LEAD_IN + PROGRAM_BLOCKS}", "tracks: [1, 2]"])
        self.assertEqual(printed[1], ["0 0.0"])
        self.assertEqual(printed[2], ["(216, 300, 3) uint8"])
        self.assertEqual(printed[3], ["0 words are missing"])
        self.assertEqual((self.folder / "hello.cdg").read_bytes(), hello_packs())
        self.assertEqual((self.folder / "hello.sub").read_bytes(), program("planar", stdin=hello()))
        self.assertTrue(printed[4][0].endswith("late: []"))
        lines = re.findall(r"^\[0\d:[\d.]+\].*\w", (TOP / "examples/song/song.lrc").read_text(), re.MULTILINE)
        self.assertEqual(len(printed[4]) - 1, len(lines))


if __name__ == "__main__":
    unittest.main()
