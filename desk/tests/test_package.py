"""The desk as a package: by pip without a network, by make install, and with its page of the manual."""
import os
import shutil
import subprocess
import sys
import time
import unittest
from pathlib import Path

from fixtures import TOP, FolderTest, has

import build_wheel
import ribjasper
from ribjasper.common import library

VERSION = (TOP / "VERSION").read_text().strip()
# The versions of the library between two releases, and how pip writes them.
NUMBER, OF_PIP = VERSION.removesuffix("-dev"), VERSION.replace("-dev", ".dev0")
INSTALL = TOP / "tools" / "build" / "install.sh"


def files_below(folder: Path) -> list[str]:
    """The modules of a package, and the files that they read."""
    return sorted(
        str(path.relative_to(folder))
        for path in folder.glob("**/*")
        if path.is_file() and "__pycache__" not in path.parts
    )


class PackageTest(FolderTest):
    def run_well(self, *words: str | Path, **environment: str) -> str:
        """The output of a program, which must succeed and print nothing on standard error."""
        clean = {name: value for name, value in os.environ.items() if not name.startswith(("PYTHON", "RIBJASPER"))}
        ran = subprocess.run(
            words,
            capture_output=True,
            text=True,
            cwd=self.folder,
            env={**clean, "PYTHONDONTWRITEBYTECODE": "1", **environment},
        )
        self.assertEqual((ran.returncode, ran.stderr), (0, ""), words)
        return ran.stdout

    def check(self, program: Path) -> None:
        """Checks that an installed desk works, far from the checkout."""
        self.assertIn("    identify ", self.run_well(program, "--help"))
        if has("ribjasper_version"):
            built = next(library.candidates())
            output = self.run_well(program, "--version", RIBJASPER_LIBRARY=built)
            self.assertEqual(output, f"ribjasper-desk {NUMBER}\n")

    def room(self) -> Path:
        """An empty Python environment."""
        room = self.folder / "venv"
        if subprocess.run([sys.executable, "-m", "venv", room], capture_output=True).returncode:
            self.skipTest("python3-venv is not installed")
        return room

    def pip(self, room: Path, *words: str | Path) -> str:
        return self.run_well(room / "bin" / "pip", "--disable-pip-version-check", *words)

    def test_pip(self) -> None:
        room = self.room()
        self.pip(room, "install", "-q", "--no-index", "--config-settings", "platform=any", TOP / "desk")
        self.check(room / "bin" / "ribjasper-desk")
        (installed,) = room.glob("lib/python*/site-packages/ribjasper")
        self.assertEqual(files_below(installed), files_below(TOP / "desk" / "ribjasper"))
        self.assertIn(".SH COMMANDS", (room / "share" / "man" / "man1" / "ribjasper-desk.1").read_text())
        self.assertIn(f"Version: {OF_PIP}\n", self.pip(room, "show", "ribjasper-desk"))
        self.pip(room, "check")

    @unittest.skipUnless(build_wheel.is_built(build_wheel.HERE), "the library or the program is not built")
    def test_pip_with_the_library_and_the_program(self) -> None:
        """A package that pip installs from a checkout with both needs nothing else, and its parts find each other."""
        room = self.room()
        self.pip(room, "install", "-q", "--no-index", TOP / "desk")
        desk, program = room / "bin" / "ribjasper-desk", room / "bin" / "ribjasper"
        self.assertEqual(self.run_well(desk, "--version"), f"ribjasper-desk {NUMBER}\n")
        ran = subprocess.run([program, "convert", "--lead-in", "0"], input=bytes(192), capture_output=True)
        self.assertEqual((ran.returncode, ran.stdout), (0, bytes(24)))
        code = "import ribjasper.common.program as p; import ribjasper.common.library as l; print(p.program(), l.loaded()._name)"
        found = self.run_well(room / "bin" / "python", "-c", code).split()
        (package,) = room.glob("lib/python*/site-packages/ribjasper")
        self.assertEqual(found, [str(program), str(package / "native" / library.NAME)])
        if (TOP / "lib" / "web" / "ribjasper32.wasm").exists():
            code = "from ribjasper.commands.publish.look import web; print(web().module)"
            self.assertEqual(
                self.run_well(room / "bin" / "python", "-c", code).strip(), str(package / "web" / "ribjasper32.wasm")
            )

    def test_pip_editable(self) -> None:
        """`pip install -e` runs the desk from the checkout."""
        room = self.room()
        self.pip(room, "install", "-q", "--no-index", "-e", TOP / "desk")
        self.check(room / "bin" / "ribjasper-desk")
        where = self.run_well(room / "bin" / "python", "-c", "import ribjasper; print(ribjasper.__file__)").strip()
        self.assertEqual(where, str(TOP / "desk" / "ribjasper" / "__init__.py"))

    def test_version_without_the_library(self) -> None:
        ran = subprocess.run(
            [sys.executable, "-m", "ribjasper", "--version"],
            capture_output=True,
            text=True,
            cwd=TOP / "desk",
            env={**os.environ, "RIBJASPER_LIBRARY": "/nowhere"},
        )
        self.assertEqual((ran.returncode, ran.stdout), (0, f"ribjasper-desk {NUMBER}\n"))
        self.assertIn("/nowhere", ran.stderr)

    def test_one_version(self) -> None:
        self.assertEqual(ribjasper.__version__, NUMBER)

    def test_a_wheel_is_the_same_again(self) -> None:
        """The same files make the same wheel and source archive, byte for byte."""
        found = []
        for name in ("one", "two"):
            (self.folder / name).mkdir()
            wheel = build_wheel.build_wheel(str(self.folder / name))
            archive = build_wheel.build_sdist(str(self.folder / name))
            found.append([(self.folder / name / made).read_bytes() for made in (wheel, archive)])
            time.sleep(2)
        self.assertEqual(found[0], found[1])

    def test_types_and_extras(self) -> None:
        """Programs that import the package get its types; each optional package that the desk imports has an extra."""
        self.assertTrue((TOP / "desk" / "ribjasper" / "py.typed").exists())
        extras = {
            need.split(">")[0] for needs in build_wheel.PROJECT["optional-dependencies"].values() for need in needs
        }
        self.assertEqual(extras, {"Pillow", "tqdm", "distributed", "mido", "chardet", "numpy", "pyphen"})

    def test_source_archive(self) -> None:
        """The source archive builds the same package without a checkout around it."""
        code = "import sys, build_wheel; print(getattr(build_wheel, sys.argv[1])(sys.argv[2], {'platform': 'any'}))"
        whole = self.run_well(
            sys.executable, "-c", code, "build_wheel", self.folder, PYTHONPATH=str(TOP / "desk")
        ).strip()
        wheel = (self.folder / whole).read_bytes()
        name = self.run_well(
            sys.executable, "-c", code, "build_sdist", self.folder, PYTHONPATH=str(TOP / "desk")
        ).strip()
        shutil.unpack_archive(self.folder / name, self.folder)
        inside = self.folder / name.removesuffix(".tar.gz")
        again = self.run_well(sys.executable, "-c", code, "build_wheel", inside, PYTHONPATH=str(inside)).strip()
        self.assertEqual((again, len((inside / again).read_bytes())), (whole, len(wheel)))

    def test_make_install(self) -> None:
        subprocess.run([INSTALL, self.folder, "/usr", "/usr/lib", "ribjasper-desk"], check=True)
        link = self.folder / "usr" / "bin" / "ribjasper-desk"
        self.assertEqual(os.readlink(link), "../share/ribjasper-desk/ribjasper-desk")
        self.check(link)
        installed = files_below(self.folder / "usr/share/ribjasper-desk/ribjasper")
        # The player for web pages is included if it is built.
        built = {name for name in installed if name.startswith("web/")}
        self.assertEqual([name for name in installed if name not in built], files_below(TOP / "desk/ribjasper"))
        self.assertEqual("web/ribjasper.mjs" in built, (TOP / "lib" / "web" / "ribjasper.mjs").exists())

    def test_the_library_below_the_same_prefix(self) -> None:
        """Files that `make install PREFIX=..` installs in lib/ are found, although the system does not search there."""
        subprocess.run([INSTALL, "", self.folder, self.folder / "lib", "ribjasper-desk"], check=True)
        (self.folder / "lib").mkdir()
        (self.folder / "lib" / library.NAME).write_bytes(b"no library")
        ran = subprocess.run(
            [self.folder / "bin" / "ribjasper-desk", "--version"],
            capture_output=True,
            text=True,
            env={"PATH": os.environ["PATH"], "PYTHONDONTWRITEBYTECODE": "1"},
        )
        self.assertEqual((ran.returncode, ran.stdout), (0, f"ribjasper-desk {NUMBER}\n"))
        self.assertIn(f"{self.folder}/lib/{library.NAME}", ran.stderr)

    def test_the_page_says_all(self) -> None:
        page = self.run_well(sys.executable, TOP / "desk" / "manual_page.py")
        for word in (
            ".SS report",
            "\\-\\-force",
            ".SH EXIT STATUS",
            ".SH OUTPUTS",
            "RIBJASPER_LIBRARY",
            f"Ribjasper {VERSION}",
        ):
            self.assertIn(word, page)

    def test_no_program_changes_where_python_looks(self) -> None:
        output = subprocess.run(
            ["git", "grep", "-n", r"sys\.path\.\(insert\|append\)", "--", "desk", "examples/song"],
            cwd=TOP,
            capture_output=True,
            text=True,
        ).stdout
        self.assertEqual([line for line in output.splitlines() if "test_package.py" not in line], [])


if __name__ == "__main__":
    unittest.main()
