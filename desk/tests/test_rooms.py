"""Packages import only packages below them, and no command imports a command."""

import ast
import unittest
from pathlib import Path
from typing import Iterator

TOP = Path(__file__).resolve().parent.parent / "ribjasper"
# Each package and the packages that it may import.
BELOW = {
    "common": {"common"},
    "dumps": {"common", "dumps"},
    "drawing": {"common", "drawing"},
    "songs": {"common", "drawing", "songs"},
    "commands": {"common", "dumps", "drawing", "songs"},
    "api": {"common", "dumps", "songs", "api"},
}


def imported(path: Path) -> Iterator[tuple[str, ...]]:
    """The modules of the desk that a module imports, each as its path below the package."""
    here = path.relative_to(TOP).parts[:-1]
    for node in ast.walk(ast.parse(path.read_text())):
        if isinstance(node, ast.ImportFrom) and node.level:
            base = here[: len(here) - node.level + 1]
            named = tuple(node.module.split(".")) if node.module else ()
            for alias in node.names:
                yield (*base, *named, alias.name)


class Rooms(unittest.TestCase):
    def test_every_module_is_in_a_package(self) -> None:
        self.assertEqual({path.name for path in TOP.glob("*.py")}, {"__init__.py", "__main__.py", "main.py"})

    def test_packages_import_only_packages_below_them(self) -> None:
        for package, allowed in BELOW.items():
            modules = sorted((TOP / package).glob("**/*.py"))
            self.assertTrue(modules, package)
            for path in modules:
                for target in imported(path):
                    with self.subTest(module=str(path.relative_to(TOP)), imports=".".join(target)):
                        self.assertIn(target[0], allowed)


if __name__ == "__main__":
    unittest.main()
