"""Classes and public functions have unique names in all of the desk: no name has two meanings."""

import ast
import collections
import unittest
from pathlib import Path

TOP = Path(__file__).resolve().parent.parent / "ribjasper"
# The names that every module of a command has.
OF_COMMANDS = {"add_parser", "run"}


def meanings() -> dict[str, list[str]]:
    """The modules that define a class or a public function, by its name."""
    found = collections.defaultdict[str, list[str]](list)
    for path in sorted(TOP.glob("**/*.py")):
        for node in ast.parse(path.read_text()).body:
            if isinstance(node, (ast.ClassDef, ast.FunctionDef)) and not node.name.startswith("_"):
                if str(path.relative_to(TOP)) not in found[node.name]:
                    found[node.name].append(str(path.relative_to(TOP)))
    return found


class NamesTest(unittest.TestCase):
    def test_no_name_has_two_meanings(self) -> None:
        found = meanings()
        self.assertGreater(len(found), 500)
        twice = {name: modules for name, modules in found.items() if len(modules) > 1 and name not in OF_COMMANDS}
        self.assertEqual(twice, {})


if __name__ == "__main__":
    unittest.main()
