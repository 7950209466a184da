"""The structs that the desk declares for the library have the layout in tools/check/abi.txt. check_abi.py compares that
list with the header, as a C compiler lays it out."""
import ctypes
import inspect
import re
import unittest
from pathlib import Path

from ribjasper.common import library

LIST = Path(__file__).resolve().parent.parent.parent / "tools" / "check" / "abi.txt"
# Classes whose names differ from those of the header.
NAMES = {
    "PlayerHandle": "ribjasper_player",
    "SurveyRow": "ribjasper_row",
    "ListedTexts": "ribjasper_listed",
    "SheetResult": "ribjasper_sheet_result",
}

Layout = dict[str, tuple[int, int]]


def listed() -> tuple[dict[str, int], dict[str, Layout]]:
    """The size of each struct of the header, and the offset and size of each of its fields."""
    sizes: dict[str, int] = {}
    fields: dict[str, Layout] = {}
    for line in LIST.read_text().splitlines():
        struct = re.search(r": struct (\w+) size (\d+)$", line)
        field = re.search(r": field (\w+) (\w+) at (\d+) size (\d+)$", line)
        if struct:
            sizes[struct[1]] = int(struct[2])
        elif field:
            fields.setdefault(field[1], {})[field[2]] = (int(field[3]), int(field[4]))
    return sizes, fields


def declared() -> dict[str, type[ctypes.Structure]]:
    """The structs of the desk, by their names in the header."""
    found = {}
    for name, kind in inspect.getmembers(library, inspect.isclass):
        if issubclass(kind, ctypes.Structure) and kind.__module__ == library.__name__:
            snake = re.sub(r"(?<!^)(?=[A-Z])", "_", name).lower()
            found[NAMES.get(name, f"ribjasper_{snake}")] = kind
    return found


def layout(kind: type[ctypes.Structure]) -> Layout:
    found = {}
    for entry in kind._fields_:
        field = getattr(kind, entry[0])
        found[entry[0]] = (field.offset, field.size)
    return found


class LayoutTest(unittest.TestCase):
    def test_sizes_and_places(self) -> None:
        sizes, fields = listed()
        for name, kind in declared().items():
            with self.subTest(struct=name):
                self.assertEqual(ctypes.sizeof(kind), sizes[name])
                self.assertEqual(layout(kind), fields[name])

    def test_all_structs_are_compared(self) -> None:
        self.assertGreaterEqual(len(declared()), 14)


if __name__ == "__main__":
    unittest.main()
