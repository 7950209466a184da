#!/usr/bin/env python3
"""Tests tools/build/one_page.py: it puts scripts into a page in the order of their imports, and refuses harmful ones."""
from __future__ import annotations

import subprocess
import sys
import tempfile
import unittest
from pathlib import Path

TOP = Path(__file__).resolve().parents[2]
TOOL = TOP / "tools" / "build" / "one_page.py"
PAGE = '<p></p>\n<script type="module" src="page.mjs"></script>\n'
LIBRARY = 'export const VERSION = "1";\nexport async function load() {}\n'
MAIN = 'import { VERSION, load } from "../lib/ribjasper.mjs";\nimport { a } from "./a.mjs";\nconst MODULE = undefined;\nload(a);\n'


class OnePageTest(unittest.TestCase):
    def setUp(self) -> None:
        folder = tempfile.TemporaryDirectory()
        self.addCleanup(folder.cleanup)
        self.folder = Path(folder.name)
        self.files = {"index.html": PAGE, "page.mjs": MAIN, "built.mjs": LIBRARY, "a.mjs": "export const a = 1;\n"}

    def run_tool(self, **changed: str) -> tuple[int, str, str]:
        """The exit status, the page and the error messages for these changed files."""
        for name, text in (self.files | {name.replace("_", "."): text for name, text in changed.items()}).items():
            (self.folder / name).write_text(text)
        (self.folder / "built.wasm").write_bytes(b"\0asm")
        words = [str(self.folder / name) for name in ("index.html", "ribjasper.mjs", "built.wasm")]
        (self.folder / "built.mjs").rename(self.folder / "ribjasper.mjs")
        ran = subprocess.run([sys.executable, str(TOOL), *words], capture_output=True, text=True, check=False)
        return ran.returncode, ran.stdout, ran.stderr

    def test_order(self) -> None:
        status, page, errors = self.run_tool(
            a_mjs='import { b } from "./b.mjs";\nexport class a {}\n', b_mjs="export const b = 2;\n"
        )
        self.assertEqual(status, 0, errors)
        lines = ['const VERSION = "1";', "const b = 2;", "class a {}", 'const MODULE = "AGFzbQ==";', "load(a);"]
        places = [page.index(line) for line in lines]
        self.assertEqual(places, sorted(places))
        self.assertNotIn("import", page)
        self.assertNotIn("export", page)
        self.assertEqual(page.count("<script"), 1)

    def test_refused(self) -> None:
        for changed, cause in (
            ({"a_mjs": "export const a = 1;\nconst MODULE = 3;\n"}, "both declare MODULE"),
            ({"a_mjs": "export const [a, load] = [1, 2];\n"}, "both declare load"),
            ({"a_mjs": 'import { x as y } from "./b.mjs";\n', "b_mjs": "export const x = 1;\n"}, "renames"),
            ({"a_mjs": 'import all from "./b.mjs";\n'}, "unsupported form of import or export"),
            ({"a_mjs": "export default 3;\n"}, "unsupported form of import or export"),
            ({"a_mjs": 'export const a = "</script>";\n'}, "ends a script"),
            ({"a_mjs": 'import { b } from "./missing.mjs";\n'}, "missing.mjs"),
            ({"index_html": "<p></p>"}, "exactly one script"),
            ({"page_mjs": "load();\n"}, "exactly one line"),
        ):
            with self.subTest(cause):
                status, page, errors = self.run_tool(**changed)
                self.assertEqual((status, page), (1, ""))
                self.assertIn(cause, errors)


if __name__ == "__main__":
    unittest.main()
