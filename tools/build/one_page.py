#!/usr/bin/env python3
"""Embeds the scripts and the library of a page in the page: one_page.py PAGE LIBRARY MODULE.

PAGE must have exactly one `<script type="module" src="..">`, and its scripts exactly one line `const MODULE = undefined;`. The
output contains the script, the scripts that it imports, the library and the bytes of the module, so a browser can open it as a
file.
"""
from __future__ import annotations

import argparse
import base64
import re
import sys
from pathlib import Path

SCRIPT = re.compile(r"<script type=\"module\" src=\"([^\"]*)\"></script>")
IMPORT = re.compile(r"^import \{([^}]*)\}\s*from \"(\.[^\"]*)\";\n", re.MULTILINE)
EXPORT = re.compile(r"^export (?=(?:const|let|class|async|function)\b)", re.MULTILINE)
DECLARED = re.compile(r"^(?:async )?(?:const|let|class|function\*?) (?:(\w+)|[\[{]([^\]}]*)[\]}])", re.MULTILINE)
MODULE = "const MODULE = undefined;"
LIBRARY = "ribjasper.mjs"


class Scripts:
    """Scripts in the order in which they depend on each other, without their imports and exports."""

    def __init__(self, library: Path):
        self.library = library
        self.texts: dict[Path, str] = {}
        self.owners: dict[str, Path] = {}

    def add(self, path: Path) -> None:
        """Adds a script after the scripts that it imports."""
        path = self.library.resolve() if path.name == LIBRARY else path.resolve()
        if path in self.texts:
            return
        text = path.read_text(encoding="utf-8")
        for names, place in IMPORT.findall(text):
            if " as " in names:
                raise ValueError(f"{path.name} renames an import, which is not supported")
            self.add(path.parent / place)
        text = EXPORT.sub("", IMPORT.sub("", text))
        if re.search(r"^(import|export) ", text, re.MULTILINE):
            raise ValueError(f"{path.name} has an unsupported form of import or export")
        self.record_names(path, text)
        self.texts[path] = text

    def record_names(self, path: Path, text: str) -> None:
        """Records the declared names of a script. All scripts become one, so no two may declare the same name."""
        for one, several in DECLARED.findall(text):
            for name in [one] if one else re.findall(r"\w+", several):
                other = self.owners.setdefault(name, path)
                if other != path:
                    raise ValueError(f"{path.name} and {other.name} both declare {name}")

    def text(self) -> str:
        return "\n".join(self.texts.values())


def with_scripts(page: Path, library: Path, module: bytes) -> str:
    """The page with the texts of its scripts and the module's bytes inside."""
    content = page.read_text(encoding="utf-8")
    found = SCRIPT.findall(content)
    if len(found) != 1:
        raise ValueError("the page must have exactly one script")
    scripts = Scripts(library)
    scripts.add(page.parent / found[0])
    text = scripts.text()
    if text.count(MODULE) != 1:
        raise ValueError(f"the scripts must have exactly one line {MODULE!r}")
    if "</script" in text or "<!--" in text:
        raise ValueError("a script contains text that ends a script element of a page")
    encoded = base64.b64encode(module).decode("ascii")
    inside = text.replace(MODULE, f'const MODULE = "{encoded}";')
    return SCRIPT.sub(lambda _: f'<script type="module">\n{inside}</script>', content)


def main() -> int:
    parser = argparse.ArgumentParser(description=__doc__.splitlines()[0])
    for name in ("page", "library", "module"):
        parser.add_argument(name, type=Path)
    arguments = parser.parse_args()
    try:
        sys.stdout.write(with_scripts(arguments.page, arguments.library, arguments.module.read_bytes()))
    except (OSError, ValueError) as error:
        print(f"one_page: {error}", file=sys.stderr)
        return 1
    return 0


if __name__ == "__main__":
    sys.exit(main())
