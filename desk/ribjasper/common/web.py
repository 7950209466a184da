"""The proved library for web pages, if it is built."""
import os
from pathlib import Path
from typing import NamedTuple

from .library import PACKAGE, checkout


class Web(NamedTuple):
    """The proved library for pages: its module and the script that calls it."""

    module: Path
    script: Path


def web() -> Web | None:
    """The library in the folder of RIBJASPER_WEB, or of the checkout or the package, if it is built. A module with a
    32-bit memory is preferred, because every browser runs it."""
    named = os.environ.get("RIBJASPER_WEB")
    folders: list[Path | None] = [Path(named)] if named is not None else [checkout("lib", "web"), PACKAGE / "web"]
    for folder in folders:
        for module in ("ribjasper32.wasm", "ribjasper.wasm"):
            if folder and (folder / module).exists() and (folder / "ribjasper.mjs").exists():
                return Web(folder / module, folder / "ribjasper.mjs")
    return None
