"""The program `ribjasper`, for the one task that the library does not have: authoring a stream."""
import functools
import os
import shutil
import subprocess
import sys
import sysconfig
import tempfile
from pathlib import Path

from .failures import Missing, writing
from .library import PACKAGE, checkout
from .times import spelled

NAME = "ribjasper.exe" if sys.platform == "win32" else "ribjasper"
# The program that `make` built, or else the one of the gate.
BUILT = (checkout("bin", NAME), checkout("crates", "ribjasper", "out", NAME))


def of_wheel() -> list[Path]:
    """The places in which the wheel of this desk may have installed the program: the folder for scripts of this Python
    or of its user."""
    if not (PACKAGE / "native").exists():
        return []
    schemes = sysconfig.get_default_scheme(), sysconfig.get_preferred_scheme("user")
    return [Path(sysconfig.get_path("scripts", scheme)) / NAME for scheme in schemes]


@functools.lru_cache(maxsize=None)
def program() -> str:
    """The path of the program: from RIBJASPER_PROGRAM, from the checkout, or an installed one."""
    built = [os.fspath(path) for path in (*BUILT, *of_wheel()) if path and path.exists()]
    found = os.environ.get("RIBJASPER_PROGRAM") or (built[0] if built else shutil.which("ribjasper"))
    if not found:
        raise Missing("this needs the program ribjasper; 'make' builds it")
    return found


def author(sheet: bytes, script: bytes, lead_in: int, length: int) -> tuple[bytes, int, str]:
    """The stream of a sheet and a script; the exit number, and the line on standard error."""
    return stream_of("author", sheet, ("pictures.script", script), lead_in, length)


def press(sheet: bytes, packs: bytes, lead_in: int, length: int) -> tuple[bytes, int, str]:
    """The stream of a sheet and a .cdg file, likewise."""
    return stream_of("press", sheet, ("pictures.cdg", packs), lead_in, length)


def stream_of(
    command: str, sheet: bytes, other: tuple[str, bytes], lead_in: int, length: int
) -> tuple[bytes, int, str]:
    with tempfile.TemporaryDirectory(prefix="ribjasper-") as folder:
        names = [Path(folder) / "sheet.cue", Path(folder) / other[0]]
        for name, content in zip(names, (sheet, other[1])):
            with writing(name):
                name.write_bytes(content)
        words = [command, "--lead-in", str(lead_in), "--length", spelled(length), "--", *(str(name) for name in names)]
        done = subprocess.run([program(), *words], stdin=subprocess.DEVNULL, capture_output=True)
    return done.stdout, done.returncode, done.stderr.decode(errors="replace").strip()
