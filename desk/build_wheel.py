"""Makes the wheels and the source archive of the desk, as PEP 517 and PEP 660 ask for them, with the standard library
only.

    build_wheel.py FOLDER PLATFORM ..

As a command it writes complete wheels for releases: PLATFORM is manylinux_2_17_x86_64, manylinux_2_17_aarch64 or
win_amd64, and bin/ and lib/ of the checkout have what was built for it. `pip install ./desk` gets what was built for
this machine inside, if it was built. All files of an archive have one time (SOURCE_DATE_EPOCH), so the same files make
the same archive."""
import argparse
import base64
import gzip
import hashlib
import io
import os
import platform
import sys
import tarfile
import time
import tomllib
import zipfile
from pathlib import Path
from typing import Any, Iterator, Mapping, NamedTuple

DESK = Path(__file__).resolve().parent
TOP = DESK.parent
# The file VERSION is in the desk's folder in an archive of its sources, and one folder above it in the repository.
# Between two releases the version ends in -dev, which Python packages spell differently.
WRITTEN = next(path for path in (DESK / "VERSION", TOP / "VERSION") if path.exists()).read_text().strip()
VERSION = WRITTEN.replace("-dev", ".dev0")
PROJECT: dict[str, Any] = tomllib.loads((DESK / "pyproject.toml").read_text())["project"]
STEM = f"{PROJECT['name'].replace('-', '_')}-{VERSION}"
# An archive of Zip has no earlier time.
FIRST_TIME = 315532800
PLAIN, PROGRAM = 0o644, 0o755


class File(NamedTuple):
    """A file of a wheel."""

    path: str
    content: bytes
    mode: int = PLAIN


class Built(NamedTuple):
    """What a platform's wheel has inside: the shared library and the program."""

    library: Path
    program: Path


BUILT = {
    "manylinux_2_17_x86_64": Built(TOP / "lib/libribjasper.so.0", TOP / "bin/x86_64-unknown-linux-gnu/ribjasper"),
    "manylinux_2_17_aarch64": Built(
        TOP / "lib/aarch64-unknown-linux-gnu/libribjasper.so.0", TOP / "bin/aarch64-unknown-linux-gnu/ribjasper"
    ),
    "win_amd64": Built(
        TOP / "lib/x86_64-pc-windows-gnu/ribjasper.dll", TOP / "bin/x86_64-pc-windows-gnu/ribjasper.exe"
    ),
}
# What `make` and `make library` build, on the only kind of machine on which they run.
HERE = Built(TOP / "lib/libribjasper.so.0", TOP / "bin/ribjasper")
HERE_PLATFORM = "linux_x86_64"
ANY = "any"


def metadata() -> str:
    """What the package is called, what it needs, and its page."""
    extras = PROJECT["optional-dependencies"]
    lines = [
        "Metadata-Version: 2.1",
        f"Name: {PROJECT['name']}",
        f"Version: {VERSION}",
        f"Summary: {PROJECT['description']}",
        f"License: {PROJECT['license']}",
        f"Requires-Python: {PROJECT['requires-python']}",
    ]
    for extra, needs in extras.items():
        lines += [f"Provides-Extra: {extra}", *(f"Requires-Dist: {need}; extra == '{extra}'" for need in needs)]
    lines += ["Description-Content-Type: text/markdown", "", (DESK / PROJECT["readme"]).read_text()]
    return "\n".join(lines)


def entry_points() -> str:
    scripts = (f"{name} = {place}\n" for name, place in PROJECT["scripts"].items())
    return "[console_scripts]\n" + "".join(scripts)


def modules() -> Iterator[File]:
    """The modules, and the files that they read."""
    for path in sorted((DESK / "ribjasper").glob("**/*")):
        if path.is_file() and "__pycache__" not in path.parts:
            yield File(path.relative_to(DESK).as_posix(), path.read_bytes())


def built_files(built: Built) -> Iterator[File]:
    """The library and the program, and the player for web pages if it is built."""
    yield File(f"ribjasper/native/{built.library.name}", built.library.read_bytes(), PROGRAM)
    yield File(f"{STEM}.data/scripts/{built.program.name}", built.program.read_bytes(), PROGRAM)
    for name in ("ribjasper.mjs", "ribjasper32.wasm", "index.html"):
        if (TOP / "lib" / "web" / name).exists():
            yield File(f"ribjasper/web/{name}", (TOP / "lib" / "web" / name).read_bytes())
    for name in ("hello.cue", "hello.script"):
        content = (TOP / "examples" / name).read_bytes()
        yield File(f"{STEM}.data/data/share/doc/ribjasper/examples/{name}", content)


def manual() -> File:
    from manual_page import page

    return File(f"{STEM}.data/data/share/man/man1/ribjasper-desk.1", page().encode())


def information(tag: str) -> Iterator[File]:
    is_pure = "true" if tag.endswith(ANY) else "false"
    wheel = f"Wheel-Version: 1.0\nGenerator: build_wheel\nRoot-Is-Purelib: {is_pure}\nTag: {tag}\n"
    for name, text in (("METADATA", metadata()), ("WHEEL", wheel), ("entry_points.txt", entry_points())):
        yield File(f"{STEM}.dist-info/{name}", text.encode())


def record(files: list[File]) -> File:
    """The list of all files with their checksums."""
    name = f"{STEM}.dist-info/RECORD"
    sums = (
        (
            file.path,
            base64.urlsafe_b64encode(hashlib.sha256(file.content).digest()).rstrip(b"=").decode(),
            len(file.content),
        )
        for file in files
    )
    lines = [*(f"{path},sha256={digest},{size}\n" for path, digest, size in sums), f"{name},,\n"]
    return File(name, "".join(lines).encode())


def time_of_files() -> int:
    return max(FIRST_TIME, int(os.environ.get("SOURCE_DATE_EPOCH", FIRST_TIME)))


def write_wheel(folder: str, files: list[File], of_platform: str) -> str:
    """Writes a wheel, and returns its name."""
    tag = f"py3-none-{of_platform}"
    name = f"{STEM}-{tag}.whl"
    files = [*files, *information(tag)]
    when = time.gmtime(time_of_files())[:6]
    with zipfile.ZipFile(Path(folder) / name, "w") as wheel:
        for file in [*files, record(files)]:
            member = zipfile.ZipInfo(file.path, when)
            member.compress_type, member.create_system = zipfile.ZIP_DEFLATED, 3
            member.external_attr = (0o100000 | file.mode) << 16
            wheel.writestr(member, file.content)
    return name


def is_built(built: Built) -> bool:
    return built.library.exists() and built.program.exists()


def complete_wheel(folder: str, of_platform: str) -> str:
    """A wheel with all that was built for a platform."""
    built = BUILT[of_platform]
    return write_wheel(folder, [*modules(), *built_files(built), manual()], of_platform)


def is_for_any(config_settings: Mapping[str, Any] | None) -> bool:
    return bool(config_settings) and dict(config_settings or {}).get("platform") == ANY


def build_wheel(
    wheel_directory: str, config_settings: Mapping[str, Any] | None = None, metadata_directory: str | None = None
) -> str:
    """A wheel for this machine, with what was built for it inside; with the setting platform=any the modules only."""
    is_here = sys.platform == "linux" and platform.machine() == "x86_64"
    if is_here and is_built(HERE) and not is_for_any(config_settings):
        return write_wheel(wheel_directory, [*modules(), *built_files(HERE), manual()], HERE_PLATFORM)
    return write_wheel(wheel_directory, [*modules(), manual()], ANY)


def build_editable(
    wheel_directory: str, config_settings: Mapping[str, Any] | None = None, metadata_directory: str | None = None
) -> str:
    """A wheel that only names this folder to Python: the desk runs from here, with what the checkout has in bin/ and
    lib/."""
    link = File(f"{PROJECT['name'].replace('-', '_')}.pth", f"{DESK}\n".encode())
    return write_wheel(wheel_directory, [link, manual()], ANY)


def build_sdist(sdist_directory: str, config_settings: Mapping[str, Any] | None = None) -> str:
    own = ("pyproject.toml", "README.md", "build_wheel.py", "manual_page.py")
    files = [
        File("PKG-INFO", metadata().encode()),
        File("VERSION", WRITTEN.encode()),
        *(File(name, (DESK / name).read_bytes()) for name in own),
        *modules(),
    ]
    name = f"{STEM}.tar.gz"
    whole = io.BytesIO()
    with tarfile.open(fileobj=whole, mode="w") as archive:
        for file in files:
            member = tarfile.TarInfo(f"{STEM}/{file.path}")
            member.size, member.mtime, member.mode = len(file.content), time_of_files(), file.mode
            archive.addfile(member, io.BytesIO(file.content))
    (Path(sdist_directory) / name).write_bytes(gzip.compress(whole.getvalue(), mtime=time_of_files()))
    return name


def main() -> int:
    parser = argparse.ArgumentParser(description="Writes complete wheels of the desk.")
    parser.add_argument("folder")
    parser.add_argument("platforms", nargs="+", choices=BUILT, metavar="PLATFORM")
    arguments = parser.parse_args()
    for of_platform in arguments.platforms:
        if not is_built(BUILT[of_platform]):
            print(f"build_wheel: {', '.join(map(str, BUILT[of_platform]))} are not all built", file=sys.stderr)
            return 1
        print(complete_wheel(arguments.folder, of_platform))
    return 0


if __name__ == "__main__":
    sys.exit(main())
