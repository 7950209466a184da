#!/usr/bin/env python3
"""Proves a crate and builds it over libraries that are already proved:
build_crate.py CRATE [--gate] [--cpu CPU] [--target TARGET] [--program FILE [--opt-level N]] [--module FILE] [--jobs N]

A crate that other crates use becomes a library of statements: it has what the crates above may cite, but not the proofs, so it
loads faster. (`rt ci` also builds such libraries. `rt lib` builds libraries with proofs.) A static library becomes
out/libCRATE.a, and a program becomes out/CRATE.

The libraries below the crate are those of prove_crates.py or, with --gate, those that `rt ci` left. The exit status is 3 if one
is missing. With --program the kit's own compiler writes the object file of a program and computes its stack. With --module the
tool also stores the LLVM module that the kit passes to its clang; other tools translate it for other systems."""
from __future__ import annotations

import argparse
import contextlib
import importlib.machinery
import importlib.util
import os
import shutil
import subprocess
import sys
import tempfile
from collections.abc import Iterator
from pathlib import Path
from types import ModuleType

TOP = Path(__file__).resolve().parents[2]
# The exit status if a library is missing.
NOT_PROVED = 3

# A wrapper of clang that copies its input module. The kit's compiler calls it as `clang .. -x ir FILE ..`.
COPYING_CLANG = """#!/bin/sh
before=
for word in "$@"; do
    [ "$before" != ir ] || cp "$word" '{module}'
    before=$word
done
exec '{clang}' "$@"
"""


def kit() -> ModuleType:
    """Loads the Python module of the kit that makes the arguments of its compiler."""
    command = shutil.which("rt")
    if command is None:
        sys.exit("build_crate: there is no rt")
    file = str(Path(os.path.realpath(command)).parent / "rtlib.py")
    loader = importlib.machinery.SourceFileLoader("rtlib", file)
    spec = importlib.util.spec_from_loader("rtlib", loader)
    assert spec is not None
    rtlib = importlib.util.module_from_spec(spec)
    sys.modules["rtlib"] = rtlib
    loader.exec_module(rtlib)
    return rtlib


def library(name: str) -> Path:
    """The library of statements of a crate."""
    return TOP / "crates" / name / "out" / "statements" / f"{name}.rlib"


def is_library(folder: Path) -> bool:
    return (folder / "format").is_file()


def is_from_gate(rlib: Path) -> bool:
    """Whether the gate built this library from the current files of its crate. The gate writes no stamp; `rt lib` does."""
    if not is_library(rlib) or (rlib.parent / "stamp").exists():
        return False
    built, crate = (rlib / "format").stat().st_mtime, rlib.parents[2]
    files = (it for part in ("src", "specs", "proofs") for it in (crate / part).rglob("*"))
    return all(it.stat().st_mtime <= built for it in files)


@contextlib.contextmanager
def toolchain_of(kit_toolchain: Path, module: Path | None) -> Iterator[Path]:
    """The kit's toolchain, or a copy of it whose clang also copies its input to `module`."""
    if module is None:
        yield kit_toolchain
        return
    with tempfile.TemporaryDirectory(prefix="toolchain-") as folder:
        copy = Path(folder)
        (copy / "bin").mkdir()
        (copy / "lib").symlink_to(kit_toolchain / "lib")
        for tool in (kit_toolchain / "bin").iterdir():
            if tool.name != "clang":
                (copy / "bin" / tool.name).symlink_to(tool)
        clang = copy / "bin" / "clang"
        clang.write_text(COPYING_CLANG.format(module=module, clang=kit_toolchain / "bin" / "clang"))
        clang.chmod(0o755)
        yield copy


def link(program: Path, object_file: Path) -> None:
    """Links the object file of a program with the kit's C library."""
    top = Path(shutil.which("rt") or "rt").resolve().parents[1]
    words = ["--target", "x86_64-unknown-linux-gnu", "--toolchain", str(top / "toolchain"), "-o", str(program), str(object_file)]
    libraries = [str(top / "c" / name) for name in ("libos_c.a", "liblibc_c.a")]
    subprocess.run([str(top / "bin" / "rattle-link"), *words, *libraries], stderr=subprocess.DEVNULL, check=True)


def main() -> int:
    parser = argparse.ArgumentParser(description="Proves a crate and builds it over libraries that are already proved.")
    parser.add_argument("crate", help="the name of the crate in crates.txt")
    parser.add_argument("--gate", action="store_true", help="use the libraries that `rt ci` left, not those of prove_crates.py")
    parser.add_argument("--cpu", help="the oldest processor that the code must run on")
    parser.add_argument("--target", help="the target system (default: this one)")
    parser.add_argument("--program", metavar="FILE", help="write the object file of a program here, with the kit's own compiler")
    parser.add_argument("--opt-level", help="the optimization level of a program, 0 to 3")
    parser.add_argument("--module", metavar="FILE", help="write the LLVM module here")
    parser.add_argument("--jobs", default="2", help="the number of processes that prove the crate (default: 2)")
    arguments = parser.parse_args()
    module = Path(arguments.module).resolve() if arguments.module else None
    object_file = os.path.abspath(arguments.program) if arguments.program else None
    folder = TOP / "crates" / arguments.crate
    os.chdir(folder)
    rtlib = kit()
    crate = rtlib.Crate(str(folder), str(TOP), {}, name=None)
    if not arguments.gate:
        for it in crate.below():
            it.rlib = str(library(it.name))
    is_built = is_from_gate if arguments.gate else is_library
    if not all(is_built(Path(it.rlib)) for it in crate.below()):
        print("build_crate: a library below this crate is not proved", file=sys.stderr)
        return NOT_PROVED
    options = ["--cpu", arguments.cpu] if arguments.cpu else []
    options += ["--target", arguments.target] if arguments.target else []
    options += ["--opt-level", arguments.opt_level] if arguments.opt_level else []
    words = crate.words(["--jobs", arguments.jobs, *options], keeps=False)
    if crate.makes_rlib():
        library(crate.name).parent.mkdir(parents=True, exist_ok=True)
        built: int = crate.call(rtlib.RATTLE, "build", *words, "--statements", "-o", str(library(crate.name)))
        return built
    output = object_file or f"out/{crate.name}.o" if crate.is_program else f"out/lib{crate.name}.a"
    words += ["--backend", "rattle" if arguments.program else "llvm", "-o", output]
    os.makedirs("out", exist_ok=True)
    with toolchain_of(Path(rtlib.KIT) / "toolchain", module) as toolchain:
        status: int = crate.call(rtlib.RATTLE, "build", *words, "--toolchain", str(toolchain))
    if status == 0 and crate.is_program and not object_file:
        link(folder / "out" / crate.name, folder / output)
    return status


if __name__ == "__main__":
    sys.exit(main())
