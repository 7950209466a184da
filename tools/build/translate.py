#!/usr/bin/env python3
"""Compiles the LLVM module of a proved crate for another system: translate.py MODULE TARGET OBJECT [--rename OLD=NEW ..]

MODULE is the input of the kit's clang for Linux on x86-64 (build_crate.py --module). The script adds the heap of
tools/build/heap.ll, and hides all functions except the calls of the library and `main`. The kit's clang has the code generators of
every target. Calls keep the platform's C convention: no call passes or returns a struct by value, and numbers narrower than a
register are read without their unused bits. This translation is not proved; tests compare its results."""
from __future__ import annotations

import argparse
import os
import re
import shutil
import subprocess
import sys
import tempfile
from pathlib import Path
from typing import NamedTuple

BUILD = Path(__file__).resolve().parent
VISIBLE = re.compile(r"ribjasper_\w+|main$")
DEFINED = re.compile(r"^define (?:(?:dso_local|hidden|protected|external) )*(?P<rest>.*?@(?P<name>[\w.$]+)\()", re.M)
# The parts of the module that are specific to Linux on x86-64: triple, layout, processor, and the stack probes of large frames.
# Types have the same size and alignment on each target: 64-bit addresses, little-endian.
OF_LINUX = re.compile(r'^target (?:datalayout|triple) = .*\n|"probe-stack"="inline-asm" ?|"target-cpu"="[^"]*" ?', re.M)


class Target(NamedTuple):
    """A target system: its name for clang, and further arguments of clang."""

    triple: str
    words: tuple[str, ...] = ()


TARGETS = {
    "x86_64-unknown-linux-gnu": Target("x86_64-unknown-linux-gnu", ("-fPIC",)),
    "aarch64-unknown-linux-gnu": Target("aarch64-unknown-linux-gnu", ("-fPIC",)),
    "x86_64-pc-windows-gnu": Target("x86_64-w64-windows-gnu"),
    # The object must not contain the time, as objects for incremental linkers do.
    "x86_64-pc-windows-msvc": Target("x86_64-pc-windows-msvc", ("-mno-incremental-linker-compatible",)),
    "x86_64-apple-darwin": Target("x86_64-apple-macos11"),
    "aarch64-apple-darwin": Target("arm64-apple-macos11"),
    "aarch64-apple-ios": Target("arm64-apple-ios13"),
    "aarch64-linux-android": Target("aarch64-linux-android24", ("-fPIC",)),
}


def run_tool(name: str, *words: str) -> None:
    """Runs an LLVM tool of the kit. All tools are one file; its name decides which tool it is."""
    rt = shutil.which("rt")
    if rt is None:
        sys.exit("translate: there is no rt")
    clang = Path(os.path.realpath(rt)).parents[1] / "toolchain" / "bin" / "clang"
    if subprocess.run([name, *words], executable=clang).returncode:
        sys.exit(f"translate: {name} failed")


def with_internal_functions(text: str) -> str:
    """The module with all functions internal except the calls of the library and `main`."""

    def replaced(found: re.Match[str]) -> str:
        is_internal = found["rest"].startswith(("internal ", "private "))
        is_visible = VISIBLE.match(found["name"])
        return found[0] if is_internal or is_visible else f"define internal {found['rest']}"

    return DEFINED.sub(replaced, text)


def renamed(text: str, old: str, new: str) -> str:
    return re.sub(rf"@{re.escape(old)}\b", f"@{new}", text)


def with_heap(text: str) -> str:
    """The module with the functions of heap.ll. A function that both declare is declared once."""
    heap = (BUILD / "heap.ll").read_text()
    declared = set(re.findall(r"^declare .*?@(\w+)\(", text, re.M))
    for name in re.findall(r"^define .*?@(\w+)\(", heap, re.M):
        text = re.sub(rf"^declare .*@{name}\(.*\n", "", text, flags=re.M)
    for name in declared:
        heap = re.sub(rf"^declare .*@{name}\(.*\n", "", heap, flags=re.M)
    return f"{text}\n{heap}"


def main() -> int:
    parser = argparse.ArgumentParser(description="Compiles the LLVM module of a proved crate for another system.")
    parser.add_argument("module")
    parser.add_argument("target", choices=TARGETS)
    parser.add_argument("object")
    parser.add_argument("--cpu", help="the oldest processor that the code must run on (default: any of the architecture)")
    parser.add_argument("--rename", action="append", default=[], metavar="OLD=NEW", help="call a C function by another name")
    arguments = parser.parse_args()
    target = TARGETS[arguments.target]
    with tempfile.TemporaryDirectory() as folder:
        module = f"{folder}/module.ll"
        of_linux = ("--target=x86_64-unknown-linux-gnu", "-Xclang", "-disable-llvm-passes")
        run_tool("clang", *of_linux, "-S", "-emit-llvm", "-x", "ir", arguments.module, "-o", module)
        text = with_internal_functions(OF_LINUX.sub("", Path(module).read_text()))
        for pair in arguments.rename:
            text = renamed(text, *pair.split("=", 1))
        # clang must not turn calls of malloc into calls of calloc: the library uses only three functions of the C library's heap.
        text = re.sub(r"^(attributes #\d+ = \{)", r'\1 "no-builtin-calloc"', text, flags=re.M)
        Path(module).write_text(with_heap(text))
        words = [f"--target={target.triple}", "-O3", "-Wno-override-module", *target.words, "-c", "-x", "ir", module]
        words += ["-Xclang", "-target-cpu", "-Xclang", arguments.cpu] if arguments.cpu else []
        run_tool("clang", *words, "-o", arguments.object)
    return 0


if __name__ == "__main__":
    sys.exit(main())
