#!/usr/bin/env python3
"""Checks the binary interface of the library against tools/check/abi.txt.

Programs that are linked with the library depend on the names of its calls, the constants of the header, the layout of its
structs, the soname and the versions of the symbols. The list has a line for each, with the version that added it. The check
fails if a line of the list is no longer true, or if a line is missing.

    check_abi.py            compares the list with the header, and with lib/libribjasper.so.0 if it exists
    check_abi.py --write    adds missing lines to the list; it never removes a line"""
import argparse
import re
import shutil
import subprocess
import sys
import tempfile
from collections.abc import Iterator
from pathlib import Path

TOP = Path(__file__).resolve().parents[2]
HEADER = TOP / "include" / "ribjasper.h"
LIBRARY = TOP / "lib" / "libribjasper.so.0"
LIST = TOP / "tools" / "check" / "abi.txt"

COMMENT = re.compile(r"/\*.*?\*/", re.S)
STRUCT = re.compile(r"typedef struct (\w+) \{(.*?)\} \1;", re.S)
ENUM = re.compile(r"typedef enum \w+ \{(.*?)\}", re.S)
# An earlier name of a struct.
ALIAS = re.compile(r"^#define (ribjasper_\w+) (ribjasper_\w+)\s*$", re.M)
FIELD = re.compile(r"(\w+)(?:\[\w+\])?;")
CALL = re.compile(r"\b(ribjasper_\w+)\(")
NUMBER = re.compile(r"^#define (RIBJASPER_[A-Z0-9_]+) (?:\(?-?\d|0x)", re.M)
# The numbers of the version change with each version.
IGNORED = {"RIBJASPER_VERSION", "RIBJASPER_VERSION_MAJOR", "RIBJASPER_VERSION_MINOR", "RIBJASPER_VERSION_PATCH"}


def statements(header: str) -> Iterator[str]:
    """C statements that print the numbers of the header and the layout of its structs."""
    numbers = [name for name in NUMBER.findall(header) if name not in IGNORED]
    for values in ENUM.findall(header):
        numbers += re.findall(r"(RIBJASPER_\w+) =", values)
    for name in numbers:
        yield f'printf("number {name} %lld\\n", (long long)({name}));'
    structs = dict(STRUCT.findall(header))
    structs |= {old: structs[new] for old, new in ALIAS.findall(header)}
    for name, body in structs.items():
        yield f'printf("struct {name} size %zu\\n", sizeof({name}));'
        for field in FIELD.findall(re.sub(r"struct \{.*?\}", "", body, flags=re.S)):
            yield (f'printf("field {name} {field} at %zu size %zu\\n", offsetof({name}, {field}), '
                   f"sizeof((({name} *)0)->{field}));")


def lines_of_header() -> list[str]:
    """The declarations of the header, as lines of the list."""
    header = COMMENT.sub("", HEADER.read_text())
    calls = sorted({f"call {name}" for name in CALL.findall(header)})
    with tempfile.TemporaryDirectory() as folder:
        source, program = Path(folder) / "abi.c", Path(folder) / "abi"
        lines = "\n    ".join(statements(header))
        source.write_text(f'#include "ribjasper.h"\n#include <stddef.h>\n#include <stdio.h>\nint main(void)\n{{\n    {lines}\n'
                          "    return 0;\n}\n")
        subprocess.run(["cc", "-I", HEADER.parent, source, "-o", program], check=True)
        return calls + subprocess.run([program], check=True, capture_output=True, text=True).stdout.splitlines()


def lines_of_library() -> list[str]:
    """The name of the shared library, and its symbols with their versions."""
    dynamic = subprocess.run(["readelf", "-d", LIBRARY], check=True, capture_output=True, text=True).stdout
    found = re.search(r"SONAME.*\[(.*)\]", dynamic)
    symbols = subprocess.run(["nm", "-D", "--defined-only", "--with-symbol-versions", LIBRARY], check=True,
                             capture_output=True, text=True).stdout
    names = re.findall(r" T (\w+)@@(\w+)$", symbols, re.M)
    return [f"soname {found[1] if found else 'none'}"] + sorted(f"symbol {name} {version}" for name, version in names)


def main() -> int:
    parser = argparse.ArgumentParser(description="Compares the library with tools/check/abi.txt.")
    parser.add_argument("--write", action="store_true", help="add missing lines to the list")
    write = parser.parse_args().write
    if not all(map(shutil.which, ("cc", "nm", "readelf"))):
        print("check_abi: skipped, since there is no C compiler")
        return 0
    found = lines_of_header()
    if LIBRARY.exists():
        found += lines_of_library()
    else:
        print("check_abi: skipped in part, since lib/libribjasper.so.0 is not built (make library)")
    listed = dict(line.split(": ", 1)[::-1] for line in LIST.read_text().splitlines()) if LIST.exists() else {}
    kinds = {line.split()[0] for line in found}
    gone = [line for line in listed if line not in found and line.split()[0] in kinds]
    new = [line for line in found if line not in listed]
    for line in gone:
        print(f"check_abi: programs depend on this, and it is no longer true: {line} (since {listed[line]})", file=sys.stderr)
    if write and not gone:
        version = (TOP / "VERSION").read_text().strip()
        listed.update(dict.fromkeys(new, version))
        LIST.write_text("".join(f"{since}: {line}\n" for line, since in listed.items()))
        new = []
    for line in new:
        print(f"check_abi: missing in tools/check/abi.txt: {line}", file=sys.stderr)
    if not gone and not new:
        print(f"check_abi: all {len(found)} names, constants and struct offsets match tools/check/abi.txt")
    return 1 if gone or new else 0


if __name__ == "__main__":
    sys.exit(main())
