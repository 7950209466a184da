#!/usr/bin/env python3
"""Compares the maximum stack of the program with a limit, right after the gate: check_stack.py [--most BYTES]

No clause can limit the stack. The kit's own compiler reports the maximum stack of a call of `main`, except for functions in C.
It adds a `+` to the number if a function may call itself. This script builds the program with that compiler over the libraries
that the gate has proved. The check fails if the number is above the limit or has a `+`."""
from __future__ import annotations

import argparse
import re
import site
import subprocess
import sys
import tempfile
from pathlib import Path

TOP = Path(__file__).resolve().parents[2]
site.addsitedir(str(TOP / "tools" / "build"))
from build_crate import NOT_PROVED  # noqa: E402

# The limit in bytes. The compiler reports 412,272 bytes for the program.
MOST = 450_000


def reported_stack(output: str) -> tuple[int, bool] | None:
    """The maximum stack in bytes in the output of a build, and whether a function may call itself."""
    found = re.search(r"\bstack-bytes=(\d+)(\+?)", output)
    return (int(found[1]), found[2] == "+") if found else None


def main() -> int:
    parser = argparse.ArgumentParser(description="Compares the maximum stack of the program with a limit.")
    parser.add_argument("--most", type=int, default=MOST, help=f"the limit in bytes (default: {MOST})")
    most: int = parser.parse_args().most
    with tempfile.TemporaryDirectory(prefix="ribjasper-stack-") as folder:
        build = [str(TOP / "tools" / "build" / "build_crate.py"), "ribjasper", "--gate", "--program", f"{folder}/ribjasper"]
        ran = subprocess.run(build, capture_output=True, text=True)
    if ran.returncode == NOT_PROVED:
        print("check_stack: skipped, since the libraries of the gate are missing (make check)")
        return 0
    found = reported_stack(ran.stdout + ran.stderr)
    if ran.returncode or found is None:
        print(f"check_stack: the program was not built: {(ran.stdout + ran.stderr)[-600:]}", file=sys.stderr)
        return 1
    size, calls_itself = found
    if calls_itself:
        print("check_stack: a function may call itself, so the stack has no limit", file=sys.stderr)
    if size > most:
        print(f"check_stack: the program may need {size} bytes of stack, more than {most}", file=sys.stderr)
    if calls_itself or size > most:
        return 1
    print(f"check_stack: the program needs at most {size} bytes of stack, and no function calls itself")
    return 0


if __name__ == "__main__":
    sys.exit(main())
