#!/usr/bin/env python3
"""Tests that the checker refuses wrong bodies: try_wrong_bodies.py [--by-function] [--jobs N] [CRATE ..]

The gate tries the edits of `must-fail/`. The edits of `wrong-bodies/` belong to crates with slow proofs, or are less
important. This script tries all of them before a release, each over a copy of the proofs that `rt check` or `rt lib` stored
for its crate, so one edit needs seconds instead of a whole proof. The kit's command decides whether an edit is refused. An
edit that is not refused is tried again without stored proofs, and so is an edit of a crate without stored proofs. The exit
status is 0 only if every edit is refused.

With --by-function the script tries only the edits with a line `function: PATH`. It proves this function and the functions
that it calls, over the libraries that the gate left: ten to forty seconds for each edit. `make check` does this right after
the gate, which has proved the same functions without the edits."""
from __future__ import annotations

import argparse
import importlib.machinery
import importlib.util
import os
import re
import shutil
import site
import sys
import tempfile
import time
from concurrent.futures import ThreadPoolExecutor
from pathlib import Path
from types import ModuleType
from typing import Any

TOP = Path(__file__).resolve().parents[2]
site.addsitedir(str(TOP / "tools" / "build"))
from prove_crates import parallel_checks  # noqa: E402

FOLDERS = ("must-fail", "wrong-bodies")
FLAGS = ["--jobs", "1"]
# The maximum length of a printed line of the checker.
MOST_LETTERS = 160
FUNCTION = re.compile(r"function: (\S+)")
# The number of functions that a check was to prove, and the number that it proved.
COUNTS = re.compile(r"only=(\d+) proved=(\d+)")
OPEN_GOAL = re.compile(r"(?:note: )?(\S+:\d+:\d+: (?:error|it is not proved).*)")


def kit() -> ModuleType:
    """Loads the Python code of the kit's command, which applies an edit and decides whether it is refused."""
    command = shutil.which("rt")
    if command is None:
        sys.exit("try_wrong_bodies: there is no rt")
    loader = importlib.machinery.SourceFileLoader("rt", os.path.realpath(command))
    spec = importlib.util.spec_from_loader("rt", loader)
    assert spec is not None
    rt = importlib.util.module_from_spec(spec)
    loader.exec_module(rt)
    return rt


def edits_of(crate: Any) -> list[str]:
    return sorted(str(it) for folder in FOLDERS for it in (Path(crate.folder) / folder).glob("*.edit"))


def function_of(edit: str) -> str | None:
    """The function that an edit names, or None."""
    found = (FUNCTION.fullmatch(line) for line in Path(edit).read_text().splitlines())
    return next((it[1] for it in found if it), None)


def try_crate(rt: ModuleType, crate: Any) -> list[str]:
    """Tries the wrong bodies of a crate, prints the result of each, and returns those that are not refused."""
    began, edits = time.monotonic(), edits_of(crate)
    refused, failed = (rt.REFUSED, rt.AT_LIMIT), []
    with tempfile.TemporaryDirectory(prefix="ribjasper-edits-") as folder:
        proofs = os.path.join(folder, "kept")
        if (Path(crate.folder) / "out" / "incremental").is_dir():
            shutil.copytree(Path(crate.folder) / "out" / "incremental", proofs)
        else:
            os.mkdir(proofs)
        is_proved = not rt.checked(crate, {}, FLAGS, proofs).returncode
        for edit in edits:
            outcome, message = rt.must_fail(crate, edit, FLAGS, proofs) if is_proved else ("", "")
            if outcome not in refused:
                outcome, message = rt.must_fail(crate, edit, FLAGS)
            print(message, flush=True)
            failed += [] if outcome in refused else [edit]
    print(f"{crate.name}: {len(edits) - len(failed)} of {len(edits)} refused in {time.monotonic() - began:.0f} seconds", flush=True)
    return failed


def refusal(rt: ModuleType, crate: Any, edit: str, function: str) -> tuple[bool, str]:
    """Whether the checker refuses the function with the edit, and its message."""
    texts, error = rt.read_edit(edit, crate.folder)
    if error:
        return False, error
    ran = rt.checked(crate, texts, [*FLAGS, "--only", function], None)
    lines = ran.stdout.rstrip("\n").split("\n")
    counts = COUNTS.fullmatch(lines[-1])
    if any(rt.unread(line, texts) for line in lines):
        return False, "the prover cannot read it"
    if ran.returncode == 1 and counts and int(counts[2]) < int(counts[1]):
        return True, next((found[1][:MOST_LETTERS] for line in lines if (found := OPEN_GOAL.match(line))), "it is not proved")
    if ran.returncode == 0:
        return False, "the function is still proved"
    return False, f"its check ended with status {ran.returncode}: {lines[-1]}"


def try_function(rt: ModuleType, crate: Any, edit: str) -> bool:
    """Tries one wrong body, prints the result, and returns whether it is refused."""
    began, function = time.monotonic(), function_of(edit)
    is_refused, message = refusal(rt, crate, edit, function or "")
    word, took = "refused" if is_refused else "NOT REFUSED", time.monotonic() - began
    print(f"wrong body {crate.name}/{Path(edit).stem}: {word}: {message} ({took:.0f} seconds)", flush=True)
    return is_refused


def try_all(rt: ModuleType, crates: list[Any], jobs: int) -> list[str]:
    """Tries all wrong bodies of some crates, and returns those that are not refused."""
    print(f"try_wrong_bodies: {sum(len(edits_of(it)) for it in crates)} in {len(crates)} crates", flush=True)
    # The libraries below the crates are built first, one after another.
    if any(low.build_rlib(FLAGS, anew=False) for it in crates for low in it.below()):
        sys.exit("try_wrong_bodies: a library below a crate is not proved")
    with ThreadPoolExecutor(jobs) as pool:
        return [edit for found in pool.map(lambda it: try_crate(rt, it), crates) for edit in found]


def try_functions(rt: ModuleType, crates: list[Any], jobs: int) -> list[str]:
    """Tries the wrong bodies of some crates that name a function, and returns those that are not refused."""
    edits = [(it, edit) for it in crates for edit in edits_of(it) if function_of(edit)]
    missing = {low.name for it, _ in edits for low in it.below() if not os.path.isfile(f"{low.rlib}/format")}
    if missing:
        print(f"try_wrong_bodies: skipped, missing libraries: {', '.join(sorted(missing))} (make check)")
        return []
    print(f"try_wrong_bodies: {len(edits)} that name a function", flush=True)
    with ThreadPoolExecutor(jobs) as pool:
        refused = pool.map(lambda it: try_function(rt, *it), edits)
        return [edit for (_, edit), is_refused in zip(edits, refused) if not is_refused]


def main() -> int:
    parser = argparse.ArgumentParser(description="Tests that the checker refuses wrong bodies.")
    parser.add_argument("--by-function", action="store_true", help="try only those that name a function, and prove only this function")
    parser.add_argument("--jobs", type=int, default=parallel_checks(),
                        help="the number of parallel proofs (default: as many as processors and memory allow)")
    parser.add_argument("crates", nargs="*", help="the crates whose wrong bodies are tried (default: all)")
    arguments = parser.parse_args()
    os.chdir(TOP)
    rt = kit()
    rt.rtlib.guarded()
    crates = [it for it in rt.rtlib.crates_below(str(TOP)) if edits_of(it) and it.name in (arguments.crates or [it.name])]
    how = try_functions if arguments.by_function else try_all
    failed = how(rt, crates, max(1, arguments.jobs))
    for edit in failed:
        print(f"try_wrong_bodies: not refused: {os.path.relpath(edit, TOP)}")
    return 1 if failed else 0


if __name__ == "__main__":
    sys.exit(main())
