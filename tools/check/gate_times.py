#!/usr/bin/env python3
"""Runs the gate and prints the processor time of each crate: see tools/check/gate_times.sh."""
import argparse
import os
import pathlib
import re
import subprocess
import sys
import time
from typing import Iterator

TICKS = os.sysconf("SC_CLK_TCK")
KINDS = ("proof", "tests", "edits")
# Processor seconds by crate and kind.
Table = dict[str, dict[str, float]]


def processes() -> dict[int, tuple[int, float]]:
    """The running processes: the parent and the processor seconds of each."""
    found = {}
    for folder in pathlib.Path("/proc").glob("[0-9]*"):
        try:
            fields = (folder / "stat").read_text().rpartition(")")[2].split()
        except OSError:
            continue
        found[int(folder.name)] = int(fields[1]), (int(fields[11]) + int(fields[12])) / TICKS
    return found


def label_of(pid: int) -> tuple[str, str] | None:
    """The crate that a process checks, and the kind of the check; None for other processes."""
    try:
        words = pathlib.Path(f"/proc/{pid}/cmdline").read_bytes().decode(errors="replace").split("\0")
        folder = os.readlink(f"/proc/{pid}/cwd")
    except OSError:
        return None
    if "--crate-name" not in words:
        return None
    kind = "edits" if "/rt-edit-" in folder else "tests" if "--test" in words else "proof"
    return words[words.index("--crate-name") + 1], kind


class Watch:
    """A process and its descendants, with the processor seconds of each."""

    def __init__(self, root: int) -> None:
        self.labels: dict[int, tuple[str, str] | None] = {}
        self.seconds: dict[int, float] = {}
        self.members = {root}

    def update(self) -> None:
        """Reads the times of the running processes."""
        found = processes()
        # A child has a greater number than its parent, unless the numbers started again.
        for pid in sorted(found):
            parent, seconds = found[pid]
            if parent in self.members or pid in self.members:
                self.members.add(pid)
                if self.labels.get(pid) is None:
                    self.labels[pid] = label_of(pid) or self.labels.get(parent)
                self.seconds[pid] = max(seconds, self.seconds.get(pid, 0))

    def table(self) -> Table:
        found: Table = {}
        for pid, seconds in self.seconds.items():
            crate, kind = self.labels[pid] or ("(the rest)", "proof")
            found.setdefault(crate, dict.fromkeys(KINDS, 0.0))[kind] += seconds
        return found


def lines_of(table: Table) -> Iterator[str]:
    rows = sorted(table.items(), key=lambda it: -sum(it[1].values()))
    rows.append(("all", {kind: sum(it[kind] for it in table.values()) for kind in KINDS}))
    yield f"times: {'crate':20} {'seconds':>8} {'proof':>8} {'tests':>8} {'edits':>8}"
    for crate, times in rows:
        numbers = [sum(times.values()), *(times[kind] for kind in KINDS)]
        yield f"times: {crate:20} " + " ".join(f"{it:8.0f}" for it in numbers)
    total = sum(rows[-1][1].values())
    yield f"times: {total / 60:.1f} processor minutes"


def keeps_proofs() -> bool:
    """Whether the kit's gate reuses proofs of earlier runs. Only then does it have the option --anew."""
    ran = subprocess.run(["rt", "help"], stdin=subprocess.DEVNULL, stdout=subprocess.PIPE, stderr=subprocess.STDOUT)
    return b"--anew" in ran.stdout


def run(log: pathlib.Path, anew: bool) -> int:
    """Runs the gate, and writes its output and the table to a log."""
    with open(log, "w") as out:
        started = time.monotonic()
        words = ["rt", "ci", *["--anew"] * (anew and keeps_proofs())]
        gate = subprocess.Popen(words, stdin=subprocess.DEVNULL, stdout=out, stderr=subprocess.STDOUT)
        watch = Watch(gate.pid)
        while gate.poll() is None:
            watch.update()
            time.sleep(0.5)
        took = time.monotonic() - started
        processors = len(os.sched_getaffinity(0))
        lines = [*lines_of(watch.table()), f"times: {took / 60:.1f} minutes on {processors} processors"]
        print("\n".join(lines), file=out)
    print("\n".join(lines))
    print(log.read_text(errors="replace").splitlines()[-len(lines) - 1])
    return gate.returncode


def main() -> int:
    parser = argparse.ArgumentParser(
        description="Runs the gate and prints the processor time of each crate, slowest first."
    )
    how = parser.add_mutually_exclusive_group()
    how.add_argument("--anew", action="store_true", help="prove and test everything from the beginning")
    how.add_argument("--again", action="store_true", help="only print the table of the log")
    parser.add_argument("log", nargs="?", type=pathlib.Path, default="gate.log", help="default: gate.log")
    arguments = parser.parse_args()
    if not arguments.again:
        return run(arguments.log, arguments.anew)
    print("\n".join(re.findall(r"(?m)^times: .*", arguments.log.read_text(errors="replace"))))
    return 0


if __name__ == "__main__":
    sys.exit(main())
