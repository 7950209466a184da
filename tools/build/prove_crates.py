#!/usr/bin/env python3
"""Proves the libraries below crates, independent ones in parallel: prove_crates.py CRATE ..

The script first prints an estimate of the time, and then each library when it is proved. build_crate.py proves the libraries and
stores them in crates/*/out/statements, so a call continues where a stopped call ended. A crate that changed and all crates above
it are proved from nothing. `make check` proves everything with `rt ci`, which does not use these libraries.

seconds.tsv has the processor seconds of each crate. The crate with the longest chain of crates above it is proved first. --write
updates the table; it is for a run after `make clean`."""
from __future__ import annotations

import argparse
import fcntl
import hashlib
import os
import pathlib
import site
import subprocess
import sys
import threading
import time
from typing import IO

ROOT = pathlib.Path(__file__).resolve().parents[2]
site.addsitedir(str(ROOT / "tools" / "shared"))
site.addsitedir(str(ROOT / "tools" / "build"))
from build_crate import library  # noqa: E402
from rattle import graph as graph  # noqa: E402

# The measured processor seconds of each crate.
TABLE = ROOT / "tools" / "build" / "seconds.tsv"
# For a crate that is not in the table: the lines of code and proofs that a processor checks per second, and the minimum time of
# a crate in seconds.
LINES_A_SECOND, LEAST_SECONDS = 45, 10
# The estimate of the table has the weight of this many seconds of work; the measurements of this run have the rest.
LEARNT_SECONDS = 60
# The memory in bytes that a check needs.
CHECK_BYTES = 2_500_000_000


def libraries(below: dict[str, list[str]], goals: list[str]) -> list[str]:
    """All crates below the goals, lowest first."""
    found: list[str] = []

    def visit(name: str) -> None:
        for it in below[name]:
            visit(it)
        if name not in found:
            found.append(name)

    for goal in goals:
        visit(goal)
    return [it for it in found if it not in goals]


def files_of(name: str) -> list[pathlib.Path]:
    parts = (ROOT / "crates" / name / part for part in ("src", "specs", "proofs"))
    return sorted(file for part in parts for file in part.rglob("*") if file.is_file())


def stamps(names: list[str], below: dict[str, list[str]]) -> dict[str, str]:
    """A digest for each crate of everything that its proof depends on: the kit, its files, and the crates below it."""
    kit = subprocess.run(["rt", "version"], stdout=subprocess.PIPE, check=True).stdout
    stamp: dict[str, str] = {}
    for name in names:
        digest = hashlib.sha256(kit)
        for file in files_of(name):
            digest.update(str(file.relative_to(ROOT)).encode() + b"\0" + file.read_bytes())
        for it in sorted(below[name]):
            digest.update(stamp[it].encode())
        stamp[name] = digest.hexdigest()
    return stamp


def stamp_file(name: str) -> pathlib.Path:
    """The file with the stamp of the last proof of a crate."""
    return library(name).with_name("stamp")


def stored_stamp(name: str) -> str:
    """The stamp of the last proof of a crate, or an empty text."""
    file = stamp_file(name)
    return file.read_text() if file.exists() else ""


def proved(names: list[str], below: dict[str, list[str]], stamp: dict[str, str]) -> set[str]:
    """The crates whose libraries are current. A library is used only over the libraries that it was built over."""
    done: set[str] = set()
    for name in names:
        if stored_stamp(name) == stamp[name] and done.issuperset(below[name]):
            done.add(name)
    return done


def read_table(file: pathlib.Path) -> dict[str, float]:
    """The seconds of each crate, from lines of a name, a tab and a number."""
    rows = (line.split("\t") for line in file.read_text().splitlines()) if file.exists() else ()
    return {name: float(seconds) for name, seconds in rows}


def write_table(file: pathlib.Path, seconds: dict[str, float]) -> None:
    file.write_text("".join(f"{name}\t{seconds[name]:.0f}\n" for name in sorted(seconds)))


def seconds_by_lines(name: str) -> float:
    lines = sum(file.read_bytes().count(b"\n") for file in files_of(name))
    return LEAST_SECONDS + lines / LINES_A_SECOND


def run_measured(words: list[str], folder: pathlib.Path, log: IO[str]) -> tuple[int, float]:
    """Runs a command. Returns its status and the processor seconds of all processes that it started."""
    ran = subprocess.Popen(words, cwd=folder, stdin=subprocess.DEVNULL, stdout=log, stderr=subprocess.STDOUT)
    _, status, used = os.wait4(ran.pid, 0)
    ran.returncode = os.waitstatus_to_exitcode(status)
    return ran.returncode, used.ru_utime + used.ru_stime


def duration(seconds: float) -> str:
    return f"{seconds:.0f} seconds" if seconds < 100 else f"{seconds / 60:.0f} minutes"


class Proving:
    """The state of a run: the crates that are proved, that remain, and that are being proved. `names` has the lowest first."""

    def __init__(
        self, names: list[str], below: dict[str, list[str]], stamp: dict[str, str], parallel: int
    ) -> None:
        self.below, self.stamp, self.parallel = below, stamp, parallel
        self.done = proved(names, below, stamp)
        self.left = [it for it in names if it not in self.done]
        table = read_table(TABLE)
        self.cost = {it: table.get(it) or seconds_by_lines(it) for it in self.left}
        # The cost of the longest chain from a crate upwards. The crate with the highest one is proved first.
        self.chain = dict(self.cost)
        for name in reversed(self.left):
            for it in below[name]:
                if it in self.chain:
                    self.chain[it] = max(self.chain[it], self.cost[it] + self.chain[name])
        self.total = len(names)
        self.failed: list[str] = []
        # The start time and the number of processors of each crate that is being proved.
        self.running: dict[str, float] = {}
        self.used: dict[str, int] = {}
        # The total time of the crates that this run has proved, and the total estimate for them, in seconds.
        self.elapsed, self.estimated = 0.0, 0.0
        # The processor seconds of each crate that this run has proved.
        self.measured: dict[str, float] = {}
        self.news = threading.Condition()

    def pace(self) -> float:
        """The ratio of measured to estimated time in this run. The measurements count more the longer the run lasts."""
        return (LEARNT_SECONDS + self.elapsed) / (LEARNT_SECONDS + self.estimated)

    def seconds_left(self) -> float:
        rest = [*self.left, *self.running]
        estimate = max(sum(self.cost[it] for it in rest) / self.parallel, max((self.chain[it] for it in rest), default=0))
        return estimate * self.pace()

    def jobs(self, name: str, ready: int) -> int:
        """The number of processors for the next crate.

        It gets those that no other ready crate needs. If its chain would end long after the rest of the work, it gets more."""
        free = self.parallel - sum(self.used.values())
        rest = sum(self.cost[it] for it in [*self.left, *self.running]) / self.parallel
        return min(free, max(1, free - (ready - 1), int(self.chain[name] / rest)))

    def prove(self, name: str, jobs: int) -> None:
        """Proves a crate with this number of processors and builds its library."""
        folder = library(name).parent
        os.makedirs(folder, exist_ok=True)
        words = [sys.executable, str(ROOT / "tools" / "build" / "build_crate.py"), name, "--jobs", str(jobs)]
        with open(folder / "proving.log", "w") as log:
            status, used = run_measured(words, ROOT, log)
        is_proved = not status
        if is_proved:
            stamp_file(name).write_text(self.stamp[name])
        with self.news:
            took = time.monotonic() - self.running.pop(name)
            del self.used[name]
            self.elapsed, self.estimated = self.elapsed + took, self.estimated + self.cost[name]
            if is_proved:
                self.done.add(name)
                self.measured[name] = used
                left = duration(self.seconds_left())
                print(f"[{len(self.done)}/{self.total}] {name} is proved ({duration(took)}); about {left} left", flush=True)
            else:
                self.failed.append(name)
                print(f"{name} is not proved; the reason is in crates/{name}/out/statements/proving.log", flush=True)
            self.news.notify()

    def run(self) -> bool:
        with self.news:
            while self.left or self.running:
                ready = [it for it in self.left if all(low in self.done for low in self.below[it])]
                for place, name in enumerate(sorted(ready, key=lambda it: -self.chain[it])):
                    if sum(self.used.values()) < self.parallel and not self.failed:
                        jobs = self.jobs(name, len(ready) - place)
                        self.left.remove(name)
                        self.running[name] = time.monotonic()
                        self.used[name] = jobs
                        threading.Thread(target=self.prove, args=(name, self.used[name]), daemon=True).start()
                if not self.running:
                    break
                self.news.wait()
        return not self.failed


def parallel_checks() -> int:
    """The number of parallel checks: the variable JOBS, or as many as processors and memory allow."""
    if os.environ.get("JOBS", "").isdigit():
        return max(1, int(os.environ["JOBS"]))
    return max(1, min(len(os.sched_getaffinity(0)), available() // CHECK_BYTES))


def available() -> int:
    """The available memory in bytes, including the memory that caches files."""
    for line in pathlib.Path("/proc/meminfo").read_text().splitlines():
        name, _, amount = line.partition(":")
        if name == "MemAvailable":
            return 1024 * int(amount.split()[0])
    return os.sysconf("SC_AVPHYS_PAGES") * os.sysconf("SC_PAGE_SIZE")


def lock_checkout() -> IO[bytes]:
    """Locks the checkout until the returned file is closed, since two calls would write the same libraries."""
    lock = open(__file__, "rb")
    try:
        fcntl.flock(lock, fcntl.LOCK_EX | fcntl.LOCK_NB)
    except BlockingIOError:
        print("another call is proving in this checkout: waiting until it ends", flush=True)
        fcntl.flock(lock, fcntl.LOCK_EX)
    return lock


def main() -> int:
    below = graph()
    parser = argparse.ArgumentParser(
        description="Proves the libraries below crates, independent ones in parallel."
    )
    parser.add_argument("crates", nargs="+", choices=below, metavar="CRATE", help="a crate of the repository")
    parser.add_argument("--write", action="store_true", help="write the measured times to the table; only after `make clean`")
    arguments = parser.parse_args()
    names = libraries(below, arguments.crates)
    _lock = lock_checkout()
    proving = Proving(names, below, stamps(names, below), parallel_checks())
    if proving.left:
        number, how_long = len(proving.left), duration(proving.seconds_left())
        print(f"proving {number} of {len(names)} crates, {proving.parallel} at a time: about {how_long}", flush=True)
    try:
        is_proved = proving.run()
        if arguments.write:
            write_table(TABLE, {**read_table(TABLE), **proving.measured})
        return 0 if is_proved else 1
    except KeyboardInterrupt:
        print("stopped; the next call continues from here")
        return 130


if __name__ == "__main__":
    sys.exit(main())
