"""`report`: a row for every file of any kind; a killed run can be resumed; a cluster writes the same report."""
import contextlib
import html.parser
import json
import os
import random
import signal
import socket
import subprocess
import sys
import time
import unittest
from pathlib import Path
from typing import Any, Callable
from unittest import mock

import known_dumps as known

from fixtures import (
    BLOCK, DESK, LEAD_IN, FolderTest, Ran, Word, as_sectors, desk, hello, hello_packs, needs, needs_library,
    needs_pillow, program, with_bad_q, with_burst, with_zeros, without,
)  # fmt: skip
from ribjasper.dumps.examine import examine


class Links(html.parser.HTMLParser):
    """The links of a page."""

    def __init__(self, page: Path):
        super().__init__()
        self.found: list[str] = []
        self.feed(page.read_text())

    def handle_starttag(self, tag: str, attributes: list[tuple[str, str | None]]) -> None:
        self.found += [value for name, value in attributes if value and name in ("src", "href")]


def dumps(folder: Path, count: int) -> None:
    """A folder of dumps of thirteen kinds in turn, each with its own damage."""
    packs = hello_packs() + bytes(-len(hello_packs()) % BLOCK)
    kinds: list[Callable[[int], bytes]] = [
        lambda seed: hello(),
        lambda seed: with_burst(hello(), 300 + seed, 200, seed),
        lambda seed: with_zeros(hello(), 400 + seed, 420 + seed),
        lambda seed: without(hello(), 500 + seed, 574 + seed),
        lambda seed: with_bad_q(hello(), 600 + seed),
        lambda seed: program("scratch", "--lead-in", LEAD_IN, "--seed", seed, stdin=hello()),
        lambda seed: program("planar", stdin=hello()),
        lambda seed: as_sectors(hello()[: BLOCK * (700 + seed)]),
        lambda seed: packs,
        lambda seed: as_sectors(packs[: BLOCK * 300]),
        lambda seed: hello()[: -1 - seed],
        lambda seed: b"",
        lambda seed: random.Random(seed).randbytes(5000 + seed),
    ]
    for number in range(count):
        path = folder / f"box-{number % 4}" / f"dump-{number:03}"
        path.parent.mkdir(parents=True, exist_ok=True)
        path.write_bytes(kinds[number % len(kinds)](number))


@needs_library
class ReportTest(FolderTest):
    def setUp(self) -> None:
        super().setUp()
        self.dumps, self.out = self.folder / "dumps", self.folder / "out"
        self.dumps.mkdir()

    def report(self, *words: Word, status: int = 0, out: Path | None = None, **options: Any) -> Ran:
        ran = desk("report", self.dumps, "-o", out or self.out, *words, **options)
        self.assertEqual(ran.status, status, ran.errors)
        return ran

    def table(self, out: Path | None = None) -> list[dict[str, Any]]:
        return [json.loads(line) for line in ((out or self.out) / "table.jsonl").read_text().splitlines()]

    @needs_pillow
    def test_a_row_for_every_file(self) -> None:
        dumps(self.dumps, 26)
        self.report()
        rows = self.table()
        self.assertEqual([row["file"] for row in rows], sorted(f"box-{n % 4}/dump-{n:03}" for n in range(26)))
        by_number = {int(row["file"][-3:]): row for row in rows}
        wanted = "good damaged damaged damaged damaged damaged good good good good torn empty foreign".split()
        self.assertEqual([by_number[number]["status"] for number in range(26)], wanted * 2)
        forms = ["raw"] * 6 + ["planar", "sector", "cooked", "cooked-sector", "raw", None, None]
        self.assertEqual([by_number[number]["form"] for number in range(26)], forms * 2)
        self.assertEqual(by_number[2]["damage"][0].split("-")[0], "402")
        self.assertEqual((by_number[2]["empty"], by_number[3]["jumps"], by_number[10]["rest"]), (21, 1, 85))
        self.assertEqual(by_number[0]["texts"][0], "title 00 Hello From the Subcode")
        counts = dict(
            line.split() for line in program("check", "--lead-in", LEAD_IN, stdin=hello()).decode().splitlines()
        )
        for name in ("clean", "one", "two", "bad", "q-bad"):
            self.assertEqual(by_number[0][name], int(counts[name]))
        summed = subprocess.run(["sha256sum", self.dumps / "box-0/dump-000"], capture_output=True, text=True).stdout
        self.assertEqual(by_number[0]["sha256"], summed.split()[0])

    @needs_pillow
    def test_the_page_needs_no_network(self) -> None:
        dumps(self.dumps, 13)
        self.report()
        links = Links(self.out / "index.html").found
        self.assertGreater(len(links), 20)
        for link in links:
            self.assertNotIn(":", link)
            self.assertTrue((self.out / link).is_file(), link)

    @needs_pillow
    def test_first_picture_is_that_of_the_program(self) -> None:
        from PIL import Image

        self.write("dumps/hello", hello())
        self.report()
        (picture,) = self.out.glob("pictures/*-first.png")
        pixmap = program("screen", "--lead-in", LEAD_IN, "--at", "00:04:00", stdin=hello())
        self.assertEqual(Image.open(picture).convert("RGB").tobytes(), pixmap[15:])

    @needs_pillow
    def test_pictures_that_are_gone(self) -> None:
        dumps(self.dumps, 2)
        self.report()
        before = {path.name for path in self.out.glob("pictures/*")}
        for path in self.out.glob("pictures/*"):
            path.unlink()
        self.assertIn("2 files read", self.report().errors)
        self.assertEqual({path.name for path in self.out.glob("pictures/*")}, before)
        (self.dumps / "box-0" / "dump-000").unlink()
        self.report()
        self.assertEqual(len(list(self.out.glob("pictures/*"))), 2)

    def test_without_pictures_no_package_is_asked_for(self) -> None:
        dumps(self.dumps, 3)
        self.report("--no-pictures", env={**os.environ, "PYTHONNOUSERSITE": "1"})
        self.assertEqual(len(self.table()), 3)
        self.assertEqual(list(self.out.glob("pictures/*")), [])

    def test_only_what_changed_is_read(self) -> None:
        dumps(self.dumps, 8)
        self.assertIn("8 files read, 0 known", self.report("--no-pictures").errors)
        before = (self.out / "table.tsv").read_bytes()
        self.assertIn("0 files read, 8 known", self.report("--no-pictures").errors)
        self.assertEqual((self.out / "table.tsv").read_bytes(), before)
        self.write("dumps/box-1/dump-001", hello())
        (self.dumps / "box-2/dump-002").unlink()
        self.write("dumps/new", with_burst(hello(), 300, 200))
        self.assertIn("2 files read, 6 known", self.report("--no-pictures").errors)
        rows = {row["file"]: row["status"] for row in self.table()}
        self.assertEqual((rows["box-1/dump-001"], rows["new"], len(rows)), ("good", "damaged", 8))

    def test_a_run_that_is_killed_is_gone_on_with(self) -> None:
        dumps(self.dumps, 50)
        whole = self.folder / "whole"
        self.report("--no-pictures", out=whole)
        words: list[str | Path] = [
            sys.executable,
            DESK,
            "report",
            self.dumps,
            "-o",
            self.out,
            "--no-pictures",
            "--jobs",
            "2",
        ]
        running = subprocess.Popen(words, stdout=subprocess.DEVNULL, stderr=subprocess.DEVNULL)
        journal = self.out / "journal.jsonl"
        until = time.monotonic() + 300
        while not (journal.exists() and journal.read_bytes().count(b"\n") >= 20) and time.monotonic() < until:
            time.sleep(0.002)
        running.send_signal(signal.SIGKILL)
        running.wait()
        done = journal.read_bytes().count(b"\n")
        self.assertLess(done, 50, "it had ended before it was killed")
        # The last line, which was being written, is cut off.
        journal.write_bytes(journal.read_bytes()[:-7])
        ran = self.report("--no-pictures")
        read, _, rest = ran.errors.partition(": ")[2].partition(" files read, ")
        self.assertGreaterEqual(int(rest.split()[0]), 15)
        self.assertEqual(int(read) + int(rest.split()[0]), 50)
        for name in ("table.tsv", "table.jsonl"):
            self.assertEqual((self.out / name).read_bytes(), (whole / name).read_bytes())

    def test_a_run_that_is_stopped_leaves_no_half_file(self) -> None:
        dumps(self.dumps, 30)
        words: list[str | Path] = [
            sys.executable,
            DESK,
            "report",
            self.dumps,
            "-o",
            self.out,
            "--no-pictures",
            "--jobs",
            "2",
        ]
        running = subprocess.Popen(words, stdout=subprocess.DEVNULL, stderr=subprocess.PIPE)
        journal = self.out / "journal.jsonl"
        while not (journal.exists() and journal.read_bytes().count(b"\n") >= 5) and running.poll() is None:
            time.sleep(0.002)
        running.send_signal(signal.SIGINT)
        errors = running.communicate()[1].decode()
        self.assertEqual(running.returncode, 130, errors)
        self.assertEqual(errors, "ribjasper-desk: stopped\n")
        self.assertEqual([path.name for path in self.out.rglob(".ribjasper-*")], [])

    def test_parts_make_the_same_report(self) -> None:
        dumps(self.dumps, 20)
        whole = self.folder / "whole"
        self.report("--no-pictures", out=whole)
        for number in (1, 2, 3):
            self.report("--no-pictures", "--part", f"{number}/3")
        self.assertIn("0 files read, 20 known", self.report("--no-pictures").errors)
        self.assertEqual((self.out / "table.tsv").read_bytes(), (whole / "table.tsv").read_bytes())
        self.assertEqual(desk("report", self.dumps, "-o", self.out, "--part", "4/3").status, 2)

    def test_files_that_cannot_be_read_are_rows(self) -> None:
        self.write("dumps/good", hello())
        (self.dumps / "broken").symlink_to("nowhere")
        os.mkfifo(self.dumps / "pipe")
        self.report("--no-pictures", status=3)
        rows = {row["file"]: (row["status"], row["why"]) for row in self.table()}
        self.assertEqual(rows["good"], ("good", None))
        self.assertEqual(rows["broken"][0], "unread")
        self.assertIn("no such file", rows["broken"][1])
        self.assertIn("not a regular file", rows["pipe"][1])

    def test_the_report_may_lie_in_the_folder(self) -> None:
        self.write("dumps/good", hello())
        for _ in range(2):
            self.report("--no-pictures", out=self.dumps / "out")
        self.assertEqual([row["file"] for row in self.table(self.dumps / "out")], ["good"])

    @needs_pillow
    def test_places_are_in_a_file_of_their_own(self) -> None:
        """A dump with more places than a cell can list, and one with a few."""
        disc = known.album(6, 1)
        stream = known.program(disc, 150, disc.end, 0)
        parts = known.split(stream)
        for block in range(10, len(parts), 4):
            parts[block] = bytes([parts[block][0] ^ 0x40]) + parts[block][1:]
        self.write("dumps/many", b"".join(parts))
        self.write("dumps/few", with_bad_q(hello(), 600))
        self.report()
        rows = {row["file"]: row for row in self.table()}
        self.assertGreater(rows["many"]["runs"], 6000)
        self.assertEqual(len(rows["many"]["damage"]), 21)
        self.assertIn("more", rows["many"]["damage"][-1])
        for line in (self.out / "table.tsv").read_text().splitlines():
            self.assertLess(max(map(len, line.split("\t"))), 32_767)
        page = Links(self.out / "index.html")
        lists = [link for link in page.found if link.startswith("places/")]
        self.assertEqual(len(lists), 2)
        longest = max(((self.out / link).read_text().splitlines() for link in lists), key=len)
        self.assertEqual(len(longest), rows["many"]["runs"] + 1)
        self.assertEqual(longest[0].split("\t")[:3], ["kind", "first", "last"])
        few = desk("damage", self.dumps / "few").out
        self.assertIn(few, [(self.out / link).read_text() for link in lists])

    @needs_pillow
    def test_why_a_picture_is_missing(self) -> None:
        disc = known.album(0.3, 1)
        self.write("dumps/bare", known.program(disc, 150, disc.end, 0))
        self.write("dumps/hello", hello())
        self.report()
        rows = {row["file"]: row["picture"] for row in self.table()}
        self.assertEqual(rows, {"bare": "graphics not read", "hello": "shown"})
        self.assertIn('<div class="none">graphics not read</div>', (self.out / "index.html").read_text())

    def test_checksums(self) -> None:
        dumps(self.dumps, 4)
        self.report("--no-pictures")
        files = sorted(path for path in self.dumps.rglob("dump-*"))
        ran = desk("sums", *files, "--check", self.out / "dumps.dat")
        self.assertEqual(ran.status, 0, ran.errors)
        row = self.table()[0]
        sums = desk("sums", self.dumps / row["file"]).rows()[0]
        self.assertEqual(
            [row[name] for name in ("crc32", "md5", "sha1", "sha256")],
            [sums[name] for name in ("crc32", "md5", "sha1", "sha256")],
        )

    def test_a_folder_that_cannot_be_entered_is_a_row(self) -> None:
        self.write("dumps/good", hello())
        self.write("dumps/closed/other", hello())
        before = os.scandir

        def scan(path: str) -> Any:
            if os.fspath(path).endswith("closed"):
                raise PermissionError(13, "Permission denied", path)
            return before(path)

        with mock.patch("os.scandir", scan):
            ran = self.report("--no-pictures", status=3)
        self.assertIn("closed: permission denied", ran.errors)
        rows = {row["file"]: (row["status"], row["why"]) for row in self.table()}
        self.assertEqual(rows["closed"], ("unread", "the folder cannot be looked into: permission denied"))
        self.assertEqual(rows["good"][0], "good")

    def test_what_the_words_say_of_all(self) -> None:
        self.write("dumps/headed", b"x" * 7 + hello())
        self.report("--no-pictures")
        self.assertEqual([row["notes"] for row in self.table()], [["header: 7 bytes in front"]])
        self.report("--no-pictures", "--form", "raw", "--skip", 7 + BLOCK * LEAD_IN, "--lead-in", 0)
        row = self.table()[0]
        self.assertEqual((row["form"], row["lead-in"], row["status"], row["blocks"]), ("raw", 0, "good", 1800))

    def test_links_to_folders(self) -> None:
        other = self.folder / "other"
        other.mkdir()
        (other / "dump").write_bytes(hello())
        self.write("dumps/good", hello())
        (self.dumps / "link").symlink_to(other)
        (self.dumps / "round").symlink_to(self.dumps)
        self.report("--no-pictures")
        self.assertEqual([row["file"] for row in self.table()], ["good"])
        self.report("--no-pictures", "--follow-links")
        self.assertEqual([row["file"] for row in self.table()], ["good", "link/dump"])

    def test_a_file_that_ends_its_worker_each_time(self) -> None:
        """Such a file has a row and is named; all others are read."""
        dumps(self.dumps, 12)
        before = examine

        def end(path: str, name: str, *how: Any) -> Any:
            if name.endswith("dump-005"):
                os._exit(7)
            return before(path, name, *how)

        with mock.patch("ribjasper.dumps.workers.examine", end):
            ran = self.report("--no-pictures", "--jobs", "3", status=3)
        self.assertIn("dump-005: could not be examined", ran.errors)
        self.assertIn("a worker process ended unexpectedly; the files that were open are tried again", ran.errors)
        rows = {row["file"][-3:]: row for row in self.table()}
        self.assertEqual(len(rows), 12)
        self.assertEqual([name for name, row in rows.items() if row["status"] == "unread"], ["005"])
        self.assertIn("could not be examined", rows["005"]["why"])
        self.report("--no-pictures")
        self.assertEqual([row["status"] for row in self.table() if row["status"] == "unread"], [])

    def test_a_worker_that_is_killed_once_is_named(self) -> None:
        """The file is read again, and the report is complete."""
        dumps(self.dumps, 8)
        before, mark = examine, self.folder / "mark"

        def end(path: str, name: str, *how: Any) -> Any:
            if name.endswith("dump-003") and not mark.exists():
                mark.touch()
                os.kill(os.getpid(), signal.SIGKILL)
            return before(path, name, *how)

        with mock.patch("ribjasper.dumps.workers.examine", end):
            ran = self.report("--no-pictures", "--jobs", "2")
        self.assertIn("a worker process ended unexpectedly", ran.errors)
        self.assertIn("dump-003", ran.errors)
        self.assertEqual(len([row for row in self.table() if row["status"] != "unread"]), 8)

    def test_a_folder_without_dumps(self) -> None:
        kinds: list[list[str]] = [[], ["notes.txt"], ["notes.txt", "empty"]]
        for names in kinds:
            for name in names:
                self.write(f"dumps/{name}", b"" if name == "empty" else b"Dear diary, " * 50)
            ran = self.report("--no-pictures", status=3)
            self.assertIn(f"{self.dumps}: has no dump", ran.errors)
            self.assertEqual([row["file"] for row in self.table()], sorted(names))
        self.write("dumps/good", hello())
        self.report("--no-pictures")
        self.assertEqual({row["file"]: row["why"] for row in self.table()}["empty"], "is empty")

    def test_refusals(self) -> None:
        ran = desk("report", self.folder / "missing", "-o", self.out)
        self.assertEqual(ran.status, 3)
        self.assertIn("no such folder", ran.errors)
        self.assertEqual(desk("report", self.dumps, "-o", self.out, "--jobs", "0").status, 2)
        taken = self.write("taken", b"")
        self.assertEqual(desk("report", self.dumps, "-o", taken).status, 3)


def free_port() -> int:
    with socket.socket() as it:
        it.bind(("127.0.0.1", 0))
        port: int = it.getsockname()[1]
        return port


def is_connected(port: int) -> bool:
    """Whether a process is connected to a port of this machine."""
    rows = [line.split() for line in Path("/proc/net/tcp").read_text().splitlines()[1:]]
    return any(row[1].endswith(f":{port:04X}") and row[3] == "01" for row in rows)


def wait_for(port: int) -> None:
    """Waits until a process listens, at most two minutes."""
    for _ in range(1200):
        with contextlib.suppress(OSError), socket.create_connection(("127.0.0.1", port)):
            return
        time.sleep(0.1)


@needs_library
@needs("distributed", "python3-distributed")
class ClusterTest(FolderTest):
    """A scheduler and two workers on this machine."""

    def start(self, module: str, *words: object) -> None:
        self.started(module, *words)

    def started(self, module: str, *words: object) -> "subprocess.Popen[bytes]":
        call = [sys.executable, "-m", module, *map(str, words)]
        process = subprocess.Popen(call, stdout=subprocess.DEVNULL, stderr=subprocess.DEVNULL, cwd=self.folder)
        self.addCleanup(process.wait)
        self.addCleanup(process.terminate)
        return process

    def by_itself(self, *words: Word) -> Ran:
        """A run in its own process, whose threads end with it."""
        return desk(*words, env=dict(os.environ), timeout=120)

    def test_the_same_table_as_one_process(self) -> None:
        dumps(self.folder / "dumps", 26)
        one, several = self.folder / "one", self.folder / "several"
        self.assertEqual(desk("report", self.folder / "dumps", "-o", one, "--no-pictures", "--jobs", "1").status, 0)
        port = free_port()
        address = f"tcp://127.0.0.1:{port}"
        self.start("distributed.cli.dask_scheduler", "--host", address, "--no-dashboard")
        wait_for(port)
        for _ in range(2):
            self.start("distributed.cli.dask_worker", address, "--nthreads", "1", "--no-dashboard")
        ran = self.by_itself("report", self.folder / "dumps", "-o", several, "--no-pictures", "--cluster", address)
        self.assertEqual(ran.status, 0, ran.errors)
        for name in ("table.tsv", "table.jsonl"):
            self.assertEqual((several / name).read_bytes(), (one / name).read_bytes())

    def test_a_scheduler_that_goes_away_is_one_line(self) -> None:
        dumps(self.folder / "dumps", 40)
        port = free_port()
        address = f"tcp://127.0.0.1:{port}"
        scheduler = self.started("distributed.cli.dask_scheduler", "--host", address, "--no-dashboard")
        wait_for(port)
        call: list[str | Path] = [sys.executable, DESK, "report", self.folder / "dumps", "-o", self.folder / "out"]
        call += ["--no-pictures", "--cluster", address]
        running = subprocess.Popen(call, stdout=subprocess.DEVNULL, stderr=subprocess.PIPE)
        # Without a worker it waits once it is connected.
        until = time.monotonic() + 60
        while not is_connected(port) and running.poll() is None and time.monotonic() < until:
            time.sleep(0.1)
        time.sleep(3)
        scheduler.kill()
        errors = running.communicate(timeout=100)[1].decode()
        self.assertEqual(running.returncode, 3, errors)
        self.assertEqual(len(errors.splitlines()), 1, errors)
        self.assertIn(f"{address}: the scheduler or all of its workers disappeared", errors)

    def test_no_scheduler(self) -> None:
        (self.folder / "dumps").mkdir()
        (self.folder / "dumps" / "a").write_bytes(hello())
        address = f"tcp://127.0.0.1:{free_port()}"
        ran = self.by_itself(
            "report", self.folder / "dumps", "-o", self.folder / "out", "--no-pictures", "--cluster", address
        )
        self.assertEqual(ran.status, 3)
        self.assertIn(f"{address}: no scheduler responds", ran.errors)


if __name__ == "__main__":
    unittest.main()
