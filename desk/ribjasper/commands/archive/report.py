"""A report on all dumps below a folder. If a run was stopped, the next run continues."""
import argparse
import contextlib
import hashlib
import json
import os
import re
from pathlib import Path
from typing import BinaryIO, Iterator, NamedTuple, Sequence

from ...common import kinds, library
from ...common.failures import REFUSED, Refusal, cause, reading, shown, writing
from ...common.output import Outputs, Table, add_force, complain, package, tell, write_file
from ...common.progress import progress
from ...common.targets import DASH
from ...common.words import Commands
from ...dumps import report_page, submission
from ...dumps.checksums import Sums, dat, plain as plain_name
from ...dumps.examine import COLUMNS, Examined, ReportRow, UNREAD
from ...dumps.loading import add_options, asked, read_dump
from ...dumps.workers import How, FileTask, by_cluster, here, processors, lost_row

# What a journal holds changes with this number; rows of another are read again.
LAYOUT = 3
JOURNALS = "journal*.jsonl"
# Only reports give their pictures these names: they need no record.
PICTURE = kinds.PNG._replace(is_recorded=False)
OWN_NAME = re.compile(r"[0-9a-f]{20}-(first\.png|map\.png|places\.tsv)")
# No cell of the table is longer: programs for tables cut at 32,767 characters.
LONGEST_CELL = 32_000


class Share(NamedTuple):
    """Of how many machines which this one is, from 1."""

    number: int
    of: int

    def has(self, name: str) -> bool:
        digest = hashlib.sha256(os.fsencode(name)).digest()
        return int.from_bytes(digest[:8], "big") % self.of == self.number - 1


def share(word: str) -> Share:
    """K/M of the command line."""
    number, _, of = word.partition("/")
    if number.isdecimal() and of.isdecimal() and 1 <= int(number) <= int(of):
        return Share(int(number), int(of))
    raise argparse.ArgumentTypeError(f"{word} is not K/M with K from 1 to M")


def add_parser(commands: Commands) -> None:
    parser = commands.add_parser(
        "report",
        help="make a report on all dumps of a folder",
        description="Reads every file of a folder and of its subfolders, and writes a report to the folder DIR. The "
        "report has a table (table.tsv, table.jsonl), a list of checksums (dumps.dat) and a page (index.html) that "
        "can be sorted and filtered. For each dump, the page shows a picture, a map and a list of the damaged "
        "places. If a run was stopped, the next run continues. A later run reads only the files that changed. "
        "--submission describes one dump instead: catalogue number, sessions, tracks with codes, pregaps and "
        "checksums, subcode errors by kind, changed frames, and texts. The exit status is 3 if a file could not be "
        "read, or if no file is a dump.",
    )
    parser.add_argument("folder", metavar="FOLDER", help="the folder with the dumps; with --submission, one dump")
    parser.add_argument(
        "-o",
        "--output",
        metavar="DIR",
        help="the folder for the report; with --submission, a file (standard output)",
    )
    parser.add_argument(
        "--submission",
        action="store_true",
        help="describe one dump with the facts that disc databases ask for, and make no report",
    )
    parser.add_argument("--json", action="store_true", help="with --submission, write JSON")
    parser.add_argument(
        "--jobs", type=jobs, default=processors(), metavar="N", help="how many files are read at the same time"
    )
    parser.add_argument(
        "--no-pictures", action="store_true", help="make no pictures and no maps, and do not use Pillow"
    )
    add_options(parser)
    parser.add_argument("--follow-links", action="store_true", help="also read folders that are links")
    add_force(parser)
    several = parser.add_mutually_exclusive_group()
    several.add_argument("--cluster", metavar="ADDRESS", help="let the workers of a Dask scheduler read the files")
    several.add_argument(
        "--part",
        type=share,
        metavar="K/M",
        help="read only part K of M parts of the files; a later run without --part writes the table",
    )
    parser.set_defaults(run=run, error=parser.error)


def jobs(word: str) -> int:
    if word.isdecimal() and int(word) > 0:
        return int(word)
    raise argparse.ArgumentTypeError(f"must be at least 1, and not {word}")


class Below(NamedTuple):
    """What there is below a folder: files, and folders that cannot be looked into with the reason."""

    files: list[FileTask]
    closed: list[tuple[str, str]]


def files_below(folder: str, out: str, follow_links: bool) -> Below:
    """All files below a folder, sorted by name, without the files of the report. If requested, links to folders are
    followed, each folder once."""
    if not os.path.isdir(folder):
        raise Refusal(folder, "is not a folder" if os.path.exists(folder) else "no such folder")
    below, seen = Below([], []), {os.path.realpath(out)}

    def closed(error: OSError) -> None:
        complain(f"{shown(error.filename)}: {cause(error)}")
        below.closed.append((os.path.relpath(error.filename, folder), cause(error)))

    for at, folders, names in os.walk(folder, onerror=closed, followlinks=follow_links):
        if follow_links:
            seen.add(os.path.realpath(at))
        folders[:] = sorted(it for it in folders if os.path.realpath(os.path.join(at, it)) not in seen)
        below.files.extend(
            FileTask(path, os.path.relpath(path, folder)) for path in (os.path.join(at, name) for name in names)
        )
    below.files.sort()
    return below


def stamp(path: str, settings: str) -> str:
    """The state that a row depends on: the file, the library and the settings."""
    try:
        found = os.stat(path)
    except OSError as error:
        return f"{settings} {error.errno}"
    return f"{settings} {found.st_size} {found.st_mtime_ns} {found.st_ino}"


def known_rows(out: Path) -> dict[str, tuple[str, ReportRow]]:
    """What earlier runs found: the stamp and the row of each file. A line that was cut off is passed over."""
    known = {}
    for journal in sorted(out.glob(JOURNALS)):
        for line in journal.read_bytes().splitlines():
            with contextlib.suppress(ValueError, KeyError, TypeError):
                entry = json.loads(line)
                known[entry["row"]["file"]] = (entry["stamp"], entry["row"])
    return known


class Names(NamedTuple):
    """The files of a dump in a report: its first picture, its map, and the list of its places."""

    first: str
    map: str
    places: str


def file_names(name: str) -> Names:
    digest = hashlib.sha256(os.fsencode(name)).hexdigest()[:20]
    return Names(f"pictures/{digest}-first.png", f"pictures/{digest}-map.png", f"places/{digest}-places.tsv")


def is_whole(out: Path, row: ReportRow, wants_pictures: bool) -> bool:
    """Whether the files of a row exist: the map, if one is wanted, and the list of places, if the row has one."""
    names = file_names(row["file"])
    has_map = not wants_pictures or row["form"] is None or (out / names.map).exists()
    return has_map and (not row["damage"] or (out / names.places).exists())


def keep_entry(out: Path, journal: BinaryIO, entry: Examined, stamped: str) -> None:
    """Writes the files of a dump and then its line of the journal."""
    contents = (entry.first_picture, entry.map, entry.places)
    for name, content, kind in zip(file_names(entry.row["file"]), contents, (PICTURE, PICTURE, kinds.LIST_OF_PLACES)):
        if content is None:
            (out / name).unlink(missing_ok=True)
        else:
            write_file(out / name, content, kind, force=True)
    append(journal, json.dumps({"stamp": stamped, "row": entry.row}).encode() + b"\n")


def append(journal: BinaryIO, line: bytes) -> None:
    with writing(journal.name):
        journal.write(line)
        journal.flush()


def look_at_all(
    arguments: argparse.Namespace, tasks: list[FileTask], known: dict[str, tuple[str, ReportRow]], out: Path
) -> dict[str, ReportRow]:
    """The rows of all files: known rows of unchanged files, and new rows of the other files, which are examined."""
    how = How(not arguments.no_pictures, asked(arguments))
    options = "".join(f" {word}" for word in how.words if word is not None)
    stamps = {
        task.name: stamp(task.path, f"{LAYOUT} {library.version()} {how.with_pictures}{options}") for task in tasks
    }
    rows = {
        task.name: known[task.name][1]
        for task in tasks
        if task.name in known
        and known[task.name][0] == stamps[task.name]
        and is_whole(out, known[task.name][1], how.with_pictures)
    }
    todo = [task for task in tasks if task.name not in rows]
    found: Iterator[Examined] = iter(())
    if todo and arguments.cluster:
        found = by_cluster(todo, how, arguments.cluster)
    elif todo:
        found = here(todo, how, min(arguments.jobs, len(todo)))
    # Each part of several has a journal of its own, so that none writes into another's.
    own = f"journal-{arguments.part.number}-of-{arguments.part.of}.jsonl" if arguments.part else "journal.jsonl"
    with writing(out / own):
        journal = open(out / own, "ab")
    with journal:
        append(journal, b"\n" if journal.tell() else b"")
        for entry in progress(found, len(todo), "files"):
            name = entry.row["file"]
            # The next run tries files again that could not be examined.
            keep_entry(out, journal, entry, "" if entry.was_lost else stamps[name])
            rows[name] = entry.row
    tell(f"{len(todo)} files read, {len(tasks) - len(todo)} known")
    return rows


def cell(value: object) -> str:
    """A value in the table: a dash for None, the parts of a list separated by semicolons, cut to the length of a
    cell."""
    if value is None or value == []:
        return "-"
    text = "; ".join(map(str, value)) if isinstance(value, list) else str(value)
    return text if len(text) <= LONGEST_CELL else f"{text[:LONGEST_CELL]} .."


def plain_row(row: ReportRow) -> ReportRow:
    """A row for other programs: bytes of a name that are no text are written as \\xHH."""
    return row | {"file": os.fsencode(row["file"]).decode("utf-8", "backslashreplace")}


def clear_files(out: Path, rows: Sequence[ReportRow]) -> None:
    """Removes the pictures and lists of dumps that are gone, and nothing else."""
    wanted = {name for row in rows for name in file_names(row["file"])}
    for folder in ("pictures", "places"):
        for path in (out / folder).iterdir():
            if OWN_NAME.fullmatch(path.name) and f"{folder}/{path.name}" not in wanted:
                path.unlink()


def report_outputs(out: Path, force: bool) -> Outputs:
    """The files of a report that every run writes again."""
    writes = (
        (out / "table.tsv", kinds.TABLE),
        (out / "table.jsonl", kinds.ROWS),
        (out / "index.html", kinds.PAGE),
        (out / "dumps.dat", kinds.DAT),
    )
    return Outputs([], writes, force)


def write_tables(outputs: Outputs, out: Path, rows: Sequence[ReportRow]) -> None:
    lines = ["\t".join(COLUMNS), *("\t".join(shown(cell(row[name])) for name in COLUMNS) for row in rows)]
    table = "".join(f"{line}\n" for line in lines).encode(errors="surrogateescape")
    outputs.write(out / "table.tsv", table)
    outputs.write(out / "table.jsonl", "".join(json.dumps(plain_row(row)) + "\n" for row in rows).encode())
    outputs.write(out / "index.html", report_page.html([(row, file_names(row["file"])) for row in rows], out))
    summed = [(row["file"], Sums(*(row[field] for field in Sums._fields))) for row in rows if row["sha256"]]
    outputs.write(out / "dumps.dat", dat("dumps", summed))


def run(arguments: argparse.Namespace) -> int:
    if arguments.submission:
        return write_submission(arguments)
    if arguments.output is None or arguments.json:
        arguments.error("--json needs --submission" if arguments.json else "a report needs -o DIR")
    out = Path(folder_of(arguments.output))
    check_folder(out, arguments.folder, arguments.force)
    with report_outputs(out, arguments.force) as outputs:
        return make_report(arguments, outputs, out)


def write_submission(arguments: argparse.Namespace) -> int:
    """The description of one disc, as text or as JSON."""
    path, out = arguments.folder, arguments.output or DASH
    with Outputs([path], [(out, kinds.SUBMISSION)], arguments.force) as outputs:
        found = submission.submission(read_dump(path, asked(arguments)), plain_name(os.path.basename(path)))
        text = json.dumps(found.plain(), indent=2) + "\n" if arguments.json else submission.submission_text(found)
        outputs.write(out, text.encode())
    return 0


def folder_of(name: str) -> str:
    if name in ("", DASH):
        raise Refusal(name or "''", "is not the name of a folder; a report needs a folder")
    return name


def check_folder(out: Path, folder: str, force: bool) -> None:
    """Refuses a folder for a report that has files of its own."""
    with reading(out):
        if out.exists() and os.path.isdir(folder) and os.path.samefile(out, folder):
            raise Refusal(out, "is the folder with the dumps; the report needs another folder")
        if out.is_dir() and not force and any(out.iterdir()) and not any(out.glob(JOURNALS)):
            raise Refusal(out, "contains files and is not the folder of a report; --force writes a report there")


def make_report(arguments: argparse.Namespace, outputs: Outputs, out: Path) -> int:
    below = files_below(arguments.folder, arguments.output, arguments.follow_links)
    tasks = [task for task in below.files if not arguments.part or arguments.part.has(task.name)]
    if not arguments.no_pictures:
        package("PIL.Image", "python3-pil")
    try:
        for folder in ("pictures", "places"):
            (out / folder).mkdir(parents=True, exist_ok=True)
    except OSError as error:
        raise Refusal(out, cause(error)) from None
    rows = look_at_all(arguments, tasks, known_rows(out), out)
    closed = [lost_row(name, f"the folder cannot be looked into: {why}").row for name, why in below.closed]
    ordered = sorted([*(rows[task.name] for task in tasks), *closed], key=lambda row: os.fsencode(row["file"]))
    if not arguments.part:
        clear_files(out, ordered)
        write_tables(outputs, out, ordered)
    table = Table(("status", "files"))
    for status in sorted({row["status"] for row in ordered}):
        table.row((status, sum(row["status"] == status for row in ordered)))
    if not arguments.part and not any(row["form"] for row in ordered):
        complain(f"{shown(arguments.folder)}: has no dump")
        return REFUSED
    return REFUSED if any(row["status"] == UNREAD for row in ordered) else 0
