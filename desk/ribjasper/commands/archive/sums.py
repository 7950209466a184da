"""Checksums of files or of the tracks of a disc image, as catalogues of dumps have them, and lists of them in the form
of Logiqx."""
import argparse
import os
from typing import Sequence

from ...common import kinds
from ...common.failures import FOUND, shown
from ...common.output import Outputs, Table, add_force, add_json, tell
from ...common.words import Commands
from ...dumps import cutting
from ...dumps.checksums import Listed, NAMES, Sums, dat, plain, read_dat, read_games, sums_of
from ...dumps.cutting import Hashed
from ...dumps.loading import add_options, asked

CHECKED = (*NAMES, "found")
TRACK_NAMES = ("track", "type", "first", "sectors", "size", "crc32", "md5", "sha1", "edc-bad", "found")
# The verdicts in the lines of a check.
SAME, WRONG, UNLISTED, MISSING = "same", "differs", "not listed", "missing"


def add_parser(commands: Commands) -> None:
    parser = commands.add_parser(
        "sums",
        help="print checksums of files, and compare them with a list",
        description="Prints the size, CRC-32, MD5, SHA-1 and SHA-256 of each file. --dat writes them as a Logiqx "
        "list, the format of catalogues of dumps. --check compares files with such a list, by name; the exit status "
        "is 1 if one differs, is not listed or is missing. --tracks divides disc images into tracks and prints the "
        "checksums of each track. An image has sectors with subcode, and is divided by channel Q; or it is a .bin "
        "file with its cue sheet. Tracks are divided as in published lists: they have 2,352 bytes of each sector, a "
        "data track begins at index 01, and an audio track at its pause. With --check, --tracks names the disc of "
        "the list and the tracks that differ; without --offset, it finds the offset of the audio in the list. It "
        "also counts the data sectors with wrong error detection codes.",
    )
    parser.add_argument("files", nargs="+", metavar="FILE")
    parser.add_argument("--tracks", action="store_true", help="divide disc images into tracks")
    parser.add_argument(
        "--offset",
        type=offset,
        metavar="N",
        help="with --tracks, the audio of a track begins N samples later in the image (negative: earlier)",
    )
    add_options(parser)
    parser.add_argument("--dat", metavar="OUT.dat", help="also write the checksums as a list")
    parser.add_argument("--name", default="dumps", help="the name of this list")
    parser.add_argument("--check", metavar="DAT", help="compare the files with this list")
    add_json(parser)
    add_force(parser)
    parser.set_defaults(run=run, error=parser.error)


def offset(word: str) -> int:
    """Samples, with a sign or without."""
    try:
        number = int(word)
    except ValueError:
        number = cutting.MOST_OFFSET + 1
    if abs(number) > cutting.MOST_OFFSET:
        raise argparse.ArgumentTypeError(
            f"{word} is not a number of samples from {-cutting.MOST_OFFSET} to {cutting.MOST_OFFSET}"
        )
    return number


def checked_file(path: str, found: Sums, listed: Sequence[Listed]) -> tuple[str, set[str]]:
    """The verdict of a list on a file, and the names in the list that the file has."""
    same_name = [it for it in listed if os.path.basename(it.name.replace("\\", "/")) == plain(os.path.basename(path))]
    for it in same_name:
        if not it.differs(found):
            return SAME, {it.name}
    if same_name:
        return f"{WRONG}: {', '.join(same_name[0].differs(found))}", {same_name[0].name}
    other = next(
        (it for it in listed if it.values.get("sha1") == found.sha1 or it.values.get("sha256") == found.sha256), None
    )
    return (f"{SAME} as {other.name}", {other.name}) if other else (UNLISTED, set())


def run(arguments: argparse.Namespace) -> int:
    if not arguments.tracks and (arguments.offset is not None or any(it is not None for it in asked(arguments))):
        arguments.error("--offset, --form, --lead-in and --skip need --tracks")
    with Outputs([*arguments.files, arguments.check], [(arguments.dat, kinds.DAT)], arguments.force) as outputs:
        return sums_of_tracks(arguments, outputs) if arguments.tracks else sums_of_files(arguments, outputs)


def sums_of_tracks(arguments: argparse.Namespace, outputs: Outputs) -> int:
    games = read_games(arguments.check) if arguments.check else None
    table = outputs.table(TRACK_NAMES if games is not None else TRACK_NAMES[:-1], arguments.json)
    differs, files = False, list[tuple[str, Sums]]()
    for path in arguments.files:
        cut = cutting.open_disc(path, asked(arguments))
        for note in cut.notes:
            tell(f"{shown(path)}: {note}")
        moved = arguments.offset
        if moved is None and games is not None:
            moved = cutting.found_offset(cut, [it for game in games for it in game.tracks])
            if moved is not None:
                tell(f"{shown(path)}: the audio fits the list with an offset of {moved} samples")
        hashed = [cutting.hashed(cut, track, moved or 0) for track in cut.tracks]
        verdicts = None
        if games is not None:
            found = cutting.compared(hashed, games)
            verdicts = found.verdicts
            differs |= (
                any(it != cutting.SAME for it in verdicts) or found.game is None or found.same < len(found.game.tracks)
            )
            tell(f"{shown(path)}: {said_of(found, len(hashed))}")
        track_rows(table, hashed, verdicts)
        differs |= any(it.edc.bad for it in hashed if it.edc)
        files += [(cutting.file_name(cut.name, it.track, len(hashed)), it.sums) for it in hashed]
    if arguments.dat:
        outputs.write(arguments.dat, dat(arguments.name, files))
    return FOUND if differs else 0


def said_of(found: cutting.Comparison, count: int) -> str:
    if found.game is None:
        return "no disc in the list has a track of this image"
    more = len(found.game.tracks) - count
    lacks = f"; the disc in the list has {more} more" if more > 0 else ""
    return f"is {found.game.name}: {found.same} of {count} tracks are the same{lacks}"


def track_rows(table: Table, tracks: Sequence[Hashed], verdicts: Sequence[str] | None) -> None:
    for place, (track, sums, edc) in enumerate(tracks):
        bad = "-" if edc is None else len(edc.bad)
        kind = "data" if track.is_data else "audio"
        cells = (f"{track.number:02}", kind, track.first, track.end - track.first, *sums[:4], bad)
        table.row((*cells, verdicts[place]) if verdicts is not None else cells)


def sums_of_files(arguments: argparse.Namespace, outputs: Outputs) -> int:
    listed = read_dat(arguments.check) if arguments.check else None
    table = outputs.table(NAMES if listed is None else CHECKED, arguments.json)
    files, seen, differs = [], set[str](), False
    for path in arguments.files:
        found = sums_of(path)
        files.append((os.path.basename(path), found))
        verdict: tuple[str, ...] = ()
        if listed is not None:
            said, names = checked_file(path, found, listed)
            seen |= names
            differs |= not said.startswith(SAME)
            verdict = (said,)
        table.row((path, *found, *verdict))
    for it in listed or ():
        if it.name not in seen:
            differs = True
            tell(f"{shown(arguments.check)}: {shown(it.name)} is {MISSING}")
    if arguments.dat:
        outputs.write(arguments.dat, dat(arguments.name, files))
    return FOUND if differs else 0
