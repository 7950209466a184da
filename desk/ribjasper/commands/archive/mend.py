"""The command `mend`: packs or a stream from several readings of a disc, with the best codeword of each word."""
import argparse
import os
from typing import Callable, Iterator, NamedTuple, Sequence

from ...common import kinds, library
from ...common.failures import FOUND, Nothing, Refusal, shown
from ...common.library import BLOCK, PACK, PACKS_A_BLOCK
from ...common.output import Outputs, Table, add_json, tell
from ...common.progress import progress
from ...common.times import spelled
from ...common.words import Commands
from ...dumps import mending
from ...dumps.drive_errors import drive_errors
from ...dumps.forms import to_planar
from ...dumps.loading import add_options, asked
from ...dumps.placing import side_by_side
from ...dumps.readings import Laid, Reading, read_reading
from ...dumps.rescue_maps import areas, domain, unread_units
from ...dumps.columns import Run
from ...dumps.survey import Clock
from ...dumps.text_packs import text_packs_in

NAMES = ("reading", "words", "of-reading", "left-out", "lost")
DIFFERENCES = ("first", "last", "from", "to")
# The content of an output follows from its ending. An output without an ending, for example a pipe, contains packs.
PACKS, STREAMS, PLANAR = ".cdg", (".raw", ".subcode"), ".sub"
ENDINGS = (PACKS, *STREAMS, PLANAR)
# At least this share of the packs that two readings of one disc have in common is equal.
LEAST_SHARE = 0.5
# Fewer than TOO_FEW common packs decide nothing. Tracks are compared at COMPARED times.
TOO_FEW, COMPARED = 12, 200
PLANAR_AT_ONCE = 4096 * BLOCK


def add_parser(commands: Commands) -> None:
    parser = commands.add_parser(
        "mend",
        help="make one .cdg file or stream from several readings of a disc",
        description="Makes one result from several readings of a disc. The times in good Q frames show how the "
        "readings fit together. For each word, the result is the codeword of the reading with the fewest wrong "
        "symbols, or a codeword on which readings agree. The output is a .cdg file, or a stream of raw blocks (.raw, "
        ".subcode) or planar blocks (.sub). The P and Q of a block in this stream come from a reading with a good "
        "frame there. --compare only reports whether two dumps are of the same disc, the offset between them, and "
        "the blocks that differ. The exit status is 1 if a word has no codeword, if an error-free word of a reading "
        "is not in the result, or if compared dumps differ. It is 9 if no reading has graphics.",
    )
    parser.add_argument("files", nargs="+", metavar="READING")
    parser.add_argument(
        "-o",
        "--output",
        metavar="OUT.cdg",
        help="the output: packs, or a stream if the name ends in .raw, .subcode or .sub",
    )
    parser.add_argument(
        "--unread",
        action="append",
        default=[],
        metavar="MAP",
        help="a map of ddrescue for one reading; its name is that of the reading, with .map appended or in place of "
        "the ending; blocks that the map lacks count as unread",
    )
    parser.add_argument(
        "--map", metavar="FILE", help="write a table of the words that no reading has, with positions in the output"
    )
    parser.add_argument(
        "--ddrescue-map", metavar="FILE", help="write the same positions as a map of bytes, for ddrescue's option -m"
    )
    parser.add_argument("--compare", action="store_true", help="compare two dumps, and write only a table")
    add_options(parser)
    add_json(parser)
    parser.add_argument(
        "--force",
        action="store_true",
        help="mend readings that seem to be of different discs; overwrite an existing output of any kind",
    )
    parser.set_defaults(run=run, error=parser.error)


def ending_of(path: str) -> str:
    return os.path.splitext(path)[1].lower()


def is_stream(path: str) -> bool:
    return ending_of(path) in (*STREAMS, PLANAR)


def kind_of_output(path: str) -> kinds.Kind:
    return kinds.STREAM if is_stream(path) else kinds.CDG


def at_time(laid: Laid, block: int) -> str:
    return spelled(laid.time + block)


def odd_ones(laid: Laid) -> Iterator[str]:
    """Messages on pairs of readings that seem to be of different discs."""
    for (a, b), own in mending.in_common(laid).items():
        # Parts that claim a place twice are of the same file.
        if laid.readings[a].is_beside or laid.readings[b].is_beside:
            continue
        if own.all >= TOO_FEW and own.same < LEAST_SHARE * own.all:
            yield f"readings {a + 1} and {b + 1} seem to be of different discs: {own.same} of {own.all} common packs are equal"
            continue
        blocks, agree = tracks_that_agree(laid, a, b)
        if blocks and agree < LEAST_SHARE * blocks:
            yield f"readings {a + 1} and {b + 1} seem to be of different discs: their tracks agree at {agree} of {blocks} times"


def tracks_that_agree(laid: Laid, a: int, b: int) -> tuple[int, int]:
    """Compares the tracks of two readings at times spread over the disc: returns at how many times both have a track,
    and at how many it is the same."""
    clocks = [Clock(laid.readings[number].loaded.survey) for number in (a, b)]
    if not all(clock.stretches for clock in clocks):
        return 0, 0
    found = agree = 0
    for place in range(COMPARED):
        time = laid.time + laid.blocks * place // COMPARED
        tracks = [track_at(laid, number, clock, time) for number, clock in zip((a, b), clocks)]
        if None not in tracks:
            found += 1
            agree += tracks[0] == tracks[1]
    return found, agree


def track_at(laid: Laid, number: int, clock: Clock, time: int) -> int | None:
    """The track of a reading at a time, by the nearest frame of the same part."""
    for part in laid.readings[number].parts:
        block = time - part.shift
        if part.first <= block < part.end:
            nearest = clock.stretch(block)
            return clock.track(block) if nearest and nearest.shift == part.shift else None
    return None


def twice(laid: Laid) -> Iterator[str]:
    """Messages about parts of a file whose times also occur in other parts of the same file."""
    for number, reading in enumerate(laid.readings, 1):
        for part in reading.parts if reading.is_beside else ():
            blocks = f"blocks {part.first} to {part.end - 1} of {shown(reading.path)}"
            yield f"{blocks} repeat the times of other blocks, from {spelled(part.time)} on; they count as reading {number}"


def write_stream(content: memoryview, path: str, write: Callable[[bytes], object]) -> None:
    """Writes packs or raw blocks in the form of the output."""
    if ending_of(path) != PLANAR:
        write(content)
        return
    for start in range(0, len(content), PLANAR_AT_ONCE):
        write(to_planar(bytes(content[start : start + PLANAR_AT_ONCE])))


class Units(NamedTuple):
    """The units of an output in maps, blocks or packs: their name, their size, and how many precede the program."""

    name: str
    size: int
    before: int

    def lost(self, mended: mending.Mended) -> list[Run]:
        """The units without a codeword, by positions in the output."""
        found = mended.lost_blocks() if self.size == BLOCK else mended.lost_words()
        return [Run(self.before + run.first, self.before + run.last) for run in found]

    def block(self, place: int) -> int:
        """The block of the program at a position."""
        return (place - self.before) * self.size // BLOCK


def loss_table(laid: Laid, units: Units, lost: list[Run]) -> bytes:
    rows = [
        f"{run.first}\t{at_time(laid, laid.lead_in + units.block(run.first))}\t{run.last - run.first + 1}\n"
        for run in lost
    ]
    return "".join([f"{units.name}\ttime\t{units.name}s\n", *rows]).encode()


def best_lead_in(laid: Laid) -> tuple[int, bytes]:
    """The lead-in of a reading with texts, or else of any reading; of several, from the reading with the fewest lost
    words. Returns the number of the reading and the blocks."""
    found: list[tuple[bool, int, bytes, int]] = []
    for number, reading in enumerate(laid.readings, 1):
        survey = reading.loaded.survey
        if laid.time == 0 and survey.first < reading.lead_in and not reading.is_beside:
            blocks = b"".join(content for _, content in reading.blocks(survey.first, reading.lead_in))
            lost = PACKS_A_BLOCK * sum(survey.empty) + survey.total("bad")
            found.append((bool(text_packs_in(blocks)), -lost, blocks, -number))
    *_, blocks, number = max(found, default=(False, 0, b"", 0))
    return -number, blocks


def report_mended(laid: Laid, mended: mending.Mended, table: Table) -> int:
    """Prints the counts of each reading; returns the exit status."""
    for reading, counts in zip(laid.readings, mended.counts):
        table.row((reading.path, len(mended.sources), *counts))
    if mended.agreed:
        tell(f"for {mended.agreed} words, the result is a codeword on which two readings agree")
    if mended.none:
        tell(f"{mended.none} words have no codeword")
    for number, counts in enumerate(mended.counts, 1):
        if counts.left_out:
            tell(f"{counts.left_out} words of reading {number} are ignored: they are idle packs or probably noise")
        if counts.lost:
            tell(f"{counts.lost} error-free words of reading {number} are not in the result")
    return FOUND if mended.none or any(counts.lost for counts in mended.counts) else 0


def run(arguments: argparse.Namespace) -> int:
    if len(arguments.files) < 2:
        arguments.error("at least two readings are needed")
    if len(arguments.files) > library.READINGS:
        arguments.error(f"at most {library.READINGS} readings can be mended at once")
    if arguments.compare and (len(arguments.files) > 2 or arguments.output or arguments.map or arguments.ddrescue_map):
        arguments.error("--compare needs two dumps and writes no file")
    if not arguments.compare and not arguments.output:
        arguments.error("the following arguments are required: -o/--output")
    if arguments.output and ending_of(arguments.output) not in ("", *ENDINGS):
        raise Refusal(
            arguments.output, f"the name must end in {', '.join(ENDINGS[:-1])} or {ENDINGS[-1]}, or have no ending"
        )
    files = [(arguments.map, kinds.TABLE_OF_BLOCKS), (arguments.ddrescue_map, kinds.DDRESCUE)]
    if arguments.output:
        files.append((arguments.output, kind_of_output(arguments.output)))
    with Outputs([*arguments.files, *arguments.unread], files, arguments.force) as outputs:
        laid = side_by_side(read_all(arguments))
        if len(laid.readings) > library.READINGS:
            laid.readings = laid.readings[: library.READINGS]
            tell(f"at most {library.READINGS} readings can be mended at once; the other parts of files are omitted")
        for line in (*twice(laid), *laid.notes):
            tell(line)
        odd = list(odd_ones(laid))
        if arguments.compare:
            return compare(laid, odd, outputs.table(DIFFERENCES, arguments.json))
        if odd and not arguments.force:
            raise Refusal(arguments.files[0], *odd, "--force mends these readings anyway")
        if laid.objections and not arguments.force:
            raise Refusal(arguments.files[0], *laid.objections, "--force mends the readings without these blocks")
        for line in odd:
            tell(line)
        if not is_stream(arguments.output) and not mending.has_graphics(laid):
            raise Nothing("there is nothing to mend: no reading has graphics")
        return write_mended(arguments, laid, outputs)


def read_all(arguments: argparse.Namespace) -> list[Reading]:
    """Loads the readings and prints notes on them. Only the returned readings keep their streams."""
    files = progress(arguments.files, len(arguments.files), "readings")
    readings = [read_reading(path, asked(arguments)) for path in files]
    for path in arguments.unread:
        leave_unread(readings, path)
    for reading in readings:
        for note in (*reading.loaded.notes(), *drive_notes(reading)):
            tell(f"{shown(reading.path)}: {note}")
    return readings


def drive_notes(reading: Reading) -> Iterator[str]:
    """A note on the sectors in which a drive reported errors. Their words count as usual: the errors belong to the main
    channel, and the subcode of such a sector is usually right."""
    survey = reading.loaded.survey
    if errors := drive_errors(reading.path, survey.blocks):
        names = ", ".join(map(shown, errors.names))
        inside = errors.within(survey.first, survey.end)
        yield f"the drive reported errors in {inside} sectors ({names}); the words in these sectors count as usual"


def leave_unread(readings: Sequence[Reading], path: str) -> None:
    """Marks blocks as unread by a ddrescue map, in the reading next to it."""
    stem = os.path.splitext(path)[0]
    own = [it for it in readings if stem in (it.path, os.path.splitext(it.path)[0])]
    if not own:
        raise Refusal(
            path, "belongs to no reading; name it like a reading, with .map appended or in place of the ending"
        )
    for reading in own:
        dump, form = reading.loaded.dump, reading.loaded.form
        found = unread_units(areas(path), dump.skip, form.unit, dump.units(form))
        reading.unread = found
        blocks = sum(it.last - it.first + 1 for it in found)
        tell(f"{shown(reading.path)}: {blocks} blocks are unread according to {shown(path)}")


def write_mended(arguments: argparse.Namespace, laid: Laid, outputs: Outputs) -> int:
    out = outputs.open(arguments.output)
    wants_blocks = is_stream(arguments.output)
    before = 0
    if wants_blocks:
        number, lead_in = best_lead_in(laid)
        before = len(lead_in) // BLOCK
        if before:
            write_stream(memoryview(lead_in), arguments.output, out.write)
            tell(f"the lead-in of {before} blocks comes from reading {number}")
    mended = mending.mend_laid(laid, wants_blocks)
    write_stream(mended.content, arguments.output, out.write)
    units = Units("block", BLOCK, before) if wants_blocks else Units("pack", PACK, 0)
    place = f"{units.name} {before} of {shown(arguments.output)}"
    if laid.has_times:
        tell(f"{place} is at the absolute time {at_time(laid, laid.lead_in)}")
    else:
        tell(f"{place} is block {laid.lead_in} of each reading: no Q frame determines its absolute time")
    lost = units.lost(mended)
    if arguments.map:
        outputs.write(arguments.map, loss_table(laid, units, lost))
    if arguments.ddrescue_map:
        size = units.size * before + len(mended.content)
        bytes_lost = [(units.size * run.first, units.size * (run.last + 1)) for run in lost]
        outputs.write(arguments.ddrescue_map, domain(size, bytes_lost, "stream" if wants_blocks else "packs"))
    return report_mended(laid, mended, outputs.table(NAMES, arguments.json))


def compare(laid: Laid, odd: list[str], table: Table) -> int:
    """Prints whether two dumps are of one disc, their offset, and the blocks that differ. If one has no graphics, only
    P and Q are compared."""
    tell(odd[0] if odd else "the dumps seem to be of one disc")
    has = [reading.has_graphics for reading in laid.readings[:2]]
    has_both = has[0] == has[1]
    if not has_both:
        tell(f"the {'second' if has[0] else 'first'} dump has no channels R to W: only P and Q are compared")
    first, second = [reading for reading in laid.readings if not reading.is_beside]
    shifts = [next((part.shift for part in it.parts if part.known), None) for it in (first, second)]
    if shifts[0] is not None and shifts[1] is not None:
        offset = shifts[1] - shifts[0]
        tell(f"block n of the first dump is block n {'-' if offset >= 0 else '+'} {abs(offset)} of the second dump")
    differing = 0
    begins = range(0, laid.blocks, mending.AT_ONCE)
    for begin in progress(begins, len(begins), "parts"):
        end = min(laid.blocks, begin + mending.AT_ONCE)
        a, b = (bytes(laid.window(reading, begin, end)) for reading in (first, second))
        if not has_both:
            a, b = mending.without_graphics(a), mending.without_graphics(b)
        for run in mending.differing_blocks(a, b):
            found = Run(begin + run.first, begin + run.last)
            differing += found.last - found.first + 1
            table.row((found.first, found.last, at_time(laid, found.first), at_time(laid, found.last)))
    tell(f"{differing} of {laid.blocks} blocks differ")
    return FOUND if odd or differing else 0
