"""Restores bad Q frames between good ones if only one frame is possible, keeps frames that were changed by design, and
checks P and the indexes against Q."""
import argparse
from typing import Any

from ...common import kinds
from ...common.failures import FOUND, Refusal, reading, shown
from ...common.output import Outputs, add_force, add_json, tell
from ...common.progress import progress
from ...common.words import Commands
from ...dumps.dump import READ_AT_ONCE
from ...dumps.forms import Coding, Form, in_order, subcode, to_planar, to_pq
from ...dumps.loading import Loaded, add_options, asked, load_raw
from ...dumps.protection import lsd, sbi
from ...dumps.q_disc import Source
from ...dumps.q_repair import NAMES, fixed, with_q


def as_unit(block: bytes, form: Form) -> bytes:
    """The subcode of a unit, of its raw block."""
    coded = {Coding.PLANAR: to_planar, Coding.PQ: to_pq}.get(form.coding, bytes)(block)
    return in_order(coded, form.order)


def write_copy(loaded: Loaded, frames: dict[int, bytes], out: Any) -> None:
    """The file with these frames in place of the bad ones, and otherwise unchanged."""
    form, start = loaded.form, loaded.dump.skip
    at_once = READ_AT_ONCE // form.unit
    with reading(loaded.path), open(loaded.path, "rb") as file:
        out.write(file.read(start))
        first, parts = 0, iter(lambda: file.read(at_once * form.unit), b"")
        for units in progress(parts, -(-loaded.survey.blocks // at_once), "parts"):
            changed = bytearray(units)
            for block in range(first, first + len(units) // form.unit):
                if block in frames:
                    end = (block - first + 1) * form.unit
                    own = subcode(units[end - form.unit : end], form)
                    changed[end - form.size : end] = as_unit(with_q(own, frames[block]), form)
            out.write(changed)
            first += at_once


def add_parser(commands: Commands) -> None:
    parser = commands.add_parser(
        "q-fix",
        help="repair bad Q frames between good ones, in a copy of a dump",
        description="Lists the bad Q frames of a dump. With -o, it also writes a copy in which some bad frames are "
        "repaired: those between two good frames of one index of one track whose times continue. Only one time is "
        "possible there. Other bad frames are listed with the reason, and stay unchanged. Frames that were changed "
        "on purpose also stay unchanged: pairs like those of the copy protection LibCrypt ('changed'), frames that "
        "may belong to such a pair ('doubtful'), and frames that all differ from the right ones in the same way "
        "('regular'). --sbi and --lsd write the changed pairs for emulators. The command also compares channel P and "
        "the order of tracks and indices with channel Q. The exit status is 1 if a bad frame remains, or if P or the "
        "order is wrong.",
    )
    parser.add_argument("file", metavar="DUMP")
    parser.add_argument("-o", "--output", metavar="OUT", help="the copy, which has the form of the dump")
    parser.add_argument("--sbi", metavar="OUT.sbi", help="write the changed frames without their CRC")
    parser.add_argument("--lsd", metavar="OUT.lsd", help="write the changed frames with their CRC")
    add_options(parser)
    add_json(parser)
    add_force(parser)
    parser.set_defaults(run=run)


def run(arguments: argparse.Namespace) -> int:
    path = arguments.file
    writes = [(arguments.output, kinds.STREAM), (arguments.sbi, kinds.SBI), (arguments.lsd, kinds.LSD)]
    with Outputs([path], writes, arguments.force) as outputs:
        loaded = load_raw(path, asked(arguments), "Q channel")
        if not loaded.survey.has_q:
            raise Refusal(path, "its Q channel was not read")
        found = fixed(Source(loaded))
        table = outputs.table(NAMES, arguments.json)
        for row in found.rows:
            table.row(row)
        if found.changed:
            tell(
                f"{shown(path)}: {len(found.changed)} frames belong to pairs like those of LibCrypt; they stay unchanged"
            )
        elif arguments.sbi or arguments.lsd:
            raise Refusal(path, "has no pairs of frames like those of LibCrypt")
        tell(
            f"{shown(path)}: {len(found.frames)} frames {'are' if arguments.output else 'can be'} filled in, "
            f"{found.left()} listed problems remain"
        )
        if arguments.output:
            write_copy(loaded, found.frames, outputs.open(arguments.output))
        for name, content in ((arguments.sbi, sbi), (arguments.lsd, lsd)):
            if name:
                outputs.write(name, content(found.changed))
        return FOUND if found.left() else 0
