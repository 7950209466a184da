#!/usr/bin/env python3
"""Tests where `mend` places the pieces of readings, on random files of known discs: placing_cases.py [--cases N]
[--seed N] [--only N] [--show] [--stream] [--force]

Each case is a disc and two to five files of it, in five forms. Channels R to W of a file may be damaged. Its Q channel
may be good, partly bad, nearly all bad, or empty. It may have stale runs of 3 to 400 blocks, and missing or repeated
pieces, or be of another disc. For each block of a file, the case knows the position of the drive and the block of the
disc that the content comes from. The command runs without --force, as for an archivist. The script counts:

- perfect readings that lost a word that no graphics pack contradicts,
- results with fewer correct words than the best reading,
- wrong reported numbers,
- wrong words with exit status 0 that the rule would not have if all blocks were in their places,
- refusals.

No code is shared with the desk or the library. The exit status is 1 if one of the first four counts is not 0."""
import argparse
import binascii
import contextlib
import io
import pathlib
import random
import re
import shutil
import sys
import tempfile
from collections import Counter
from dataclasses import dataclass, field
from typing import Any, NamedTuple, Optional, Sequence

import mending_cases as rule
from mending_cases import NONE, Array, Decoded, Reading, Truth, np

from ribjasper import main as desk

BLOCK, WORD, AUDIO = 96, 24, 2352
WORN = ("scratched", "scratched densely", "worn", "unread in many places", "unread", "no R-W", "noise")
WORN_WEIGHTS = (6, 4, 5, 3, 4, 3, 1)
FORMS = ("raw", "raw", "raw", "planar", "sector", "sector-planar", "raw-swapped")
STALE_LENGTHS = (3, 5, 12, 20, 60, 100, 200, 400)


@dataclass
class File:
    """A file: its blocks, the position of the drive for each, and the block of the disc that each comes from, or -1."""

    blocks: Array
    home: Array
    origin: Array
    done: list[str] = field(default_factory=list)
    is_foreign: bool = False
    stale: Optional[Array] = None

    def keep(self, places: Array) -> None:
        self.blocks, self.home, self.origin = self.blocks[places], self.home[places], self.origin[places]


def clear_q(blocks: Array, which: Array) -> None:
    blocks[which] &= 0xBF


def damage_q(chance: random.Random, blocks: Array, which: Array) -> None:
    for at in np.flatnonzero(which):
        for _ in range(chance.choice((1, 2, 9))):
            blocks[at, chance.randrange(BLOCK)] ^= 0x40


def change_q(chance: random.Random, out: File) -> str:
    """Damages channel Q of a file, and returns the kind of damage."""
    count = len(out.blocks)
    kind = chance.choices(
        ("good", "bad in a part", "bad nearly everywhere", "none", "none in a part"), (40, 15, 15, 20, 10)
    )[0]
    rng = np.random.default_rng(chance.randrange(1 << 30))
    where = np.zeros(count, bool)
    first, end = rule.stretch(chance, count)
    if kind == "bad in a part":
        where[first:end] = rng.random(end - first) < chance.choice((0.2, 0.5, 0.8))
        damage_q(chance, out.blocks, where)
    elif kind == "bad nearly everywhere":
        where = rng.random(count) < chance.choice((0.9, 0.97, 0.99, 0.998))
        damage_q(chance, out.blocks, where)
    elif kind == "none":
        clear_q(out.blocks, ~where)
    elif kind == "none in a part":
        where[first:end] = True
        clear_q(out.blocks, where)
    out.done.append(f"Q {kind} {first}-{end}" if "part" in kind else f"Q {kind}")
    return kind


def add_stale(chance: random.Random, truth: Truth, out: File, q: str) -> None:
    """Replaces runs of blocks by blocks of another time, with good or partly bad frames of that time."""
    count = len(out.blocks)
    disc = truth.stream.reshape(-1, BLOCK)
    for _ in range(chance.choice((1, 1, 1, 2, 3, 4))):
        length = min(chance.choice(STALE_LENGTHS), count // 2)
        at = chance.choice((0, count - length, *[chance.randrange(count - length + 1)] * 6))
        lag = chance.choice((1, 5, 40, 0, 0, 0))
        other = max(0, at - lag) if lag else chance.randrange(count - length + 1)
        run = disc[other : other + length].copy()
        if q in ("bad in a part", "bad nearly everywhere") and chance.random() < 0.4:
            damage_q(chance, run, np.random.default_rng(chance.randrange(1 << 30)).random(length) < 0.5)
        out.blocks[at : at + length] = run
        out.origin[at : at + length] = np.arange(other, other + length)
        out.done.append(f"stale {at}-{at + length} of {other}")


def arrange(chance: random.Random, out: File, q: str, start: int) -> None:
    """Moves, repeats or removes pieces of the file, or adds a lead-in."""
    count = len(out.blocks)
    kind = chance.choices(
        ("whole", "later", "shorter", "exchanged", "repeated", "missing", "lead-in"), (55, 8, 8, 3, 8, 8, 10)
    )[0]
    if q == "none" and (kind == "exchanged" or chance.random() < 0.6):
        kind = "whole"
    cut = chance.randrange(count // 4, 3 * count // 4)
    length = min(chance.choice((1, 5, 30, 100)), count // 5)
    order = list(range(count))
    if kind == "later":
        order = order[cut // 2 :]
    elif kind == "shorter":
        order = order[: count - cut // 2]
    elif kind == "exchanged":
        order = order[cut:] + order[:cut]
    elif kind == "repeated":
        order = order[: cut + length] + order[cut:]
    elif kind == "missing":
        order = order[:cut] + order[cut + length :]
    if kind == "lead-in" and start == 0:
        add_lead_in(out, chance.choice((10, 60, 300)), q == "none")
    else:
        out.keep(np.array(order))
    out.done.append(kind if kind == "whole" else f"{kind} at {cut} by {length}")


def add_lead_in(out: File, count: int, is_bare: bool) -> None:
    """Adds blocks of a lead-in, with entries of the table of contents."""
    entry = bytes([1, 0, 0xA0, 0x97, 0x20, 0, 0, 1, 0, 0])
    bits = np.unpackbits(np.frombuffer(entry + (binascii.crc_hqx(entry, 0) ^ 0xFFFF).to_bytes(2, "big"), np.uint8)) << 6
    front = np.tile(bits, (count, 1)) & (0 if is_bare else 0x40)
    out.blocks = np.concatenate((front.astype(np.uint8), out.blocks))
    nothing = np.full(count, -1)
    out.home, out.origin = np.concatenate((nothing, out.home)), np.concatenate((nothing, out.origin))


def file_of(chance: random.Random, truth: Truth, start: int) -> File:
    reading = Reading(truth.stream.copy())
    count = len(reading.stream) // BLOCK
    roll, is_foreign = chance.random(), False
    if roll < 0.04:
        rule.damage(chance, truth, chance.choice(("shifted R-W", "foreign")), reading)
        is_foreign = True
    elif roll < 0.75:
        for kind in chance.choices(WORN, WORN_WEIGHTS, k=chance.choice((1, 1, 2, 3))):
            rule.damage(chance, truth, kind, reading)
    out = File(reading.stream.reshape(-1, BLOCK), np.arange(count), np.arange(count), reading.done, is_foreign)
    q = change_q(chance, out)
    if chance.random() < 0.5:
        add_stale(chance, truth, out, q)
    arrange(chance, out, q, start)
    return out


def planar(blocks: Array) -> Array:
    bits = np.unpackbits(blocks.reshape(-1, BLOCK, 1), axis=2)
    return np.packbits(bits.transpose(0, 2, 1), axis=2).reshape(-1, BLOCK)


def as_file(blocks: Array, form: str, seed: int) -> bytes:
    if form.endswith("planar"):
        blocks = planar(blocks)
    if form.endswith("swapped"):
        blocks = blocks.reshape(-1, 2)[:, ::-1].reshape(-1, BLOCK)
    if form.startswith("sector"):
        audio = np.random.default_rng(seed).integers(0, 256, (len(blocks), AUDIO), np.uint8)
        blocks = np.concatenate((audio, blocks), axis=1)
    content: bytes = blocks.tobytes()
    return content


# ---- The places of blocks.


def layers(blocks: Array, places: Array, count: int) -> list[Array]:
    """Streams of the disc with each block at its place; several streams if a place has several blocks."""
    found: list[Array] = []
    used: list[Array] = []
    for block, place in zip(blocks, places):
        if place < 0 or not block.any():
            continue
        layer = next((number for number, places_used in enumerate(used) if not places_used[place]), None)
        if layer is None:
            layer = len(found)
            found.append(np.zeros((count, BLOCK), np.uint8))
            used.append(np.zeros(count, bool))
        found[layer][place], used[layer][place] = block, True
    return [stream.ravel() for stream in found] or [np.zeros(count * BLOCK, np.uint8)]


def ideal_layers(it: File, count: int) -> list[Array]:
    """The blocks of a file at their places on the disc. Blocks that the drive read at the right position come first."""
    at_home = it.home == it.origin
    order = np.concatenate((np.flatnonzero(at_home), np.flatnonzero(~at_home)))
    return layers(it.blocks[order], it.origin[order], count)


# ---- The result of the command.


class Output(NamedTuple):
    """The result of the command. `lost` are the units in its table of missing words."""

    status: int
    content: bytes
    rows: list[list[str]]
    lines: str
    lost: Array


def run_command(folder: pathlib.Path, contents: Sequence[bytes], name: str, words: Sequence[str]) -> Output:
    names = []
    for number, content in enumerate(contents):
        path = folder / f"{number}.dump"
        path.write_bytes(content)
        names.append(str(path))
    out, table = folder / name, folder / "lost"
    rows, lines = io.StringIO(), io.StringIO()
    with contextlib.redirect_stdout(rows), contextlib.redirect_stderr(lines):
        status = desk.followed(["mend", *names, "-o", str(out), "--map", str(table), *words])
    content = out.read_bytes() if out.exists() else b""
    lost: list[int] = []
    if table.exists():
        for line in table.read_text().splitlines()[1:]:
            cells = line.split("\t")
            lost += range(int(cells[0]), int(cells[0]) + int(cells[2]))
    return Output(
        status, content, [it.split("\t") for it in rows.getvalue().splitlines()], lines.getvalue(), np.array(lost, int)
    )


def packs_of(stream: bytes, name: str) -> Array:
    """The packs of an output; for a stream, the packs of its words that are codewords."""
    if name.endswith(".cdg"):
        return np.frombuffer(stream, np.uint8).reshape(-1, WORD)
    reading = rule.decode(np.frombuffer(stream, np.uint8))
    return np.where((reading.kind == rule.NEAR)[:, None], reading.pack, 0)


class Case(NamedTuple):
    truth: Truth
    start: int
    files: list[File]
    output: Output
    packs: Array


def offset_of(case: Case) -> Optional[int]:
    """The block of the disc at which the output begins, if the command reports it."""
    found = re.search(r"(?:pack|block) (\d+) of \S+ is at the absolute time (\d+):(\d+):(\d+)", case.output.lines)
    if not found:
        return None
    minute, second, frame = (int(it) for it in found.groups()[1:])
    return 4500 * minute + 75 * second + frame - case.start


def aligned(case: Case, offset: int) -> tuple[Array, Array]:
    """The packs of the output, moved to the words of the disc, and which of these words the output has."""
    words = len(case.truth.words)
    packs, has = np.zeros((words, WORD), np.uint8), np.zeros(words, bool)
    at = np.arange(len(case.packs)) + 4 * offset
    inside = (at >= 0) & (at < words)
    packs[at[inside]], has[at[inside]] = case.packs[inside], True
    return packs, has


def correct_words(packs: Array, has: Array, truth: Truth) -> Array:
    """The correct words. A word that the output does not have, for example after its end, counts as idle."""
    right: Array = (packs == truth.words).all(axis=1)
    return right


def is_time_true(case: Case, offset: int) -> bool:
    """Whether most packs of the output that are not idle are those of the disc at the reported time, or at least more than
    at any other time."""
    packs, has = aligned(case, offset)
    busy = packs.any(axis=1)
    outside = int(case.packs.any(axis=1).sum()) - int(busy.sum())
    same = int((busy & correct_words(packs, has, case.truth)).sum())
    return 2 * same >= int(busy.sum()) + outside or offset == best_offset(case)


class Expected(NamedTuple):
    """The result of the rule with each block at its place, the decoded streams, the correct words of each file, and the decoded files."""

    result: Any
    decoded: list[Decoded]
    correct: list[Array]
    home: list[Decoded]


def expected(truth: Truth, files: Sequence[File]) -> Expected:
    count = len(truth.stream) // BLOCK
    streams = [stream for it in files for stream in ideal_layers(it, count)]
    home = [rule.decode(layers(it.blocks, it.home, count)[0]) for it in files]
    correct = [(rule.packs_of(reading) == truth.words).all(axis=1) for reading in home]
    return Expected(rule.mend(streams), [rule.decode(it) for it in streams], correct, home)


def reason_of_refusal(output: Output) -> str:
    for words, name in (
        ("seem to be of different discs", "not of one disc"),
        ("have no time", "no time"),
        ("determines the place of", "unknown places"),
        ("no known form", "no dump"),
        ("all bytes are zeros", "no dump"),
        ("is cooked", "no dump"),
    ):
        if words in output.lines:
            return name
    return "other: " + output.lines[-200:]


def count_case(
    chance: random.Random, folder: pathlib.Path, totals: Counter[str], show: bool, words: Sequence[str], name: str
) -> None:
    blocks, start = chance.choice((150, 400, 900, 1500)), chance.choice((0, 0, 150, 4000))
    truth = rule.truth_of(chance, blocks, chance.random() < 0.1, start)
    files = [file_of(chance, truth, start) for _ in range(chance.choice((2, 2, 2, 3, 3, 4, 5)))]
    contents = []
    for number, it in enumerate(files):
        form = chance.choice(FORMS)
        it.done.append(form)
        contents.append(as_file(it.blocks, form, number))
    output = run_command(folder, contents, name, words)
    notes = [f"{blocks} blocks from {start}", *("; ".join(it.done) for it in files)]
    foreign = any(it.is_foreign for it in files)
    prefix = "with a foreign reading: " if foreign else ""

    def count(what: str, number: int = 1) -> None:
        if number:
            totals[prefix + what] += number
            if show:
                print("==", prefix + what, number, *notes, output.lines, *map(" ".join, output.rows), sep="\n   ")

    if output.status == 9:
        totals["nothing to mend"] += 1
        return
    if output.status not in (0, 1):
        reason = reason_of_refusal(output)
        if reason != "no dump":
            count(f"refused, {reason}")
        else:
            totals["no dump"] += 1
        return
    totals[prefix + "cases"] += 1
    case = Case(truth, start, files, output, packs_of(output.content, name))
    reported = offset_of(case)
    compare(case, reported if reported is not None else best_offset(case), reported is not None, count, totals, prefix)


def best_offset(case: Case) -> int:
    """The offset at which most packs are correct."""
    at = range(-400, 401)
    return max(at, key=lambda offset: (int(correct_words(*aligned(case, offset), case.truth).sum()), -abs(offset)))


def compare(case: Case, offset: int, reports_time: bool, count: Any, totals: Counter[str], prefix: str) -> None:
    truth, output = case.truth, case.output
    reference = expected(truth, case.files)
    packs, has = aligned(case, offset)
    right = correct_words(packs, has, truth)
    best = max(int(words.sum()) for words in reference.correct)
    by_rule = (reference.result.packs == truth.words).all(axis=1)
    totals[prefix + "words of all discs"] += len(right)
    totals[prefix + "correct words"] += int(right.sum())
    totals[prefix + "correct words by the rule with all blocks in their places"] += int(by_rule.sum())
    totals[prefix + "correct words of the best readings"] += best
    if right.sum() < best:
        is_reported = "blocks are omitted" in output.lines
        name = "results with fewer correct words than the best reading"
        count(f"omitted blocks are reported: {name}" if is_reported else name, int(by_rule.sum() >= best))
        count("also by the rule, fewer correct words than the best reading", int(by_rule.sum() < best))
    if reports_time and not is_time_true(case, offset):
        count("the reported time is wrong")
    wrong = has & ~right & packs.any(axis=1)
    outside = int(case.packs.any(axis=1).sum()) - int(packs.any(axis=1).sum())
    rule_wrong = ~by_rule & (reference.result.sources != NONE)
    if output.status == 0 and ((has & ~right & ~rule_wrong).any() or outside):
        count("wrong words with exit status 0")
    totals[prefix + "wrong packs that are not idle"] += int(wrong.sum()) + outside
    totals[prefix + "wrong packs by the rule that are not idle"] += int((rule_wrong & reference.result.packs.any(axis=1)).sum())
    check_perfect(case, right, reference, count, totals, prefix)
    check_numbers(case, reference, offset, count)


def check_perfect(case: Case, right: Array, reference: Expected, count: Any, totals: Counter[str], prefix: str) -> None:
    truth = case.truth
    for reading, it in zip(reference.home, case.files):
        if not (reading.word == truth.words).all() or not (it.home == it.origin).all():
            continue
        totals[prefix + "perfect readings"] += 1
        if right.all():
            continue
        contradicted = np.zeros(len(right), bool)
        for other in reference.decoded:
            contradicted |= rule.graphics_of(other) & (other.pack != truth.words).any(axis=1)
        count(
            "perfect readings that lost a word that no graphics pack contradicts", int((~right & ~contradicted).any())
        )


def check_numbers(case: Case, reference: Expected, offset: int, count: Any) -> None:
    """Checks that the report fits the output. If the output is that of the rule, the report must also be that of the
    rule."""
    output = case.output
    cells = [[int(cell) for cell in row[1:]] for row in output.rows[1:]]
    found = re.search(r"(\d+) words have no codeword", output.lines)
    agreed = re.search(r"for (\d+) words, the result is a codeword on which", output.lines)
    none = int(found[1]) if found else 0
    words = len(case.packs)
    is_true = (
        all(row[0] == words for row in cells)
        and sum(row[1] for row in cells) + (int(agreed[1]) if agreed else 0) + none == words
        and output.status == int(bool(none or any(row[3] for row in cells)))
    )
    if (
        case.output.content
        and len(case.output.content) % WORD == 0
        and len(case.output.lost)
        and words == len(case.output.content) // WORD
    ):
        is_true = is_true and len(output.lost) == none and not case.packs[output.lost].any()
    count("reported numbers that are wrong", int(not is_true))
    is_plain = all((it.home == it.origin).all() and len(set(it.home.tolist())) == len(it.home) for it in case.files)
    if not is_plain or len(reference.decoded) != len(cells) or words != len(case.truth.words) or offset:
        return
    lost = rule.lost_of(reference.decoded, reference.result)
    rule_rows = [(int(dropped.sum()), number) for dropped, number in zip(reference.result.dropped, lost)]
    same = [(row[2], row[3]) for row in cells] == rule_rows and (case.packs == reference.result.packs).all()
    count("reports that differ from the rule", int(not same))


FAULTS = (
    "results with fewer",
    "perfect readings that lost",
    "reported numbers",
    "the reported time",
    "wrong words with exit",
    "reports that differ",
)


def main() -> int:
    parser = argparse.ArgumentParser(description=__doc__, formatter_class=argparse.RawDescriptionHelpFormatter)
    parser.add_argument("--cases", type=int, default=300)
    parser.add_argument("--seed", type=int, default=1)
    parser.add_argument("--only", type=int, help="run one case")
    parser.add_argument("--show", action="store_true", help="print the cases that are counted")
    parser.add_argument("--stream", action="store_true", help="write streams, not packs")
    parser.add_argument("--force", action="store_true", help="mend with --force")
    arguments = parser.parse_args()
    totals: Counter[str] = Counter()
    numbers = range(arguments.cases) if arguments.only is None else [arguments.only]
    with tempfile.TemporaryDirectory(prefix="ribjasper-placing-") as top:
        for number in numbers:
            chance = random.Random(arguments.seed * 1_000_003 + number)
            folder = pathlib.Path(top) / str(number)
            folder.mkdir()
            if arguments.show:
                print("case", number)
            name = "out.raw" if arguments.stream else "out.cdg"
            count_case(chance, folder, totals, arguments.show, ["--force"] if arguments.force else [], name)
            shutil.rmtree(folder)
    for name, total in sorted(totals.items()):
        print(f"{total:10} {name}")
    return int(any(total for name, total in totals.items() if name.startswith(FAULTS)))


if __name__ == "__main__":
    sys.exit(main())
