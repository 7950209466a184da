#!/usr/bin/env python3
"""Tests the rule of mending on random readings of known streams: mending_cases.py [--cases N] [--seed N] [--desk]

The rule (include/ribjasper.h, Mending) is implemented here once more, with numpy; no code is shared with the desk or
the library. Each case is a stream with busy and idle stretches, and two to five readings of it with several kinds of
damage. With --desk, the readings are written as files of several forms, and the command `mend` of the desk mends them;
its output and its report must be those of the rule. In some cases, blocks or channels R to W come from another place
or disc. For these the script counts the reasons why a reading is better than the result.

The exit status is 1 if a perfect reading loses a word that no graphics pack contradicts, if the result has fewer
correct words than the best reading, or if a reported number is wrong."""
import argparse
import binascii
import contextlib
import importlib
import io
import itertools
import pathlib
import random
import re
import shutil
import sys
import tempfile
from collections import Counter
from dataclasses import dataclass, field
from typing import Any, NamedTuple, Optional, Sequence

from compare_mending import agreement, all_errors
from field64 import power, times
from reckon_rows import parity
from subcode import PLACES

TOP = pathlib.Path(__file__).resolve().parents[2]
sys.path.insert(0, str(TOP / "desk"))

from ribjasper import main as desk  # noqa: E402

np: Any = importlib.import_module("numpy")
Array = Any

AGREED, NONE = 254, 255
KNOWN = (1, 2, 6, 20, 24, 28, 30, 31, 38)
# The modes and items that discs use: line graphics, graphics, extended graphics, MIDI.
USED = (8, 9, 10, 24)
# A word is unread, or far from every codeword, or near one.
UNREAD, FAR, NEAR = 0, 1, 2
# The message of the desk about files whose form is unknown.
NO_DUMP = "no known form fits", "all bytes are zeros"


def tables() -> tuple[Array, Array, Array]:
    """The sums of each symbol at each place, the sorted sums of all errors of one or two symbols, and these errors."""
    entries = np.zeros((24, 64), np.int64)
    for place, symbol in itertools.product(range(24), range(64)):
        sums = [times(power(j * (23 - place)), symbol) for j in range(4)]
        sums += [times(power(j * (3 - place)), symbol) if place < 4 else 0 for j in range(2)]
        entries[place, symbol] = sum(value << 6 * j for j, value in enumerate(sums))
    single = [(place, symbol) for place in range(24) for symbol in range(1, 64)]
    errors = [(0, 0, 0, 0)] + [(p, s, 0, 0) for p, s in single]
    errors += [(p, s, q, t) for (p, s), (q, t) in itertools.combinations(single, 2) if p != q]
    rows = np.array(errors, np.uint8)
    sums = entries[rows[:, 0], rows[:, 1]] ^ entries[rows[:, 2], rows[:, 3]]
    order = np.argsort(sums)
    return entries, sums[order], rows[order]


ENTRIES, SUMS, ERRORS = tables()
ALL_ERRORS = all_errors()


def pack(chance: random.Random, first: Optional[int] = None) -> bytes:
    known = {0: 9, 1: chance.choice(KNOWN)} if first is None else {0: first, 1: chance.randrange(64)}
    known[2], known[3] = parity(known, 4, 2, [2, 3])
    sparse = chance.random() < 0.4
    known.update(
        {
            place: chance.choice((0, 0, 0, 63, chance.randrange(64))) if sparse else chance.randrange(64)
            for place in range(4, 20)
        }
    )
    for place, symbol in zip(range(20, 24), parity(known, 24, 4, [20, 21, 22, 23])):
        known[place] = symbol
    return bytes(known[place] for place in range(24))


_some = random.Random(99)
PACKS = [pack(_some) for _ in range(300)]
OTHERS = [pack(_some, first) for first in (8, 10, 24) for _ in range(40)]


def bcd(value: int) -> int:
    return value // 10 * 16 + value % 10


def q_bits(block: int) -> Array:
    minute, second, frame = block // 4500, block // 75 % 60, block % 75
    content = bytes([1, 1, 1, bcd(minute), bcd(second), bcd(frame), 0, bcd(minute), bcd(second), bcd(frame)])
    content += (binascii.crc_hqx(content, 0) ^ 0xFFFF).to_bytes(2, "big")
    return np.unpackbits(np.frombuffer(content, np.uint8)) << 6


@dataclass
class Truth:
    stream: Array
    words: Array


def truth_of(chance: random.Random, blocks: int, modes: bool, start: int = 200) -> Truth:
    """A stream with busy and idle stretches. Some packs begin before its first block, or end after its last one."""
    slots = 4 * blocks + 7
    words = np.zeros((slots, 24), np.uint8)
    at = 0
    busy = chance.random() < 0.6
    while at < slots:
        length = chance.choice((3, 20, 80, 400, 1500))
        density = chance.choice((0.05, 0.5, 0.95, 1.0))
        if busy:
            for n in range(at, min(slots, at + length)):
                if chance.random() < density:
                    words[n] = np.frombuffer(
                        chance.choice(OTHERS if modes and chance.random() < 0.5 else PACKS), np.uint8
                    )
        busy = not busy
        at += length
    symbols = np.zeros(24 * (slots + 8), np.uint8)
    for i, place in enumerate(PLACES):
        symbols[place : place + 24 * slots : 24] = words[:, i]
    stream = symbols[24 * 7 : 24 * 7 + 96 * blocks].copy()
    for block in range(blocks):
        stream[96 * block : 96 * block + 96] |= q_bits(start + block)
    return Truth(stream, words[7 : 7 + max(0, 4 * blocks - 7)])


@dataclass
class Reading:
    stream: Array
    done: list[str] = field(default_factory=list)


def stretch(chance: random.Random, blocks: int) -> tuple[int, int]:
    length = max(1, int(blocks * chance.choice((0.01, 0.05, 0.2, 0.5, 1.0))))
    first = chance.randrange(max(1, blocks - length + 1))
    return first, min(blocks, first + length)


def damage(chance: random.Random, truth: Truth, kind: str, out: Reading) -> None:
    stream = out.stream
    blocks = len(stream) // 96
    first, end = stretch(chance, blocks)
    part = slice(96 * first, 96 * end)
    rng = np.random.default_rng(chance.randrange(1 << 30))
    out.done.append(f"{kind} {first}-{end}")
    if kind in ("scratched", "scratched densely"):
        longest = chance.choice((8, 30, 60, 200))
        count = max(1, (end - first) // (40 if kind == "scratched" else 3))
        for _ in range(count):
            at = chance.randrange(96 * first, 96 * end)
            length = chance.randrange(1, longest)
            stream[at : at + length] = rng.integers(0, 256, len(stream[at : at + length]), np.uint8)
    elif kind == "worn":
        for at in rng.integers(96 * first, 96 * end, max(1, (end - first) * chance.choice((1, 3, 8)))):
            stream[at] ^= chance.randrange(1, 64)
    elif kind == "noise":
        stream[part] = stream[part] & 0xC0 | rng.integers(0, 64, 96 * (end - first), np.uint8)
    elif kind == "no R-W":
        stream[part] &= 0xC0
    elif kind == "unread":
        stream[part] = 0
    elif kind == "unread in many places":
        for _ in range(chance.randrange(2, 12)):
            at = chance.randrange(blocks)
            stream[96 * at : 96 * (at + chance.choice((1, 1, 2, 5)))] = 0
    elif kind == "no Q":
        stream &= 63
    elif kind == "bad Q":
        for at in range(first, end):
            if chance.random() < 0.5:
                stream[96 * at + chance.randrange(96)] ^= 0x40
    elif kind == "stale":
        length = min(end - first, chance.choice((1, 3, 20, 100)))
        other = chance.randrange(blocks - length + 1)
        stream[96 * first : 96 * (first + length)] = truth.stream[96 * other : 96 * (other + length)]
    elif kind == "shifted R-W":
        by = chance.choice((-3, -1, 1, 2, 30))
        stream[:] = stream & 0xC0 | np.roll(stream & 63, 96 * by)
    elif kind == "foreign":
        another = truth_of(chance, blocks, False)
        stream[:] = stream & 0xC0 | another.stream & 63


MILD = (
    "scratched",
    "scratched densely",
    "worn",
    "unread in many places",
    "unread",
    "bad Q",
    "no Q",
    "no R-W",
    "noise",
    "stale",
)
WEIGHTS = (6, 4, 5, 3, 4, 3, 3, 4, 2, 1)


def reading_of(chance: random.Random, truth: Truth) -> Reading:
    out = Reading(truth.stream.copy())
    roll = chance.random()
    if roll < 0.12:
        count = 0
    elif roll < 0.2:
        damage(chance, truth, chance.choice(("no Q", "bad Q")), out)
        count = 0
    elif roll < 0.23:
        damage(chance, truth, chance.choice(("shifted R-W", "foreign")), out)
        count = 1
    else:
        count = chance.choice((1, 1, 2, 2, 3))
    for kind in chance.choices(MILD, WEIGHTS, k=count):
        damage(chance, truth, kind, out)
    return out


# ---- The rule.


@dataclass
class Decoded:
    """The words of a reading: their symbols and kinds, and the pack, wrong symbols and distance of the nearest codeword."""

    word: Array
    kind: Array
    pack: Array
    wrong: Array
    distance: Array
    unread: Array


def is_idle(packs: Array) -> Array:
    return ~packs.any(axis=1)


def has_used_mode(packs: Array) -> Array:
    return np.isin(packs[:, 0], USED)


def decode(stream: Array, mask: Optional[Array] = None) -> Decoded:
    words = max(0, len(stream) // 24 - 7)
    n = np.arange(words)
    symbols = stream & 63
    word = symbols[24 * n[:, None] + np.array(PLACES)[None, :]]
    empty = ~stream.reshape(-1, 96).any(axis=1)
    if mask is not None:
        empty = empty | mask
    first, last = n // 4, (n + 7) // 4
    under = np.stack([empty[first], empty[np.minimum(first + 1, last)], empty[last]])
    sums = np.bitwise_xor.reduce(ENTRIES[np.arange(24)[None, :], word], axis=1) if words else np.zeros(0, np.int64)
    at = np.minimum(np.searchsorted(SUMS, sums), len(SUMS) - 1)
    near = SUMS[at] == sums
    error = ERRORS[at]
    right = word.copy()
    for k in (0, 2):
        right[n, error[:, k]] ^= np.where(near, error[:, k + 1], 0).astype(np.uint8)
    wrong = np.where(near, (right != word).sum(axis=1), 0)
    kind = np.where(near, NEAR, FAR)
    kind[under.all(axis=0)] = UNREAD
    distance = wrong.copy()
    idle = is_idle(right)
    distance[idle & under.any(axis=0)] = 3
    return Decoded(word, kind, right, wrong, distance, under.all(axis=0))


@dataclass
class Result:
    packs: Array
    sources: Array
    dropped: Array
    graphics: Array


def graphics_of(reading: Decoded) -> Array:
    """The words at which a reading has a graphics pack, or another codeword at distance 0 that is not idle."""
    known = (reading.pack[:, 0] == 9) & np.isin(reading.pack[:, 1], KNOWN)
    clean = (reading.distance == 0) & ~is_idle(reading.pack)
    return (reading.kind == NEAR) & (known | clean)


def lacks_graphics(reading: Decoded, graphics: Array) -> Array:
    """The words at which a reading has the idle pack and lacks graphics: it misses graphics at a word of the same quiet
    stretch."""
    idle = (reading.kind == NEAR) & is_idle(reading.pack)
    quiet = idle | (reading.kind == UNREAD)
    misses = idle & graphics
    edges = np.flatnonzero(np.diff(np.concatenate(([0], quiet.astype(np.int8), [0]))))
    found = np.zeros(len(idle), bool)
    for start, end in zip(edges[0::2], edges[1::2]):
        found[start:end] = misses[start:end].any()
    return found & idle


def mend(readings: Sequence[Array], masks: Optional[Sequence[Array]] = None) -> Result:
    decoded = [decode(stream, masks[k] if masks else None) for k, stream in enumerate(readings)]
    words = len(decoded[0].kind)
    graphics = np.zeros(words, bool)
    for reading in decoded:
        graphics |= graphics_of(reading)
    lacks = np.stack([lacks_graphics(reading, graphics) for reading in decoded])
    quiet = np.stack([(reading.kind == UNREAD) | (reading.kind == NEAR) & is_idle(reading.pack) for reading in decoded]).any(axis=0)
    doubtful = np.stack(
        [(reading.kind == NEAR) & ~is_idle(reading.pack) & (reading.distance > 0) & ~has_used_mode(reading.pack) for reading in decoded]
    )
    dropped = lacks | doubtful & quiet
    packs, sources = np.zeros((words, 24), np.uint8), np.full(words, NONE)
    kinds = np.stack([reading.kind for reading in decoded])
    kinds[dropped] = UNREAD  # these codewords do not count
    distances = np.stack([reading.distance for reading in decoded])
    some = np.stack([reading.pack for reading in decoded])
    easy = (kinds == NEAR).all(axis=0) & (some == some[0]).all(axis=(0, 2)) & (distances == distances[0]).all(axis=0)
    packs[easy], sources[easy] = some[0][easy], 0
    for n in np.flatnonzero(~easy):
        packs[n], sources[n] = choose(
            [decoded[r].word[n] for r in range(len(decoded))], kinds[:, n], some[:, n], distances[:, n]
        )
    return Result(packs, sources, dropped, graphics)


def choose(words: Sequence[Array], kinds: Array, packs: Array, distances: Array) -> tuple[Array, int]:
    """The pack of a word and its source."""
    nothing = np.zeros(24, np.uint8), NONE
    candidates = {r: (packs[r].tobytes(), int(distances[r])) for r in range(len(kinds)) if kinds[r] == NEAR}
    if candidates:
        smallest = min(distance for _, distance in candidates.values())
        best = {codeword for codeword, distance in candidates.values() if distance == smallest}
        votes = {codeword: sum(it[0] == codeword for it in candidates.values()) for codeword in best}
        most = [codeword for codeword in best if votes[codeword] == max(votes.values())]
        if len(most) > 1:
            return nothing
        return np.frombuffer(most[0], np.uint8), min(r for r, it in candidates.items() if it == (most[0], smallest))
    far = [words[r].tobytes() for r in range(len(kinds)) if kinds[r] == FAR]
    found = {agreement(a, b, ALL_ERRORS) for a, b in itertools.combinations(far, 2)} - {None}
    if len(found) == 1:
        return np.frombuffer(found.pop(), np.uint8), AGREED
    return nothing


def packs_of(reading: Decoded) -> Array:
    """The packs of one reading, and zeros for words without a codeword."""
    return np.where((reading.kind == NEAR)[:, None], reading.pack, 0)


def arranged(chance: random.Random, stream: Array, is_movable: bool) -> tuple[bytes, str]:
    """A reading as a file, raw or planar, and its arrangement. If Q shows the places of its blocks (`is_movable`), the file
    may lack the beginning or the end, or its two halves may be exchanged."""
    blocks, arrangement = len(stream) // 96, "whole"
    if is_movable and blocks >= 150:
        kind = chance.choice(("whole", "whole", "later", "shorter", "halves exchanged"))
        cut = chance.randrange(blocks // 3, 2 * blocks // 3)
        if kind == "later":
            stream, arrangement = stream[96 * cut :], f"from {cut} on"
        elif kind == "shorter":
            stream, arrangement = stream[: 96 * cut], f"up to {cut}"
        elif kind == "halves exchanged":
            stream, arrangement = np.concatenate((stream[96 * cut :], stream[: 96 * cut])), f"exchanged at {cut}"
    if chance.random() < 0.2:
        bits = np.unpackbits(stream.reshape(-1, 96, 1), axis=2)
        return bytes(np.packbits(bits.transpose(0, 2, 1), axis=2)), f"{arrangement}, planar"
    return bytes(stream), arrangement


def realigned(content: bytes, arrangement: str, truth: Truth) -> Array:
    """The blocks of an arranged file at the places of the truth, and zeros for missing blocks."""
    blocks = len(truth.stream) // 96
    if arrangement.endswith("planar"):
        bits = np.unpackbits(np.frombuffer(content, np.uint8).reshape(-1, 8, 12), axis=2)
        stream = np.packbits(bits.transpose(0, 2, 1), axis=2).ravel()
    else:
        stream = np.frombuffer(content, np.uint8)
    out = np.zeros(96 * blocks, np.uint8)
    at = int("".join(it for it in arrangement if it.isdigit()) or 0)
    if arrangement.startswith("from"):
        out[96 * at :] = stream
    elif arrangement.startswith("up"):
        out[: 96 * at] = stream
    elif arrangement.startswith("exchanged"):
        out[96 * at :], out[: 96 * at] = stream[: 96 * (blocks - at)], stream[96 * (blocks - at) :]
    else:
        out[:] = stream
    return out


class DeskResult(NamedTuple):
    """The result of a command of the desk: its status, the packs, the rows of the report, and the lines on standard error."""

    status: int
    packs: Array
    rows: list[list[str]]
    lines: str


def run_desk(folder: pathlib.Path, contents: Sequence[bytes]) -> DeskResult:
    """Mends some files with the command of the desk."""
    names = []
    for number, content in enumerate(contents):
        path = folder / f"{number}.dump"
        path.write_bytes(content)
        names.append(str(path))
    out = folder / "out.cdg"
    table, lines = io.StringIO(), io.StringIO()
    with contextlib.redirect_stdout(table), contextlib.redirect_stderr(lines):
        status = desk.followed(["mend", *names, "-o", str(out), "--force", "--skip", "0"])
    rows = [line.split("\t") for line in table.getvalue().splitlines()]
    content = out.read_bytes() if out.exists() else b""
    return DeskResult(status, np.frombuffer(content, np.uint8).reshape(-1, 24), rows, lines.getvalue())


def perfect_losses(decoded: Sequence[Decoded], result: Array, truth: Truth) -> tuple[int, int, int]:
    """The number of perfect readings; how many of them lost a word; and how many of these lost a word that no graphics
    pack of another reading contradicts."""
    perfect = broken = unexplained = 0
    for reading in decoded:
        if not (reading.word == truth.words).all():
            continue
        perfect += 1
        lost = (result != truth.words).any(axis=1)
        broken += bool(lost.any())
        contradicted = np.zeros(len(lost), bool)
        for other in decoded:
            if other is not reading:
                contradicted |= graphics_of(other) & (other.pack != truth.words).any(axis=1)
        unexplained += bool((lost & ~contradicted).any())
    return perfect, broken, unexplained


def lost_of(decoded: Sequence[Decoded], result: Result) -> list[int]:
    """For each reading, the number of error-free words that count and are not in the result."""
    found = []
    for reading, dropped in zip(decoded, result.dropped):
        differs = (result.packs != reading.pack).any(axis=1) | (result.sources == NONE)
        found.append(int(((reading.kind == NEAR) & (reading.distance == 0) & ~dropped & differs).sum()))
    return found


def reason(decoded: Sequence[Decoded], best: int, result: Result, n: int) -> str:
    """The reason, by the rule, why a word that the best reading has right is wrong in the result."""
    reading, source = decoded[best], result.sources[n]
    if reading.kind[n] != NEAR:
        return "the best reading has no codeword there, and the word is idle"
    if result.dropped[best, n]:
        return "the idle or doubtful pack of the best reading does not count"
    if source == NONE:
        return "another codeword has the same distance and as many votes"
    if source < AGREED and decoded[source].distance[n] < reading.distance[n]:
        return "another codeword has a smaller distance"
    if source < AGREED and decoded[source].distance[n] == reading.distance[n]:
        return "another codeword has more votes"
    return "unexplained"


def compare_misplaced(
    totals: Counter[str],
    show: bool,
    names: list[list[str]],
    desk_result: DeskResult,
    decoded: Sequence[Decoded],
    result: Result,
    truth: Truth,
) -> None:
    """Counts the cases with blocks or R-W of another place or disc in which the best reading is better, with the reasons."""
    if desk_result.status not in (0, 1) or len(desk_result.packs) != len(truth.words):
        # The output is shorter if `mend` omits blocks at an end, because no frame and no word shows their place.
        is_reported = "blocks are omitted" in desk_result.lines
        totals["misplaced: blocks omitted and reported" if is_reported else "misplaced: other length"] += 1
        return
    totals["misplaced: cases"] += 1
    correct = [(packs_of(reading) == truth.words).all(axis=1) for reading in decoded]
    best = max(range(len(decoded)), key=lambda number: int(correct[number].sum()))
    right = (desk_result.packs == truth.words).all(axis=1)
    if right.sum() >= correct[best].sum():
        return
    totals["misplaced: fewer correct words than the best reading"] += 1
    if "seem to be of different discs" in desk_result.lines:
        totals["misplaced: of these, refused without --force"] += 1
    is_moved = bool((desk_result.packs != result.packs).any())
    reasons = {
        "the command has placed blocks by their frames" if is_moved else reason(decoded, best, result, n)
        for n in np.flatnonzero(correct[best] & ~right)
    }
    for name in reasons:
        totals[f"misplaced: fewer, {name}"] += 1
    if show:
        print("misplaced", int(correct[best].sum()), int(right.sum()), sorted(reasons), names)


def case(chance: random.Random, totals: Counter[str], show: bool, folder: Optional[pathlib.Path]) -> None:
    blocks = chance.choice((30, 150, 400, 900)) if folder else chance.choice((2, 5, 30, 150, 400, 900))
    truth = truth_of(chance, blocks, chance.random() < 0.1)
    readings = [reading_of(chance, truth) for _ in range(chance.choice((2, 2, 2, 3, 3, 4, 5)))]
    names = [it.done for it in readings]
    streams = [it.stream for it in readings]
    misplaced = any(word in done for it in names for done in it for word in ("foreign", "shifted", "stale"))
    if folder:
        has_q = not any("no Q" in done or "bad Q" in done for it in names for done in it) and not misplaced
        # The first file has all blocks of the truth in their order.
        movable = [
            has_q and number > 0 and (it.reshape(-1, 96) & 0x40).any(axis=1).mean() > 0.5
            for number, it in enumerate(streams)
        ]
        files = [arranged(chance, it, is_movable) for it, is_movable in zip(streams, movable)]
        streams = [realigned(content, arrangement, truth) for content, arrangement in files]
        names = [[*done, arrangement] for done, (_, arrangement) in zip(names, files)]
    decoded = [decode(it) for it in streams]
    result = mend(streams)
    packs = result.packs
    if folder:
        desk_result = run_desk(folder, [content for content, _ in files])
        if desk_result.status == 9 or any(it in desk_result.lines for it in NO_DUMP):
            totals["refused: nothing to mend" if desk_result.status == 9 else "refused: no dump"] += 1
            return
        if misplaced:
            compare_misplaced(totals, show, names, desk_result, decoded, result, truth)
            return
        if desk_result.status not in (0, 1) or len(desk_result.packs) != len(truth.words):
            totals[f"other length or status {desk_result.status}"] += 1
            if show:
                print("status", desk_result.status, len(desk_result.packs), len(truth.words), names, desk_result.lines[-300:])
            return
        packs = desk_result.packs
        check_numbers(totals, show, names, desk_result, decoded, result)
    right = (packs == truth.words).all(axis=1)
    totals["cases"] += 1
    totals["words"] += len(right)
    best = max(int((packs_of(reading) == truth.words).all(axis=1).sum()) for reading in decoded)
    kind = "misplaced: " if misplaced else ""
    if right.sum() < best:
        totals[f"{kind}fewer correct words than the best reading"] += 1
        if show:
            print("fewer", best, int(right.sum()), names)
    silent = ~right & (result.sources != NONE)
    totals[f"{kind}unreported wrong words"] += int(silent.sum())
    totals[f"{kind}cases with more than 20 unreported wrong words"] += int(silent.sum() > 20)
    if silent.sum() > 20 and show:
        print("wrong", int(silent.sum()), names)
    totals[f"{kind}cases with unreported wrong words and status 0"] += bool(silent.any() and not (result.sources == NONE).any())
    perfect, broken, unexplained = perfect_losses(decoded, packs, truth)
    totals[f"{kind}perfect readings"] += perfect
    totals[f"{kind}perfect readings that lost words"] += broken
    totals[f"{kind}of these without a contradicting graphics pack"] += unexplained
    if unexplained and show:
        print("perfect", unexplained, names)
    totals["words with no codeword"] += int((result.sources == NONE).sum())


def check_numbers(
    totals: Counter[str], show: bool, names: list[list[str]], desk_result: DeskResult, decoded: Sequence[Decoded], result: Result
) -> None:
    """Compares the report of the command with the rule."""
    counts = [[int(cell) for cell in row[1:]] for row in desk_result.rows[1:]]
    none = int((result.sources == NONE).sum())
    expected = [
        (len(result.sources), int(dropped.sum()), lost) for dropped, lost in zip(result.dropped, lost_of(decoded, result))
    ]
    reported = [(row[0], row[2], row[3]) for row in counts]
    agreed = int((result.sources == AGREED).sum())
    found = re.search(r"(\d+) words have no codeword", desk_result.lines)
    same = (
        reported == expected
        and (desk_result.packs == result.packs).all()
        and int(found[1] if found else 0) == none
        and sum(row[1] for row in counts) + agreed + none == len(result.sources)
        and desk_result.status == int(bool(none or any(row[2] for row in expected)))
    )
    if not same:
        totals["reports that differ from the rule"] += 1
        if show:
            print("report", names, reported, expected, none, int((desk_result.packs != result.packs).any(axis=1).sum()), desk_result.lines)


def main() -> int:
    parser = argparse.ArgumentParser(description=__doc__, formatter_class=argparse.RawDescriptionHelpFormatter)
    parser.add_argument("--cases", type=int, default=300)
    parser.add_argument("--seed", type=int, default=1)
    parser.add_argument("--desk", action="store_true", help="mend files with the command, and compare its output and its report")
    parser.add_argument("--show", action="store_true", help="print the cases that are counted")
    words = parser.parse_args()
    totals: Counter[str] = Counter()
    with tempfile.TemporaryDirectory(prefix="ribjasper-cases-") as folder:
        for number in range(words.cases):
            chance = random.Random(words.seed * 1_000_003 + number)
            case_folder = pathlib.Path(folder) / str(number) if words.desk else None
            if case_folder:
                case_folder.mkdir()
            case(chance, totals, words.show, case_folder)
            if case_folder:
                shutil.rmtree(case_folder)
    for name, count in sorted(totals.items()):
        print(f"{count:10} {name}")
    failing = (
        "fewer correct",
        "of these without",
        "reports that differ",
        "other length",
        "misplaced: fewer, unexplained",
    )
    return int(any(count for name, count in totals.items() if name.startswith(failing)))


if __name__ == "__main__":
    sys.exit(main())
