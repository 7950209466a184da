#!/usr/bin/env python3
"""Compares the mending of the library with a second implementation of its rule:
compare_mending.py [--cases N] [--seed N] [--library lib/libribjasper.so.0]

Each case is a random stream of a few blocks, and two to four readings of it. A reading is undamaged, scratched, worn,
unread (all or a part), shifted, or of another stream, or it has noise or zeros in channels R to W (all or a part). All
results must be those of the rule in include/ribjasper.h (Mending):

- the packs, sources and counts of ribjasper_mend_readings,
- the stream, sources and counts of ribjasper_mend_stream, with and without a lead-in,
- the packs and counts of ribjasper_mend for the first two readings.

In the reverse order of the readings, the packs and the stream must be the same. The script also counts the wrong words
of the results and of the best single readings. No code is shared with the program: codewords are found in a table of
the sums of all errors of one or two symbols (docs/FORMATS.md). The exit status is 1 if something differs."""
import argparse
import binascii
import ctypes
import itertools
import pathlib
import random
import sys
from typing import NamedTuple, Optional, Sequence

from field64 import power, times
from reckon_rows import parity
from subcode import PLACES

TOP = pathlib.Path(__file__).resolve().parents[2]
MAX_READINGS = 254
AGREED, NONE = 254, 255
IDLE = bytes(24)


Errors = dict[int, tuple[tuple[int, int], ...]]


class Counts(ctypes.Structure):
    """The struct ribjasper_mended_readings."""

    _fields_ = [
        ("bytes", ctypes.c_uint64),
        *((name, ctypes.c_uint32) for name in ("blocks", "agreed", "none", "reserved")),
        ("of_reading", ctypes.c_uint32 * MAX_READINGS),
        ("dropped", ctypes.c_uint32 * MAX_READINGS),
    ]


class PairCounts(ctypes.Structure):
    """The struct ribjasper_mended."""

    _fields_ = [
        ("bytes", ctypes.c_uint64),
        *((name, ctypes.c_uint32) for name in ("blocks", "both", "of_first", "of_second", "agreed", "none")),
    ]


class Candidate(NamedTuple):
    """The codeword of a reading at a word and its distance. The codeword is None if no codeword is near the symbols."""

    codeword: Optional[bytes]
    distance: int


# ---- The code.


def entry(place: int, symbol: int) -> int:
    """The share of a symbol at a place in the six sums of a word, as one number."""
    sums = [times(power(j * (23 - place)), symbol) for j in range(4)]
    sums += [times(power(j * (3 - place)), symbol) if place < 4 else 0 for j in range(2)]
    return sum(value << 6 * j for j, value in enumerate(sums))


ENTRIES = [[entry(place, symbol) for symbol in range(64)] for place in range(24)]


def all_errors() -> Errors:
    """All errors of one or two symbols, by their sums."""
    found: Errors = {0: ()}
    single = [((place, symbol), ENTRIES[place][symbol]) for place in range(24) for symbol in range(1, 64)]
    for error, sums in single:
        found[sums] = (error,)
    for (one, first), (other, second) in itertools.combinations(single, 2):
        if one[0] != other[0]:
            found[first ^ second] = (one, other)
    return found


def sums_of(word: Sequence[int]) -> int:
    total = 0
    for row, symbol in zip(ENTRIES, word):
        total ^= row[symbol]
    return total


def codeword(random_source: random.Random) -> bytes:
    """A random codeword of a graphics pack."""
    known = {0: 9, 1: random_source.randrange(1, 64)}
    known[2], known[3] = parity(known, 4, 2, [2, 3])
    known.update({place: random_source.randrange(64) for place in range(4, 20)})
    for place, symbol in zip(range(20, 24), parity(known, 24, 4, [20, 21, 22, 23])):
        known[place] = symbol
    return bytes(known[place] for place in range(24))


# ---- The rule.


def is_frame(block: bytes) -> bool:
    """Whether the Q channel of a block is a frame; here every frame is ten bytes of zeros and their check."""
    bits = "".join(str(byte >> 6 & 1) for byte in block)
    frame = int(bits, 2).to_bytes(12, "big")
    return binascii.crc_hqx(frame[:10], 0) ^ 0xFFFF == int.from_bytes(frame[10:], "big")


def is_unread(block: bytes) -> bool:
    return not any(block)


def candidates(reading: bytes, errors: Errors) -> list[Optional[Candidate]]:
    """The candidate of a reading at each word; None if the word is unread."""
    empty = [is_unread(reading[at : at + 96]) for at in range(0, len(reading), 96)]
    found: list[Optional[Candidate]] = []
    for n in range(len(reading) // 24 - 7):
        under = empty[n // 4 : (n + 7) // 4 + 1]
        if all(under):
            found.append(None)
            continue
        word = bytes(reading[24 * n + place] & 63 for place in PLACES)
        wrong = errors.get(sums_of(word))
        if wrong is None:
            found.append(Candidate(None, 0))
            continue
        right = bytearray(word)
        for place, error in wrong:
            right[place] ^= error
        found.append(Candidate(bytes(right), 3 if bytes(right) == IDLE and any(under) else len(wrong)))
    return found


def word_at(reading: bytes, n: int) -> bytes:
    return bytes(reading[24 * n + place] & 63 for place in PLACES)


def agreement(one: bytes, other: bytes, errors: Errors) -> Optional[bytes]:
    """The codeword on which two words agree, found by trial: one word is changed in up to four places in which the words
    differ, and in places in which both are equally wrong."""
    differing = [place for place in range(24) if one[place] != other[place]]
    if len(differing) > 4:
        return None
    most_others = (4 - len(differing)) // 2
    # The symbols in which they differ are free; the sums of the other symbols show which errors are possible.
    return search(bytearray(one), differing, most_others, errors)


def search(word: bytearray, differing: list[int], most_others: int, errors: Errors) -> Optional[bytes]:
    if len(differing) <= 2:
        # At most two places are free, and one or two others may be wrong.
        for values in itertools.product(range(64), repeat=len(differing)):
            for place, value in zip(differing, values):
                word[place] = value
            wrong = errors.get(sums_of(word))
            if wrong is not None and len([place for place, _ in wrong if place not in differing]) <= most_others:
                right = bytearray(word)
                for place, error in wrong:
                    right[place] ^= error
                return bytes(right)
        return None
    # Three or four places are free: two of them are tried, and the other two must be an error of two symbols.
    for values in itertools.product(range(64), repeat=2):
        for place, value in zip(differing[:2], values):
            word[place] = value
        wrong = errors.get(sums_of(word))
        if wrong is not None and all(place in differing for place, _ in wrong):
            right = bytearray(word)
            for place, error in wrong:
                right[place] ^= error
            return bytes(right)
    return None


KNOWN = (1, 2, 6, 20, 24, 28, 30, 31, 38)
USED = (8, 9, 10, 24)


def is_graphics(candidate: Optional[Candidate]) -> bool:
    """Whether a candidate shows that the word is not idle: a graphics pack, or another codeword at distance 0."""
    if candidate is None or candidate.codeword is None or candidate.codeword == IDLE:
        return False
    return candidate.distance == 0 or (candidate.codeword[0] == 9 and candidate.codeword[1] in KNOWN)


def is_quiet(candidate: Optional[Candidate]) -> bool:
    """Whether a reading is unread at a word, or has the idle pack there."""
    return candidate is None or candidate.codeword == IDLE


def is_doubtful(candidate: Optional[Candidate]) -> bool:
    """Whether a candidate has wrong symbols, and a mode and item that no disc uses."""
    if candidate is None or candidate.codeword is None or candidate.codeword == IDLE:
        return False
    return candidate.distance > 0 and candidate.codeword[0] not in USED


def dropped(all_candidates: Sequence[Sequence[Optional[Candidate]]]) -> list[list[bool]]:
    """For each reading, the words at which its codeword does not count."""
    count = len(all_candidates[0])
    graphics = [any(is_graphics(reading[n]) for reading in all_candidates) for n in range(count)]
    quiet = [any(is_quiet(reading[n]) for reading in all_candidates) for n in range(count)]
    marks = []
    for reading in all_candidates:
        lacks = [False] * count
        for quiet_run, group in itertools.groupby(range(count), lambda n: is_quiet(reading[n])):
            words = list(group)
            if quiet_run and any(reading[n] is not None and graphics[n] for n in words):
                for n in words:
                    lacks[n] = reading[n] is not None
        marks.append([lacks[n] or (is_doubtful(reading[n]) and quiet[n]) for n in range(count)])
    return marks


def mend(readings: Sequence[bytes], errors: Errors) -> tuple[list[bytes], list[int], list[int]]:
    """The pack of each word, its source, and the number of dropped codewords of each reading."""
    all_candidates = [candidates(reading, errors) for reading in readings]
    marks = dropped(all_candidates)
    packs, sources = [], []
    for n in range(len(all_candidates[0])):
        here = [reading[n] for reading in all_candidates]
        counting = {
            r: (candidate.codeword, candidate.distance)
            for r, candidate in enumerate(here)
            if candidate is not None and candidate.codeword is not None and not marks[r][n]
        }
        if counting:
            smallest = min(distance for _, distance in counting.values())
            votes: dict[bytes, int] = {}
            for word, _ in counting.values():
                votes[word] = votes.get(word, 0) + 1
            best = {word for word, distance in counting.values() if distance == smallest}
            most = max(votes[word] for word in best)
            chosen = [word for word in best if votes[word] == most]
            if len(chosen) == 1:
                packs.append(chosen[0])
                sources.append(min(r for r, entry in counting.items() if entry == (chosen[0], smallest)))
            else:
                packs.append(IDLE)
                sources.append(NONE)
            continue
        lost = [word_at(readings[r], n) for r, candidate in enumerate(here) if candidate is not None and candidate.codeword is None]
        tried = [agreement(one, other, errors) for one, other in itertools.combinations(lost, 2)]
        agreed = {word for word in tried if word is not None}
        only = agreed.pop() if len(agreed) == 1 else None
        packs.append(only or IDLE)
        sources.append(AGREED if only else NONE)
    return packs, sources, [sum(mark) for mark in marks]


def most_frequent(values: Sequence[bytes]) -> bytes:
    """The value that occurs most often; of several such values, the greatest."""
    return max(values, key=lambda value: (values.count(value), value))


def chosen_channels(blocks: Sequence[bytes]) -> bytes:
    """The most frequent channels P and Q of the blocks with a good frame; if there are none, of the blocks that were read."""
    framed = [block for block in blocks if is_frame(block)]
    read = [block for block in blocks if not is_unread(block)]
    return most_frequent([bytes(byte & 0xC0 for byte in block) for block in framed or read or blocks])


def chosen_symbols(blocks: Sequence[bytes], known: Sequence[Optional[int]]) -> bytes:
    """The most frequent symbols of those blocks, among the ones that were read, that have the most known symbols."""
    read = [bytes(byte & 0x3F for byte in block) for block in blocks if not is_unread(block)] or [bytes(96)]
    completed = [bytes(symbol if mended is None else mended for symbol, mended in zip(block, known)) for block in read]
    matches = [sum(symbol == mended for symbol, mended in zip(block, known)) for block in read]
    return max(zip(matches, (completed.count(symbols) for symbols in completed), completed))[2]


def mended_stream(readings: Sequence[bytes], lead_in: int, errors: Errors) -> tuple[bytes, list[int]]:
    """The stream of some readings without their first blocks, and the source of each word."""
    known: list[Optional[int]] = [None] * len(readings[0])
    packs, sources, _ = mend([reading[96 * lead_in :] for reading in readings], errors)
    for n, (pack, source) in enumerate(zip(packs, sources)):
        for place, symbol in zip(PLACES, pack if source != NONE else b""):
            known[96 * lead_in + 24 * n + place] = symbol
    out = bytearray()
    for at in range(0, len(readings[0]), 96):
        blocks = [reading[at : at + 96] for reading in readings]
        symbols = chosen_symbols(blocks, known[at : at + 96])
        out += bytes(high | low for high, low in zip(chosen_channels(blocks), symbols))
    return bytes(out), sources


# ---- Readings.


def q_bits() -> list[int]:
    """The Q bits of a frame of zeros, from the highest bit of each byte."""
    frame = bytes(10) + (binascii.crc_hqx(bytes(10), 0) ^ 0xFFFF).to_bytes(2, "big")
    return [frame[k // 8] >> (7 - k % 8) & 1 for k in range(96)]


Q = q_bits()


def stream(source: random.Random, blocks: int, busy: float, words: Sequence[bytes]) -> bytearray:
    """Blocks with a frame each; `busy` is the share of graphics packs."""
    out = bytearray(byte << 6 for _ in range(blocks) for byte in Q)
    on = False
    for n in range(4 * blocks - 7):
        if source.random() < 0.15:
            on = source.random() < busy
        if on:
            for place, symbol in zip(PLACES, source.choice(words)):
                out[24 * n + place] |= symbol
    return out


def noisy(source: random.Random, bytes_of: bytearray, start: int, end: int) -> None:
    for k in range(start, end):
        bytes_of[k] = bytes_of[k] & 0xC0 | source.randrange(64)


def reading(source: random.Random, truth: bytearray, kind: str, words: Sequence[bytes]) -> bytes:
    out = bytearray(truth)
    size = len(out)
    start = source.randrange(size)
    end = source.randrange(start, size) + 1
    if kind == "scratched":
        for _ in range(source.randrange(1, 4)):
            at = source.randrange(size)
            for k in range(at, min(size, at + source.randrange(1, 60))):
                out[k] = source.randrange(256)
    elif kind == "worn":
        for _ in range(size // 40):
            out[source.randrange(size)] ^= source.randrange(1, 64)
    elif kind == "noise":
        noisy(source, out, 0, size)
    elif kind == "noise in part":
        noisy(source, out, start, end)
    elif kind == "zero":
        out = bytearray(byte & 0xC0 for byte in out)
    elif kind == "zero in part":
        out[start:end] = bytes(byte & 0xC0 for byte in out[start:end])
    elif kind == "unread in part":
        first, last = start // 96, end // 96 + 1
        out[96 * first : 96 * last] = bytes(96 * (min(last, size // 96) - first))
    elif kind == "unread":
        out = bytearray(size)
    elif kind == "shifted":
        out = out[96:] + out[:96]
    elif kind == "another":
        out = stream(source, size // 96, 0.5, words)
    return bytes(out)


FOREIGN = {"shifted", "another"}
KINDS = {
    "undamaged": 4.0,
    "scratched": 6.0,
    "worn": 6.0,
    "noise": 1.0,
    "noise in part": 3.0,
    "zero": 3.0,
    "zero in part": 3.0,
    "unread in part": 3.0,
    "unread": 1.0,
    "shifted": 0.3,
    "another": 0.3,
}


def packs_of(text: bytes) -> list[bytes]:
    return [text[at : at + 24] for at in range(0, len(text), 24)]


class Library:
    """The calls of the library. Each returns its outputs and its answer."""

    def __init__(self, path: pathlib.Path) -> None:
        self.calls = ctypes.CDLL(str(path))

    def mend_readings(self, readings: Sequence[bytes]) -> tuple[list[bytes], list[int], Counts, int]:
        joined = b"".join(readings)
        words = len(readings[0]) // 24 - 7
        packs, sources, counts = ctypes.create_string_buffer(24 * words), ctypes.create_string_buffer(words), Counts()
        size = ctypes.c_size_t
        length, room = size(len(joined)), size(24 * words)
        status = self.calls.ribjasper_mend_readings(
            joined, length, len(readings), 0, packs, room, sources, size(words), ctypes.byref(counts)
        )
        return packs_of(packs.raw), list(sources.raw), counts, status

    def mend_stream(self, readings: Sequence[bytes], lead_in: int) -> tuple[bytes, list[int], Counts, int]:
        joined, length = b"".join(readings), len(readings[0])
        words = max(0, (length - 96 * lead_in) // 24 - 7)
        blocks, sources, counts = ctypes.create_string_buffer(length), ctypes.create_string_buffer(max(1, words)), Counts()
        size = ctypes.c_size_t
        status = self.calls.ribjasper_mend_stream(
            joined,
            size(len(joined)),
            len(readings),
            lead_in,
            blocks,
            size(length),
            sources,
            size(words),
            ctypes.byref(counts),
        )
        return blocks.raw, list(sources.raw[:words]), counts, status

    def mend_pair(self, first: bytes, second: bytes) -> tuple[list[bytes], PairCounts, int]:
        words = len(first) // 24 - 7
        packs, counts = ctypes.create_string_buffer(24 * words), PairCounts()
        size = ctypes.c_size_t
        status = self.calls.ribjasper_mend(
            first, size(len(first)), second, size(len(second)), 0, packs, size(24 * words), ctypes.byref(counts)
        )
        return packs_of(packs.raw), counts, status


def wrong(packs: Sequence[bytes], truth: Sequence[bytes]) -> int:
    return sum(one != other for one, other in zip(packs, truth))


class Tally:
    """Compares the numbers of wrong words in the results and in the best single readings."""

    def __init__(self) -> None:
        self.cases = self.words = self.fewer = self.worse = self.more = 0

    def add(self, words: int, mended: int, best: int) -> None:
        self.cases += 1
        self.words += words
        self.fewer += max(0, best - mended)
        self.worse += mended > best
        self.more += max(0, mended - best)

    def __str__(self) -> str:
        return (
            f"{self.cases} cases of {self.words} words: {self.fewer} wrong words fewer than in the best single readings, "
            f"and in {self.worse} cases {self.more} more"
        )


def stream_differs(library: Library, readings: Sequence[bytes], lead_in: int, errors: Errors) -> bool:
    """Whether the stream of the library, its sources or its counts differ from the rule."""
    length = len(readings[0])
    blocks, sources, counts, status = library.mend_stream(readings, lead_in)
    expected, expected_sources = mended_stream(readings, lead_in, errors)
    return (
        blocks != expected
        # The order of the readings changes no byte.
        or library.mend_stream(readings[::-1], lead_in)[0] != expected
        or sources != expected_sources
        or status != (NONE in expected_sources)
        or (counts.bytes, counts.blocks, counts.none) != (length, length // 96 - lead_in, expected_sources.count(NONE))
    )


def differs(
    library: Library,
    readings: Sequence[bytes],
    packs: Sequence[bytes],
    sources: Sequence[int],
    counts: Counts,
    status: int,
    errors: Errors,
) -> bool:
    """Whether any result of the library differs from the rule."""
    expected, expected_sources, expected_dropped = mend(readings, errors)
    pair_packs, pair, pair_status = library.mend_pair(readings[0], readings[1])
    two, two_sources, _ = mend(readings[:2], errors)
    reversed_packs = library.mend_readings(readings[::-1])[0]
    count = len(readings)
    return (
        list(packs) != expected
        or list(sources) != expected_sources
        or status != (NONE in expected_sources)
        or list(counts.dropped) != expected_dropped + [0] * (MAX_READINGS - count)
        or list(counts.of_reading) != [expected_sources.count(r) for r in range(MAX_READINGS)]
        or (counts.agreed, counts.none, counts.reserved) != (expected_sources.count(AGREED), expected_sources.count(NONE), 0)
        or (counts.bytes, counts.blocks) != (24 * len(expected), len(readings[0]) // 96)
        or pair_packs != two
        or pair_status != (NONE in two_sources)
        or pair.both + pair.of_first + pair.of_second != sum(source < AGREED for source in two_sources)
        or (pair.agreed, pair.none) != (two_sources.count(AGREED), two_sources.count(NONE))
        # The order of the readings changes no pack.
        or reversed_packs != list(packs)
        or stream_differs(library, readings, 0, errors)
        or stream_differs(library, readings, len(readings[0]) // 96 - 2, errors)
    )


def main() -> int:
    parser = argparse.ArgumentParser(description=__doc__, formatter_class=argparse.RawDescriptionHelpFormatter)
    parser.add_argument("--cases", type=int, default=10000)
    parser.add_argument("--seed", type=int, default=1)
    parser.add_argument("--library", type=pathlib.Path, default=TOP / "lib" / "libribjasper.so.0")
    arguments = parser.parse_args()
    source = random.Random(arguments.seed)
    errors = all_errors()
    words = [codeword(source) for _ in range(40)]
    library = Library(arguments.library)
    same_stream, foreign = Tally(), Tally()
    different = 0
    for case in range(arguments.cases):
        truth = stream(source, source.randrange(3, 10), source.choice((0.1, 0.5, 1)), words)
        right = [word_at(truth, n) for n in range(len(truth) // 24 - 7)]
        kinds = source.choices(list(KINDS), list(KINDS.values()), k=source.randrange(2, 5))
        readings = [reading(source, truth, kind, words) for kind in kinds]
        packs, sources, counts, status = library.mend_readings(readings)
        if differs(library, readings, packs, sources, counts, status, errors):
            different += 1
            print(f"case {case}: {', '.join(kinds)}: differs from the rule")
        best = min(wrong(library.mend_readings([one])[0], right) for one in readings)
        tally = foreign if FOREIGN & set(kinds) else same_stream
        tally.add(len(right), wrong(packs, right), best)
    print(f"readings of one stream: {same_stream}")
    print(f"with a shifted reading or a reading of another stream: {foreign}")
    print(f"{arguments.cases} cases, {different} differ from the rule")
    return 1 if different else 0


if __name__ == "__main__":
    sys.exit(main())
