#!/usr/bin/env python3
"""Computes expected values of rows in crates/rows/data independently: reckon_rows.py [--check]

Prints a line for each value: the name of its row, the key in the row, and the value. With --check, it searches each
value in the files of rows; the exit status is 1 if one is missing. Streams, packs, checks, scripts and scratches are
made here from their definitions in docs/FORMATS.md, without code of the program."""
import argparse
import hashlib
import pathlib
import sys
from typing import Iterator, NamedTuple, Sequence

from field64 import inverse, power, times
from subcode import PLACES, check, words_of


def solve(rows: list[list[int]]) -> list[int]:
    """The solution of linear equations. Each equation is a list of its coefficients, followed by its right side."""
    size = len(rows)
    for column in range(size):
        pivot = next(k for k in range(column, size) if rows[k][column])
        rows[column], rows[pivot] = rows[pivot], rows[column]
        scale = inverse(rows[column][column])
        rows[column] = [times(scale, a) for a in rows[column]]
        for k in range(size):
            if k != column and rows[k][column]:
                factor = rows[k][column]
                rows[k] = [a ^ times(factor, b) for a, b in zip(rows[k], rows[column])]
    return [row[-1] for row in rows]


def parity(known: dict[int, int], size: int, count: int, unknown: list[int]) -> list[int]:
    """The unknown symbols for which the first `count` sums of a word of this size are zero."""
    rows = []
    for j in range(count):
        total = 0
        for place, symbol in known.items():
            total ^= times(power(j * (size - 1 - place)), symbol)
        rows.append([power(j * (size - 1 - place)) for place in unknown] + [total])
    return solve(rows)


def seal(head: tuple[int, int], body: Sequence[int] = ()) -> bytes:
    """The codeword of a head of two symbols and of up to sixteen content symbols."""
    word = list(head) + [0, 0] + list(body) + [0] * (16 - len(body))
    word[2:4] = parity({0: word[0], 1: word[1]}, 4, 2, [2, 3])
    return bytes(word + parity(dict(enumerate(word)), 24, 4, [20, 21, 22, 23]))


IDLE = bytes(24)


def memory_preset(colour: int) -> bytes:
    return seal((9, 1), [colour, 0])


def border_preset(colour: int) -> bytes:
    return seal((9, 2), [colour])


def colour_table(instruction: int, colours: list[int]) -> bytes:
    body: list[int] = []
    for colour in colours:
        body += [colour >> 6, colour & 63]
    return seal((9, instruction), body)


def tile(instruction: int, first: int, second: int, row: int, column: int, lines: list[int]) -> bytes:
    return seal((9, instruction), [first, second, row, column] + lines)


def spread(packs: Sequence[bytes], slots: int) -> bytearray:
    """The symbols of `slots` slots that carry packs."""
    symbols = bytearray(24 * slots)
    for n, pack in enumerate(packs):
        for place, symbol in zip(PLACES, pack):
            if 24 * n + place < len(symbols):
                symbols[24 * n + place] = symbol
    return symbols


# Times and Q frames.


def bcd(number: int) -> int:
    return number // 10 * 16 + number % 10


def time(blocks: int) -> bytes:
    return bytes([bcd(blocks // 4500), bcd(blocks // 75 % 60), bcd(blocks % 75)])


def frame(content: bytes) -> bytes:
    return content + check(content)


def digits(text: str) -> bytes:
    return bytes(int(text[k : k + 2], 16) for k in range(0, len(text), 2))


def recording_code(text: str) -> bytes:
    bits = 0
    for letter in text[:5]:
        bits = bits << 6 | ord(letter) - 0x30
    return (bits << 2).to_bytes(4, "big") + digits(text[5:] + "0")


# The strings of each type of pack: first the album, then each track.
Strings = Sequence[tuple[int, list[bytes]]]


class Track(NamedTuple):
    """A track; its index lines are pairs of a number and a time in the file."""

    number: int
    indices: list[tuple[int, int]]
    control: int = 0
    isrc: str = ""
    pregap: int = 0
    postgap: int = 0


class Disc:
    """A disc of tracks and strings."""

    def __init__(
        self, tracks: list[Track], length: int, lead_in: int, strings: Strings = (), catalogue: str = ""
    ) -> None:
        self.tracks, self.lead_in, self.strings, self.catalogue = tracks, lead_in, strings, catalogue
        self.begins: list[int] = []
        self.starts: list[list[tuple[int, int]]] = []
        gaps = 0
        for k, track in enumerate(tracks):
            first = track.indices[0][1]
            self.begins.append(0 if k == 0 else 150 + first + gaps)
            gaps += track.pregap
            self.starts.append([(i, 150 + f + gaps) for i, f in track.indices])
            gaps += track.postgap
        self.blocks = 150 + length + gaps

    def one(self, k: int) -> int:
        """The place of index 1 of a track."""
        return dict(self.starts[k])[1]

    def program_frame(self, n: int) -> tuple[bool, bytes]:
        """Whether a program block is in a pause, and its Q frame."""
        k = max(k for k, begin in enumerate(self.begins) if begin <= n)
        track, start = self.tracks[k], self.one(k)
        index = max([i for i, s in self.starts[k] if s <= n], default=0)
        is_next = k + 1 < len(self.tracks) and self.one(k + 1) - 150 <= n
        relative = start - n if n < start else n - start
        content = bytes([track.control << 4 | 1, bcd(track.number), bcd(index)])
        content += time(relative) + b"\0" + time(n)
        if n % 100 == 49 and self.catalogue:
            content = bytes([track.control << 4 | 2]) + digits(self.catalogue + "000")
            content += time(n)[2:]
        if n % 100 == 99 and track.isrc and index != 0:
            content = bytes([track.control << 4 | 3]) + recording_code(track.isrc) + time(n)[2:]
        return n < start or is_next, frame(content)

    def lead_in_frame(self, n: int) -> bytes:
        first, last = self.tracks[0], self.tracks[-1]
        entries = [(t.control, bcd(t.number), time(self.one(k))) for k, t in enumerate(self.tracks)]
        entries.append((first.control, 0xA0, bytes([bcd(first.number), 0, 0])))
        entries.append((last.control, 0xA1, bytes([bcd(last.number), 0, 0])))
        entries.append((last.control, 0xA2, time(self.blocks)))
        control, point, tail = entries[n // 3 % len(entries)]
        now = time(450_000 - self.lead_in + n)
        return frame(bytes([control << 4 | 1, 0, point]) + now + b"\0" + tail)

    def text_packs(self) -> list[bytes]:
        packs: list[bytes] = []
        for kind, strings in self.strings:
            text = b""
            owners: list[tuple[int, int]] = []
            for track, string in enumerate(strings):
                number = 0 if track == 0 else self.tracks[0].number + track - 1
                owners += [(number, k) for k in range(len(string) + 1)]
                text += string + b"\0"
            for k in range(0, len(text), 12):
                number, place = owners[k]
                head = bytes([kind, number, len(packs), min(place, 15)])
                packs.append(head + text[k : k + 12].ljust(12, b"\0"))
        if not packs:
            return []
        counts = bytearray(16)
        for pack in packs:
            counts[pack[0] - 0x80] += 1
        counts[15] = 3
        sizes = bytes([0, self.tracks[0].number, self.tracks[-1].number, 0]) + counts
        sizes += bytes([len(packs) + 2]) + bytes(7) + b"\x09" + bytes(7)
        for k in range(3):
            packs.append(bytes([0x8F, k, len(packs), 0]) + sizes[12 * k : 12 * k + 12])
        return [pack + check(pack) for pack in packs]

    def stream(self, packs: Sequence[bytes] = ()) -> bytes:
        texts = self.text_packs()
        blocks = []
        for n in range(self.lead_in):
            slots = [text_symbols(texts[(4 * n + k) % len(texts)]) for k in range(4) if texts]
            blocks.append(block(False, self.lead_in_frame(n), b"".join(slots) or bytes(96)))
        symbols = spread(packs, 4 * self.blocks)
        for n in range(self.blocks):
            blocks.append(block(*self.program_frame(n), symbols[96 * n : 96 * n + 96]))
        return b"".join(blocks)


def text_symbols(pack: bytes) -> bytes:
    bits = int.from_bytes(pack, "big")
    return bytes(bits >> 6 * (23 - k) & 63 for k in range(24))


def block(paused: bool, q: bytes, symbols: Sequence[int]) -> bytes:
    bits = int.from_bytes(q, "big")
    return bytes(128 * paused | (bits >> 95 - k & 1) << 6 | symbols[k] for k in range(96))


def planar(q: bytes) -> str:
    """A planar block with this frame, as written in rows."""
    return f"12*00 {q.hex()} 72*00"


# Generated scripts, and streams with scratches.


def written_time(blocks: int) -> str:
    return f"{blocks // 4500:02}:{blocks // 75 % 60:02}:{blocks % 75:02}"


def script(seed: int, pictures: int) -> bytes:
    words = words_of(seed)
    lines = [f"colour {k} 0{k:x}{k:x}{k:x}" for k in range(16)]
    for k in range(pictures):
        for _ in range(3):
            a, b = next(words), next(words)
            x, y = (a & 0xFFFF) % 288, (a >> 16) % 192
            width, height = 1 + (b & 0xFFFF) % (288 - x), 1 + (b >> 16) % (192 - y)
            lines.append(f"rect {x} {y} {width} {height} {b // 256 % 16}")
        lines.append(f"show {written_time(800 * k + 800)} {written_time(800 * k + 820)}")
    return "".join(line + "\n" for line in lines).encode()


def pixmap(seed: int) -> bytes:
    """The screen that shows the only picture of a generated script: grey rectangles on a black border."""
    levels = [[0] * 300 for _ in range(216)]
    for line in script(seed, 1).decode().splitlines():
        if line.startswith("rect"):
            x, y, width, height, colour = map(int, line.split()[1:])
            for across in range(6 + x, 6 + x + width):
                for down in range(12 + y, 12 + y + height):
                    levels[down][across] = 17 * colour
    return b"P6\n300 216\n255\n" + bytes(level for row in levels for level in row for _ in range(3))


def scratched(stream: bytes, lead_in: int, seed: int) -> bytes:
    symbols = bytearray(stream)
    words, place = words_of(seed), 0
    front = 96 * min(lead_in, len(symbols) // 96)
    while place < len(symbols) - front:
        a = next(words)
        start = place + 192 + a % 64
        place = start + 1 + a // 256 % 16
        for k in range(start, min(place, len(symbols) - front)):
            symbols[front + k] ^= 1 + (a >> 16) % 63
    return bytes(symbols)


def digest(content: bytes) -> str:
    return hashlib.sha256(content).hexdigest()


ONE = [Track(1, [(1, 0)])]
GAP = [Track(1, [(1, 0)], pregap=10)]
GAPS = [Track(1, [(1, 0)], control=2, postgap=10), Track(2, [(0, 300), (1, 375)], control=1, pregap=5)]
TITLES = [(0x80, [b"Demo", b"One"])]
THREE = [
    Track(1, [(1, 0)]),
    Track(2, [(0, 5850), (1, 6000)]),
    Track(3, [(1, 12000)], isrc="GBAAA2400003"),
]
BAND = [
    (0x80, [b"Demo", b"One", b"Two", b"Three"]),
    (0x81, [b"Demo Band", b"", b"", b""]),
    (0x8E, [b"0000000000000", b"", b"", b"GBAAA2400003"]),
]
SHORT = Disc(ONE, 1, 0)
TITLED = Disc(ONE, 1, 12, TITLES)


LINES = [0x3F] * 12
PACKS = {
    "border-eleven": border_preset(11),
    "preset-five": memory_preset(5),
    "white-eleven": colour_table(31, [0, 0, 0, 0xFFF, 0, 0, 0, 0]),
    "low-colours": colour_table(30, [0x000, 0x111, 0x222, 0x333, 0x444, 0x555, 0x666, 0xABC]),
    "high-colours": colour_table(31, [0x888, 0x999, 0xAAA, 0xBBB, 0xCCC, 0xDDD, 0xEEE, 0xFFF]),
    "white-seven": colour_table(30, [0, 0, 0, 0, 0, 0xF00, 0, 0xFFF]),
    "levels": seal((9, 28), list(range(0, 64, 4))),
    "offsets": seal((9, 20), [0, 0x05, 0x0B]),
    "tile-of-seven": tile(6, 7, 7, 16, 48, LINES),
    "tile-of-five": tile(6, 5, 5, 17, 49, LINES),
    "copy-scroll": seal((9, 24), [0, 0x15, 0x1B]),
    "white-one": colour_table(30, [0, 0xFFF, 0, 0, 0, 0, 0, 0]),
    "tile-of-one": tile(6, 1, 1, 1, 1, LINES),
    "scroll-right": seal((9, 24), [0, 0x10, 0]),
    "scroll-right-and-up": seal((9, 24), [0, 0x10, 0x20]),
    "scroll-in-one": seal((9, 20), [1, 0x25, 0x2B]),
    "scroll-of-all-bits": seal((9, 20), [63] * 16),
    "tile-of-all-bits": seal((9, 6), [63] * 16),
    "table-of-all-bits": seal((9, 31), [63] * 16),
    "foreign": seal((1, 6), [1, 2, 3]),
    "unknown": seal((9, 3), [1, 2, 3]),
}
FRAMES = {
    "an-unknown-frame": frame(bytes(10)),
    "a-catalogue-number": frame(digits("020123456789012000") + b"\x74"),
    "a-block-of-track-one": frame(digits("01010000020000000000")),
    "a-frame-of-a-changed-byte": digits("01010001020000000000") + check(digits("01010000020000000000")),
    "a-frame-of-a-wrong-check": digits("010100000200000000000f26"),
    "a-track-in-no-bcd": frame(digits("011a0100000000000000")),
    "a-second-60": frame(digits("01010100600000000000")),
    "the-last-second": frame(digits("01010100590000000000")),
    "a-lead-out": frame(digits("41aa0100000000040302")),
    "a-first-track": frame(digits("4100a099595900012000")),
    "a-last-track": frame(digits("4100a199595900120000")),
    "a-lead-out-start": frame(digits("4100a299595900040302")),
    "a-track-start": frame(digits("41000399595900012345")),
    "a-recording-code": frame(b"\x03" + recording_code("GBAAA2400003") + b"\x74"),
}


TITLE_PACK = b"\x80\0\0\0Demo\0One\0\0\0\0"
TRACK_SIZES = bytes([0x8F, 0, 1, 0, 0, 1, 1, 0, 1, 0, 0, 0, 0, 0, 0, 0])


def changed(pack: bytes, place: int, byte: int) -> bytes:
    return pack[:place] + bytes([byte]) + pack[place + 1 :]


TEXTS = {
    "titles": TITLE_PACK,
    "track-sizes": TRACK_SIZES,
    "last-numbers": bytes([0x8F, 1, 2, 0, 0, 0, 0, 0, 0, 0, 0, 3, 3, 0, 0, 0]),
    "languages": bytes([0x8F, 2, 3, 0, 0, 0, 0, 0, 9, 0, 0, 0, 0, 0, 0, 0]),
    "twelve-letters": b"\x80\0\0\0ABCDEFGHIJKL",
    "titles-of-block-one": changed(TITLE_PACK, 3, 0x10),
    "titles-of-double-bytes": changed(TITLE_PACK, 3, 0x80),
    "no-first-track": changed(TRACK_SIZES, 5, 0),
    "track-one-hundred": changed(TRACK_SIZES, 6, 100),
    "tracks-backwards": changed(TRACK_SIZES, 5, 2),
    "same-title": b"\x80\0\0\0Same\0\t\0\0\0\0\0\0",
    "title-of-a-tab": b"\x80\0\0\0\t\0One\0\0\0\0\0\0\0",
}


# One instruction of each of the nine kinds.
ALL = [
    PACKS["preset-five"],
    PACKS["border-eleven"],
    PACKS["tile-of-seven"],
    tile(38, 0, 5, 3, 4, [21, 42] * 6),
    PACKS["scroll-in-one"],
    PACKS["scroll-right"],
    PACKS["levels"],
    PACKS["white-seven"],
    PACKS["high-colours"],
]


def pressed(disc: Disc, packs: list[bytes]) -> bytes:
    """The stream of a disc with the packs of a file, from the first block of the audio."""
    return disc.stream([IDLE] * 593 + packs)


def with_other_bits(pack: bytes) -> bytes:
    """The pack with all upper bits set, and with the opposite of its parity."""
    return bytes(192 | (byte ^ 63 if place in (2, 3, 20, 21, 22, 23) else byte) for place, byte in enumerate(pack))


def checkpoint(
    program: int, bad: int = 0, slots: bytes = bytes(168), to_come: int = 0, lead_in: int = 0
) -> bytes:
    """A checkpoint of a blank screen."""
    counts = b"".join(number.to_bytes(4, "big") for number in (to_come, lead_in, program, bad))
    content = b"CDGSAVE1" + counts + slots + bytes(64_800 + 3 + 32 + 16)
    return content + check(content)


# The name of a row, the key in the row, and the value.
Value = tuple[str, str, str]


def values_of_tables() -> Iterator[Value]:
    for name, pack in PACKS.items():
        yield name, "out", pack.hex()
    for name, pack in TEXTS.items():
        yield name, "out", text_symbols(pack + check(pack)).hex()
    for name, content in FRAMES.items():
        yield name, "first", planar(content)


def values_of_discs() -> Iterator[Value]:
    yield "a-disc-with-texts", "digest", digest(TITLED.stream())
    letters = Disc(ONE, 1, 12, [(0x80, [b"ABCDEFGHIJKL", b"One"])])
    yield "a-long-title", "digest", digest(letters.stream())
    yield "a-pause-and-a-block-of-music", "digest", digest(SHORT.stream())
    three = Disc(THREE, 12_001, 18, BAND, "0000000000000")
    yield "three-tracks", "digest", digest(three.stream())
    yield "a-gap-before-the-music", "digest", digest(Disc(GAP, 1, 0).stream())
    yield "gaps-between-tracks", "digest", digest(Disc(GAPS, 1000, 150).stream())
    yield "a-pressed-pack", "digest", digest(pressed(SHORT, [memory_preset(0)]))
    yield "a-file-of-all-instructions", "out", b"".join(ALL).hex()
    yield "all-instructions-are-pressed", "digest", digest(pressed(Disc(ONE, 10, 0), ALL))
    yield "a-file-with-bits-of-its-own", "out", b"".join(map(with_other_bits, ALL)).hex()
    yield "four-instructions-with-texts", "digest", digest(pressed(TITLED, ALL[:4]))


def values_of_screens() -> Iterator[Value]:
    yield "a-checkpoint-of-nothing", "out", f"43 44 47 53 41 56 45 31 65035*00 {checkpoint(0)[-2:].hex()}"
    yield "a-checkpoint-of-two-blocks", "out", f"43 44 47 53 41 56 45 31 11*00 02 65023*00 {checkpoint(2)[-2:].hex()}"
    in_lead_in = checkpoint(0, to_come=1, lead_in=2)[-2:].hex()
    yield "a-checkpoint-within-the-lead-in", "out", f"43 44 47 53 41 56 45 31 3*00 01 3*00 02 65027*00 {in_lead_in}"
    wrong = bytearray(192)
    for place in (50, 100, 150):
        wrong[place] = 1
    yield "the-screen-of-a-whole-stream", "digest", digest(pixmap(42))
    yield "a-checkpoint-after-a-bad-word", "digest", digest(checkpoint(2, 1, bytes(wrong[24:])))
    fills = [memory_preset(5), border_preset(0), colour_table(30, [0] * 8), colour_table(31, [0] * 8), IDLE]
    yield "two-fills", "digest", digest(SHORT.stream([*fills, memory_preset(6)]))


def values_of_workloads() -> Iterator[Value]:
    for seed, pictures in [(42, 1), (42, 2), (7, 3), (2**64 - 1, 1), (0, 500)]:
        yield f"a-script-of-seed-{seed}-and-{pictures}", "digest", digest(script(seed, pictures))
    yield "zeros-are-scratched", "digest", digest(scratched(bytes(480), 0, 42))
    lines = "".join(f"{block:06} bad crc\n" for block in range(1_000_000))
    yield "frames-of-too-many-blocks", "digest", digest(lines.encode())
    yield "a-disc-is-scratched", "digest", digest(scratched(TITLED.stream(), 12, 7))


def rows() -> dict[str, list[str]]:
    """The lines of each row in the files."""
    found: dict[str, list[str]] = {}
    for file in pathlib.Path(__file__).resolve().parents[2].glob("crates/rows/data/*.rows"):
        for stanza in file.read_text().split("\n\n"):
            lines = stanza.splitlines()
            for line in lines:
                word, _, name = line.partition(" ")
                if word in ("row", "bytes"):
                    found[name] = lines
    return found


def main() -> int:
    parser = argparse.ArgumentParser(
        description="Computes expected values of rows in crates/rows/data independently."
    )
    parser.add_argument("--check", action="store_true", help="only search each value in the files of rows")
    is_check = parser.parse_args().check
    known, status = rows(), 0
    for name, key, value in [*values_of_tables(), *values_of_discs(), *values_of_screens(), *values_of_workloads()]:
        line = f"{key} {value}"
        if not is_check:
            print(name, line)
        elif line not in known.get(name, []):
            print(f"row {name} does not have: {line}")
            status = 1
    return status


if __name__ == "__main__":
    sys.exit(main())
