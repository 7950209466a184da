"""Dumps whose content is known, in the forms that other tools write. They are made from the written definitions of the
subcode, without code of the desk or of its library. The words of channels R to W come from tests/peers/reckon_rows.py,
which computes them in another way than the program."""
import functools
import random
import site
from dataclasses import dataclass, field
from pathlib import Path

site.addsitedir(str(Path(__file__).resolve().parents[2] / "tests" / "peers"))

from reckon_rows import bcd as bcd  # noqa: E402
from reckon_rows import digits as digits  # noqa: E402
from reckon_rows import seal  # noqa: E402
from reckon_rows import recording_code as recording_code  # noqa: E402
from reckon_rows import time as time  # noqa: E402
from subcode import PLACES as PLACES  # noqa: E402
from subcode import check as check  # noqa: E402

BLOCK, AUDIO = 96, 2352
PAUSE = 150
# The blocks that redumper reads before the absolute time 00:00:00.
REDUMPER_LEAD_IN = 45_000


def q_frame(content: bytes) -> bytes:
    return content + check(content)


@dataclass(eq=False)
class Track:
    """A track: the absolute times at which its pause (if any), its music, and further indexes begin."""

    number: int
    start: int
    pause: int | None = None
    control: int = 0
    isrc: str = ""
    indexes: dict[int, int] = field(default_factory=dict)

    @property
    def begin(self) -> int:
        return self.start if self.pause is None else self.pause


@dataclass(eq=False)
class Disc:
    """The tracks, and the block at which the lead-out begins."""

    tracks: list[Track]
    end: int
    catalogue: str = ""
    texts: bytes = b""  # packs of 18 bytes, for the lead-in

    def track(self, block: int) -> Track:
        return [track for track in self.tracks if track.begin <= block or track is self.tracks[0]][-1]

    def program_frame(self, block: int) -> bytes:
        """The frame with the time of a block."""
        if block >= self.end:
            return q_frame(bytes([1, 0xAA, 1]) + time(block - self.end) + bytes(1) + time(block))
        track = self.track(block)
        index = max([1, *(number for number, at in track.indexes.items() if at <= block)])
        within = block - track.start
        where = (index, within) if within >= 0 else (0, -within)
        return q_frame(
            bytes([track.control << 4 | 1, bcd(track.number), bcd(where[0])]) + time(where[1]) + bytes(1) + time(block)
        )

    def frame(self, block: int) -> bytes:
        """The frame of a block: one in a hundred has a catalogue number, and one a recording code. The first block of a
        track may carry its code."""
        track = self.track(block)
        if block < self.end and self.catalogue and block % 97 == 40:
            return q_frame(bytes([track.control << 4 | 2]) + digits(self.catalogue + "000") + bytes([bcd(block % 75)]))
        if block < self.end and track.isrc and (block % 98 == 60 or block == track.begin):
            return q_frame(bytes([track.control << 4 | 3]) + recording_code(track.isrc) + bytes([bcd(block % 75)]))
        return self.program_frame(block)

    def contents(self) -> list[bytes]:
        """The entries of the table of contents, without their running times."""
        entries = [(bcd(track.number), track.control, time(track.start)) for track in self.tracks]
        entries += [
            (0xA0, self.tracks[0].control, bytes([bcd(self.tracks[0].number), 0, 0])),
            (0xA1, self.tracks[-1].control, bytes([bcd(self.tracks[-1].number), 0, 0])),
            (0xA2, self.tracks[-1].control, time(self.end)),
        ]
        return [bytes([control << 4 | 1, 0, point]) + b"TTT" + bytes(1) + at for point, control, at in entries]

    def lead_in_frame(self, place: int, blocks: int) -> bytes:
        entries = self.contents()
        entry = entries[place // 3 % len(entries)]
        return q_frame(entry.replace(b"TTT", time(450_000 - blocks + place), 1))


SPREAD = {byte: bytes((byte >> 7 - bit & 1) << 6 for bit in range(8)) for byte in range(256)}


def with_q(symbols: bytes, frame: bytes, p: bool = False) -> bytes:
    """A raw block from its 96 symbols, a Q frame and a P bit."""
    q = b"".join(SPREAD[byte] for byte in frame)
    total = int.from_bytes(symbols, "big") | int.from_bytes(q, "big")
    if p:
        total |= int.from_bytes(b"\x80" * BLOCK, "big")
    return total.to_bytes(BLOCK, "big")


@functools.lru_cache(maxsize=None)
def pictures(count: int, seed: int = 1) -> tuple[bytes, ...]:
    """Some packs of graphics."""
    chance = random.Random(seed)
    limits = (16, 16, 18, 50, *[64] * 12)
    return tuple(seal((9, 6), [chance.randrange(limit) for limit in limits]) for _ in range(count))


@functools.lru_cache(maxsize=None)
def symbols_of(density: float, slots: int = 1200, seed: int = 2) -> bytes:
    """The symbols of slots that carry pictures again and again; symbols beyond the end are at the beginning."""
    chance, packs = random.Random(seed), pictures(150)
    symbols = bytearray(24 * slots)
    for slot in range(slots):
        if chance.random() < density:
            for place, symbol in zip(PLACES, chance.choice(packs)):
                symbols[(24 * slot + place) % len(symbols)] = symbol
    return bytes(symbols)


def file_of_packs(count: int, density: float = 0.5, seed: int = 3) -> bytes:
    """A `.cdg` file with the parity of its packs."""
    chance, packs = random.Random(seed), pictures(150)
    return b"".join(chance.choice(packs) if chance.random() < density else bytes(24) for _ in range(count))


def without_parity(packs: bytes) -> bytes:
    parts = (packs[start : start + 24] for start in range(0, len(packs), 24))
    return b"".join(pack[:2] + bytes(2) + pack[4:20] + bytes(4) for pack in parts)


@functools.lru_cache(maxsize=16)
def program(disc: Disc, first: int, end: int, density: float = 0.5) -> bytes:
    """The raw blocks of the program from one absolute time up to another."""
    symbols = symbols_of(density) if density else bytes(BLOCK)
    period = len(symbols) // BLOCK
    parts = []
    for block in range(first, end):
        at = BLOCK * (block % period)
        parts.append(with_q(symbols[at : at + BLOCK], disc.frame(block), disc.track(block).begin == block))
    return b"".join(parts)


def lead_in(disc: Disc, blocks: int) -> bytes:
    """A lead-in whose symbols carry the texts again and again, as often as they fit."""
    packs = [disc.texts[start : start + 18] for start in range(0, len(disc.texts), 18)]
    parts = []
    for place in range(blocks):
        symbols = bytes(BLOCK)
        if packs:
            four = [packs[(4 * place + k) % len(packs)] for k in range(4)]
            symbols = b"".join(six_bits(pack) for pack in four)
        parts.append(with_q(symbols, disc.lead_in_frame(place, blocks)))
    return b"".join(parts)


def six_bits(pack: bytes) -> bytes:
    number = int.from_bytes(pack, "big")
    return bytes(number >> 6 * k & 63 for k in range(23, -1, -1))


def redumper(disc: Disc, behind: int = 3000, density: float = 0.5) -> bytes:
    """A dump as redumper writes it: 45,000 blocks that the drive did not read, the disc, and unread blocks behind
    it."""
    return bytes(BLOCK * REDUMPER_LEAD_IN) + program(disc, 0, disc.end, density) + bytes(BLOCK * behind)


def two_sessions(first: Disc, second: Disc, lead_out: int = 6750, lead_in_blocks: int = 4500) -> bytes:
    """A disc with two sessions, as a drive reads it from the first sector: the program, the lead-out of the first
    session, the lead-in of the second session, and its program with the pause in front."""
    begin = second.tracks[0].begin
    return (
        program(first, PAUSE, first.end + lead_out, 0)
        + lead_in(second, lead_in_blocks)
        + program(second, begin, second.end, 0)
    )


def after(first: Disc, tracks: int, seconds: int, control: int = 0) -> Disc:
    """The second session of a disc: some tracks of some seconds each, after a lead-out of 90 seconds and a lead-in of
    60 seconds."""
    start = first.end + 6750 + 4500 + PAUSE
    made = [
        Track(
            len(first.tracks) + 1 + number,
            start + 75 * seconds * number,
            start - PAUSE if number == 0 else None,
            control,
        )
        for number in range(tracks)
    ]
    return Disc(made, start + 75 * seconds * tracks)


# How LibCrypt changes frames on purpose. The published frames of a protected disc show it: one bit of each time is
# flipped, and two bits of the check of the original frame, as in 41 01 01 07 06 05 00 23 08 05 38 39 at 03:08:05.


def libcrypt(right: bytes, seed: int, check_bits: int = 0x8001, of_content: bool = False) -> bytes:
    """A frame as LibCrypt changes it; with `of_content`, the flipped check is that of the changed frame."""
    chance, content = random.Random(seed), bytearray(right[:10])
    for first in (3, 7):
        content[first + chance.randrange(3)] ^= 1 << chance.randrange(8)
    base = check(bytes(content)) if of_content else right[10:]
    return bytes(content) + (int.from_bytes(base, "big") ^ check_bits).to_bytes(2, "big")


def damaged_frame(right: bytes, chance: random.Random) -> bytes:
    """A frame as a scratch or a weak drive leaves it: a few flipped bits, a burst, or zeros."""
    frame = int.from_bytes(right, "big")
    kind = chance.randrange(4)
    if kind == 0:
        frame ^= 1 << chance.randrange(96)
    elif kind == 1:
        for _ in range(chance.randrange(2, 6)):
            frame ^= 1 << chance.randrange(96)
    elif kind == 2:
        frame ^= chance.getrandbits(chance.randrange(8, 96)) << chance.randrange(8)
    else:
        frame = 0
    return (frame & (1 << 96) - 1).to_bytes(12, "big")


# How a file stores a block.


def split(stream: bytes, size: int = BLOCK) -> list[bytes]:
    return [stream[start : start + size] for start in range(0, len(stream), size)]


DIGITS = {channel: bytes(48 + (byte >> 7 - channel & 1) for byte in range(256)) for channel in range(8)}


def planar(block: bytes) -> bytes:
    """The channels of a block one after another, twelve bytes each."""
    return b"".join(int(block.translate(DIGITS[channel]), 2).to_bytes(12, "big") for channel in range(8))


def as_planar(stream: bytes) -> bytes:
    return b"".join(map(planar, split(stream)))


def formatted_q(block: bytes, has_check: bool = True) -> bytes:
    """The sixteen bytes in which drives return P and Q: the frame, three zeros, and P in the highest bit of the last
    byte."""
    channels = planar(block)
    frame = channels[12:24] if has_check else channels[12:22] + bytes(2)
    return frame + bytes(3) + (b"\x80" if channels[0] & 0x80 else b"\0")


def sound(sectors: int, seed: int = 4) -> list[bytes]:
    """Some sectors of sound, with a period of a hundred sectors."""
    chance = random.Random(seed)
    some = [chance.randbytes(AUDIO) for _ in range(min(100, sectors))]
    return [some[place % len(some)] for place in range(sectors)]


def in_sectors(subcode: list[bytes], silent: bool = False) -> bytes:
    audio = [bytes(AUDIO)] * len(subcode) if silent else sound(len(subcode))
    return b"".join(a + b for a, b in zip(audio, subcode))


EDC_TERMS = 1 << 32 | 1 << 31 | 1 << 16 | 1 << 15 | 1 << 4 | 1 << 3 | 1 << 1 | 1


def remainder(polynomial: int, length: int) -> int:
    """The remainder of a polynomial over the field of two elements after division by the polynomial of the code."""
    for place in range(length - 1, 31, -1):
        if polynomial >> place & 1:
            polynomial ^= EDC_TERMS << place - 32
    return polynomial


EDC_OF = [remainder(byte << 32, 40) for byte in range(256)]


def edc(content: bytes) -> bytes:
    """The error detection code of a data sector: the remainder of its bits, the lowest of each byte first, by the
    polynomial x^32 + x^31 + x^16 + x^15 + x^4 + x^3 + x + 1 = (x^16 + x^15 + x^2 + 1) (x^16 + x^2 + x + 1)."""
    state = 0
    for byte in content.translate(REVERSED):
        state = state << 8 & 0xFFFF_FFFF ^ EDC_OF[state >> 24 ^ byte]
    return state.to_bytes(4, "big").translate(REVERSED)


@functools.lru_cache(maxsize=None)
def data_sector(block: int, mode: int = 1, form: int = 1, seed: int = 5) -> bytes:
    """A data sector at an absolute time, with its error detection code; its error correction code is noise."""
    chance = random.Random(1000 * seed + block)
    head = b"\0" + b"\xff" * 10 + b"\0" + time(block) + bytes([mode])
    if mode == 0:
        return head + bytes(2336)
    if mode == 1:
        body = head + chance.randbytes(2048)
        return body + edc(body) + bytes(8) + chance.randbytes(276)
    sub = bytes([0, 0, 0x20 if form == 2 else 8, 0]) * 2
    body = sub + chance.randbytes(2324 if form == 2 else 2048)
    return head + body + edc(body) + (b"" if form == 2 else chance.randbytes(276))


REVERSED = bytes(int(f"{byte:08b}"[::-1], 2) for byte in range(256))


def bits_reversed(content: bytes) -> bytes:
    return content.translate(REVERSED)


def bytes_swapped(content: bytes) -> bytes:
    pairs = bytearray(content)
    pairs[0::2], pairs[1::2] = content[1::2], content[0::2]
    return bytes(pairs)


def scratched(stream: bytes, seed: int, every: int = 40, length: int = 30) -> bytes:
    """A reading with bursts of noise, one in every `every` blocks."""
    chance, worn = random.Random(seed), bytearray(stream)
    for block in range(chance.randrange(every), len(stream) // BLOCK - 1, every):
        at = BLOCK * block + chance.randrange(BLOCK)
        worn[at : at + length] = chance.randbytes(length)
    return bytes(worn)


def without_rw(stream: bytes) -> bytes:
    """A reading of a drive that returns only P and Q."""
    return stream.translate(bytes(byte & 0xC0 for byte in range(256)))


def album(minutes: float = 4, tracks: int = 3, catalogue: str = "") -> Disc:
    """A disc whose tracks have the same length; each except the first has a pause of two seconds."""
    end = PAUSE + round(minutes * 60 * 75)
    step = (end - PAUSE) // tracks
    made = [
        Track(number + 1, PAUSE + number * step, 0 if number == 0 else PAUSE + number * step - 150)
        for number in range(tracks)
    ]
    return Disc(made, end, catalogue)


def text_pack(kind: int, track: int, number: int, where: int, content: bytes) -> bytes:
    head = bytes([kind, track, number, where]) + content.ljust(12, b"\0")
    return head + check(head)


def text_packs(language: int, first: int, kinds: dict[int, list[bytes]], width: int = 1) -> list[bytes]:
    """The packs of a language, with consecutive numbers: for each kind the texts of the album and of the tracks, or, if
    there is only one text, its bytes unchanged."""
    packs: list[bytes] = []
    for kind, texts in kinds.items():
        content = b"".join(text + bytes(width) for text in texts) if kind < 0x86 or kind == 0x8E else texts[0]
        starts = [sum(len(text) + width for text in texts[:k]) for k in range(len(texts))]
        for at in range(0, len(content), 12):
            track = max(k for k, start in enumerate(starts) if start <= at) if kind not in (0x86, 0x87) else 0
            position = min(15, (at - starts[track]) // width)
            where = language << 4 | position | (0x80 if width == 2 else 0)
            packs.append(text_pack(kind, track, first + len(packs), where, content[at : at + 12]))
    return packs


def size_packs(
    language: int, first: int, code: int, tracks: int, packs: list[bytes], spoken: dict[int, int], last: dict[int, int]
) -> list[bytes]:
    """The three size packs of a language: `spoken` are the codes of all languages, `last` their last numbers."""
    counts = [sum(pack[0] == 0x80 + kind for pack in packs) for kind in range(16)]
    counts[15] = 3
    sizes = bytes([code, 1, tracks, 0, *counts])
    sizes += bytes(last.get(k, 0) for k in range(8)) + bytes(spoken.get(k, 0) for k in range(8))
    return [text_pack(0x8F, k, first + k, language << 4, sizes[12 * k : 12 * k + 12]) for k in range(3)]
