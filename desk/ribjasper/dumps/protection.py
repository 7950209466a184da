"""Q frames that were changed by design. LibCrypt changes frames in pairs, the second frame five blocks behind the
first: one bit of the relative time, one bit of the absolute time, and the check. Each pair is judged on its own."""
import binascii
import collections
import enum
from typing import Collection, Iterable, Mapping, NamedTuple

CHECK = 2
# The bytes of a frame that hold its relative and its absolute time.
RELATIVE, ABSOLUTE = slice(3, 6), slice(7, 10)
# The number of blocks from the first frame of a pair to the second.
APART = 5
# The bits that LibCrypt flips in a check: on most discs the first value, on some the second one, which has a single
# wrong bit, like damage.
CHECK_BITS, ONE_CHECK_BIT = 0x8001, 0x0080
# FEWEST_ALIKE frames that differ from the right ones in the same way are no accident. Fewer than FEWEST_BITS bits are
# damage.
FEWEST_ALIKE, FEWEST_BITS = 4, 3
SBI_MARK, SBI_FRAME = b"SBI\0", b"\1"


class BadFrame(NamedTuple):
    """A bad frame whose right value follows from good frames next to it; `absolute` is the time of its place."""

    block: int
    absolute: int
    found: bytes
    wanted: bytes


class Verdict(enum.Enum):
    """The kinds of bad frames."""

    DAMAGED = "damaged"
    DOUBTFUL = "doubtful"  # it may have been changed by design
    CHANGED = "changed"  # it was changed by design


class Likeness(enum.Enum):
    """How a frame resembles those that LibCrypt changes."""

    NONE = 0
    TIMES = 1  # one bit is wrong in one of the times or in both, and nothing else but the check
    FULL = 2  # so is the check, as damage hardly ever has it


def check_of(content: bytes) -> int:
    """The sixteen check bits of a frame."""
    return binascii.crc_hqx(content, 0) ^ 0xFFFF


def bits(a: bytes, b: bytes) -> int:
    """How many bits differ."""
    return (int.from_bytes(a, "big") ^ int.from_bytes(b, "big")).bit_count()


def likeness(frame: BadFrame) -> Likeness:
    found, wanted = frame.found, frame.wanted
    relative, absolute = bits(found[RELATIVE], wanted[RELATIVE]), bits(found[ABSOLUTE], wanted[ABSOLUTE])
    turned = int.from_bytes(found[-CHECK:], "big") ^ int.from_bytes(wanted[-CHECK:], "big")
    if relative > 1 or absolute > 1 or bits(found[:-CHECK], wanted[:-CHECK]) != relative + absolute:
        return Likeness.NONE
    if relative and absolute:
        is_full = turned.bit_count() >= 2 or turned == ONE_CHECK_BIT
    else:
        own = int.from_bytes(found[-CHECK:], "big") ^ check_of(found[:-CHECK])
        is_full = turned == CHECK_BITS or (bool(relative + absolute) and own == CHECK_BITS)
    if is_full:
        return Likeness.FULL
    return Likeness.TIMES if relative or absolute else Likeness.NONE


def judged(frames: Iterable[BadFrame]) -> dict[int, Verdict]:
    """The verdict on each bad frame, by its block. Both frames of a pair are changed by design if they fully resemble
    those of LibCrypt. A single frame that resembles them, and a pair whose checks differ, may be changed by design."""
    alike = {frame.block: likeness(frame) for frame in frames}
    found = {}
    for block, own in alike.items():
        partners = [alike.get(block - APART, Likeness.NONE), alike.get(block + APART, Likeness.NONE)]
        best = max(partners, key=lambda it: it.value)
        if own is Likeness.FULL:
            found[block] = Verdict.CHANGED if best is Likeness.FULL else Verdict.DOUBTFUL
        elif own is Likeness.TIMES and best is not Likeness.NONE:
            found[block] = Verdict.DOUBTFUL
        else:
            found[block] = Verdict.DAMAGED
    return found


def is_constant(frame: bytes) -> bool:
    """Whether a drive returned one byte repeatedly."""
    return len(set(frame)) == 1


def alike(frames: Iterable[BadFrame], but: Collection[int]) -> dict[int, str]:
    """Frames that differ from the right ones as several others do, by their blocks, with the bits that differ."""
    by_bits = collections.defaultdict[bytes, list[int]](list)
    for frame in frames:
        turned = bytes(a ^ b for a, b in zip(frame.found, frame.wanted))
        if (
            frame.block not in but
            and not is_constant(frame.found)
            and int.from_bytes(turned, "big").bit_count() >= FEWEST_BITS
        ):
            by_bits[turned].append(frame.block)
    return {
        block: turned.hex() for turned, blocks in by_bits.items() if len(blocks) >= FEWEST_ALIKE for block in blocks
    }


def clock_bytes(time: int) -> bytes:
    """Minutes, seconds and frames in six digits."""
    return bytes(int(f"{number:02}", 16) for number in (time // 4500, time // 75 % 60, time % 75))


def sbi(changed: Mapping[int, bytes]) -> bytes:
    """The changed frames by the times of their places, as emulators read them: time, kind, and ten bytes without
    check."""
    rows = (clock_bytes(time) + SBI_FRAME + frame[:-CHECK] for time, frame in sorted(changed.items()))
    return SBI_MARK + b"".join(rows)


def lsd(changed: Mapping[int, bytes]) -> bytes:
    """The changed frames by the times of their places, as emulators read them: time, and twelve bytes with the
    check."""
    return b"".join(clock_bytes(time) + frame for time, frame in sorted(changed.items()))
