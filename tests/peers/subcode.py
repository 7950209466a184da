"""Shared code of the independent implementations of the subcode, without code of the program.

It has the places of the symbols of a pack, the remainder that checks frames and text packs, and the words of the random
number generator."""
from typing import Iterator

# Symbol i of a pack is at position i, except for three pairs that are exchanged.
EXCHANGED = {1: 18, 18: 1, 2: 5, 5: 2, 3: 23, 23: 3}
# The place of each symbol, counted from the first slot of its pack: position p is sent p mod 8 slots later.
PLACES = [24 * (position % 8) + position for position in (EXCHANGED.get(i, i) for i in range(24))]
# x^16 + x^12 + x^5 + 1.
POLYNOMIAL = 0x11021


def remainder(value: int) -> int:
    """The remainder of a number, whose bits are coefficients, after division by the polynomial."""
    for place in range(value.bit_length() - 1, 15, -1):
        if value >> place & 1:
            value ^= POLYNOMIAL << (place - 16)
    return value


REMAINDERS = [remainder(byte << 16) for byte in range(256)]


def check(content: bytes) -> bytes:
    """The two bytes that check some bytes: their remainder, inverted."""
    rest = 0
    for byte in content:
        rest = (rest << 8 ^ REMAINDERS[rest >> 8 ^ byte]) & 0xFFFF
    return (rest ^ 0xFFFF).to_bytes(2, "big")


def words_of(seed: int) -> Iterator[int]:
    """The words of the generator pcg32 (XSH RR, 64 bits of state) with stream 54."""
    mask, increment, multiplier = 2**64 - 1, 54 << 1 | 1, 6364136223846793005
    state = (seed + increment) * multiplier + increment & mask
    while True:
        mixed, turn = ((state >> 18 ^ state) >> 27) & 0xFFFFFFFF, state >> 59
        yield (mixed >> turn | mixed << (-turn & 31)) & 0xFFFFFFFF
        state = state * multiplier + increment & mask
