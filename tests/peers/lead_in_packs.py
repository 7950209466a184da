#!/usr/bin/env python3
"""Writes the CD-TEXT packs of a lead-in, each once: lead_in_packs.py <STREAM >PACKS.

A block of the raw stream has 96 bytes, whose low six bits are symbols. In the lead-in, 24 symbols (not interleaved) are
the eighteen bytes of a pack, with the most significant bit first. The packs repeat in a cycle, with numbers from 0 in
their third bytes. Each slot after the first cycle must repeat the pack of its position in the cycle."""
import sys
from typing import BinaryIO, Iterator


def slots_of(stream: BinaryIO) -> Iterator[bytes]:
    """The 18 bytes in each 24 symbols of a stream."""
    while symbols := stream.read(24):
        bits = 0
        for symbol in symbols:
            bits = bits << 6 | symbol & 63
        yield bits.to_bytes(18, "big")


def main() -> int:
    slots = list(slots_of(sys.stdin.buffer))
    cycle = slots.index(slots[0], 1) if slots[0] in slots[1:] else len(slots)
    for place, pack in enumerate(slots):
        if pack != slots[place % cycle]:
            sys.exit(f"slot {place} does not repeat the pack of its position in the cycle")
    sys.stdout.buffer.write(b"".join(slots[:cycle]))
    return 0


if __name__ == "__main__":
    sys.exit(main())
