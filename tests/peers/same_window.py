#!/usr/bin/env python3
"""Compares two pixmaps of 300 by 216 pixels: same_window.py ONE OTHER

The exit status is 0 if they are equal in the window: x from 6 to 293, y from 12 to 203."""
import argparse
import sys
from pathlib import Path

HEADER = b"P6\n300 216\n255\n"


def window(path: Path) -> list[bytes]:
    """The rows of the window of a pixmap."""
    data = path.read_bytes()
    if not data.startswith(HEADER) or len(data) != len(HEADER) + 3 * 300 * 216:
        sys.exit(f"{path} is not a pixmap of 300 by 216 pixels")
    pixels = data[len(HEADER) :]
    return [pixels[3 * (300 * y + 6) : 3 * (300 * y + 294)] for y in range(12, 204)]


def main() -> int:
    parser = argparse.ArgumentParser(
        description="Ends with status 0 if two pixmaps of 300 by 216 pixels are equal in the window: "
        "x from 6 to 293, y from 12 to 203."
    )
    parser.add_argument("one", type=Path)
    parser.add_argument("other", type=Path)
    words = parser.parse_args()
    return 0 if window(words.one) == window(words.other) else 1


if __name__ == "__main__":
    sys.exit(main())
