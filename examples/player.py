#!/usr/bin/env python3
"""A player in Python that uses the library with ctypes.

    player.py BLOCKS.. <stream     feeds a raw stream, and after each of these numbers of blocks (ascending) writes the
                                   screen to the file BLOCKS.ppm

The library is RIBJASPER_LIBRARY, lib/libribjasper.so.0 of this checkout, or otherwise the library that the system finds."""
import ctypes
import os
import sys
from pathlib import Path

BLOCK, WIDTH, HEIGHT, RGB, ANSWER_TEXT = 96, 300, 216, 1, 64


class Handle(ctypes.Structure):
    """The C struct of a player; a struct of zeros is closed."""

    _fields_ = [("at", ctypes.c_void_p), ("is_open", ctypes.c_bool)]


class Change(ctypes.Structure):
    """The rectangle of the screen that may have changed."""

    _fields_ = [(name, ctypes.c_uint32) for name in ("left", "top", "right", "bottom")] + [
        ("colours", ctypes.c_uint8), ("levels", ctypes.c_uint8)]


def library() -> ctypes.CDLL:
    built = Path(__file__).resolve().parent.parent / "lib" / "libribjasper.so.0"
    return ctypes.CDLL(os.environ.get("RIBJASPER_LIBRARY") or (str(built) if built.exists() else built.name))


class Player:
    """A player that is open inside its `with` block."""

    def __init__(self) -> None:
        self.calls, self.handle = library(), Handle()

    def __enter__(self) -> "Player":
        self.check(self.calls.ribjasper_player_open(ctypes.byref(self.handle)))
        return self

    def __exit__(self, *error: object) -> None:
        self.calls.ribjasper_player_close(ctypes.byref(self.handle))

    def check(self, answer: int) -> None:
        if answer:
            text = ctypes.create_string_buffer(ANSWER_TEXT)
            self.calls.ribjasper_answer_text(answer, text)
            raise RuntimeError(text.value.decode())

    def feed(self, blocks: bytes) -> Change:
        """Feeds whole blocks in one call, and returns the rectangle that may have changed."""
        change, count = Change(), ctypes.c_size_t(len(blocks) // BLOCK)
        self.check(self.calls.ribjasper_player_feed_all(ctypes.byref(self.handle), blocks, count, ctypes.byref(change)))
        return change

    def picture(self) -> bytes:
        """Red, green and blue of each pixel, row by row."""
        pixels = ctypes.create_string_buffer(3 * WIDTH * HEIGHT)
        self.check(self.calls.ribjasper_player_pixels(ctypes.byref(self.handle), RGB, 0, 0, WIDTH, HEIGHT, pixels,
                                                      ctypes.c_size_t(len(pixels)), 3 * WIDTH))
        return pixels.raw


def main(moments: list[int]) -> int:
    stream, done = sys.stdin.buffer.read(), 0
    with Player() as player:
        for moment in moments:
            player.feed(stream[BLOCK * done : BLOCK * moment])
            done = moment
            Path(f"{moment}.ppm").write_bytes(b"P6\n%d %d\n255\n" % (WIDTH, HEIGHT) + player.picture())
    return 0


if __name__ == "__main__":
    sys.exit(main([int(word) for word in sys.argv[1:]]))
