"""The proved player: packs and blocks that are fed, the screen that they draw, and seeking in a stream."""
import ctypes
from types import TracebackType
from typing import TYPE_CHECKING, Any

from .failures import Refusal

from .library import (
    BLOCK, COLOURS, DONE, HEIGHT, PACK, PACKS_A_BLOCK, PICTURE, RAW, WIDTH, Change, Pack, PlayerHandle, call,
)  # fmt: skip
from .output import package

if TYPE_CHECKING:
    import numpy
    import numpy.typing

# A seek feeds at most the blocks from one mark to the next: ten seconds, or a hundredth of a long stream. MARK is the
# size of a mark in bytes: a place and the state of a player.
LEAST_STEP, MOST_MARKS, MARK = 750, 100, 8 + 8 * 8135
# The library's formats of pixels: three bytes per pixel, and four with the opacity.
RGB, RGBA_LEVELS = 1, 4


class Player:
    """Draws the graphics of packs and raw blocks on a screen of 300 by 216 pixels, with a border of 6 pixels at the
    left and right and of 12 above and below. It keeps memory of the library until it is closed: by a `with`, by
    `close`, or when nothing refers to it.

    A player may be made over a stream, for `seek`: bytes of whole raw blocks (96 bytes each) with their lead-in, or
    with `is_packs` whole packs (24 bytes each) as a `.cdg` file has them. Raises MemoryError if there is not enough
    memory."""

    def __init__(self, stream: bytes = b"", is_packs: bool = False, lead_in: int = 0) -> None:
        self._handle = PlayerHandle()
        self._stream, self._is_packs, self._lead_in = stream, is_packs, lead_in
        self._marks: Any = None
        if call("ribjasper_player_open")(self._handle) != DONE:
            raise MemoryError
        if not is_packs:
            self.begin(RAW, lead_in)

    def close(self) -> None:
        """Frees the memory of the library. A closed player shows nothing."""
        if self._handle.is_open:
            call("ribjasper_player_close")(self._handle)

    def __enter__(self) -> "Player":
        return self

    def __exit__(self, kind: type[BaseException] | None, error: BaseException | None, _: TracebackType | None) -> None:
        self.close()

    def __del__(self) -> None:
        if hasattr(self, "_handle"):
            self.close()

    def begin(self, form: int, lead_in: int) -> None:
        """Clears the screen; blocks that are fed from now on have this form (RAW or PACKS of the library)."""
        call("ribjasper_player_begin")(self._handle, form, lead_in)

    def feed(self, blocks: bytes) -> Change:
        """Feeds whole blocks of 96 bytes; returns the change of the screen."""
        change = Change()
        call("ribjasper_player_feed_all")(self._handle, blocks, len(blocks) // BLOCK, change)
        return change

    def draw(self, packs: bytes) -> Change:
        """Draws packs of 24 bytes, as in a .cdg file, and ignores their parity; returns the change of the screen."""
        change = Change()
        call("ribjasper_player_draw_all")(self._handle, packs, len(packs) // PACK, change)
        return change

    def seek(self, block: int) -> None:
        """Brings the player to where it is when it was fed the blocks of its stream up to this one, which is not fed: a
        75th of a second each, counted from 0 at the start of the stream. Later seeks start from marks that are kept.
        Raises Refusal if the stream has fewer blocks."""
        unit = PACK if self._is_packs else BLOCK
        count, to = len(self._stream) // unit, block * (PACKS_A_BLOCK if self._is_packs else 1)
        most = -(-count // PACKS_A_BLOCK) if self._is_packs else count
        if not 0 <= block <= most:
            raise Refusal("the stream", f"has {most} blocks, and no block {block}")
        every = max(LEAST_STEP * (PACKS_A_BLOCK if self._is_packs else 1), -(-count // MOST_MARKS))
        marks = max(1, count // every)
        if self._marks is None:
            # Zeros, aligned like numbers of eight bytes.
            self._marks = (ctypes.c_uint64 * (MARK // 8 * marks))()
        place = self._stream, count, min(to, count), self._marks, marks, every
        if self._is_packs:
            status = call("ribjasper_player_seek_packs")(self._handle, *place)
        else:
            status = call("ribjasper_player_seek")(self._handle, RAW, self._lead_in, *place)
        if status != DONE:
            raise ValueError(f"ribjasper_player_seek returned the status {status}")

    def take(self, block: bytes) -> list[Pack]:
        """Feeds a block, and returns the packs that end with it."""
        packs = (Pack * PACKS_A_BLOCK)()
        count = call("ribjasper_player_take")(self._handle, block, packs)
        return list(packs[: max(0, count)])

    def screen(self) -> bytes:
        """The numbers of the colours of all pixels, row by row: 64,800 bytes."""
        pixels = ctypes.create_string_buffer(WIDTH * HEIGHT)
        call("ribjasper_player_screen")(self._handle, pixels)
        return pixels.raw

    def picture(self) -> bytes:
        """Red, green and blue of all pixels, row by row: 194,400 bytes."""
        pixels = ctypes.create_string_buffer(PICTURE)
        call("ribjasper_player_picture")(self._handle, pixels)
        return pixels.raw

    def array(self, has_opacity: bool = False) -> "numpy.typing.NDArray[numpy.uint8]":
        """The screen as an array of numpy: 216 by 300 by 3 bytes, red, green and blue; with `has_opacity` 216 by 300 by
        4, and 0 is transparent. The array is a copy. Raises Missing if numpy is not installed."""
        pixels: "numpy.typing.NDArray[numpy.uint8]"
        size = 4 if has_opacity else 3
        pixels = package("numpy", "python3-numpy").zeros((HEIGHT, WIDTH, size), "u1")
        form, place, row = RGBA_LEVELS if has_opacity else RGB, pixels.ctypes.data, size * WIDTH
        call("ribjasper_player_pixels")(self._handle, form, 0, 0, WIDTH, HEIGHT, place, row * HEIGHT, row)
        return pixels

    def colours(self) -> list[int]:
        """The sixteen colours, four bits each of red, green and blue."""
        colours = (ctypes.c_uint16 * COLOURS)()
        call("ribjasper_player_colours")(self._handle, colours)
        return list(colours)
