"""The proved library, by ctypes: its structs and its calls."""
import ctypes
import functools
import itertools
import os
import sys
from ctypes import POINTER, Structure, c_bool, c_int32, c_size_t, c_uint16, c_uint32, c_uint64, c_uint8, c_void_p
from pathlib import Path
from typing import Any, Iterator, NamedTuple

from .failures import Missing

# The package; the checkout; and the folder of libraries if the desk is installed as share/ribjasper-desk.
PACKAGE = Path(__file__).resolve().parent.parent
TOP = PACKAGE.parent.parent
INSTALLED = TOP.parent / "lib"
# The shared library's name, and its folder in a checkout, by the system.
NAMES = {"win32": "ribjasper.dll", "darwin": "libribjasper.0.dylib"}
FOLDERS = {"win32": ("lib", "x86_64-pc-windows-gnu")}
NAME = NAMES.get(sys.platform, "libribjasper.so.0")
# The numbers of include/ribjasper.h.
BLOCK, PACK, TEXT_PACK, SECTOR = 96, 24, 18, 2448
WIDTH, HEIGHT, PICTURE, COLOURS = 300, 216, 194_400, 16
BLOCKS_A_SECOND, PACKS_A_BLOCK = 75, 4
# The bytes of audio in a sector; the slots, four per block, over which a word is spread; and the number of blocks after
# its own into which it extends.
AUDIO, SLOTS, SPREAD = 2352, 8, 2
# The first symbol of a pack of graphics.
GRAPHICS = 9
MOST_BLOCKS, LONGEST_LEAD_IN = 1_000_000, 450_000
RAW, PACKS = 0, 1
# The greatest number of readings in one call; and instead of the number of a reading: readings agree, and no reading
# has a codeword.
READINGS, AGREED, NO_READING = 254, 254, 255
DONE, DAMAGED, TORN, NO_ROOM, NO_MEMORY = 0, 1, 3, 6, 7
NO_TIME = 0xFFFF_FFFF
# The pixels of a tile, the greatest number of index lines in a sheet, and the kinds of its texts by their numbers.
TILE, MOST_INDEX_LINES = 72, 9_900
SHEET_TEXTS = ("title", "performer", "songwriter")
# The buffer size that most discs need for their texts.
TEXT_ROOM = 65_536
Q_PROGRAM, Q_TRACK, Q_FIRST, Q_LAST, Q_LEAD_OUT, Q_CATALOGUE, Q_ISRC, Q_OTHER = range(8)
Q_NONE, Q_BAD_FIELD, Q_BAD_CHECK = 253, 254, 255


class PlayerHandle(Structure):
    _fields_ = [("handle", c_void_p), ("is_open", c_bool)]


class QFrame(Structure):
    _fields_ = [
        ("kind", c_uint32),
        ("time", c_uint32),
        ("absolute", c_uint32),
        ("control", c_uint8),
        ("mode", c_uint8),
        ("track", c_uint8),
        ("index", c_uint8),
        ("disc", c_uint8),
        ("frame", c_uint8),
        ("text", c_uint8 * 13),
    ]


class Converted(Structure):
    _fields_ = [("bytes", c_uint64), ("blocks", c_uint32), ("bad", c_uint32)]


class SurveyRow(Structure):
    """The survey of a block."""

    _fields_ = [
        ("absolute", c_uint32),
        ("clean", c_uint8),
        ("one", c_uint8),
        ("two", c_uint8),
        ("bad", c_uint8),
        ("q", c_uint8),
        ("track", c_uint8),
        ("index", c_uint8),
        ("empty", c_uint8),
    ]


class Pack(Structure):
    """A pack as it was read, and the number of its wrong symbols, or -1."""

    _fields_ = [("symbols", c_uint8 * PACK), ("wrong", c_int32)]


class Surveyed(Structure):
    _fields_ = [("blocks", c_uint32), ("rest", c_uint32)]


class ListedTexts(Structure):
    _fields_ = [("bytes", c_uint64), ("seq", c_uint32), ("byte", c_uint32)]


class MendedReadings(Structure):
    """The counts of the library for mended readings."""

    _fields_ = [
        ("bytes", c_uint64),
        ("blocks", c_uint32),
        ("agreed", c_uint32),
        ("none", c_uint32),
        ("reserved", c_uint32),
        ("of_reading", c_uint32 * READINGS),
        ("dropped", c_uint32 * READINGS),
    ]


class MendReported(Structure):
    """The counts of mended readings, and the numbers of error-free words of each reading that were lost."""

    _fields_ = [("counts", MendedReadings), ("lost", c_uint32 * READINGS)]


class PlanRow(Structure):
    """A picture of a script in a plan."""

    _fields_ = [
        ("line", c_uint32),
        ("ready", c_uint32),
        ("hold", c_uint32),
        ("need", c_uint32),
        ("free", c_uint32),
        ("first", c_uint32),
        ("late", c_uint8),
    ]


class Planned(Structure):
    _fields_ = [
        ("pictures", c_uint32),
        ("blocks", c_uint32),
        ("late", c_uint32),
        ("why", c_uint32),
        ("line", c_uint32),
        ("number", c_uint32),
    ]


class Change(Structure):
    """The change of the screen: pixels from `left` to `right` of the rows from `top` to `bottom`, and whether colours
    or levels may have changed."""

    _fields_ = [
        ("left", c_uint32),
        ("top", c_uint32),
        ("right", c_uint32),
        ("bottom", c_uint32),
        ("colours", c_uint8),
        ("levels", c_uint8),
    ]

    @property
    def is_none(self) -> bool:
        """Whether nothing changed."""
        return bool(self.left == WIDTH and not self.colours and not self.levels)


class SheetRow(Structure):
    """An index line of a cue sheet: its time in the file, and the attributes of its track."""

    _fields_ = [
        ("time", c_uint32),
        ("pregap", c_uint32),
        ("postgap", c_uint32),
        ("track", c_uint8),
        ("index", c_uint8),
        ("control", c_uint8),
        ("has_isrc", c_uint8),
        ("isrc", c_uint8 * 12),
    ]


class SheetResult(Structure):
    _fields_ = [
        ("rows", c_uint32),
        ("tracks", c_uint32),
        ("line", c_uint32),
        ("why", c_uint32),
        ("has_catalogue", c_uint8),
        ("catalogue", c_uint8 * 13),
    ]


class Sheet(NamedTuple):
    """The index lines of a cue sheet and its catalogue number, or the line that is refused and the reason's number."""

    rows: list[SheetRow]
    catalogue: bytes
    line: int
    why: int


# The parameters and the result of each call. A `bytes` object may be passed for bytes that are read; it is not copied.
_BYTES, _PLAYER = c_void_p, POINTER(PlayerHandle)
CALLS = {
    "ribjasper_version": ([], c_uint32),
    "ribjasper_player_open": ([_PLAYER], c_int32),
    "ribjasper_player_close": ([_PLAYER], None),
    "ribjasper_player_begin": ([_PLAYER, c_uint32, c_uint32], c_int32),
    "ribjasper_player_feed_all": ([_PLAYER, _BYTES, c_size_t, POINTER(Change)], c_int32),
    "ribjasper_player_draw_all": ([_PLAYER, _BYTES, c_size_t, POINTER(Change)], c_int32),
    "ribjasper_player_take": ([_PLAYER, _BYTES, Pack * PACKS_A_BLOCK], c_int32),
    "ribjasper_player_screen": ([_PLAYER, _BYTES], c_int32),
    "ribjasper_player_picture": ([_PLAYER, _BYTES], c_int32),
    "ribjasper_player_colours": ([_PLAYER, c_uint16 * COLOURS], c_int32),
    "ribjasper_player_pixels": (
        [_PLAYER, c_uint32, c_uint32, c_uint32, c_uint32, c_uint32, _BYTES, c_size_t, c_uint32],
        c_int32,
    ),
    "ribjasper_player_seek": (
        [_PLAYER, c_uint32, c_uint32, _BYTES, c_size_t, c_uint64, _BYTES, c_size_t, c_uint32],
        c_int32,
    ),
    "ribjasper_player_seek_packs": ([_PLAYER, _BYTES, c_size_t, c_uint64, _BYTES, c_size_t, c_uint32], c_int32),
    "ribjasper_text_pack_matches": ([_BYTES], c_int32),
    "ribjasper_text_pack_symbols": ([_BYTES, _BYTES], None),
    "ribjasper_q_decode": ([_BYTES, POINTER(QFrame), POINTER(c_uint8)], c_int32),
    "ribjasper_q_encode": ([POINTER(QFrame), _BYTES], c_int32),
    "ribjasper_block_to_planar": ([_BYTES, _BYTES], None),
    "ribjasper_block_from_planar": ([_BYTES, _BYTES], None),
    "ribjasper_block_text_packs": ([_BYTES, _BYTES], None),
    "ribjasper_convert": ([_BYTES, c_size_t, c_uint32, c_uint32, _BYTES, c_size_t, POINTER(Converted)], c_int32),
    "ribjasper_survey": ([_BYTES, c_size_t, c_uint32, c_uint32, _BYTES, c_size_t, POINTER(Surveyed)], c_int32),
    "ribjasper_texts": ([_BYTES, c_size_t, c_uint32, c_uint32, _BYTES, c_size_t, POINTER(ListedTexts)], c_int32),
    **{
        name: (
            [_BYTES, c_size_t, c_uint32, c_uint32, _BYTES, c_size_t, _BYTES, c_size_t, POINTER(MendReported)],
            c_int32,
        )
        for name in ("ribjasper_mend_report", "ribjasper_mend_stream_report")
    },
    "ribjasper_sheet": ([_BYTES, c_size_t, POINTER(SheetRow), c_size_t, POINTER(SheetResult)], c_int32),
    "ribjasper_sheet_text": ([_BYTES, c_size_t, c_uint32, c_uint32, _BYTES, c_size_t, POINTER(c_uint32)], c_int32),
    "ribjasper_tile_weight": ([c_uint8 * TILE], c_int32),
    "ribjasper_plan": (
        [_BYTES, c_size_t, _BYTES, c_size_t, c_uint32, c_uint32, POINTER(PlanRow), c_size_t, POINTER(Planned)],
        c_int32,
    ),
}


def candidates() -> Iterator[str]:
    """The possible paths of the shared library: in RIBJASPER_LIBRARY; in the checkout of this desk; in the package, as
    in a wheel; below the folder into which the desk was installed; and in the folders of the system."""
    if named := os.environ.get("RIBJASPER_LIBRARY"):
        yield named
        return
    places = checkout(*FOLDERS.get(sys.platform, ("lib",)), NAME), PACKAGE / "native" / NAME, INSTALLED / NAME
    yield from (os.fspath(path) for path in places if path and path.exists())
    yield NAME


def checkout(*names: str) -> Path | None:
    """A file of the checkout of this desk, if it is in one."""
    return TOP.joinpath(*names) if (TOP / "crates.txt").exists() else None


@functools.lru_cache(maxsize=None)
def loaded() -> ctypes.CDLL:
    try:
        return ctypes.CDLL(next(candidates()))
    except OSError as error:
        raise Missing(f"the library cannot be loaded; 'make library' builds it: {error}") from None


@functools.lru_cache(maxsize=None)
def call(name: str) -> Any:
    """A call of the library, by its name in the header; CALLS has its parameters and its result."""
    try:
        function = getattr(loaded(), name)
    except AttributeError:
        raise Missing(f"the installed library has no {name}: build it again ('make library')") from None
    function.argtypes, function.restype = CALLS[name]
    return function


def address(content: bytes) -> int:
    """The address of bytes, for a call that reads from a place within them."""
    return ctypes.cast(ctypes.c_char_p(content), ctypes.c_void_p).value or 0


def version() -> str:
    number: int = call("ribjasper_version")()
    return f"{number >> 16}.{number >> 8 & 255}.{number & 255}"


def packs_of_blocks(stream: bytes, form: int, lead_in: int) -> tuple[bytes, Converted]:
    """The packs of a stream of whole blocks, and their counts."""
    counts = Converted()
    room = PACKS_A_BLOCK * PACK * (len(stream) // BLOCK)
    packs = ctypes.create_string_buffer(max(1, room))
    status = call("ribjasper_convert")(stream, len(stream), form, lead_in, packs, room, counts)
    if status == NO_MEMORY:
        raise MemoryError
    if status not in (DONE, DAMAGED):
        raise ValueError(f"ribjasper_convert returned the status {status}")
    return ctypes.string_at(packs, counts.bytes), counts


def texts(stream: bytes, lead_in: int) -> str:
    """The lines of the texts in a raw lead-in, as the program's `text` writes them, or nothing if they are refused."""
    result, room, status = ListedTexts(), TEXT_ROOM, NO_ROOM
    while status == NO_ROOM:
        lines = ctypes.create_string_buffer(room)
        status = call("ribjasper_texts")(stream, len(stream), RAW, lead_in, lines, room, result)
        room *= 4
    if status == NO_MEMORY:
        raise MemoryError
    return ctypes.string_at(lines, result.bytes).decode("ascii") if status == DONE else ""


def q_frame(block: bytes) -> QFrame | None:
    """The Q frame of a raw block, or None if its check or a field is bad."""
    planar, frame, bit = ctypes.create_string_buffer(BLOCK), QFrame(), c_uint8()
    call("ribjasper_block_to_planar")(block, planar)
    return frame if call("ribjasper_q_decode")(planar.raw[12:24], frame, bit) == DONE else None


def sheet(text: bytes) -> Sheet:
    """The contents of a cue sheet, with a row for each index line."""
    rows, result = (SheetRow * MOST_INDEX_LINES)(), SheetResult()
    status = call("ribjasper_sheet")(text, len(text), rows, MOST_INDEX_LINES, result)
    if status == NO_MEMORY:
        raise MemoryError
    if status not in (DONE, TORN):
        raise ValueError(f"ribjasper_sheet returned the status {status}")
    catalogue = bytes(result.catalogue) if result.has_catalogue else b""
    return Sheet(rows[: result.rows], catalogue, result.line, result.why)


def sheet_text(text: bytes, kind: int, place: int) -> bytes:
    """A text of a cue sheet that was accepted: of the album at place 0, of the k-th track at place k."""
    room, length, status = TEXT_ROOM, c_uint32(), NO_ROOM
    while status == NO_ROOM:
        out = ctypes.create_string_buffer(room)
        status = call("ribjasper_sheet_text")(text, len(text), kind, place, out, room, length)
        room = max(room, length.value)
    if status == NO_MEMORY:
        raise MemoryError
    if status != DONE:
        raise ValueError(f"ribjasper_sheet_text returned the status {status}")
    return ctypes.string_at(out, length.value)


@functools.lru_cache(maxsize=None)
def tile_weight(numbers: frozenset[int]) -> int:
    """The number of packs that draw a tile with exactly these colours."""
    pixels = (*numbers, *itertools.repeat(min(numbers), TILE - len(numbers)))
    return int(call("ribjasper_tile_weight")((c_uint8 * TILE)(*pixels)))
