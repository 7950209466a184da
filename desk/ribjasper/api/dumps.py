"""Dumps for programs and notebooks: their blocks, packs, Q frames and damage, conversion, and mending of several
readings."""
import copy
import os
from dataclasses import dataclass
from typing import Iterator

from ..common import library
from ..common.failures import Refusal
from ..common.library import BLOCK, NO_TIME
from ..common.player import Player
from ..dumps import loading, mending
from ..dumps.conversion import Sources, converted, whole_packs
from ..dumps.damages import Damage, damages_of
from ..dumps.forms import FORMS
from ..dumps.loading import DumpOptions, Loaded
from ..dumps.mending import Mended
from ..dumps.placing import side_by_side
from ..dumps.readings import Reading
from ..dumps.survey import Survey, has_graphics_bits

# The kinds of Q frames by their numbers.
KINDS = ("program", "track", "first", "last", "lead-out", "catalogue", "isrc", "other")


@dataclass(frozen=True, slots=True)
class Frame:
    """A good frame of the Q channel. Times are in blocks, 75 a second. Fields that the frame's kind does not have are 0
    or empty.

    block: the number of its block in the dump, from 0
    kind: program, track, first, last, lead-out, catalogue, isrc or other
    control: the control bits: 1 pre-emphasis, 2 copy, 4 data, 8 four channels
    track, index: the numbers; index 0 is the pause before a track
    time: the time from the start of the track's index 1, counting down in its pause
    absolute: the time from the start of the disc; 150 where the first track's index 1 usually is
    text: a catalogue number of 13 digits, or a recording code (ISRC) of 12 characters"""

    block: int
    kind: str
    control: int
    track: int
    index: int
    time: int
    absolute: int
    text: str


class Dump:
    """A dump of a disc, which `load` returns. It does not change, and `len` of it is the number of its blocks: a block
    is 1/75 of a second and 96 bytes of subcode."""

    def __init__(self, loaded: Loaded) -> None:
        self._loaded = loaded

    def __repr__(self) -> str:
        return f"<Dump {self.path!r}: {self.form}, {len(self)} blocks, lead-in {self.lead_in}>"

    def __len__(self) -> int:
        return self._loaded.survey.blocks

    @property
    def path(self) -> str:
        """The name of the file, as it was passed."""
        return self._loaded.path

    @property
    def form(self) -> str:
        """The form of the file: raw, planar, pq, sector, sector-planar, sector-pq, cooked, cooked-sector or cdg; with
        -reversed or -swapped behind it if the bits or bytes are in another order."""
        return self._loaded.form.name

    @property
    def lead_in(self) -> int:
        """How many blocks at the start are lead-in."""
        return self._loaded.survey.lead_in

    @property
    def is_packs(self) -> bool:
        """Whether the file holds only packs, with no P and Q: the forms cooked, cooked-sector and cdg."""
        return self._loaded.form.is_packs()

    @property
    def blocks(self) -> bytes:
        """The subcode, 96 bytes for each block: raw blocks, whose bytes have one bit of each channel, P highest; or, if
        `is_packs`, four packs, the last block filled up with zeros."""
        return self._loaded.stream

    @property
    def notes(self) -> list[str]:
        """Unusual features of the file: a torn end, a header, unread blocks, companion files."""
        return list(self._loaded.notes())

    def packs(self) -> bytes:
        """The packs of the program, 24 bytes each, corrected and in order, as a `.cdg` file has them. A word without a
        codeword is a pack of zeros."""
        return b"".join(converted(whole_packs(self._loaded), FORMS["cdg"]))

    def frames(self) -> Iterator[Frame]:
        """The good frames of the Q channel in the order of the dump; none if the dump has no Q."""
        if self.is_packs:
            return
        kinds = self._loaded.survey.column("q")
        for block in range(len(self)):
            if kinds[block] < len(KINDS):
                yield self._frame(block)

    def _frame(self, block: int) -> Frame:
        found = library.q_frame(self.blocks[BLOCK * block : BLOCK * (block + 1)])
        assert found is not None
        has_text = found.kind in (library.Q_CATALOGUE, library.Q_ISRC)
        text = bytes(found.text).rstrip(b"\0").decode("ascii", "replace") if has_text else ""
        kind = KINDS[found.kind]
        return Frame(block, kind, found.control, found.track, found.index, found.time, found.absolute, text)

    def time(self, block: int) -> int | None:
        """The absolute time that the frame of a block names, in blocks; none if it is bad or names none. Raises
        IndexError if there is no such block."""
        if not 0 <= block < len(self):
            raise IndexError(f"no block {block}: the dump has {len(self)}")
        found = self._loaded.survey.absolute(block)
        return None if found == NO_TIME else found

    def survey(self) -> Survey:
        """What is found of each block; `survey().table()` is an array of numpy."""
        return self._loaded.survey

    def texts(self) -> dict[tuple[str, int], str]:
        """The texts of the lead-in (CD-TEXT of the first language) by their kinds and tracks, track 0 for the album."""
        if self.is_packs:
            return {}
        lines = library.texts(self.blocks[: BLOCK * self.lead_in], self.lead_in).splitlines()
        found = (line.split(" ", 2) for line in lines if not line.startswith("packs "))
        return {(kind, int(track)): "".join(rest) for kind, track, *rest in found}

    def damages(self) -> list[Damage]:
        """The damaged places in the order of the dump: runs of damaged blocks and jumps of the time, as `damage` lists
        them."""
        return damages_of(self._loaded)

    def player(self) -> Player:
        """A player over this dump: `seek` takes numbers of its blocks."""
        if not self.is_packs:
            return Player(self.blocks, lead_in=self.lead_in)
        return Player(whole_packs(self._loaded).stream, is_packs=True)


def load(
    path: str | os.PathLike[str], form: str | None = None, lead_in: int | None = None, skip: int | None = None
) -> Dump:
    """Reads a dump. Its form, the blocks of its lead-in and the bytes of a header in front are found, or as they are
    given. Raises Refusal if the file cannot be read, is no dump or is longer than 1,000,000 blocks, and Missing if the
    library is not installed."""
    check_form(form)
    return Dump(loading.read_dump(os.fspath(path), DumpOptions(form, lead_in, skip)))


def check_form(form: str | None) -> None:
    if form is not None and form not in FORMS:
        raise ValueError(f"unknown form {form!r}; forms: {loading.FORM_NAMES}")


def convert(
    dump: Dump,
    form: str,
    *,
    audio: str | os.PathLike[str] | None = None,
    is_silent: bool = False,
    sheet: str | os.PathLike[str] | None = None,
) -> bytes:
    """The bytes of a file that has the dump in another form. Sectors need their audio: that of a dump in sectors, a
    file of samples or WAV (`audio`), or silence (`is_silent`). Blocks are pressed from packs by the program
    `ribjasper`, with P and Q of a disc of one track or of a cue sheet. Raises Refusal if that cannot be done, Missing
    if the program is needed and not installed, and ValueError for an unknown form."""
    check_form(form)
    paths = [None if path is None else os.fspath(path) for path in (audio, sheet)]
    return b"".join(converted(whole_packs(dump._loaded), FORMS[form], Sources(paths[0], is_silent, paths[1])))


def mend(*dumps: Dump, as_stream: bool = False) -> Mended:
    """Mends several readings of one disc. The times of their Q frames align the readings. `content` has the packs of
    the program, or with `as_stream` its raw blocks. `sources` has a byte for each word: the number of its reading, 254
    if several readings agree on it, or 255 if no reading has a codeword. `counts` has the number of words from each
    reading. Raises Refusal if a dump has only packs, or if its place cannot be found. Whether all readings are of one
    disc is not checked."""
    if not 2 <= len(dumps) <= library.READINGS:
        raise ValueError(f"mend needs from 2 to {library.READINGS} readings, not {len(dumps)}")
    for dump in dumps:
        if dump.is_packs:
            raise Refusal(dump.path, f"is {dump.form}, which has no blocks of subcode to mend")
    laid = side_by_side([reading_of(dump) for dump in dumps])
    if laid.objections:
        raise Refusal(dumps[0].path, *laid.objections)
    return mending.mend_laid(laid, as_stream)


def reading_of(dump: Dump) -> Reading:
    """A reading with a survey of its own, since mending lets go of it."""
    loaded = dump._loaded._replace(survey=copy.copy(dump._loaded.survey))
    return Reading(loaded, [], has_graphics_bits(loaded.stream))
