"""The contents of a dump: graphics, texts and good Q frames."""
from typing import Iterator, NamedTuple

from ..common import library
from ..common.library import BLOCK, GRAPHICS, PACK, RAW, SPREAD
from .columns import busy
from .loading import Loaded

# The number of blocks that are converted to packs at a time.
AT_ONCE = 10_000
NOT_READ = "not read"


class Identity(NamedTuple):
    """The contents of a dump."""

    graphics: str  # yes, no or not read
    texts: str  # the lines of the lead-in's texts
    frames: int
    good: int

    @property
    def q_good(self) -> str:
        """The share of good Q frames, which is 1 only if all are good; or a dash without Q."""
        return f"{10_000 * self.good // self.frames / 10_000:.4f}" if self.frames else "-"


def program_packs(loaded: Loaded) -> Iterator[bytes]:
    """The packs of the program, in parts."""
    if loaded.form.library != RAW:
        is_coded = has_parity(loaded)
        for start in range(0, len(loaded.stream), BLOCK * AT_ONCE):
            part = loaded.stream[start : start + BLOCK * AT_ONCE]
            yield corrected(part) if is_coded else part
        return
    for first in range(loaded.survey.lead_in, loaded.survey.blocks, AT_ONCE):
        # Each part begins with the blocks over which the last words before it are spread.
        start = max(loaded.survey.lead_in, first - SPREAD)
        packs, _ = library.packs_of_blocks(loaded.stream[BLOCK * start : BLOCK * (first + AT_ONCE)], RAW, 0)
        skipped = PACK if start < first else 0
        yield packs[skipped:]


def corrected(blocks: bytes) -> bytes:
    """Packs with their errors corrected."""
    return library.packs_of_blocks(blocks + bytes(-len(blocks) % BLOCK), library.PACKS, 0)[0][: len(blocks)]


def has_parity(loaded: Loaded) -> bool:
    """Whether the packs of a file are codewords: at least most of those that are not idle."""
    survey = loaded.survey
    words = sum(survey.total(name) for name in ("clean", "one", "two", "bad"))
    idle = busy(loaded.stream, PACK).count(0)
    return 2 * (survey.total("clean") - idle) >= words - idle


def graphics_of(loaded: Loaded) -> str:
    """Whether a dump has graphics packs; or that it has no bit of R to W at all."""
    if not loaded.has_graphics_bits():
        return NOT_READ
    return yes(any(GRAPHICS in packs[::PACK] for packs in program_packs(loaded)))


def identity(loaded: Loaded) -> Identity:
    survey = loaded.survey
    frames = survey.read if loaded.form.library == RAW else 0
    lead_in = loaded.stream[: BLOCK * survey.lead_in]
    texts = library.texts(lead_in, len(lead_in) // BLOCK) if frames else ""
    return Identity(graphics_of(loaded), texts, frames, survey.good_frames() if frames else 0)


def yes(is_so: object) -> str:
    return "yes" if is_so else "no"
