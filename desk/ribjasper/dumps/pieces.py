"""Pieces of a dump whose absolute times increase by one per block, and the lead-in that follows from them."""
import itertools
from typing import NamedTuple, Sequence

from ..common import library
from .survey import Stretch, Survey

# If there is a longer piece, the frames of a piece with fewer timed blocks count as wrong.
FEWEST = 3
# A piece can decide the lead-in if it has a second of frames, or this share of all frames.
DECIDES, SHARE = 75, 100
# Only this number of pieces, those with the most blocks, is ordered.
MOST_PIECES = 300
TABLE = (library.Q_TRACK, library.Q_FIRST, library.Q_LAST, library.Q_LEAD_OUT)


class Piece(NamedTuple):
    """Neighbouring blocks of a dump from `first` up to `end`. Block n has the time n + shift. `known` blocks have this
    time in their own frame; `placed` others have their place by other evidence."""

    first: int
    end: int
    shift: int
    known: int
    placed: int = 0

    @property
    def time(self) -> int:
        return self.first + self.shift

    @property
    def weight(self) -> int:
        return self.known + self.placed

    def has(self, time: int) -> bool:
        """Whether the block of a time is in it."""
        return self.first <= time - self.shift < self.end


def merged_pieces(pieces: Sequence[Piece]) -> list[Piece]:
    """Pieces in order; neighbours of one shift are merged."""
    found = []
    for shift, group in itertools.groupby(pieces, key=lambda it: it.shift):
        own = list(group)
        found.append(Piece(own[0].first, own[-1].end, shift, sum(it.known for it in own)))
    return found


def with_one_shift(stretches: Sequence[Stretch]) -> list[Piece]:
    """Stretches in order; neighbours of one shift are one piece."""
    found = []
    for shift, group in itertools.groupby(stretches, key=lambda it: it.time - it.first):
        own = list(group)
        known = sum(it.last for it in own) - sum(it.first for it in own) + len(own)
        found.append(Piece(own[0].first, own[-1].last + 1, shift, known))
    return found


def chain_of(pieces: Sequence[Piece]) -> list[Piece]:
    """The heaviest sequence of pieces whose times increase in the order of the file. Pieces of another place, for
    example stale subcode, are left out."""
    heaviest = sorted(sorted(pieces, key=lambda it: it.weight, reverse=True)[:MOST_PIECES])
    chains: list[tuple[int, int]] = []  # the frames of the best chain up to a piece, and the piece before it
    for place, piece in enumerate(heaviest):
        before = max(
            (
                (chains[other][0], other)
                for other in range(place)
                if heaviest[other].time < piece.time
                and heaviest[other].end + heaviest[other].shift < piece.end + piece.shift
            ),
            default=(0, -1),
        )
        chains.append((before[0] + piece.weight, before[1]))
    if not chains:
        return []
    found, place = [], max(range(len(chains)), key=lambda it: chains[it][0])
    while place >= 0:
        found.append(heaviest[place])
        place = chains[place][1]
    return found[::-1]


def framed_pieces(stretches: Sequence[Stretch]) -> list[Piece]:
    """The pieces of a dump in the order of the file, without wrong frames."""
    found = with_one_shift(stretches)
    return merged_pieces([it for it in found if it.known >= FEWEST]) or found


def pieces_of(stretches: Sequence[Stretch]) -> list[Piece]:
    """The pieces of a dump whose times increase, without wrong frames."""
    return merged_pieces(chain_of(framed_pieces(stretches)))


def layers_of(pieces: Sequence[Piece]) -> list[list[Piece]]:
    """The pieces of a dump in layers. The first layer has the pieces whose times increase. Any other piece, for example
    stale subcode, is in the first layer in which no piece has the same times; the heaviest come first."""
    run = chain_of(pieces)
    layers = [list(run)]
    kept = set(run)
    for piece in sorted((it for it in pieces if it not in kept), key=lambda it: it.weight, reverse=True):
        free = (layer for layer in layers if not any(meet(piece, other) for other in layer))
        layer = next(free, None)
        if layer is None:
            layers.append([piece])
        else:
            layer.append(piece)
    return [sorted(layer) for layer in layers]


def meet(one: Piece, other: Piece) -> bool:
    """Whether two pieces have a time in common."""
    return one.time < other.end + other.shift and other.time < one.end + one.shift


def lead_in_of(survey: Survey) -> int | None:
    """The number of blocks before the absolute time zero, or none if no frame has a time. The first piece of a second
    or more decides, in the order of the times. A dump with a table of contents and no program is all lead-in."""
    found = pieces_of(survey.stretches())
    if not found:
        kinds = survey.column("q")
        return survey.blocks if any(kinds.count(kind) for kind in TABLE) else None
    frames = sum(it.known for it in found)
    solid = [it for it in found if it.known >= min(DECIDES, -(-frames // SHARE))]
    # If all pieces are small, the one with the most frames decides.
    return max(0, -(solid or [max(found, key=lambda it: it.known)])[0].shift)
