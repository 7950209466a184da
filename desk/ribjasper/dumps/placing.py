"""The places of the blocks of readings on the disc. A good Q frame places its own block. The words of other blocks
decide first: their place is where they agree with another reading. Otherwise enough frames around the blocks decide, or
a reading of the same length. If nothing decides, the blocks are omitted."""
import bisect
from collections import Counter
from dataclasses import replace
from typing import Iterator, Sequence

from ..common.failures import Refusal, shown
from .framed import ENOUGH, PLENTY, Framed, FrameGap, framed, leave_out_strays, only_shift
from .judgement import Judgement, judgement
from .pieces import FEWEST, Piece, layers_of, lead_in_of
from .readings import Laid, Reading

# A gap of at most FEW blocks has too few words for a comparison.
FEW = 8
# The words of a gap are compared at up to MOST_PLACES places, with up to MOST_OTHERS readings.
MOST_PLACES, MOST_OTHERS = 16, 8
# If parts of a gap agree at different places, the gap is halved up to HALVINGS times. No half is shorter than SHORTEST
# blocks.
HALVINGS, SHORTEST = 6, 40
# If more than this share of the blocks of a reading have graphics but no place, the readings are refused.
MOST_UNPLACED = 0.25


def side_by_side(readings: Sequence[Reading]) -> Laid:
    """Lays readings side by side by their times. If no reading has a time that can be believed and all have the same
    length, their blocks are taken in the order of the files."""
    found = [framed(reading) for reading in readings]
    lengths = {it.blocks for it in found}
    sure = [it for it in found if it.is_sure]
    if len(lengths) == 1 and not sure:
        origin = common_origin(found)
        if origin is None:
            return as_they_are(found)
        for it in found:
            it.homes = {origin}
    for it in found:
        if not it.is_sure and sure:
            it.homes = {main for other in sure if other.blocks == it.blocks and (main := other.main()) is not None}
    place_all(found)
    leave_out_strays(found)
    for it in found:
        if not it.parts():
            raise Refusal(
                it.reading.path,
                "cannot be aligned: its Q frames have no time, and its length differs from that of the others",
            )
    return laid_of(found)


def guesses(own: Framed, others: Sequence[Reading]) -> list[int]:
    """The shifts at which a reading would begin or end where other readings do."""
    shifts = Counter[int]()
    for part in (part for it in others for part in it.parts):
        shifts[part.shift] += part.end - part.first
    ends = {max(part.end + part.shift for part in it.parts) for it in others if it.parts}
    most = MOST_PLACES // 3
    starts = [shift for shift, _ in sorted(shifts.items(), key=lambda it: (-it[1], it[0]))[:most]]
    survey = own.reading.loaded.survey
    own_ends = sorted({survey.end, survey.blocks})
    return [*starts, *(end - own_end for end in sorted(ends)[-most:] for own_end in own_ends)]


def laid_of(found: Sequence[Framed]) -> Laid:
    laid = [own for it in found for own in layers(it)]
    parts = [part for reading in laid for part in reading.parts]
    start = min(part.time for part in parts)
    end = max(part.end + part.shift for part in parts)
    out = Laid(laid, start, end - start, 0)
    for it in found:
        unplaced, busy, total, path = it.unplaced(), it.unplaced_with_graphics(), it.total(), shown(it.reading.path)
        if unplaced:
            out.notes.append(f"{path}: {unplaced} blocks are omitted: no Q frame or pack determines their place")
        if busy > MOST_UNPLACED * total:
            out.objections.append(f"no Q frame or pack determines the place of {busy} of the {total} blocks of {path}")
    return out


def layers(found: Framed) -> list[Reading]:
    """A reading with its parts in their places. If two parts have the same place, one becomes a separate reading."""
    own = layers_of(found.parts())
    lead_in = max(0, -own[0][0].shift) if own[0] else 0
    return [
        replace(found.reading, parts=layer, is_beside=number > 0, lead_in=lead_in) for number, layer in enumerate(own)
    ]


def where_they_are(found: Sequence[Framed]) -> Iterator[tuple[Framed, Piece, Judgement]]:
    """For each piece, whether its words agree with the other readings if all files begin at the same block of the
    disc."""
    whole = [replace(it.reading, parts=[Piece(0, it.blocks, 0, 0)]) for it in found]
    for number, it in enumerate(found):
        others = [*whole[:number], *whole[number + 1 :]][:MOST_OTHERS]
        for piece in it.pieces:
            yield it, piece, judgement(
                FrameGap(piece.first, piece.end, piece.known, [], [], []), it.reading, [0], others
            )


def common_origin(found: Sequence[Framed]) -> int | None:
    """The shift of readings of one length if no reading has enough frames. It is the shift of the pieces whose words
    agree with the other readings at the same block of the file."""
    shifts = {piece.shift for _, piece, words in where_they_are(found) if words.shift == 0}
    return shifts.pop() if len(shifts) == 1 else None


def as_they_are(found: Sequence[Framed]) -> Laid:
    """Readings of one length in the order of their files; their times are unknown. Stale pieces are left out: those
    whose words contradict the other readings, and those too short for a comparison."""
    blocks = found[0].blocks
    edges: dict[Framed, list[int]] = {it: [0] for it in found}
    for it, piece, words in where_they_are(found):
        is_short = FEWEST <= piece.known <= FEW and words.shift is None
        if is_short or 0 in words.against:
            edges[it] += piece.first, piece.end
    readings = []
    for it, own in edges.items():
        own.append(blocks)
        parts = [Piece(first, end, 0, 0) for first, end in zip(own[0::2], own[1::2]) if first < end]
        readings.append(replace(it.reading, parts=parts, lead_in=lead_in_without_times(it)))
    return Laid(readings, 0, blocks, max(it.lead_in for it in readings), has_times=False)


def lead_in_without_times(found: Framed) -> int:
    """The lead-in of a reading whose frames are not believed: 0 if it is known only from these frames."""
    survey = found.reading.loaded.survey
    return 0 if found.pieces and survey.lead_in == lead_in_of(survey) else survey.lead_in


def decide(found: Framed, gap: FrameGap, others: Sequence[Reading], is_last: bool) -> int | None:
    """The place of a gap, if it can be found. Before the last round, only words decide it."""
    shift = only_shift(gap.around)
    if gap.read <= FEW:
        return by_frames(found, gap, shift) if shift is not None and gap.near == gap.around else None
    shifts = places_of(found, gap)
    words = judgement(gap, found.reading, shifts, others)
    if words.shift is not None or not is_last or not words.is_open:
        return words.shift
    likely = by_frames(found, gap, shift)
    return None if likely in words.against else likely


def places_of(found: Framed, gap: FrameGap) -> list[int]:
    """The places that a gap may have."""
    main = [shift for shift, _ in found.frames.most_common(2)]
    strays = [shift for shift, _ in Counter(gap.strays).most_common(2)]
    near = [piece.shift for piece in (*gap.around, *gap.near)]
    return list(dict.fromkeys([*sorted(found.homes), *near, *main, *strays, *found.guesses]))[:MOST_PLACES]


def by_frames(found: Framed, gap: FrameGap, shift: int | None) -> int | None:
    """The place of a gap whose words decide nothing. It is the place of the frames around the gap if there are enough
    of them, otherwise that of other readings with the same length."""
    frames = found.frames[shift] if shift is not None else 0
    if not found.homes:
        is_main = found.is_sure and shift == found.main()
        enough = frames >= (ENOUGH if is_main else PLENTY) * gap.length
        if gap.is_between:
            enough = enough or found.is_sure or frames >= gap.read
        elif is_main:
            # If frames are rare, the gaps at both ends are as long as those between frames.
            enough = enough or gap.length <= max((it.length for it in found.gaps if it.is_between), default=0)
        return shift if enough else None
    if len(found.homes) > 1 or frames >= ENOUGH * gap.length and shift not in found.homes:
        return None
    return min(found.homes)


def place_all(found: Sequence[Framed]) -> None:
    """Finds the places of gaps. The first round compares words only with pieces that frames placed; the second also
    uses the result of the first. Then gaps whose parts agree at different places are halved: sectors may be missing
    there."""
    place_round(found, False)
    place_round(found, True)
    for _ in range(HALVINGS):
        if not sum(halve(it) for it in found):
            break
        place_round(found, False)
    for it in found:
        fill_between(it)


def fill_between(found: Framed) -> None:
    """Places a half of a gap if the parts before and after it have one shift, and if its words do not contradict it."""
    parts = found.parts()
    firsts = [part.first for part in parts]
    for gap in found.gaps:
        if not gap.is_part:
            continue
        behind = bisect.bisect_left(firsts, gap.inner.last if gap.inner else gap.first)
        before = bisect.bisect_right(firsts, gap.first) - 1
        around = [parts[k] for k in (before, behind) if 0 <= k < len(parts)]
        shift = only_shift(around) if len(around) == 2 and around[0] != around[1] else None
        if shift is not None and gap.shift in (None, shift) and shift not in gap.against:
            gap.shift, gap.inner = shift, None


def place_round(found: Sequence[Framed], is_last: bool) -> None:
    readings = [it.as_reading() for it in found]
    for number, it in enumerate(found):
        it.guesses = [] if it.is_sure else guesses(it, [*readings[:number], *readings[number + 1 :]])
    order = sorted(range(len(found)), key=lambda number: -found[number].frames.total())
    placed = []
    for number, own in enumerate(found):
        others = [readings[k] for k in order if k != number and readings[k].parts][:MOST_OTHERS]
        placed += [(gap, decide(own, gap, others, is_last)) for gap in own.gaps if gap.shift is None]
    for gap, shift in placed:
        gap.shift = shift


def halve(found: Framed) -> int:
    """Halves the gaps that agree with another reading only in part. Returns the number of these gaps."""
    gaps: list[FrameGap] = []
    for gap in found.gaps:
        if gap.shift is not None or not gap.agrees or gap.length < 2 * SHORTEST:
            gaps.append(gap)
            continue
        middle = (gap.first + gap.end) // 2
        for first, end in ((gap.first, middle), (middle, gap.end)):
            read = found.unframed.count(1, first, end)
            gaps.append(FrameGap(first, end, read, gap.near, [], gap.strays, is_part=True))
    halved = len(gaps) - len(found.gaps)
    found.gaps = gaps
    return halved
