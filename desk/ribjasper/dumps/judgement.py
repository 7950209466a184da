"""The place of a gap that its words determine: the shift at which its packs agree with those of another reading."""
import functools
from typing import Iterable, NamedTuple, Sequence

from .agreement import LEAST_PACKS, NO_CHANCE, Shared, packs_of_part
from .columns import Run, both
from .framed import FrameGap
from .readings import Reading

# If words agree at two places, the right place has CLEARLY times fewer packs that differ.
CLEARLY = 10
# A comparison uses at most MOST_WINDOWS windows of a gap, each WINDOW blocks long.
WINDOW, MOST_WINDOWS = 75, 24


class Judgement(NamedTuple):
    """The result of comparing the words of a gap: the place at which they agree with another reading, if there is one;
    the places that they contradict; and whether the words decide nothing, so that frames may decide."""

    shift: int | None
    against: set[int]
    is_open: bool


def judgement(gap: FrameGap, own: Reading, shifts: Sequence[int], others: Sequence[Reading]) -> Judgement:
    """Compares the words of a gap, at each place, with those of other readings."""
    votes: set[int] = set()
    fitting: set[int] = set()
    against: set[int] = set()
    is_mixed = False
    same: dict[int, list[Run]] = {shift: [] for shift in shifts}
    for windows in agreement(gap, own, shifts, others):
        at = {shift: [it.shared[shift] for it in windows] for shift in shifts}
        shared = {shift: functools.reduce(Shared.plus, at[shift], Shared()) for shift in shifts}
        for shift in shifts:
            same[shift] += [it.run for it in windows if it.shared[shift].same]
        fits = {shift for shift, it in shared.items() if it.agrees() and not (gap.is_part and it.alone)}
        against |= {shift for shift, it in shared.items() if it.contradicts()}
        gap.agrees = gap.agrees or any(it.same >= LEAST_PACKS for it in shared.values())
        best = max(shared.values(), key=lambda it: it.same)
        is_partial = best.same >= LEAST_PACKS and best.contradicts()
        if is_partial or len({place for it in windows for place in best_places(it.shared)}) > 1:
            is_mixed = True
            continue
        fitting |= fits
        order = sorted(fits, key=lambda shift: shared[shift].differing)
        if len(order) == 1 or order and CLEARLY * (1 + shared[order[0]].differing) <= shared[order[1]].differing:
            votes.add(order[0])
    if len(votes) == 1 and not is_mixed:
        shift = votes.pop()
        if gap.is_part:
            gap.inner = Run(min(same[shift]).first, max(same[shift]).last)
        return Judgement(shift, set(), False)
    gap.against = against
    return Judgement(None, against - fitting, not votes and not is_mixed)


def best_places(window: dict[int, Shared]) -> set[int]:
    """The place at which the most packs of a window are the same, and each place at which other packs are the same."""
    best = max(window, key=lambda shift: window[shift].same)
    found = {best} if window[best].same >= NO_CHANCE else set()
    for shift, it in window.items():
        if it.same >= NO_CHANCE and it.same - sum(both(it.words, window[best].words)) >= NO_CHANCE:
            found.add(shift)
    return found


class GapWindow(NamedTuple):
    """Blocks of a gap, and the packs that they share with another reading at each place."""

    run: Run
    shared: dict[int, Shared]


def agreement(
    gap: FrameGap, own: Reading, shifts: Sequence[int], others: Sequence[Reading]
) -> Iterable[list[GapWindow]]:
    """The windows of a gap for each other reading."""
    found: list[list[GapWindow]] = [[] for _ in others]
    for first, end in windows_in(gap):
        packs = packs_of_part(b"".join(content for _, content in own.blocks(first, end)), end - first)
        if not any(packs.busy):
            continue
        gap.is_busy = True
        for other, windows in zip(others, found):
            window = GapWindow(Run(first, end - 1), {shift: Shared() for shift in shifts})
            windows.append(window)
            for shift in shifts:
                if first + shift >= 0:
                    stream = bytes(other.window(first + shift, end + shift))
                    window.shared[shift].add(packs, packs_of_part(stream, end - first))
    return found


def windows_in(gap: FrameGap) -> list[tuple[int, int]]:
    """Windows from the beginning of a gap to its end."""
    count = -(-(gap.end - gap.first) // WINDOW)
    most = min(count, MOST_WINDOWS)
    starts = (gap.first + WINDOW * (number * (count - 1) // max(1, most - 1)) for number in range(most))
    return [(start, min(gap.end, start + WINDOW)) for start in starts]
