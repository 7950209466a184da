"""Finds the form of a dump: tries each form, and measures the share of the non-empty content that it explains."""
import math
import re
from typing import Iterator, NamedTuple, Sequence

from ..common import library
from ..common.library import BLOCK, GRAPHICS, PACK, RAW
from .columns import both, busy
from .dump import DumpFile
from .forms import Coding, FORMS, Form, Order, PLAIN_FORMS, subcode
from .survey import Survey

# A form is tried in windows of WINDOW bytes, the same bytes for each form. First a few windows are read, until enough
# of them are not empty. If these decide nothing, windows from everywhere are read.
WINDOW, FEW, ENOUGH, MANY = 1 << 17, 64, 12, 64
# The probability that random bytes are good by chance: a Q frame of any kind, one with its own fields, one with fields
# and no check, a word with a codeword near it, and the first symbols of a graphics pack.
CHANCE_FRAME, CHANCE_FIELDS, CHANCE_UNCHECKED, CHANCE_WORD, CHANCE_PACK = 2**-16, 1e-9, 1e-5, 1.6e-5, 9 / 4096
# The greatest probability of chance for a form that is accepted.
UNLIKELY = 1e-8
# A form that explains the share SURE of the non-empty units is accepted at once. A form that explains less than the
# share COMPARABLE of the best form's units is excluded. From the share AS_MUCH on, it counts as equally good.
SURE, COMPARABLE, AS_MUCH = 0.9, 0.7, 0.95
# A form is excluded if another form explains this many times more frames.
FAR_LESS = 10
# If the best form explains this share, no unusual ones are tried.
LIKELY_BY_Q, LIKELY_BY_WORDS = 0.2, 0.5
# Q decides before words do, unless it explains less than this share and words are likely.
LITTLE = 0.05
# The minimum share of graphics packs in a file of packs without parity, and the minimum share of words that are not
# idle.
LEAST_PACKS, LEAST_WORDS = 0.2, 0.05
# The minimum share of non-empty blocks whose frames have valid fields, if the checks of the frames may be missing.
LEAST_UNCHECKED = 0.25
# A header longer than a unit ends before this place, at a good frame or an empty block.
MOST_HEADER = 4096
# Unusual forms are tried in STRANGE_WINDOWS windows. If the length of a file does not determine its header, TRIED_UNITS
# units are tried from each byte on, or from each fourth byte on for sectors.
STRANGE_WINDOWS, TRIED_UNITS, SECTOR_STEP = 3, 20, 4
# Tables with 1 for a symbol that marks a graphics pack, and for a symbol that is a graphics instruction.
_IS_GRAPHICS = bytes(symbol == GRAPHICS for symbol in range(256))
_IS_INSTRUCTION = bytes(symbol in (1, 2, 6, 20, 24, 28, 30, 31, 38) for symbol in range(256))


class Window(NamedTuple):
    """Bytes of a file from a place on."""

    start: int
    content: bytes


class Signs(NamedTuple):
    """The evidence for a form: the number of Q frames that are not empty, of good ones, and of those with their own
    fields; the number of nonempty words, of words that are not idle, and of all words."""

    frames: int = 0
    good: int = 0
    fields: int = 0
    carrying: int = 0
    busy: int = 0
    words: int = 0

    def against(self) -> str:
        frames = f"{self.good} of {self.frames} Q frames are good, " if self.frames else "there is no Q, "
        return f"{frames}{self.carrying} of {self.words} words carry something"


class Explained(NamedTuple):
    """Whether Q or the words decide; the share of good ones among the non-empty units; and the number of good frames or
    good words."""

    by_q: bool
    share: float
    size: int


class Found(NamedTuple):
    """A form, the length of the header before it, and the evidence for it."""

    form: Form
    skip: int
    signs: Signs

    def explained(self) -> Explained | None:
        """The content that this form explains, or none if chance explains as much."""
        it = self.signs
        if self.form.coding is Coding.PQ:
            # Without checks the fields decide.
            is_so = it.fields >= LEAST_UNCHECKED * it.frames and is_no_chance(it.fields, it.frames, CHANCE_UNCHECKED)
            return Explained(True, it.fields / it.frames, it.fields) if is_so else None
        by_q, by_words = self.explained_by_q(), self.explained_by_words()
        if by_q is not None and by_words is not None and by_words.share >= LIKELY_BY_WORDS:
            # If most frames are bad, the words decide how much is explained.
            return by_q._replace(share=max(by_q.share, by_words.share))
        return by_q or by_words

    def explained_by_q(self) -> Explained | None:
        it = self.signs
        if is_no_chance(it.good, it.frames, CHANCE_FRAME) or is_no_chance(it.fields, it.frames, CHANCE_FIELDS):
            return Explained(True, it.good / max(it.frames, it.good), it.good)
        return None

    def explained_by_words(self) -> Explained | None:
        it = self.signs
        if self.form.coding is Coding.CDG:
            is_so = it.carrying >= LEAST_PACKS * it.busy and is_no_chance(it.carrying, it.busy, CHANCE_PACK)
        else:
            is_so = it.carrying >= LEAST_WORDS * it.busy and is_no_chance(it.carrying, it.words, CHANCE_WORD)
        return Explained(False, it.carrying / it.busy, it.carrying) if is_so else None

    def is_sure_among(self, others: Sequence["Found"]) -> bool:
        """Whether no better form can follow: it explains nearly all units, and no less than the other forms so far."""
        found = self.explained()
        if found is None or not found.by_q or found.share < SURE:
            return False
        return all(found.size >= AS_MUCH * it.size for other in others if (it := other.explained()))

    def is_likely(self) -> bool:
        """Whether no other form has to be tried."""
        found = self.explained()
        return found is not None and found.share >= (LIKELY_BY_Q if found.by_q else LIKELY_BY_WORDS)


def is_no_chance(count: int, of: int, chance: float) -> bool:
    """Whether this number of good ones is more than in random bytes."""
    expected = of * chance
    if count <= expected:
        return False
    return count * math.log(expected) - math.lgamma(count + 1) < math.log(UNLIKELY)


def frame_signs(blocks: bytes) -> tuple[int, int, int]:
    """The numbers of Q frames that are not empty, of good ones, and of these with fields."""
    survey = Survey(blocks, RAW, 0, is_trimmed=False)
    good = survey.good_frames()
    return survey.blocks - sum(survey.column("empty")), good, good - survey.column("q").count(library.Q_OTHER)


def word_signs(blocks: bytes, form: int) -> tuple[int, int, int]:
    """The numbers of nonempty words, of words that are not idle, and of all words."""
    packs, counts = library.packs_of_blocks(blocks, form, 0)
    firsts = packs[::PACK]
    carrying = len(firsts) - firsts.count(0)
    return carrying, carrying + counts.bad, len(firsts)


def pack_signs(symbols: bytes) -> tuple[int, int, int]:
    """The numbers of graphics packs, of packs that are not idle, and of all packs."""
    kinds, instructions = symbols[::PACK].translate(_IS_GRAPHICS), symbols[1::PACK].translate(_IS_INSTRUCTION)
    return sum(both(kinds, instructions)), sum(busy(symbols, PACK)), len(kinds)


def units_within(window: Window, form: Form, skip: int) -> bytes:
    """The whole units of a form that lie in a window."""
    first = max(0, -(-(window.start - skip) // form.unit))
    start = skip + first * form.unit - window.start
    length = max(0, len(window.content) - start)
    return window.content[start : start + length - length % form.unit]


def signs(windows: Sequence[Window], form: Form, skip: int) -> Signs:
    """The evidence for a form in these windows."""
    total = Signs()
    for window in windows:
        blocks = subcode(units_within(window, form, skip), form)
        if not blocks:
            continue
        frames = words = (0, 0, 0)
        if not form.is_packs():
            frames = frame_signs(blocks)
        if form.coding is Coding.CDG:
            words = pack_signs(blocks)
        elif form.has_graphics():
            words = word_signs(blocks, form.library)
        total = Signs(*(a + b for a, b in zip(total, (*frames, *words))))
    return total


def best_form(candidates: Sequence[Found]) -> Found | None:
    """The form that explains most. Q decides before words do. Of forms that explain nearly the same share, those that
    explain most; of these, the one with the fewest words, because packs behind silent audio are found without the
    sectors too."""
    explaining = [(explained, found) for found in candidates if (explained := found.explained())]
    by_q = [it for it in explaining if it[0].by_q]
    by_words = [it for it in explaining if not it[0].by_q]
    if by_q and (max(it[0].share for it in by_q) >= LITTLE or not any(found.is_likely() for _, found in by_words)):
        # If most frames are bad, a form with longer units may hit some good frames of the right one.
        most = max(it[0].size for it in by_q)
        explaining = [it for it in by_q if FAR_LESS * it[0].size >= most]
    else:
        explaining = by_words
    share = max((explained.share for explained, _ in explaining), default=0)
    explaining = [it for it in explaining if it[0].share >= COMPARABLE * share]
    size = max((explained.size for explained, _ in explaining), default=0)
    explaining = [it for it in explaining if it[0].size >= AS_MUCH * size]
    order = {form: place for place, form in enumerate(FORMS.values())}
    last = min(
        explaining,
        key=lambda it: (it[1].signs.words + it[1].signs.frames, -round(it[0].share, 2), order[it[1].form], it[1].skip),
        default=None,
    )
    return last[1] if last else None


def may_have_header(form: Form) -> bool:
    """Whether a header before a form is searched. A file of packs has none: without its first packs it also resembles a
    file of packs."""
    return form.is_in_sectors() or not form.is_packs()


def tried(
    dump: DumpFile, windows: Sequence[Window], forms: Sequence[Form], skips: Sequence[int] | None
) -> Iterator[Found]:
    """The evidence for each form, without a header and with the header that the length of the file suggests."""
    for form in forms:
        lengths = {0, dump.size % form.unit} if may_have_header(form) else {0}
        for skip in sorted(lengths) if skips is None else skips:
            yield Found(form, skip, signs(windows, form, skip))


def offsets(windows: Sequence[Window], form: Form) -> Iterator[int]:
    """The bytes, up to the length of a unit, at which units of a form may begin, because frames or words are good
    there."""
    for skip in range(0, form.unit, SECTOR_STEP if form.is_in_sectors() else 1):
        found = 0
        for window in windows:
            units = units_within(window, form, skip)[: TRIED_UNITS * form.unit]
            blocks = subcode(units, form)
            found += word_signs(blocks, form.library)[0] if form.is_packs() else frame_signs(blocks)[2]
        if found > 2:
            yield skip


def windows_of(dump: DumpFile, is_thorough: bool) -> list[Window]:
    """Windows that are not empty, in order: enough from a few places, or many from all places."""
    places = -(-dump.size // WINDOW)
    if places <= FEW or is_thorough:
        starts = [WINDOW * place for place in range(places)]
    else:
        starts = [dump.size * place // FEW for place in range(FEW)]
    full = [start for start in starts if any_of(dump.read(start, WINDOW))]
    most = MANY if is_thorough else ENOUGH
    chosen = full if len(full) <= most else [full[len(full) * place // most] for place in range(most)]
    return [Window(start, dump.read(start, WINDOW)) for start in chosen]


def any_of(content: bytes) -> bool:
    return content.count(0) < len(content)


def is_all_zeros(dump: DumpFile) -> bool:
    return not any(any_of(dump.read(start, WINDOW)) for start in range(0, dump.size, WINDOW))


def past_header(dump: DumpFile, found: Found) -> Found:
    """The same form behind the whole of a header that is longer than a unit, if the bytes before are unlikely to be
    damage."""
    explained = found.explained()
    if not found.skip or found.form.unit != BLOCK or explained is None or not explained.by_q or explained.share < SURE:
        return found
    blocks = subcode(dump.read(found.skip, MOST_HEADER // found.form.unit * found.form.unit), found.form)
    survey = Survey(blocks, RAW, 0, is_trimmed=False)
    head = re.match(rb"\x01*", bytes(a & (1 - b) for a, b in zip(survey.bad_frames, survey.empty)))
    count = head.end() if head and head.end() < survey.blocks else 0
    return found._replace(skip=found.skip + count * found.form.unit)


def has_units(dump: DumpFile, form: Form) -> bool:
    return 0 < dump.size // form.unit and form.blocks(dump.size // form.unit) <= library.MOST_BLOCKS


def as_named(dump: DumpFile, found: Found) -> Found:
    """Packs with parity are both a cooked dump and a `.cdg` file: the name of the file decides, or a length that is not
    a multiple of a block."""
    if found.form.coding is not Coding.COOKED or found.form.is_in_sectors():
        return found
    is_cdg = dump.path.lower().endswith(".cdg") or (dump.size - found.skip) % found.form.unit
    return found._replace(form=FORMS["cdg"].ordered(found.form.order)) if is_cdg else found


def stages(dump: DumpFile, windows: Sequence[Window], skip: int | None) -> Iterator[Iterator[Found]]:
    """The forms to try, the likeliest first: each form; those with their bits or bytes in another order; a header whose
    length does not follow from that of the file; and other places of the file."""
    skips = None if skip is None else [skip]
    plain = [form for form in PLAIN_FORMS if has_units(dump, form)]
    yield tried(dump, windows, plain, skips)
    others = [form.ordered(order) for order in (Order.REVERSED, Order.SWAPPED) for form in plain]
    few = windows[:: max(1, len(windows) // STRANGE_WINDOWS)][:STRANGE_WINDOWS]
    yield tried(dump, few, others, skips)
    if skip is None:
        headed = filter(may_have_header, plain)
        yield (Found(form, at, signs(few, form, at)) for form in headed for at in offsets(few, form))
    if -(-dump.size // WINDOW) > len(windows):
        yield tried(dump, windows_of(dump, True), plain, skips)


def form_of(dump: DumpFile, skip: int | None = None) -> tuple[Found | None, list[str]]:
    """The form of a dump and its header, or None and the reasons against each form. A header is not searched if it is
    given."""
    seen: list[Found] = []
    found = None
    if not any(has_units(dump, form) for form in PLAIN_FORMS):
        return None, [reason(dump, form, None) for form in PLAIN_FORMS]
    windows = windows_of(dump, False) or windows_of(dump, True)
    if not windows:
        return None, [reason(dump, form, None) for form in PLAIN_FORMS]
    for stage in stages(dump, windows, skip):
        for candidate in stage:
            seen.append(candidate)
            if candidate.is_sure_among(seen):
                break
        found = best_form(seen)
        if found is not None and found.is_likely():
            break
    if found is not None:
        return as_named(dump, found if skip is not None else past_header(dump, found)), []
    against = {it.form: it for it in reversed(seen)}
    return None, [reason(dump, form, against.get(form)) for form in PLAIN_FORMS]


def reason(dump: DumpFile, form: Form, found: Found | None) -> str:
    """The evidence against a form."""
    if found is not None:
        return f"{form.name}: {found.signs.against()}"
    return (
        f"{form.name}: the size is {dump.size // form.unit} units of {form.unit} bytes and {dump.size % form.unit} more"
    )
