"""A dump as commands read it: its form, its lead-in and its survey. They are detected, or options of the command set
them."""
import argparse
from typing import Iterator, NamedTuple

from ..common import kinds, library
from ..common.failures import Refusal
from ..common.library import BLOCK, RAW
from ..common.words import lead_in, number_in
from .companions import Companions, beside_dump
from .detection import form_of, is_all_zeros
from .dump import DumpFile
from .forms import FORMS, Form, Order, PLAIN_FORMS
from .pieces import lead_in_of
from .survey import Survey, has_graphics_bits

# No header is longer.
MOST_SKIPPED = 1 << 32
IS_EMPTY = "is empty"
FORM_NAMES = ", ".join(form.name for form in PLAIN_FORMS)
NO_FORM = "no known form fits; give --form, --lead-in or --skip if you know them (details: identify -v)"


class DumpOptions(NamedTuple):
    """The options of a command for a dump; none if the desk has to detect the value."""

    form: str | None = None
    lead_in: int | None = None
    skip: int | None = None


class Unknown(NamedTuple):
    """A file of unknown form: a short reason, and the evidence against each form."""

    cause: str
    against: list[str]


class Loaded(NamedTuple):
    """A loaded dump: blocks of 96 bytes, and their survey."""

    dump: DumpFile
    form: Form
    stream: bytes
    survey: Survey
    companions: Companions

    @property
    def path(self) -> str:
        return self.dump.path

    @property
    def rest(self) -> int:
        """The number of bytes after the last whole unit of a torn dump."""
        return self.dump.rest(self.form)

    def has_graphics_bits(self) -> bool:
        """Whether a bit of R to W is set in the program."""
        return self.form.has_graphics() and has_graphics_bits(self.stream)

    def notes(self) -> Iterator[str]:
        """Short notes on unusual properties of a dump."""
        if self.rest:
            yield f"torn: {self.rest} bytes behind the last whole unit"
        if self.dump.skip:
            yield f"header: {self.dump.skip} bytes in front"
        if self.form.order is Order.REVERSED:
            yield "the bits of each byte are in reverse"
        if self.form.order is Order.SWAPPED:
            yield "the bytes of each pair are exchanged"
        first, behind = self.survey.first, self.survey.blocks - self.survey.end
        if first or behind:
            yield f"unread: {first} blocks in front, {behind} behind"
        if self.form.library == RAW and not self.survey.has_q:
            yield "Q: not read"
        yield from self.companions.notes()


def add_options(parser: argparse.ArgumentParser) -> None:
    """Adds the options that describe a dump."""
    parser.add_argument(
        "--form",
        type=form_name,
        metavar="F",
        help=f"the form of the dump: {FORM_NAMES}, each also with -reversed or -swapped appended (detected)",
    )
    parser.add_argument(
        "--lead-in", type=lead_in, metavar="N", help="the number of blocks in the lead-in (detected from channel Q)"
    )
    parser.add_argument(
        "--skip",
        type=number_in(0, MOST_SKIPPED),
        metavar="BYTES",
        help="the number of bytes of a header in front (detected)",
    )


def form_name(word: str) -> str:
    if word not in FORMS:
        forms = f"{FORM_NAMES}, each also with -reversed or -swapped"
        raise argparse.ArgumentTypeError(f"unknown form {word!r}; forms: {forms}")
    return word


def asked(arguments: argparse.Namespace) -> DumpOptions:
    return DumpOptions(arguments.form, arguments.lead_in, arguments.skip)


def survey_of(stream: bytes, form: Form, given: int | None = None, companions: Companions | None = None) -> Survey:
    """The survey of a stream. Its lead-in is the given one, or follows from Q frames or from companion files."""
    survey = Survey(stream, form.library, given or 0)
    if given is not None or form.library != RAW:
        return survey
    found = lead_in_of(survey)
    if found is None:
        found = -min(0, companions.begin or 0) if companions else 0
    return Survey(stream, form.library, found) if 0 < found <= library.LONGEST_LEAD_IN else survey


def unknown(dump: DumpFile, against: list[str]) -> Unknown:
    """Why a file has no known form."""
    if not dump.size:
        return Unknown(IS_EMPTY, [])
    if is_all_zeros(dump):
        return Unknown("all bytes are zeros", [])
    if kinds.TEXT_PACKS.has(dump.path):
        return Unknown("is a file of text packs, which texts --back reads", against)
    return Unknown(NO_FORM, against)


def load_found(path: str, words: DumpOptions = DumpOptions()) -> Loaded | Unknown:
    """A dump with its form, or why it has none."""
    dump = DumpFile(path)
    if not dump.size:
        return unknown(dump, [])
    if words.form is not None:
        form, dump.skip = FORMS[words.form], words.skip or 0
    else:
        found, against = form_of(dump, words.skip)
        if found is None:
            return unknown(dump, against)
        form, dump.skip = found.form, found.skip
    if not dump.units(form):
        raise Refusal(path, f"has no whole unit of {form.unit} bytes")
    stream = dump.blocks(form)
    companions = beside_dump(dump.path, len(stream) // BLOCK)
    return Loaded(dump, form, stream, survey_of(stream, form, words.lead_in, companions), companions)


def read_dump(path: str, words: DumpOptions = DumpOptions()) -> Loaded:
    """A dump with its form, or a refusal with the reason why no form fits."""
    found = load_found(path, words)
    if isinstance(found, Unknown):
        raise Refusal(path, found.cause)
    return found


def load_raw(path: str, words: DumpOptions, wants: str) -> Loaded:
    """A dump that has blocks, not only packs."""
    loaded = read_dump(path, words)
    if loaded.form.library != RAW:
        raise Refusal(path, f"is {loaded.form.name}, which has no {wants}")
    return loaded
