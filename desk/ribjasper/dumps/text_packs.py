"""The contents of text packs in all their languages: texts with their character codes, and other kinds as bytes.
(Red Book CD-TEXT, as libburn and libcdio describe it; languages are those of EBU Tech 3258.)"""
import ctypes
from dataclasses import dataclass, field
from typing import Iterable, Iterator, NamedTuple, Sequence

from ..common import library
from ..common.library import BLOCK, PACKS_A_BLOCK, TEXT_PACK

TITLES = {
    0x80: "title",
    0x81: "performer",
    0x82: "songwriter",
    0x83: "composer",
    0x84: "arranger",
    0x85: "message",
    0x8E: "code",
}
DISC_ID, GENRE, TOC, SECOND_TOC, CLOSED, SIZE = 0x86, 0x87, 0x88, 0x89, 0x8D, 0x8F
NAMES = {
    **TITLES,
    DISC_ID: "disc-id",
    GENRE: "genre",
    TOC: "toc",
    SECOND_TOC: "second-toc",
    CLOSED: "closed",
    SIZE: "size",
}
# The places of a pack: its kind, its track, its number, its language with the position in the text, and its text.
KIND, TRACK, NUMBER, WHERE, TEXT = 0, 1, 2, 3, slice(4, 16)
TEXT_BYTES = 12
# In the size packs of a language: the places of the character code, and of the languages of all eight.
CODE, LANGUAGES = 0, 28
CODES = {0x00: "latin-1", 0x01: "ascii", 0x80: "cp932"}
CODE_NAMES = {"latin-1": "Latin-1", "ascii": "ASCII", "cp932": "MS-JIS"}
LANGUAGE_NAMES = {
    0x01: "Albanian", 0x03: "Catalan", 0x04: "Croatian", 0x06: "Czech", 0x07: "Danish", 0x08: "German", 0x09: "English",
    0x0A: "Spanish", 0x0C: "Estonian", 0x0D: "Basque", 0x0F: "French", 0x14: "Icelandic", 0x15: "Italian", 0x17: "Latin",
    0x18: "Latvian", 0x1A: "Lithuanian", 0x1B: "Hungarian", 0x1D: "Dutch", 0x1E: "Norwegian", 0x20: "Polish",
    0x21: "Portuguese", 0x22: "Romanian", 0x24: "Serbian", 0x25: "Slovak", 0x26: "Slovenian", 0x27: "Finnish",
    0x28: "Swedish", 0x29: "Turkish", 0x56: "Russian", 0x65: "Korean", 0x69: "Japanese", 0x70: "Greek", 0x75: "Chinese",
}  # fmt: skip
GENRES = {
    2: "Adult Contemporary", 3: "Alternative Rock", 4: "Childrens Music", 5: "Classical", 6: "Contemporary Christian",
    7: "Country", 8: "Dance", 9: "Easy Listening", 10: "Erotic", 11: "Folk", 12: "Gospel", 13: "Hip Hop", 14: "Jazz",
    15: "Latin", 16: "Musical", 17: "New Age", 18: "Opera", 19: "Operetta", 20: "Pop Music", 21: "Rap", 22: "Reggae",
    23: "Rock Music", 24: "Rhythm and Blues", 25: "Sound Effects",
}  # fmt: skip
SAME_AS_BEFORE = {b"\t", b"\t\t"}


class Said(NamedTuple):
    """A text of a language, of the album (track 0) or of a track; or the bytes of a kind that is no text."""

    language: int
    kind: str
    track: int
    text: str


@dataclass
class Language:
    """The packs of one of the eight languages."""

    number: int
    packs: list[bytes] = field(default_factory=list)

    def of(self, kind: int) -> list[bytes]:
        return [pack for pack in self.packs if pack[KIND] == kind]

    @property
    def sizes(self) -> bytes:
        """The text bytes of the three size packs, or nothing if one is missing."""
        found = {pack[TRACK]: pack[TEXT] for pack in self.of(SIZE)}
        return b"".join(found[number] for number in range(3)) if set(found) >= {0, 1, 2} else b""

    @property
    def code(self) -> str | None:
        """The name of the character code in Python; Latin-1 if there is no size pack."""
        return CODES.get(self.sizes[CODE]) if self.sizes else "latin-1"

    @property
    def name(self) -> str:
        """The spoken language."""
        language = self.sizes[LANGUAGES + self.number] if self.sizes else 0
        return LANGUAGE_NAMES.get(language, f"language {language:#04x}" if language else "unknown language")


def languages_of(packs: Iterable[bytes]) -> list[Language]:
    """The packs with right checks, by their languages, each sorted by number."""
    found: dict[int, Language] = {}
    for pack in packs:
        number = pack[WHERE] >> 4 & 7
        found.setdefault(number, Language(number)).packs.append(pack)
    for language in found.values():
        language.packs.sort(key=lambda pack: pack[NUMBER])
    return [found[number] for number in sorted(found)]


def strings(packs: Sequence[bytes], width: int) -> Iterator[tuple[int, bytes]]:
    """The texts of a kind, each with its track. If a pack is missing, the rest of its text is missing too, and the next
    pack contains the position of the following text."""
    track, text, is_whole, number = 0, b"", True, None
    for pack in packs:
        if number is None or pack[NUMBER] != number + 1:
            # A text without its beginning is omitted.
            track, text, is_whole = pack[TRACK] & 0x7F, b"", pack[WHERE] & 15 == 0
        number = pack[NUMBER]
        content = pack[TEXT]
        for at in range(0, TEXT_BYTES, width):
            letter = content[at : at + width]
            if any(letter):
                text += letter
                continue
            if is_whole:
                yield track, text
            track, text, is_whole = track + 1, b"", True


def decoded(text: bytes, code: str | None) -> str:
    """A text, decoded with its character code; bytes that the code does not define are written as \\xHH."""
    return text.decode(code or "ascii", "backslashreplace")


def titles(language: Language, kind: int) -> Iterator[Said]:
    packs = language.of(kind)
    is_double = language.code == "cp932" and any(pack[WHERE] & 0x80 for pack in packs)
    code = "latin-1" if kind == 0x8E else language.code
    before = b""
    for track, text in strings(packs, 2 if is_double else 1):
        text = before if text in SAME_AS_BEFORE else text
        before = text
        if text:
            yield Said(language.number, TITLES[kind], track, decoded(text, code))


def genre(language: Language) -> Iterator[Said]:
    content = b"".join(pack[TEXT] for pack in language.of(GENRE))
    if content:
        number = int.from_bytes(content[:2], "big")
        name = GENRES.get(number, f"number {number}")
        more = decoded(content[2:].split(b"\0")[0], language.code)
        yield Said(language.number, NAMES[GENRE], 0, f"{name}: {more}" if more else name)


def said(packs: Iterable[bytes]) -> Iterator[Said]:
    """The contents of packs: for each language its texts, and all other kinds as hexadecimal bytes."""
    for language in languages_of(packs):
        kinds = sorted({pack[KIND] for pack in language.packs})
        for kind in kinds:
            if kind in TITLES:
                yield from titles(language, kind)
            elif kind == GENRE:
                yield from genre(language)
            elif kind in (DISC_ID, CLOSED):
                text = b"".join(pack[TEXT] for pack in language.of(kind)).split(b"\0")[0]
                yield Said(language.number, NAMES[kind], 0, decoded(text, "latin-1"))
            else:
                content = b" ".join(pack[TEXT].hex().encode() for pack in language.of(kind))
                yield Said(language.number, NAMES.get(kind, f"kind {kind:02x}"), 0, content.decode())


def beyond(packs: Iterable[bytes]) -> str:
    """Short notes on the packs other than the texts of their first language."""
    found = languages_of(packs)
    kinds = {NAMES.get(pack[KIND], f"kind {pack[KIND]:02x}") for language in found for pack in language.packs}
    more = [f"{len(found)} languages"] if len(found) > 1 else []
    more += [kind for kind in sorted(kinds) if kind not in TITLES.values() and kind != NAMES[SIZE]]
    codes = {language.code for language in found} - {"latin-1"}
    more += [CODE_NAMES[code] if code else "an unknown character code" for code in sorted(codes, key=str)]
    return ", ".join(more)


# The bytes of a pack that number it: the sequence, and the block of a language in bits 4 to 6.
SEQUENCE, LANGUAGE = 2, 3
# The number of times that a lead-in made from packs repeats each pack.
TIMES = 3


def text_packs_in(lead_in_blocks: bytes) -> list[bytes]:
    """The packs of a lead-in with right checks, the first one for each number, sorted."""
    found: dict[tuple[int, int], bytes] = {}
    room = ctypes.create_string_buffer(TEXT_PACK * PACKS_A_BLOCK)
    read, matches = library.call("ribjasper_block_text_packs"), library.call("ribjasper_text_pack_matches")
    for start in range(0, len(lead_in_blocks), BLOCK):
        read(lead_in_blocks[start : start + BLOCK], room)
        for place in range(0, TEXT_PACK * PACKS_A_BLOCK, TEXT_PACK):
            pack = room.raw[place : place + TEXT_PACK]
            number = pack[LANGUAGE] >> 4 & 7, pack[SEQUENCE]
            # Zeros are no pack, but blocks without texts have them.
            if number not in found and any(pack) and matches(pack):
                found[number] = pack
    return [found[number] for number in sorted(found)]
