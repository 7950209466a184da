"""The encoding of a text file: from its user, its byte order mark or its content, or a guess, which is reported."""
import codecs
import importlib
import re
from collections import Counter
from typing import Any, NamedTuple

SAID = re.compile(rb"^#ENCODING:\s*(\S+)", re.MULTILINE | re.IGNORECASE)
MARKS = ((codecs.BOM_UTF8, "utf-8-sig"), (codecs.BOM_UTF16_LE, "utf-16"), (codecs.BOM_UTF16_BE, "utf-16"))
UTF_8 = ("utf-8", "utf-8-sig")
NAMES = {"utf-16-le": "UTF-16", "utf-16-be": "UTF-16", "utf-16": "UTF-16", "cp932": "Shift-JIS", "cp949": "EUC-KR"}
# The names that detectors return, and the superset that programs write under each name.
SUPERSETS = {"gb2312": "gb18030", "gbk": "gb18030", "euc_kr": "cp949", "shift_jis": "cp932", "tis-620": "cp874"}
# The result of a less certain detector is ignored.
LEAST_SURE = 0.5
# Parts of a text: kana that show Shift-JIS, and letters beyond ASCII that an alphabet must cover.
LEAST_KANA, LEAST_COVERED = 0.2, 0.95
# The letters beyond ASCII of languages in Latin script, by the encoding of their old files. Detectors do not
# distinguish these encodings.
ALPHABETS = {
    "cp1252": (
        "äöüß",
        "àâæçéèêëîïôùûüÿœ",
        "áéíñóúü¡¿",
        "àáâãçéêíóôõúü",
        "àèéìòù",
        "åäöé",
        "æøåéò",
        "ðþæáéíóúýö",
        "äëéèïöü",
    ),
    "cp1250": ("ąćęłńóśźż", "áčďéěíňóřšťúůýž", "áéíóöőúüű", "áäčďéíĺľňóôŕšťúýž", "čšžćđ", "ăâîşţ"),
    "cp1254": ("çğıöşüâîû",),
    "cp1257": ("āčēģīķļņšūž", "ąčęėįšųūž", "äõöüšž"),
}
# Signs that occur in texts of all languages.
SIGNS = set("’‘“”„‚«»–—…·•°§ ©´`‹›€")


class Guess(NamedTuple):
    """An encoding, and whether it is only a guess."""

    name: str
    is_guess: bool = False


def shown_name(name: str) -> str:
    """The usual name of an encoding."""
    name = codecs.lookup(name).name
    return NAMES.get(name, f"Windows-{name[2:]}" if re.fullmatch(r"cp125\d", name) else name.upper())


def encoding_of(content: bytes) -> Guess | None:
    """The encoding of a text, or None if no guess is good enough. In UTF-16 without a mark, Latin letters have zero
    bytes."""
    for mark, name in MARKS:
        if content.startswith(mark):
            return Guess(name)
    head = content[:4096]
    if head[1::2].count(0) > len(head) // 6:
        return Guess("utf-16-le")
    if head[0::2].count(0) > len(head) // 6:
        return Guess("utf-16-be")
    if decodes(content, "utf-8"):
        return Guess("utf-8")
    if (said := SAID.search(head)) and known(said[1].decode("ascii", "replace")):
        return Guess(said[1].decode("ascii"))
    likely = guessed(without_times(content))
    return Guess(likely, True) if likely and decodes(content, likely) else None


def known(name: str) -> bool:
    try:
        return codecs.lookup(name)._is_text_encoding  # type: ignore[attr-defined,no-any-return]
    except (LookupError, ValueError):
        return False


def decodes(content: bytes, name: str) -> bool:
    try:
        content.decode(name)
        return True
    except (UnicodeError, LookupError):
        return False


def without_times(content: bytes) -> bytes:
    """A text without the times and tags between its words, which only disturb a guess."""
    return re.sub(rb"[\[<{][\d:.,]+[\]>}]|\[\w+:|\{[^{}]*\}", b" ", content)


def guessed(content: bytes) -> str | None:
    """The encoding that a text most likely has: Shift-JIS by its kana, Latin ones by their alphabets, others by a
    detector."""
    if decodes(content, "cp932") and kana_in(content.decode("cp932")) >= LEAST_KANA:
        return "cp932"
    name, _ = detected(content)
    if name and not name.lower().startswith(
        ("ascii", "iso-8859-1", "windows-1252", "windows-1254", "iso-8859-9", "mac")
    ):
        return SUPERSETS.get(codecs.lookup(name).name, name)
    return by_alphabets(content)


def kana_in(text: str) -> float:
    """The part of kana, of normal width, among the letters beyond ASCII."""
    letters = [letter for letter in text if ord(letter) > 127]
    return sum("\u3041" <= letter <= "\u30fe" for letter in letters) / max(1, len(letters))


def detected(content: bytes) -> tuple[str | None, float]:
    """The result of a detector, if one is installed: chardet, which distinguishes more languages, or
    charset-normalizer."""
    try:
        chardet: Any = importlib.import_module("chardet")
        found = chardet.detect(content)
        name, sure = found["encoding"], found["confidence"] or 0.0
    except ImportError:
        try:
            normalizer: Any = importlib.import_module("charset_normalizer")
        except ImportError:
            return None, 0.0
        best = normalizer.from_bytes(content).best()
        name, sure = (best.encoding, 1.0 - best.chaos) if best else (None, 0.0)
    return (name, sure) if name and known(name) and sure >= LEAST_SURE else (None, 0.0)


def by_alphabets(content: bytes) -> str | None:
    """The encoding under which one language has nearly all letters of the text. Of two languages that have them, the
    one with fewer other letters is the likelier one. Nothing, if two encodings are equally likely and show different
    texts."""
    found: dict[tuple[float, int], list[str]] = {}
    for name, alphabets in ALPHABETS.items():
        if not decodes(content, name):
            continue
        letters = Counter(letter for letter in content.decode(name).lower() if ord(letter) > 127)
        strange = sum(count for letter, count in letters.items() if letter not in SIGNS)
        for alphabet in alphabets:
            part = sum(letters[letter] for letter in set(alphabet) - SIGNS) / strange if strange else 1.0
            found.setdefault((part, -len(alphabet) if strange else 0), []).append(name)
    best = max(found, default=(0.0, 0))
    names = found.get(best, [])
    is_one = len({content.decode(name) for name in names}) == 1
    return names[0] if best[0] >= LEAST_COVERED and (is_one or "cp1252" in names) else None
