"""Where words may be divided into syllables, by the package pyphen if it is installed."""
import functools
import importlib
import re
from typing import Any

from .scores import split_words

MARK = "\u00ad"
WORD = re.compile(r"\w+")


@functools.lru_cache(maxsize=None)
def pyphen_package() -> Any:
    """The package, or None: it is optional, and does not load without a folder of dictionaries."""
    try:
        return importlib.import_module("pyphen")
    except (ImportError, OSError):
        return None


def is_installed() -> bool:
    return pyphen_package() is not None


@functools.lru_cache(maxsize=None)
def dictionary(language: str) -> Any:
    """The dictionary of a language like en_US, or None if there is none."""
    found = pyphen_package().language_fallback(language) if is_installed() else None
    return pyphen_package().Pyphen(lang=found, left=1, right=1) if found else None


def languages() -> list[str]:
    """The languages whose words can be divided."""
    return sorted(pyphen_package().LANGUAGES) if is_installed() else []


def syllables_of(text: str, language: str) -> list[str]:
    """A text syllable by syllable; word by word without pyphen or without its dictionary."""
    words = split_words(text)
    by = dictionary(language)
    if by is None:
        return words
    return [part for word in words for part in divided(word, by)]


def divided(word: str, by: Any) -> list[str]:
    marked = WORD.sub(lambda found: str(by.inserted(found[0], MARK)), word)
    return [part for part in marked.split(MARK) if part]
