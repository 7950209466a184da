"""Arguments of the command line that several commands have."""
import argparse
from typing import Callable, TypeAlias

from .library import LONGEST_LEAD_IN

# The parser to which a command adds its options.
Commands: TypeAlias = "argparse._SubParsersAction[argparse.ArgumentParser]"


def number_in(least: int, most: int) -> Callable[[str], int]:
    """A whole number in a range."""

    def read_number(word: str) -> int:
        if not (word.isascii() and word.isdigit() and least <= int(word) <= most):
            raise argparse.ArgumentTypeError(f"{word} is not a number from {least} to {most}")
        return int(word)

    return read_number


def seconds_in(least: float, most: float) -> Callable[[str], float]:
    """Seconds in a range, with or without a fraction."""

    def read_seconds(word: str) -> float:
        try:
            number = float(word)
        except ValueError:
            number = least - 1
        if not least <= number <= most:
            raise argparse.ArgumentTypeError(f"{word} is not a number of seconds from {least:g} to {most:g}")
        return number

    return read_seconds


# The blocks of a lead-in.
lead_in = number_in(0, LONGEST_LEAD_IN)
