"""Times of a disc: blocks, 75 per second, written `MM:SS:FF`."""
import argparse
import re

from .library import BLOCKS_A_SECOND


def spelled(time: int | None) -> str:
    """A time as minutes, seconds and frames, or a dash."""
    if time is None:
        return "-"
    seconds, frames = divmod(time, BLOCKS_A_SECOND)
    return f"{seconds // 60:02}:{seconds % 60:02}:{frames:02}"


SECONDS_A_MINUTE = 60
# The two seconds before the audio of the first track.
PAUSE = 2 * BLOCKS_A_SECOND
CLOCK = re.compile(r"(\d\d):([0-5]\d):([0-6]\d|7[0-4])")


def blocks(time: str) -> int:
    """The blocks of a time, as an argument of the command line."""
    parts = CLOCK.fullmatch(time)
    if not parts:
        raise argparse.ArgumentTypeError(f"{time} is not a time MM:SS:FF (75 frames a second)")
    minutes, seconds, frames = map(int, parts.groups())
    return BLOCKS_A_SECOND * (SECONDS_A_MINUTE * minutes + seconds) + frames


def nearest_block(seconds: float) -> int:
    """The block of the program at a time of the audio."""
    return PAUSE + round(BLOCKS_A_SECOND * seconds)
