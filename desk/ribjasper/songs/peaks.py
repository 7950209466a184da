"""The data with which a page draws a sound: the lowest and the highest sample of each hundredth of a second."""
import array
import sys
from pathlib import Path

from ..common.failures import reading
from . import audio

A_SECOND = 100
FRAMES = audio.RATE // A_SECOND
BYTES = FRAMES * audio.CHANNELS * audio.SAMPLE_BYTES
READ_AT_ONCE = 500


def peaks_of(path: Path) -> bytes:
    """Two signed bytes for each hundredth of a second: the lowest and the highest sample of both channels."""
    name, wave = audio.of_disc(path)
    made = bytearray()
    with reading(path), open(name, "rb") as file:
        file.seek(wave.start)
        left = wave.size
        while left > 0 and (content := file.read(min(left, BYTES * READ_AT_ONCE))):
            left -= len(content)
            made += peaks_in(content)
    return bytes(made)


def peaks_in(content: bytes) -> bytes:
    samples = array.array("h", content[: len(content) // audio.SAMPLE_BYTES * audio.SAMPLE_BYTES])
    if sys.byteorder == "big":
        samples.byteswap()
    step, made = FRAMES * audio.CHANNELS, array.array("b")
    for at in range(0, len(samples), step):
        part = samples[at : at + step]
        made.append(min(part) >> 8)
        made.append(max(part) >> 8)
    return made.tobytes()
