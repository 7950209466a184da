"""The sound of a disc: 44,100 Hz, stereo, 16 bits, from WAV files unchanged and from others with ffmpeg."""
import array
import atexit
import functools
import json
import math
import os
import re
import shutil
import struct
import subprocess
import sys
import tempfile
from pathlib import Path
from typing import Any, BinaryIO, Iterator, NamedTuple

from ..common.failures import Refusal, reading, shown
from ..common.output import tell

RATE, CHANNELS, SAMPLE_BYTES = 44_100, 2, 2
# The audio of a block.
FRAMES_A_BLOCK = RATE // 75
SECTOR_AUDIO = FRAMES_A_BLOCK * CHANNELS * SAMPLE_BYTES
# The forms of a WAV file: plain samples, and one whose form is in a longer header.
PLAIN, EXTENSIBLE = 1, 0xFFFE
# The length of a stream whose end was not known when its header was written.
UNKNOWN = (0, 0xFFFF_FFFF)
# The endings of sounds that may be next to lyrics.
ENDINGS = (".wav", ".flac", ".mp3", ".ogg", ".opus", ".m4a", ".aiff", ".aif")
DISC_FORM = ["-vn", "-ar", str(RATE), "-ac", str(CHANNELS), "-c:a", "pcm_s16le"]


# The limits of ffmpeg's filter for loudness: the range of targets in LUFS, and the highest peak in dB.
QUIETEST, LOUDEST, HIGHEST_PEAK = -70.0, -5.0, -1.5
JSON = re.compile(rb"\{[^{}]*\}")
# Factors for samples are counted in parts of this.
WHOLE = 1 << 15


class Treatment(NamedTuple):
    """The treatment of a sound before it is used: the seconds at which it begins and ends, its loudness in LUFS, the
    seconds over which it fades in and out, and seconds of silence in front."""

    begin: float = 0.0
    end: float | None = None
    loudness: float | None = None
    fade_in: float = 0.0
    fade_out: float = 0.0
    intro: float = 0.0

    @property
    def later(self) -> float:
        """The delay of everything in the sound relative to its file."""
        return self.intro - self.begin


class Wave(NamedTuple):
    """The header of a WAV file, and the place of its samples."""

    form: int
    channels: int
    rate: int
    bits: int
    start: int
    size: int

    @property
    def is_of_disc(self) -> bool:
        return self[:4] == (PLAIN, CHANNELS, RATE, 8 * SAMPLE_BYTES)

    def description(self) -> str:
        return f"has {self.rate} Hz, {self.channels} channel{'s' * (self.channels != 1)}, {self.bits} bits"


def read_wave(file: BinaryIO, path: Path) -> Wave | None:
    """The header of a WAV file, or None for any other file. A file that ends before its samples do is refused."""
    if file.read(4) != b"RIFF" or file.read(8)[4:] != b"WAVE":
        return None
    end = os.fstat(file.fileno()).st_size
    form = channels = rate = bits = 0
    while len(head := file.read(8)) == 8:
        size = int.from_bytes(head[4:], "little")
        if head[:4] == b"fmt ":
            content = file.read(size).ljust(16, b"\0")
            form, channels, rate, _, _, bits = struct.unpack("<HHIIHH", content[:16])
            if form == EXTENSIBLE and len(content) >= 26:
                form = int.from_bytes(content[24:26], "little")
            file.seek(size & 1, os.SEEK_CUR)
        elif head[:4] == b"data":
            return Wave(
                form,
                channels,
                rate,
                bits,
                file.tell(),
                whole_size(file.tell(), size, end, channels * bits // 8 * rate, path),
            )
        else:
            file.seek(size + (size & 1), os.SEEK_CUR)
    raise Refusal(path, "is a WAV file that ends before its samples begin")


def whole_size(start: int, size: int, end: int, a_second: int, path: Path) -> int:
    """The number of bytes of the samples; a missing part is refused."""
    there = end - start
    if size in UNKNOWN:
        return there
    if size > there:
        missing = f"{there / a_second:.2f} of {size / a_second:.2f} seconds" if a_second else f"{there} of {size} bytes"
        raise Refusal(path, f"is cut off: it contains only {missing}; {remedy(path)} makes a complete file from them")
    return size


def remedy(path: Path) -> str:
    """The command that makes a file in the form for a disc."""
    return f"`ffmpeg -i {shown(os.fspath(path))} {' '.join(DISC_FORM)} OUT.wav`"


def wave_of(path: Path) -> Wave | None:
    with reading(path), open(path, "rb") as file:
        return read_wave(file, path)


@functools.lru_cache(maxsize=None)
def of_disc(path: Path) -> tuple[Path, Wave]:
    """A WAV file whose samples fit onto a disc unchanged: this file, or one that ffmpeg makes from it and that exists
    while the desk runs."""
    wave = wave_of(path)
    if wave and wave.is_of_disc:
        return path, wave
    description = wave.description() if wave else "is not a WAV file"
    if not shutil.which("ffmpeg"):
        raise Refusal(
            path,
            f"{description}, and ffmpeg is not installed; a disc needs 44,100 Hz, 2 channels, 16 bits, and "
            f"{remedy(path)} makes such a file",
        )
    out = Path(folder()) / f"{len(os.listdir(folder()))}.wav"
    words = ["ffmpeg", "-v", "error", "-nostdin", "-xerror", "-i", os.fspath(path), *DISC_FORM, os.fspath(out)]
    done = subprocess.run(words, stdin=subprocess.DEVNULL, capture_output=True)
    if done.returncode:
        why = done.stderr.decode(errors="replace").strip().splitlines()
        raise Refusal(
            path, f"{description}, and ffmpeg cannot convert it: {why[-1] if why else 'it printed no message'}"
        )
    tell(f"{path}: {description} and is converted by ffmpeg")
    wave = wave_of(out)
    if not wave or not wave.is_of_disc:
        raise Refusal(path, "ffmpeg did not make a file for a disc from it")
    return out, wave


@functools.lru_cache(maxsize=None)
def folder() -> str:
    """The folder of converted sounds, which exists while the desk runs."""
    name = tempfile.mkdtemp(prefix="ribjasper-sound-")
    atexit.register(shutil.rmtree, name, ignore_errors=True)
    return name


def frames(path: Path) -> int:
    """The number of samples of each channel."""
    return of_disc(path)[1].size // (CHANNELS * SAMPLE_BYTES)


def length(path: Path) -> int:
    """The number of blocks of the sound; the last one may be padded with silence."""
    return -(-frames(path) // FRAMES_A_BLOCK)


def sectors(path: Path) -> Iterator[bytes]:
    """The sound of each block, 2,352 bytes, lowest byte first."""
    name, wave = of_disc(path)
    with reading(path), open(name, "rb") as file:
        file.seek(wave.start)
        for at in range(0, wave.size, SECTOR_AUDIO):
            yield file.read(min(SECTOR_AUDIO, wave.size - at)).ljust(SECTOR_AUDIO, b"\0")


def header(samples: int) -> bytes:
    """The header of a WAV file with this number of bytes of samples of a disc."""
    frame = CHANNELS * SAMPLE_BYTES
    form = struct.pack("<4sIHHIIHH", b"fmt ", 16, PLAIN, CHANNELS, RATE, RATE * frame, frame, 8 * SAMPLE_BYTES)
    return struct.pack("<4sI4s", b"RIFF", 36 + samples, b"WAVE") + form + struct.pack("<4sI", b"data", samples)


@functools.lru_cache(maxsize=None)
def treated(path: Path, treatment: Treatment) -> Path:
    """The treated sound: this file if there is nothing to do, or a WAV file that exists while the desk runs."""
    if treatment == Treatment():
        return path
    name, wave = of_disc(path)
    first, last = span_of(path, wave, treatment)
    with reading(path), open(name, "rb") as file:
        file.seek(wave.start + CHANNELS * SAMPLE_BYTES * first)
        samples = file.read(CHANNELS * SAMPLE_BYTES * (last - first))
    if treatment.loudness is not None:
        samples = at_loudness(path, samples, treatment.loudness)
    samples = faded(samples, treatment.fade_in, treatment.fade_out)
    silence = bytes(CHANNELS * SAMPLE_BYTES * round(RATE * treatment.intro))
    out = new_file(".wav")
    out.write_bytes(header(len(silence) + len(samples)) + silence + samples)
    return out


def span_of(path: Path, wave: Wave, treatment: Treatment) -> tuple[int, int]:
    """The frames at which a sound begins and ends."""
    count = wave.size // (CHANNELS * SAMPLE_BYTES)
    last = count if treatment.end is None else round(RATE * treatment.end)
    first = round(RATE * treatment.begin)
    if not first < last <= count:
        asked = f"{treatment.begin:g} to {last / RATE:g}"
        raise Refusal(path, f"lasts {count / RATE:.2f} seconds, so it has no part from {asked} seconds")
    return first, last


def new_file(ending: str) -> Path:
    """A file that exists while the desk runs."""
    return Path(folder()) / f"{len(os.listdir(folder()))}{ending}"


def faded(samples: bytes, fade_in: float, fade_out: float) -> bytes:
    """Samples that fade in from silence and out to it, linearly."""
    values = array.array("h", samples)
    count = len(values) // CHANNELS
    steps = [min(count, round(RATE * seconds)) for seconds in (fade_in, fade_out)]
    if sys.byteorder == "big":
        values.byteswap()
    for step, is_last in zip(steps, (False, True)):
        for at in range(step):
            part, place = WHOLE * at // step, CHANNELS * (count - 1 - at if is_last else at)
            for channel in range(CHANNELS):
                values[place + channel] = values[place + channel] * part // WHOLE
    if sys.byteorder == "big":
        values.byteswap()
    return values.tobytes()


def at_loudness(path: Path, samples: bytes, loudness: float) -> bytes:
    """The samples at another loudness, with ffmpeg: one pass measures it, and one changes it as evenly as possible."""
    source, out = new_file(".wav"), Path(f"{new_file('')}-loud.wav")
    source.write_bytes(header(len(samples)) + samples)
    target = f"loudnorm=I={loudness:g}:TP={HIGHEST_PEAK}:LRA=20"
    printed = run_ffmpeg(
        path, ["-i", os.fspath(source), "-af", f"{target}:print_format=json", "-f", "null", "-"], "info"
    )
    found = [one for one in JSON.findall(printed) if b"input_i" in one]
    measured: dict[str, Any] = json.loads(found[-1]) if found else {}
    values = [
        str(measured.get(key, "")) for key in ("input_i", "input_tp", "input_lra", "input_thresh", "target_offset")
    ]
    if not all(is_number(value) for value in values):
        raise Refusal(path, "ffmpeg cannot measure its loudness; the sound may be silent")
    names = ("measured_I", "measured_TP", "measured_LRA", "measured_thresh", "offset")
    given = ":".join(f"{name}={value}" for name, value in zip(names, values))
    run_ffmpeg(path, ["-i", os.fspath(source), "-af", f"{target}:{given}:linear=true", *DISC_FORM, os.fspath(out)])
    wave = wave_of(out)
    if not wave or not wave.is_of_disc:
        raise Refusal(path, "ffmpeg did not make a file for a disc from it")
    louder = out.read_bytes()[wave.start : wave.start + wave.size]
    return louder[: len(samples)].ljust(len(samples), b"\0")


def is_number(word: str) -> bool:
    try:
        return math.isfinite(float(word))
    except ValueError:
        return False


def run_ffmpeg(path: Path, words: list[str], level: str = "error") -> bytes:
    """The messages of ffmpeg while it processes a sound."""
    if not shutil.which("ffmpeg"):
        raise Refusal(path, "its loudness needs ffmpeg, which is not installed")
    done = subprocess.run(
        ["ffmpeg", "-v", level, "-nostats", "-nostdin", *words], stdin=subprocess.DEVNULL, capture_output=True
    )
    if done.returncode:
        why = done.stderr.decode(errors="replace").strip().splitlines()
        raise Refusal(path, f"ffmpeg ended with {done.returncode}: {why[-1] if why else 'it printed no message'}")
    return done.stderr


def length_with(path: Path, intro: float) -> int:
    """The number of blocks of a sound with silence in front."""
    return -(-(frames(path) + round(RATE * intro)) // FRAMES_A_BLOCK)


def sound_beside(lyrics: Path) -> Path | None:
    """The sound next to lyrics with the same name, with an ending in lower or upper case."""
    exact = next((path for path in (lyrics.with_suffix(ending) for ending in ENDINGS) if path.exists()), None)
    if exact or not lyrics.name:
        return exact
    wanted = {f"{lyrics.stem}{ending}".lower(): place for place, ending in enumerate(ENDINGS)}
    try:
        names = [path for path in lyrics.parent.iterdir() if path.name.lower() in wanted]
    except OSError:
        return None
    # The name may also differ in upper and lower case, if only one file matches.
    best = min((wanted[path.name.lower()] for path in names), default=0)
    found = [path for path in names if wanted[path.name.lower()] == best]
    same = [path for path in found if path.stem == lyrics.stem]
    return found[0] if len(found) == 1 else same[0] if same else None
