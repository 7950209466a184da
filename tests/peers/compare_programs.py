#!/usr/bin/env python3
"""Compares two builds of the program on random calls: compare_programs.py OLD NEW [--calls N] [--seed S].

Each call runs both programs with the same arguments and inputs; standard output, standard error and the exit status
must be equal. The table shows how many calls of each command ended with each status. The list below it shows how often
each line was printed. A difference is reported with the command line that shows it, and its inputs are kept; the exit
status is then 1. If a call runs out of memory in either program, it is not compared.

Inputs depend only on the seed and on OLD. Its output of a call becomes an input of later calls: unchanged, damaged,
shortened or mixed. No check of a format is computed here. The checks of Q frames, text packs and checkpoints are
remainders. So the exclusive or of three valid ones has a valid check again, mostly with fields out of range.
"""
import argparse
import os
import random
import re
import shlex
import shutil
import site
import subprocess
import sys
import tempfile
from collections import Counter
from collections.abc import Callable
from pathlib import Path
from typing import IO, NamedTuple, TypeVar

site.addsitedir(str(Path(__file__).resolve().parents[2] / "tools" / "shared"))
from formats import COMMANDS as HEAD, FORMATS, FORMS, bare, quoted, reasons, table  # noqa: E402

Made = TypeVar("Made")

BLOCK, SECTOR_AUDIO, PACK = 96, 2352, 24
SECOND = 75
NO_MEMORY = 7
SECONDS_ALLOWED = 120
# The number of inputs of a kind that are kept, and their greatest size in bytes.
POOL, POOLED_BYTES = 60, 700_000
# The sizes in bytes above which a stream or a `.cdg` file, and a text, are too long.
STREAM_LIMIT, TEXT_LIMIT = 96_000_000, 67_108_864
INSTRUCTIONS = (1, 2, 6, 20, 24, 28, 30, 31, 38)

# The outputs of commands that write no stream: the kind of input that they are for later calls.
PRODUCTS = dict(convert="cdg", merge="cdg", thin="cdg", save="saves", planar="planar", gen="scripts")

# Values at the limits of what is valid.
ODD = {
    "N": ("450000", "450001", "0", "00", "01", "-1", "+1", "1x", "", " 1", "4294967296", "1" + 20 * "0"),
    "S": ("0", "18446744073709551615", "18446744073709551616", "00", "-7", "7.", "", "1" + 23 * "0"),
    "K": ("0", "500", "501", "01", "-1", "", "x", "4294967297"),
    "T": ("00:00:00", "99:59:74", "00:60:00", "00:00:75", "0:00:00", "00:00:0", "00-00-00", "000:00:00", ""),
    "F": ("raw", "sector", "cooked", "planar", "RAW", ""),
}
STRAY_WORDS = ("", "--", "--at", "--form", "--lead-in", "raw", "0", "--help", "é", "-")


class Option(NamedTuple):
    """An option of a command: its word, the letter of its value, and whether it is optional."""

    word: str
    letter: str
    free: bool


class Stream(NamedTuple):
    """Raw blocks, and the number of those in the lead-in."""

    data: bytes
    lead_in: int

    def blocks(self) -> int:
        return len(self.data) // BLOCK


class Inputs(NamedTuple):
    """The inputs of a call, and the option values that fit them."""

    first: bytes = b""
    second: bytes | None = None
    lead_in: int = 0
    at: int = 0
    form: str = "raw"


class Call(NamedTuple):
    """A call: its command and all its arguments, its inputs, and whether its output is a full device."""

    command: str
    words: list[str | bytes]
    inputs: Inputs
    full: bool


class Outcome(NamedTuple):
    """The result of a call; the status is None if the call did not end."""

    status: int | None
    output: bytes
    errors: bytes


def commands() -> dict[str, list[Option]]:
    """The commands and their options, from the table of the formats."""
    found = {}
    for words, *_ in table(FORMATS.read_text(), HEAD):
        name, _, rest = bare(words).partition(" ")
        options = re.findall(r"(\[?)(--[a-z-]+) ([A-Z])", rest)
        found[name] = [Option(word, letter, bool(free)) for free, word, letter in options]
    return found


COMMANDS = commands()


def time_of(blocks: int) -> str:
    """A number of blocks, written as a time."""
    return f"{blocks // SECOND // 60 % 100:02}:{blocks // SECOND % 60:02}:{blocks % SECOND:02}"


def combined(first: bytes, second: bytes, third: bytes) -> bytes:
    """The exclusive or of three byte strings, as long as the shortest."""
    length = min(len(first), len(second), len(third))
    numbers = [int.from_bytes(piece[:length]) for piece in (first, second, third)]
    return (numbers[0] ^ numbers[1] ^ numbers[2]).to_bytes(length)


def blocks_of(data: bytes) -> list[bytes]:
    return [data[at : at + BLOCK] for at in range(0, len(data), BLOCK)]


class Texts:
    """Cue sheets and picture scripts, valid and invalid ones."""

    def __init__(self, rng: random.Random) -> None:
        self.rng = rng
        self.faulty = self.examples()

    @staticmethod
    def examples() -> list[str]:
        """The example lines of refused texts, from the formats."""
        return [line for rows in reasons(FORMATS.read_text()).values() for _, cell, _ in rows for line in quoted(cell)]

    def chance(self, share: float) -> bool:
        return self.rng.random() < share

    def digits(self, count: int) -> str:
        return "".join(self.rng.choices("0123456789", k=count))

    def quoted(self) -> str:
        letters = self.rng.choices("abcdefgh IJK.é'\\", k=self.rng.choice((0, 1, 5, 12, 30)))
        return f'"{"".join(letters)}"'

    def names(self, share: float) -> list[str]:
        """Lines of texts, each with a probability."""
        words = [word for word in ("TITLE", "PERFORMER", "SONGWRITER") if self.chance(share)]
        return [f"{word} {self.quoted()}" for word in words]

    def track(self, number: int, at: int) -> tuple[list[str], int]:
        """The lines of a track, and the time after its last index."""
        lines = [f"TRACK {number:02} AUDIO", *self.names(0.3)]
        if self.chance(0.3):
            flags = self.rng.sample(("DCP", "4CH", "PRE", "SCMS"), self.rng.randint(1, 4))
            lines.append(f"FLAGS {' '.join(flags)}")
        if self.chance(0.3):
            lines.append(f"ISRC {''.join(self.rng.choices('ABXYZabz', k=5))}{self.digits(7)}")
        if self.chance(0.1):
            lines.append(f"PREGAP {time_of(self.rng.randint(0, 80))}")
        for index in range(self.rng.choice((0, 1, 1)), self.rng.choice((2, 2, 2, 4))):
            lines.append(f"INDEX {index:02} {time_of(at)}")
            at += self.rng.choice((0, 1, 20, 120))
        if self.chance(0.08):
            lines.append(f"POSTGAP {time_of(self.rng.randint(0, 80))}")
        return lines, at

    def sheet(self) -> tuple[list[str], int, int]:
        """The lines of a valid sheet, its number of tracks, and its least length."""
        lines = ["REM by seed"] if self.chance(0.2) else []
        if self.chance(0.4):
            lines.append(f"CATALOG {self.digits(13)}")
        lines += [*self.names(0.4), 'FILE "a.wav" WAVE']
        at, tracks = 0, self.rng.choice((1, 1, 2, 3, 6))
        for number in range(1, tracks + 1):
            of_track, at = self.track(number, at)
            lines += of_track
        return [" " * self.rng.choice((0, 0, 2)) + line for line in lines], tracks, at + 1

    def drawing(self) -> str:
        """A line of a script that draws."""
        rng = self.rng
        x, y, colour = rng.randrange(288), rng.randrange(192), rng.randrange(16)
        width, height = rng.randint(1, min(40, 288 - x)), rng.randint(1, min(30, 192 - y))
        digits = "".join(rng.choices("0123456789abcdefABCDEF", k=rng.randint(1, min(20, 288 - x))))
        return rng.choice(
            (
                f"colour {colour} 0{rng.randrange(4096):03X}",
                f"border {colour}",
                f"fill {colour}",
                f"rect {x} {y} {width} {height} {colour}",
                f"rect {x} {y} {width} {height} {colour}",
                f"row {x} {y} {digits}",
                "# a word",
            )
        )

    def script(self, shows: int) -> tuple[list[str], int]:
        """The lines of a script, and its last hold time."""
        lines, at = [], 0
        for _ in range(shows):
            lines += [self.drawing() for _ in range(self.rng.randint(0, 6))]
            ready = at + self.rng.choice((1, 30, 90, 200, 400))
            at = ready + self.rng.choice((0, 0, 1, 60))
            lines.append(f"show {time_of(ready)} {time_of(at)}")
        return lines, at

    def with_error(self, lines: list[str]) -> list[str]:
        """Lines with an error in one of them."""
        made = lines or [""]
        place = self.rng.randrange(len(made))
        line = made[place]
        cut = self.rng.randint(0, len(line))
        faults: list[list[str]] = [
            [],
            [line, line],
            [self.rng.choice(self.faulty)],
            [self.rng.choice(self.faulty), line],
            [self.rng.choice(made)],
            [line[:cut]],
            [line[:cut] + self.rng.choice("x 09:-\"\t\x01é") + line[cut:]],
        ]
        instead = self.rng.choice(faults)
        return [*made[:place], *instead, *made[place + 1 :]]

    def written(self, lines: list[str], share: float = 0.25) -> bytes:
        """Lines as a file; a share of the files has an error, and they begin and end in all allowed ways."""
        if self.chance(share):
            lines = self.with_error(lines)
        end = "\r\n" if self.chance(0.1) else "\n"
        text = end.join(lines) + ("" if self.chance(0.1) else end)
        return ("\ufeff" if self.chance(0.05) else "").encode() + text.encode()


class Maker:
    """Makes calls. The outputs of the old program are stored and used in later inputs."""

    def __init__(self, rng: random.Random) -> None:
        self.rng = rng
        self.texts = Texts(rng)
        self.streams: list[Stream] = []
        self.pools: dict[str, list[bytes]] = {kind: [] for kind in set(PRODUCTS.values())}

    def chance(self, share: float) -> bool:
        return self.rng.random() < share

    def remember(self, pool: list[Made], made: Made) -> None:
        if len(pool) < POOL:
            pool.append(made)
        else:
            pool[self.rng.randrange(POOL)] = made

    def learn(self, call: Call, output: bytes) -> None:
        """Stores the output of a call of the old program that ended with status 0."""
        if not 0 < len(output) <= POOLED_BYTES or call.full:
            return
        if call.command in ("author", "press", "scratch"):
            lead_in = int(call.words[call.words.index("--lead-in") + 1])
            self.remember(self.streams, Stream(output, lead_in))
        elif call.command in PRODUCTS:
            self.remember(self.pools[PRODUCTS[call.command]], output)

    # Pieces of inputs.

    def noise(self, length: int) -> bytes:
        return self.rng.randbytes(length)

    def size(self) -> int:
        """A number of blocks: mostly few, sometimes hundreds or thousands."""
        return self.rng.choice((0, 1, 2, 3, 8, 20, 20, 40, 40, 300, 8000))

    def window(self, stream: Stream) -> Stream:
        """Some blocks of a stream, from its beginning or from a later block."""
        first = self.rng.choice((0, 0, max(0, stream.lead_in - 3), self.rng.randint(0, stream.blocks())))
        data = stream.data[first * BLOCK : (first + self.size()) * BLOCK]
        return Stream(data, max(0, stream.lead_in - first))

    def flipped(self, data: bytes) -> bytes:
        """Bytes with some of them combined with other values."""
        made = bytearray(data)
        for _ in range(self.rng.choice((1, 1, 3, 10, 60)) if made else 0):
            made[self.rng.randrange(len(made))] ^= self.rng.choice((1, 64, 128, self.rng.randrange(1, 256)))
        return bytes(made)

    def torn(self, data: bytes) -> bytes:
        return data[: self.rng.randint(0, len(data))]

    def lost(self, data: bytes) -> bytes:
        """Blocks with a stretch of zeros."""
        first, last = sorted(self.rng.randint(0, len(data)) for _ in range(2))
        length = min(last - first, 40 * BLOCK)
        return data[:first] + bytes(length) + data[first + length :]

    def shuffled(self, data: bytes) -> bytes:
        """The blocks in another order, or with some of them repeated."""
        blocks = blocks_of(data)
        several = self.rng.choices(blocks, k=len(blocks)) if blocks and self.chance(0.5) else None
        return b"".join(several or self.rng.sample(blocks, len(blocks)))

    def spliced(self, data: bytes) -> bytes:
        """Blocks of this stream and of another one, at their places."""
        other = blocks_of(self.rng.choice(self.streams).data)
        return b"".join(self.rng.choice(pair) for pair in zip(blocks_of(data), other))

    def mixed(self, data: bytes) -> bytes:
        """Blocks combined with those of two others."""
        second, third = (self.rng.choice(self.streams).data for _ in range(2))
        shift = BLOCK * self.rng.choice((0, 0, 1, 7, self.rng.randint(0, 60)))
        return combined(data, second[shift:], third)

    def worn(self, data: bytes) -> bytes:
        """Raw blocks after one kind of damage."""
        how: tuple[Callable[[bytes], bytes], ...] = (
            *(lambda whole: whole,) * 6,
            *(self.flipped,) * 5,
            *(self.torn,) * 2,
            self.lost,
            self.shuffled,
            self.spliced,
            *(self.mixed,) * 2,
            lambda whole: self.noise(min(len(whole), 30 * BLOCK)),
        )
        return self.rng.choice(how)(data)

    def raw(self) -> Stream:
        """A raw stream, unchanged or damaged."""
        stream = self.rng.choice(self.streams)
        if self.chance(0.9):
            stream = self.window(stream)
        return Stream(self.worn(stream.data), stream.lead_in)

    def pack(self) -> bytes:
        """A pack of a `.cdg` file without parity: idle, one of the instructions, or random bytes."""
        rng = self.rng
        kind = rng.choice((0, 0, 1, 1, 1, 1, 2))
        if kind == 0:
            return bytes(PACK)
        if kind == 2:
            return bytes((rng.choice((0, 9, 8)), *rng.choices(range(64), k=PACK - 1)))
        instruction = rng.choice((6, 6, 38, *INSTRUCTIONS))
        content = rng.choices(range(64), k=16)
        if instruction in (6, 38) and self.chance(0.9):
            content[2], content[3] = rng.randrange(18), rng.randrange(50)
        return bytes((9, instruction, 0, 0, *content, 0, 0, 0, 0))

    def packs(self) -> bytes:
        """A `.cdg` file: an output of the program, or one made here."""
        if self.chance(0.4):
            made = self.rng.choice(self.pools["cdg"])[: PACK * self.rng.choice((3, 40, 400, 9000))]
        else:
            few = [self.pack() for _ in range(self.rng.choice((0, 1, 9, 60)))]
            made = b"".join(few + self.rng.choices(few or [bytes(PACK)], k=len(few)))
        ways: list[Callable[[bytes], bytes]] = [*[bytes] * 5, self.flipped, self.torn]
        return self.rng.choice(ways)(made)

    def cooked(self) -> bytes:
        """Blocks of four packs, with their parity if they come from a stream."""
        data = self.rng.choice(self.pools["cdg"])[: BLOCK * self.size()] if self.chance(0.8) else self.packs()
        return self.worn(data + bytes(-len(data) % BLOCK))

    def sectors(self, data: bytes) -> bytes:
        """A dump of sectors that carry these blocks."""
        audio = self.noise(SECTOR_AUDIO)
        made = b"".join(audio + block for block in blocks_of(data[: 300 * BLOCK]))
        return self.torn(made) if self.chance(0.1) else made

    # The inputs of each command.

    def moment(self, blocks: int) -> int:
        """A time in a program of this many blocks, seldom beyond its end."""
        whole = max(0, blocks)
        return self.rng.choice((*(self.rng.randint(0, whole),) * 8, whole, whole + 1, max(0, whole - 1)))

    def a_raw_stream(self) -> Inputs:
        stream = self.raw()
        return Inputs(stream.data, None, stream.lead_in, self.moment(stream.blocks() - stream.lead_in))

    def a_stream(self) -> Inputs:
        form = self.rng.choice(("raw", "raw", "raw", "sector", "cooked"))
        if form == "cooked":
            data = self.cooked()
            lead_in = self.rng.choice((0, 0, 0, 1, 5))
            return Inputs(data, None, lead_in, self.moment(len(data) // BLOCK - lead_in), form)
        made = self.a_raw_stream()._replace(form=form)
        return made._replace(first=self.sectors(made.first)) if form == "sector" else made

    def a_sheet(self) -> tuple[bytes, int, int]:
        """A sheet, with a number of lead-in blocks and a length that mostly suffice."""
        lines, tracks, need = self.texts.sheet()
        length = self.rng.choice((need, need + 40, need + 300, need + 900, self.rng.randint(0, need)))
        enough = 3 * tracks + 9
        short = self.rng.randint(0, enough)
        lead_in = self.rng.choice((0, 0, enough, enough + 6, enough + 30, enough + 30, short))
        return self.texts.written(lines), lead_in, length

    def a_sheet_and_a_script(self) -> Inputs:
        sheet, lead_in, length = self.a_sheet()
        if self.pools["scripts"] and self.chance(0.1):
            script = self.rng.choice(self.pools["scripts"])
            return Inputs(sheet, script, lead_in, self.rng.choice((length, 4000, 9000)))
        lines, last = self.texts.script(self.rng.choice((0, 1, 2, 3, 8)))
        length = self.rng.choice((length, max(length, last), max(length, last), max(length, last)))
        return Inputs(sheet, self.texts.written(lines), lead_in, length)

    def a_sheet_and_packs(self) -> Inputs:
        sheet, lead_in, length = self.a_sheet()
        packs = self.packs()
        enough = max(length, len(packs) // BLOCK + 1)
        return Inputs(sheet, packs, lead_in, self.rng.choice((length, enough, enough, enough)))

    def two_readings(self) -> Inputs:
        window = self.window(self.rng.choice(self.streams))
        ways = self.rng.choices((self.flipped, self.worn), (3, 2), k=2)
        first, second = (way(window.data) for way in ways)
        return Inputs(first, second, window.lead_in)

    def a_file(self) -> Inputs:
        return Inputs(self.packs())

    def a_checkpoint(self) -> Inputs:
        """A checkpoint, mostly unchanged, and the rest of a stream."""
        saves = self.pools["saves"]
        save = self.rng.choice(saves)
        how = self.rng.choice("wwwwwwwmmmftl")
        if how == "m":
            save = combined(save, *self.rng.choices(saves, k=2))
        elif how == "f":
            save = self.flipped(save)
        elif how == "t":
            save = self.torn(save)
        elif how == "l":
            save += self.noise(self.rng.choice((1, 1, 96, 3000)))
        rest = self.raw().data
        before, blocks = int.from_bytes(save[16:20]) % 10_000, len(rest) // BLOCK
        at = before + self.moment(blocks) if self.chance(0.8) else self.moment(before + blocks)
        return Inputs(save, rest, 0, at)

    def planar(self) -> Inputs:
        data = self.rng.choice(self.pools["planar"])[: self.size() * BLOCK]
        if self.chance(0.3):
            data = self.raw().data
        return Inputs(self.torn(data) if self.chance(0.2) else data)

    def huge(self, command: str) -> Inputs:
        """An input at its size limit, or beyond it."""
        limit = TEXT_LIMIT if command in ("author", "press") else STREAM_LIMIT
        data = bytes(limit + self.rng.choice((-1, 0, 1, BLOCK)))
        return Inputs(data, b"", self.rng.choice((0, 450_000)))

    def inputs(self, command: str) -> Inputs:
        makers: dict[str, Callable[[], Inputs]] = {
            **dict.fromkeys(("convert", "screen", "state", "check", "q", "text"), self.a_stream),
            **dict.fromkeys(("save", "planar", "scratch"), self.a_raw_stream),
            **dict.fromkeys(("gen", "trial"), Inputs),
            "author": self.a_sheet_and_a_script,
            "press": self.a_sheet_and_packs,
            "merge": self.two_readings,
            "thin": self.a_file,
            "resume": self.a_checkpoint,
            "raw": self.planar,
        }
        if command not in ("gen", "trial", "resume", "merge") and self.chance(1 / 3000):
            return self.huge(command)
        return makers[command]()

    # The arguments.

    def value(self, letter: str, inputs: Inputs) -> str:
        if self.chance(0.03):
            return self.rng.choice(ODD[letter])
        if letter == "N":
            return str(inputs.lead_in if self.chance(0.9) else self.rng.randrange(60))
        if letter == "S":
            return str(self.rng.getrandbits(self.rng.choice((3, 16, 64))))
        if letter == "K":
            return str(self.rng.choice((1, 1, 2, 3, 5)))
        return time_of(inputs.at) if letter == "T" else inputs.form

    def mangled(self, words: list[str | bytes]) -> list[str | bytes]:
        """The arguments, after one of them was removed, doubled, moved or changed, or after one was added."""
        made = list(words)
        place, other = self.rng.randrange(len(made)), self.rng.randrange(len(made))
        how = self.rng.randrange(7)
        if how == 0:
            del made[place]
        elif how == 1:
            made.insert(place, made[place])
        elif how == 2:
            made[place], made[other] = made[other], made[place]
        elif how == 3:
            made.insert(place + 1, self.rng.choice(STRAY_WORDS))
        elif how == 4:
            made[place] = str(made[place]).upper()
        elif how == 5:
            strays: list[str | bytes] = [*STRAY_WORDS, b"\xff", *COMMANDS]
            made[place] = self.rng.choice(strays)
        else:
            made = made[:place]
        return made

    def names(self, inputs: Inputs) -> list[str]:
        """The file names after the other arguments, or nothing if standard input is read."""
        if self.chance(0.04):
            names = ("first", "second", "missing", ".", "")
            return ["--", *self.rng.choices(names, k=self.rng.randint(0, 3))]
        if inputs.second is not None and self.chance(0.95):
            return ["--", "first", "second"]
        return ["--", "first"] if self.chance(0.4) else []

    def words(self, command: str, inputs: Inputs) -> list[str | bytes]:
        made: list[str | bytes] = [command]
        for option in COMMANDS[command]:
            if not (option.free and inputs.form == FORMS[0] and self.chance(0.6)):
                made += [option.word, self.value(option.letter, inputs)]
        return self.mangled(made) if self.chance(0.1) else made

    def call(self, command: str) -> Call:
        inputs = self.inputs(command)
        words = [*self.words(command, inputs), *self.names(inputs)]
        return Call(command, words, inputs, self.chance(0.02))

    def beginnings(self) -> list[Call]:
        """Calls that make the first inputs: valid discs, some of them long, and what is made from them."""
        made = []
        for number in range(24):
            sheet, tracks, need = self.texts.sheet()
            script, last = self.texts.script(self.rng.randint(1, 6))
            command = "author" if number % 2 else "press"
            second = self.texts.written(script, 0) if number % 2 else b"".join(self.pack() for _ in range(90))
            length = max(need, last, 30) + self.rng.choice((20, 100, 100, 4000))
            lead_in = self.rng.choice((0, 3 * tracks + 30))
            words: list[str | bytes] = [command, "--lead-in", str(lead_in), "--length", time_of(length)]
            words += ["--", "first", "second"]
            lines = [line for line in sheet if "GAP" not in line]
            made.append(Call(command, words, Inputs(self.texts.written(lines, 0), second), False))
        return made

    def followers(self) -> list[Call]:
        """Calls on the first streams that make the first inputs of other kinds."""
        made = []
        for stream in self.streams[:12]:
            window = self.window(stream)
            words: list[str | bytes] = ["convert", "--lead-in", str(stream.lead_in)]
            made.append(Call("convert", words, Inputs(stream.data), False))
            made.append(Call("planar", ["planar"], Inputs(stream.data), False))
            words = ["save", "--lead-in", str(window.lead_in)]
            made.append(Call("save", words, Inputs(window.data), False))
        return made


class Runner:
    """Runs calls in a temporary folder."""

    def __init__(self, folder: Path) -> None:
        self.folder, self.only_text = folder, False

    def write_inputs(self, inputs: Inputs) -> None:
        (self.folder / "first").write_bytes(inputs.first)
        (self.folder / "second").write_bytes(inputs.second or b"")

    def run(self, program: Path, call: Call) -> Outcome:
        with open("/dev/full", "wb") as full:
            where: IO[bytes] | int = full if call.full else subprocess.PIPE
            try:
                arguments = [word for word in call.words if isinstance(word, str) or not self.only_text]
                words: list[str | bytes] = [os.fspath(program), *arguments]
                ran = subprocess.run(words, timeout=SECONDS_ALLOWED, input=call.inputs.first,
                                     stdout=where, stderr=subprocess.PIPE, cwd=self.folder)
            except subprocess.TimeoutExpired as stopped:
                return Outcome(None, stopped.stdout or b"", stopped.stderr or b"")
        return Outcome(ran.returncode, ran.stdout or b"", ran.stderr)


# The part of a line on standard error that is counted.
MESSAGE = r"refused (?:(?:cue|script) \d+ )?\S+|damaged|usage|late|read fault \w+|write fault|$"


class Tally:
    """The results of the comparison."""

    def __init__(self) -> None:
        self.statuses: Counter[tuple[str, int | None]] = Counter()
        self.messages: Counter[str] = Counter()
        self.out_of_memory = 0

    def add(self, call: Call, outcome: Outcome) -> None:
        self.statuses[call.command, outcome.status] += 1
        line = outcome.errors.decode(errors="replace")
        known = re.match(MESSAGE, line)
        self.messages[re.sub(r" \d+", "", known[0]) if known else "(another line)"] += 1

    def table(self) -> str:
        """The number of calls of each command and each status, and how often each line was printed."""
        statuses = sorted({status for _, status in self.statuses}, key=lambda status: (status is None, status))
        rows = [["command", *[str(status) for status in statuses], "all"]]
        for command in COMMANDS:
            counts = [self.statuses[command, status] for status in statuses]
            rows.append([command, *map(str, counts), str(sum(counts))])
        sums = [sum(self.statuses[command, status] for command in COMMANDS) for status in statuses]
        rows.append(["all", *map(str, sums), str(sum(sums))])
        lines = [name.ljust(10) + "".join(cell.rjust(8) for cell in cells) for name, *cells in rows]
        messages = [f"{count:8} {line or '(nothing)'}" for line, count in sorted(self.messages.items())]
        return "\n".join([*lines, "", "lines on standard error:", *messages])


def first_difference(old: bytes, new: bytes) -> str:
    """The place at which two outputs begin to differ."""
    place = next((k for k, (a, b) in enumerate(zip(old, new)) if a != b), min(len(old), len(new)))
    return f"byte {place} of {len(old)} and {len(new)}"


def difference(old: Outcome, new: Outcome) -> str:
    """The difference, in one line."""
    parts = []
    if old.status != new.status:
        parts.append(f"status {old.status} and {new.status}")
    if old.errors != new.errors:
        parts.append(f"standard error {old.errors[:200]!r} and {new.errors[:200]!r}")
    if old.output != new.output:
        parts.append(f"standard output from {first_difference(old.output, new.output)} on")
    return ", ".join(parts)


def command_line(call: Call, folder: Path) -> str:
    """The command line of a call in the folder of its inputs."""
    words = [shlex.quote(word) if isinstance(word, str) else f"$'{repr(word)[2:-1]}'" for word in call.words]
    return f"cd {folder}; PROGRAM {' '.join(words)} <first{' >/dev/full' if call.full else ''}"


class Comparison:
    """Compares two programs call by call."""

    def __init__(self, old: Path, new: Path, seed: int, folder: Path) -> None:
        self.old, self.new = old, new
        self.maker = Maker(random.Random(seed))
        self.runner = Runner(folder)
        self.tally = Tally()
        self.differences = 0

    def report(self, call: Call, what: str) -> None:
        """Keeps the inputs of a call that shows a difference, and reports it."""
        kept = Path(tempfile.mkdtemp(prefix="compare-programs-"))
        for name in ("first", "second"):
            shutil.copy(self.runner.folder / name, kept / name)
        self.differences += 1
        print(f"difference {self.differences}: {call.command}: {what}\n    {command_line(call, kept)}", flush=True)

    def compare(self, call: Call) -> None:
        self.runner.write_inputs(call.inputs)
        old, new = (self.runner.run(program, call) for program in (self.old, self.new))
        if NO_MEMORY in (old.status, new.status):
            self.tally.out_of_memory += 1
            return
        self.tally.add(call, old)
        if old != new:
            self.report(call, difference(old, new))
        if old.status == 0:
            self.maker.learn(call, old.output)

    def run(self, calls: int) -> None:
        for call in self.maker.beginnings():
            self.compare(call)
        for call in self.maker.followers():
            self.compare(call)
        names = list(COMMANDS)
        done = sum(self.tally.statuses.values())
        for number in range(max(0, calls - done)):
            self.compare(self.maker.call(names[number % len(names)]))


def main() -> int:
    parser = argparse.ArgumentParser(description="Compares two builds of the program on random calls.")
    parser.add_argument("old", type=Path, help="the program that makes the inputs")
    parser.add_argument("new", type=Path, help="the program to compare with it")
    parser.add_argument("--calls", type=int, default=2000, help="the number of calls (default 2000)")
    parser.add_argument("--seed", type=int, default=1, help="the seed of the random calls (default 1)")
    parser.add_argument("--windows", action="store_true", help="omit arguments that are not valid text, since wine cannot pass them to NEW")
    words = parser.parse_args()
    with tempfile.TemporaryDirectory(prefix="compare-") as folder:
        comparison = Comparison(words.old.resolve(), words.new.resolve(), words.seed, Path(folder))
        comparison.runner.only_text = words.windows
        comparison.run(words.calls)
    print(comparison.tally.table())
    compared = sum(comparison.tally.statuses.values())
    print(f"{compared} calls compared, {comparison.differences} differ;", end=" ")
    print(f"{comparison.tally.out_of_memory} ran out of memory and are not compared")
    return 1 if comparison.differences else 0


if __name__ == "__main__":
    sys.exit(main())
