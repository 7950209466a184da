"""Random calls of the desk: valid, damaged and foreign inputs, wrong words, and outputs in every place.
`python3 -m tests.hostile COUNT [SEED]` tries COUNT calls and counts their exit statuses."""
import collections
import contextlib
import functools
import io
import os
import shutil
import stat
import struct
import sys
import tempfile
import time
import wave
import zlib
from pathlib import Path
from typing import NamedTuple

from hypothesis import HealthCheck, Phase, given, seed, settings, strategies as st

from ribjasper.common.records import RECORD
from fixtures import BLOCK, HELLO, as_sectors, desk, hello, hello_packs, program, with_burst, with_zeros

from ribjasper.common import records

# The allowed exit statuses; 8 is a bug of the desk.
STATUSES = {0, 1, 2, 3, 4, 5, 6, 7}
# With these statuses the outputs of a call appear, with all others nothing does.
WRITES = {0, 1, 4}
PREFIX = "ribjasper-desk: "


def png(width: int, height: int, row: bytes) -> bytes:
    """A PNG picture with equal rows, built from its parts."""

    def chunk(kind: bytes, content: bytes) -> bytes:
        return struct.pack(">I", len(content)) + kind + content + struct.pack(">I", zlib.crc32(kind + content))

    head = struct.pack(">IIBBBBB", width, height, 8, 2, 0, 0, 0)
    pixels = zlib.compress((b"\0" + row) * min(height, 300))
    return b"\x89PNG\r\n\x1a\n" + chunk(b"IHDR", head) + chunk(b"IDAT", pixels) + chunk(b"IEND", b"")


def wav(blocks: int) -> bytes:
    out = io.BytesIO()
    with wave.open(out, "wb") as file:
        file.setparams((2, 2, 44_100, 0, "NONE", ""))
        file.writeframes(bytes(2352 * blocks))
    return out.getvalue()


SHEET = (
    b'PERFORMER "The Lead-Ins"\nTITLE "All"\nFILE "a.wav" WAVE\n  TRACK 01 AUDIO\n    TITLE "One"\n    ISRC GBAAA2600001\n'
    b"    INDEX 00 00:00:00\n    INDEX 01 00:00:40\n  TRACK 02 AUDIO\n    PREGAP 00:00:10\n    INDEX 01 00:02:00\n"
)
ONE_TRACK = b'FILE "a.wav" WAVE\nTRACK 01 AUDIO\nINDEX 01 00:00:00\n'
SCRIPT = b"colour 1 0F00\nrect 0 0 20 20 1\nshow 00:02:40 00:03:00\nfill 0\nrow 3 3 0123\nshow 00:05:00 00:06:00\n"
LRC = b"[ti:A song]\n[ar:Somebody]\n[00:01.00]<00:01.10>One <00:01.60>two\n[00:02.00]Three four\n[00:03.00]\n"
ASS = (
    b"[Script Info]\nTitle: Two\n[Events]\nFormat: Layer, Start, End, Style, Name, MarginL, MarginR, MarginV, Effect, Text\n"
    b"Dialogue: 0,0:00:01.00,0:00:03.00,Default,,0,0,0,,{\\k50}One, {\\kf70}two\\N{\\k30}three\n"
)
VTT = b"WEBVTT\n\n00:01.000 --> 00:03.000\n<v Anna>One <00:01.500>two</v>\n<v Ben>three\n"
BEATS = b"#BPM:150\n#GAP:500\n: 0 4 60 One\nB 8 300\n: 8 4 60  two\n- 16\n: 20 4 60 three\nE\n"
PICTURES = (
    b"[00:01.00]v3: One\n[image: in-0]\n[00:02.00][00:02.40]two[00:02.80]\n[colour:#08F]\n[00:03.50]\xd0\xe5\xea\xe0\n"
)
PAIR = b'gap = 1\nloudness = -20\n[[track]]\npair = "in-1"\nsound = "in-2"\nend = 3\nfade_out = 1\n'
ALBUM = b'title = "All"\nsinger = "Somebody"\ngap = 1\n[[track]]\nlyrics = "in-1"\nsound = "in-2"\ntitle = "One"\nsinger = ""\n'
DAT = (
    b'<?xml version="1.0"?>\n<datafile><header><name>x</name></header><game name="in-0"><rom name="in-0" size="5" '
    b'crc="00000000" md5="d41d8cd98f00b204e9800998ecf8427e"/></game></datafile>\n'
)
JOURNAL = b'{"stamp": "1 1.1.0 True 5 5 5", "row": {"file": "x", "status": "good", "form": null, "texts": null, "why": null}}\n'


@functools.lru_cache(maxsize=None)
def samples() -> dict[str, tuple[bytes, ...]]:
    """Valid inputs of each kind, all of them short."""
    stream = hello()[: BLOCK * 330]
    packs = hello_packs()[: 24 * 4 * 300]
    short = program("author", "--lead-in", 60, "--length", "00:04:00", "--", *authored())
    # A sheet whose only file is the sheet.
    sheeted = b'FILE "in-0" BINARY\n  TRACK 01 MODE1/2352\n    INDEX 01 00:00:00\nREM ' + b"x" * 2352
    return {
        "dump": (
            stream,
            hello()[BLOCK * 30 : BLOCK * 230],
            program("planar", stdin=stream),
            as_sectors(stream[: BLOCK * 60]),
            with_burst(stream, 200, 80),
            with_zeros(stream, 100, 140),
            packs,
            short,
        ),
        "image-of-disc": (as_sectors(stream[: BLOCK * 200]), as_sectors(short[BLOCK * 210 :]), sheeted, stream),
        "stream": (short, stream, as_sectors(short[BLOCK * 210 :])),
        "cdg": (packs, packs[: 24 * 100], bytes(24)),
        "sheet": (SHEET, ONE_TRACK, HELLO[0].read_bytes()),
        "script": (SCRIPT, HELLO[1].read_bytes(), b""),
        "lyrics": (LRC, ASS, VTT, BEATS, PICTURES),
        "image": (
            png(20, 24, b"\xff\0\0" * 20),
            png(30_000, 30_000, bytes(90_000)),
            png(288, 192, b"\0\xff\x80" * 288),
        ),
        "audio": (wav(300), wav(20), wav(0)),
        "packs": (text_packs(), text_packs() + b"\0", b"\0\x24\0\0" + text_packs()[:34]),
        "journal": (JOURNAL, b'{"stamp": 3, "row": []}\n'),
        "font": (b"no font",),
        "dat": (DAT, b"<?xml version='1.0'?><datafile><game><rom name='x' size='a'/></game></datafile>"),
        "album": (ALBUM, PAIR, ALBUM.replace(b"gap = 1", b"gap = 1e400"), ALBUM + b'title = "\\q"\n'),
    }


def authored() -> tuple[Path, Path]:
    room = Path(tempfile.gettempdir()) / f"ribjasper-hostile-{os.getpid()}"
    room.mkdir(exist_ok=True)
    sheet, script = room / "a.cue", room / "a.script"
    sheet.write_bytes(SHEET)
    script.write_bytes(b"")
    return sheet, script


@functools.lru_cache(maxsize=None)
def text_packs() -> bytes:
    with tempfile.TemporaryDirectory() as folder:
        (Path(folder) / "x").write_bytes(hello())
        desk("texts", f"{folder}/x", "--packs", f"{folder}/packs")
        return (Path(folder) / "packs").read_bytes()


def spoiled(draw: st.DrawFn, content: bytes) -> bytes:
    """An input as it may arrive: cut off, with some changed bytes, with a repeated or missing stretch, or unchanged."""
    place = draw(st.integers(0, len(content)))
    length = draw(st.sampled_from((1, 1, 2, 5, 24, 96, 200)))
    match draw(st.sampled_from("whole whole whole cut flipped text away twice zeros random".split())):
        case "cut":
            return content[:place]
        case "flipped":
            changed = bytearray(content)
            for at in range(place, min(len(content), place + length)):
                changed[at] ^= draw(st.integers(1, 255))
            return bytes(changed)
        case "text":
            odd = (
                "\0",
                "\xff",
                "9" * 30,
                "-1",
                '"',
                "[",
                "]",
                "\\",
                "{\\k",
                "\u202e",
                "\U0010ffff",
                "é",
                "\r",
                "\x1b",
                "<",
                ":",
            )
            return content[:place] + draw(st.sampled_from(odd)).encode() + content[place:]
        case "away":
            return content[:place] + content[place + length :]
        case "twice":
            return content[: place + length] + content[place:]
        case "zeros":
            return content[:place] + bytes(length) + content[place + length :]
        case "random":
            return draw(st.binary(max_size=300))
    return content


def chosen(draw: st.DrawFn, contents: tuple[bytes, ...]) -> bytes:
    """One of some contents, chosen by its number: a strategy of the contents would print each of them."""
    return contents[draw(st.integers(0, len(contents) - 1))]


def an_input(draw: st.DrawFn, kind: str, is_careful: bool) -> bytes:
    """An input of a kind; if the call is careless, it is damaged, and sometimes of another kind."""
    known = samples()
    if is_careful:
        return chosen(draw, (known[kind][0],) * 3 + known[kind])
    kinds = st.sampled_from(sorted(known)) if draw(st.integers(0, 9)) == 0 else st.just(kind)
    return spoiled(draw, chosen(draw, known[draw(kinds)]))


class Option(NamedTuple):
    """An option: its word, its possible values (the valid ones first), and the kind of its file."""

    word: str
    values: tuple[str, ...] = ()
    reads: str = ""
    writes: bool = False
    is_needed: bool = False


class Command(NamedTuple):
    words: tuple[str, ...]
    # The kinds of its inputs; one that begins with ~ is named in another input.
    inputs: tuple[str, ...]
    options: tuple[Option, ...]
    # How often it is tried: slow ones seldom.
    share: int = 4


# The number of valid values among the values of an option.
RIGHT = 2
NUMBERS = ("5", "12", "0", "1", "2", "30", "150", "-1", "", "x", "1.5", "nan", "1e999", "999999999999999999999", "٣")
TIMES = ("00:22:00", "00:10:00", "00:04:00", "00:00:00", "99:59:74", "1:2:3", "00:60:00", "x")
LEAD_IN = Option("--lead-in", NUMBERS)
FORCE = Option("--force")
FORM = Option("--form", ("raw", "planar", "sector", "cooked", "cdg", "pq", "raw-swapped", "x"))
SKIP = Option("--skip", ("0", "96", "44", "1", "999999", "-1", "x"))
PLACE = ("00:00:10", "20", "0", "00:10:00", "99:59:74", "-1", "x")
LISTS = ("table", "ddrescue", "lba", "msf", "redumper", "readcd", "cdparanoia", "x")
OFFSETS = ("0", "30", "-588", "2940", "2941", "x", "")
BASES = ("file", "disc", "x")
ENCODING = Option("--encoding", ("utf-8", "cp1251", "utf-16", "rot13", "x", ""))
CAPACITY = Option("--capacity", ("79:57", "74:00:00", "00:02", "x", "٣:00"))
LOOKS = (
    ENCODING,
    Option("--intro", ("0", "2.5", "601", *NUMBERS)),
    Option("--lead", ("4", "0", *NUMBERS)),
    Option("--missing", ("leave", "box", "x")),
    Option("--legend"),
    Option("--rows", ("2", "4", *NUMBERS)),
)
COMMANDS = (
    Command(("identify",), ("dump", "dump"), (LEAD_IN, FORM, SKIP, Option("-v"))),
    Command(("damage",), ("dump",), (Option("--map", writes=True), LEAD_IN, FORM, SKIP, FORCE)),
    Command(
        ("damage",), ("dump",), (Option("--again", writes=True), Option("--again-as", LISTS), LEAD_IN, FORM, FORCE), 2
    ),
    Command(
        ("mend",),
        ("dump", "dump"),
        (
            Option("-o", writes=True),
            Option("--map", writes=True),
            Option("--ddrescue-map", writes=True),
            LEAD_IN,
            FORM,
            FORCE,
        ),
    ),
    Command(("mend", "--compare"), ("dump", "dump"), (LEAD_IN, FORM), 2),
    Command(("mend",), ("dump", "dump", "dump"), (Option("-o", writes=True), FORCE), 2),
    Command(("q-fix",), ("dump",), (Option("-o", writes=True), Option("--sbi", writes=True), FORM, SKIP, FORCE)),
    Command(("q-fix",), ("dump",), (Option("-o", writes=True), Option("--lsd", writes=True), FORCE), 1),
    Command(
        ("convert",),
        ("dump",),
        (
            Option("-o", writes=True, is_needed=True),
            Option("--as", FORM.values),
            Option("--from", PLACE),
            Option("--to", PLACE),
            Option("--silent"),
            Option("--audio", reads="audio"),
            Option("--sheet", reads="sheet"),
            FORCE,
        ),
    ),
    Command(("sums",), ("dump", "dump"), (Option("--dat", writes=True), Option("--check", reads="dat"), FORCE), 2),
    Command(
        ("sums", "--tracks"),
        ("image-of-disc",),
        (Option("--dat", writes=True), Option("--check", reads="dat"), Option("--offset", OFFSETS), FORM, SKIP, FORCE),
        2,
    ),
    Command(
        ("sheet",),
        ("dump",),
        (
            Option("-o", writes=True),
            Option("--toc"),
            Option("--ccd"),
            Option("--latin-1"),
            Option("--times", BASES),
            Option("--session", NUMBERS),
            LEAD_IN,
            SKIP,
            FORCE,
        ),
    ),
    Command(
        ("sheet",),
        ("dump",),
        (Option("--compare", reads="sheet", is_needed=True), Option("--times", BASES), LEAD_IN),
        2,
    ),
    Command(
        ("report", "--submission"), ("dump",), (Option("-o", writes=True), Option("--json"), LEAD_IN, FORM, FORCE), 2
    ),
    Command(
        ("texts",), ("dump",), (Option("--packs", writes=True), Option("--header"), Option("--all"), LEAD_IN, FORCE)
    ),
    Command(("texts", "--back"), ("packs",), (Option("--blocks", writes=True), FORCE)),
    Command(
        ("plan",),
        ("sheet", "script"),
        (
            Option("--length", TIMES, is_needed=True),
            Option("--chart", writes=True),
            Option("--latin-1", writes=True),
            Option("--audio", reads="audio"),
            FORCE,
        ),
    ),
    Command(
        ("picture",),
        ("image",),
        (
            Option("-o", writes=True),
            Option("--colours", NUMBERS),
            Option("--first", NUMBERS),
            Option("--at", ("0,0", "40,10", "47,15", "48,0", "x", "1")),
            Option("--simple", NUMBERS),
            Option("--dither"),
            FORCE,
        ),
        1,
    ),
    Command(
        ("lyrics",),
        ("lyrics",),
        (
            Option("-o", writes=True),
            Option("--size", NUMBERS),
            Option("--sweep"),
            Option("--font", reads="font"),
            Option("--audio", reads="audio"),
            Option("--between", reads="image"),
            *LOOKS,
            FORCE,
        ),
        1,
    ),
    Command(
        ("image",),
        ("sheet", "stream"),
        (
            Option("--audio", reads="audio", is_needed=True),
            Option("-o", writes=True),
            Option("--latin-1"),
            Option("--hold-through-pause", reads="script"),
            FORCE,
        ),
        2,
    ),
    Command(
        ("film",),
        ("cdg",),
        (
            Option("--stills", writes=True),
            Option("--rate", NUMBERS),
            Option("--every", NUMBERS),
            Option("--audio", reads="audio"),
            FORCE,
        ),
        2,
    ),
    Command(("album",), ("album", "~lyrics", "~audio"), (Option("-o", writes=True), ENCODING, CAPACITY, FORCE), 1),
    Command(("album",), ("album", "~cdg", "~audio"), (Option("-o", writes=True), FORCE), 1),
    Command(("album", "--check"), ("album", "~cdg", "~audio"), (CAPACITY,), 1),
    Command(("album", "--new"), ("lyrics", "lyrics"), (Option("-o", writes=True), ENCODING, FORCE), 1),
    Command(
        ("pair",),
        ("lyrics",),
        (
            Option("--audio", reads="audio", is_needed=True),
            Option("-o", writes=True),
            Option("--zip"),
            Option("--karaoke-cd"),
            *LOOKS,
            FORCE,
        ),
        1,
    ),
    Command(
        ("look",), ("lyrics",), (Option("--audio", reads="audio", is_needed=True), Option("-o", writes=True), FORCE), 1
    ),
    Command(
        ("studio",),
        ("lyrics",),
        (
            Option("--export", ("srt", "ass", "ultrastar", "x"), is_needed=True),
            Option("-o", writes=True),
            ENCODING,
            FORCE,
        ),
        1,
    ),
    Command(("report", "--jobs", "1", "--no-pictures"), ("folder",), (Option("-o", writes=True), FORCE), 1),
)
# The places of an output.
PLACES = (
    "new",
    "new",
    "new",
    "input",
    "input",
    "existing",
    "notes",
    "folder",
    "missing/new",
    "-",
    "link",
    "link-to-input",
    "dangling",
    "full",
    "null",
    "",
)


class Made(NamedTuple):
    """A call: its words (those that begin with @ are file names), its inputs, and its outputs."""

    words: tuple[str, ...]
    inputs: dict[str, bytes]
    outputs: tuple[str, ...]
    # The inputs that the call reads.
    reads: frozenset[str]

    def __repr__(self) -> str:
        """The words, and the length, checksum and first bytes of each input; KEEP is a folder in which the inputs are
        saved."""
        if keep := os.environ.get("KEEP"):
            for name, content in self.inputs.items():
                (Path(keep) / name.replace("/", "-")).write_bytes(content)
        inputs = {name: (len(content), zlib.crc32(content), content[:40]) for name, content in self.inputs.items()}
        return f"{' '.join(self.words)} {inputs}"


@st.composite
def calls(draw: st.DrawFn, commands: tuple[Command, ...] = COMMANDS) -> Made:
    command = draw(st.sampled_from([one for one in commands for _ in range(one.share)]))
    # How much of a call is valid: all, all but one input or word, or nothing.
    care = draw(st.sampled_from((9, 9, 7, 0)))
    inputs: dict[str, bytes] = {}
    outputs: list[str] = []
    reads: set[str] = set()
    words = list(command.words)

    def is_careful() -> bool:
        return draw(st.integers(0, 9)) <= care

    def read(kind: str) -> str:
        if kind == "folder":
            for number in range(draw(st.integers(0, 3))):
                reads.add(f"dumps/{number}")
                inputs[f"dumps/{number}"] = an_input(
                    draw, draw(st.sampled_from(("dump", "cdg", "journal"))), is_careful()
                )
            return "@dumps"
        name = f"in-{len(inputs)}"
        inputs[name] = an_input(draw, kind, is_careful())
        named = name if is_careful() else draw(st.sampled_from((name,) * 6 + ("none", "folder", "notes", "null")))
        reads.add(named)
        return f"@{named}"

    def written() -> str:
        place = "new" if is_careful() else draw(st.sampled_from(PLACES))
        if place == "input" and inputs:
            place = draw(st.sampled_from(sorted(inputs)))
        elif place == "new":
            place = f"new-{len(outputs)}" + draw(st.sampled_from(("", ".cdg", ".png", ".raw", ".sub")))
        outputs.append(place)
        return place if place in ("-", "") else f"@{place}"

    for kind in command.inputs:
        name = read(kind.removeprefix("~"))
        words += [name] * (not kind.startswith("~"))
    for option in command.options:
        if draw(st.integers(0, 9)) < (9 if option.writes or option.is_needed else 2):
            words.append(option.word)
            if option.writes:
                words.append(written())
            elif option.reads:
                words.append(read(option.reads))
            elif option.values:
                words.append(draw(st.sampled_from(option.values[:RIGHT] if is_careful() else option.values)))
    return Made(tuple(words), inputs, tuple(outputs), frozenset(reads))


def lay(folder: Path, call: Made) -> None:
    """Fills the folder of a call: its inputs, and what is in the way of its outputs."""
    for name, content in call.inputs.items():
        (folder / name).parent.mkdir(exist_ok=True)
        (folder / name).write_bytes(content)
    (folder / "dumps").mkdir(exist_ok=True)
    (folder / "folder").mkdir()
    (folder / "notes").write_bytes(b"Dear diary,\n")
    (folder / "existing").write_bytes(b"\x89PNG\r\n\x1a\nold")
    (folder / "target").write_bytes(b"REM old\n")
    os.symlink("target", folder / "link")
    os.symlink("nowhere", folder / "dangling")
    os.symlink("in-0", folder / "link-to-input")
    for name, minor in (("full", 7), ("null", 3)):
        with contextlib.suppress(PermissionError):
            os.mknod(folder / name, 0o666 | stat.S_IFCHR, os.makedev(1, minor))


def state(folder: Path) -> dict[str, tuple[object, ...]]:
    """The content of a folder: the type and the content of each name."""
    found: dict[str, tuple[object, ...]] = {}
    for path in folder.rglob("*"):
        if path.name == records.RECORD:
            continue
        known = os.lstat(path)
        content: object = None
        if stat.S_ISREG(known.st_mode):
            content = path.read_bytes()
        elif stat.S_ISLNK(known.st_mode):
            content = os.readlink(path)
        found[os.fspath(path.relative_to(folder))] = stat.S_IFMT(known.st_mode), stat.S_IMODE(known.st_mode), content
    return found


# The names under which outputs of a call may appear.
ENDINGS = (".bin", ".toc", ".cue", ".raw", "-sheet.cue", "-01.script", ".cdg", ".zip", ".wav")
REACHED = {"link": "target", "dangling": "nowhere", "link-to-input": "in-0"}


def may_appear(call: Made, name: str) -> bool:
    # An export without -o has the name of the lyrics.
    if call.words[0] == "studio" and not call.outputs:
        return name in (RECORD, *(f"{read}{ending}" for read in call.reads for ending in (".srt", ".ass", ".txt")))
    # A folder of outputs has a record of them.
    if name.rsplit("/", 1)[-1] == RECORD:
        return bool(call.outputs)
    for output in call.outputs:
        place = REACHED.get(output, output)
        if name in call.reads:
            return False
        # If an output is several files, its own name is none of them.
        if name == place or name in [output + ending for ending in ENDINGS]:
            return True
        # A report is a folder, which the call may create.
        if (
            call.words[0] == "report"
            and place
            and (name == place or name.startswith(f"{place}/") or place.startswith(f"{name}/"))
        ):
            return True
    return False


def check(call: Made) -> int:
    """Makes a call and returns its exit status; everything that must not happen is an error."""
    with tempfile.TemporaryDirectory(prefix="ribjasper-hostile-") as room:
        folder = Path(room)
        lay(folder, call)
        before = state(folder)
        words = [f"{folder}/{word[1:]}" if word.startswith("@") else word for word in call.words]
        # Names without a folder are written there too, and are seen.
        with contextlib.chdir(folder):
            ran = desk(*words)
        after = state(folder)
    message = f"{words}\nended with {ran.status}\n{ran.errors}"
    assert ran.status in STATUSES, message
    assert "Traceback" not in ran.errors, message
    # A table is printed on standard error if standard output is an output.
    if ran.status != 2 and "-" not in call.outputs:
        assert all(line.startswith(PREFIX) for line in ran.errors.splitlines()), message
    if ran.status not in WRITES:
        # A refused report may have created its folder and stored what it read before.
        if call.words[0] != "report":
            assert after == before, f"{message}\nchanged: {sorted(set(after) ^ set(before))}"
        assert ran.errors or call.words[0] == "report", message
    for name in set(after) | set(before):
        if after.get(name) != before.get(name):
            assert may_appear(call, name), f"{message}\nchanged: {name}"
            assert (
                name not in before or before[name][0] == after[name][0]
            ), f"{message}\nturned into something else: {name}"
    return ran.status


def main() -> int:
    count, number = int(sys.argv[1]), int(sys.argv[2]) if len(sys.argv) > 2 else int(time.time())
    ended: collections.Counter[tuple[str, int]] = collections.Counter()

    @seed(number)
    @settings(
        max_examples=count,
        deadline=None,
        database=None,
        suppress_health_check=list(HealthCheck),
        phases=(Phase.explicit, Phase.generate, Phase.shrink),
    )
    @given(calls())
    def try_all(call: Made) -> None:
        ended[call.words[0], check(call)] += 1

    begun = time.monotonic()
    try:
        try_all()
    finally:
        print(f"{sum(ended.values())} calls in {time.monotonic() - begun:.0f} seconds, seed {number}")
        for (command, status), times in sorted(ended.items()):
            print(f"{command}\t{status}\t{times}")
        shutil.rmtree(authored()[0].parent)
    return 0


if __name__ == "__main__":
    sys.exit(main())
