"""The command line of the desk: each command is a module with `add_parser` and `run`."""
import argparse
import contextlib
import functools
import importlib
import io
import os
import signal
import sys
from types import FrameType
from typing import Any, Iterator, NoReturn, Sequence

from . import __version__
from .common import beside, failures, output
from .common.failures import Failure, failure_of
from .common.library import version

# Each command has a module with `add_parser(subparsers)`, which adds it with set_defaults(run=run), and
# `run(arguments) -> int`, the exit number.
ARCHIVE = ("identify", "damage", "mend", "q-fix", "convert", "sums", "report", "sheet", "texts")
PUBLISH = ("plan", "picture", "lyrics", "image", "film", "album", "pair", "look", "studio")
COMMANDS = (*ARCHIVE, *PUBLISH)
# Modules whose names differ from their commands.
MODULES = {"q-fix": "q_fix", "sheet": "sheets"}


class Version(argparse.Action):
    """Prints the version of the desk, and whether the library is missing or has another one."""

    def __init__(self, option_strings: Sequence[str], dest: str, **options: Any) -> None:
        super().__init__(option_strings, dest, nargs=0, help=options.get("help"))

    def __call__(self, parser: argparse.ArgumentParser, *_: Any) -> None:
        output.write_text(f"ribjasper-desk {__version__}\n")
        try:
            if version() != __version__:
                output.complain(f"the installed library has the version {version()}")
        except output.Missing as missing:
            output.complain(str(missing))
        parser.exit()


class Parser(argparse.ArgumentParser):
    """A parser that accepts no abbreviated options, and whose help reports a full standard output."""

    def __init__(self, *words: Any, **options: Any) -> None:
        options.setdefault("allow_abbrev", False)
        super().__init__(*words, **options)

    def _print_message(self, message: str, file: Any = None) -> None:
        if message and file is not None:
            if file is sys.stdout:
                output.write_text(message)
            else:
                with contextlib.suppress(OSError):
                    file.write(message)


def module_of(command: str) -> Any:
    """The module of a command."""
    package = "archive" if command in ARCHIVE else "publish"
    return importlib.import_module(f".commands.{package}.{MODULES.get(command, command)}", __package__)


@functools.lru_cache(maxsize=None)
def parser(command: str | None = None) -> argparse.ArgumentParser:
    """The parser of all commands, or, to start faster, that of one command."""
    top = Parser(
        prog="ribjasper-desk",
        description="Works on dumps of Compact Discs and on songs with graphics, with the proved library.",
        epilog="Exit status: 0 done; 1 damage was found, or files differ; 2 wrong options; 3 a file was refused; 4 a "
        "picture is late; 5 something must be installed or built first; 6 an output cannot be written; 7 out of "
        "memory; 8 an internal error of the desk; 9 there is nothing to mend; 128 plus the number of a signal that "
        "ended the command.",
    )
    top.add_argument("--version", action=Version, help="print the version and exit")
    commands = top.add_subparsers(metavar="COMMAND", required=True, parser_class=Parser)
    for name in COMMANDS if command is None else [command]:
        module_of(name).add_parser(commands)
        add_quiet(commands.choices[name])
    return top


def add_quiet(of: argparse.ArgumentParser) -> None:
    of.add_argument("-q", "--quiet", action="store_true", help="print only errors: no notes and no progress")


class Stopped(KeyboardInterrupt):
    """A signal that ends the command."""

    def __init__(self, number: int) -> None:
        super().__init__()
        self.number = number


def _stop(number: int, _: FrameType | None) -> NoReturn:
    """Ends the command at the first signal; signals during the clean-up are ignored."""
    for other in beside.STOPS:
        signal.signal(other, signal.SIG_IGN)
    raise Stopped(number)


@contextlib.contextmanager
def stopping() -> Iterator[None]:
    """Turns signals that end the process into an exception, except those that the caller ignores (nohup)."""
    before = {number: signal.getsignal(number) for number in beside.STOPS}
    for number, handler in before.items():
        if handler is not signal.SIG_IGN:
            signal.signal(number, _stop)
    try:
        yield
    finally:
        for number, handler in before.items():
            signal.signal(number, handler)


def open_streams() -> None:
    """Opens closed standard streams on the null device, so that no file of the call gets their numbers; writing to a
    closed standard output then fails."""
    for number, how in ((0, os.O_RDONLY), (1, os.O_RDONLY), (2, os.O_WRONLY)):
        try:
            os.fstat(number)
        except OSError:
            os.open(os.devnull, how)
    # A closed standard output refuses each write.
    sys.stdout = sys.stdout or open(1, "w", closefd=False)
    sys.stderr = sys.stderr or open(2, "w", closefd=False)


def let_go_of_output() -> None:
    """Discards the bytes for a standard output that failed, so that they are not written again at the end."""
    with contextlib.suppress(OSError, ValueError):
        nothing = os.open(os.devnull, os.O_WRONLY)
        os.dup2(nothing, sys.stdout.fileno())
        os.close(nothing)


def called_on(arguments: argparse.Namespace | None) -> str:
    """The name for the files of a call in a message, if it is unknown which of them has the fault."""
    names = (getattr(arguments, name, None) for name in ("files", "file", "folder", "song", "image", "sheet", "stream"))
    found = next((name for name in names if name), "the call")
    return os.fspath(found[0] if isinstance(found, list) else found)


def followed(words: Sequence[str] | None) -> int:
    """Executes the command; an error is printed as a line and becomes the exit status."""
    arguments = None
    words = sys.argv[1:] if words is None else words
    try:
        try:
            arguments = parser(words[0] if words and words[0] in COMMANDS else None).parse_args(words)
            output.set_quiet(arguments.quiet)
            status: int = arguments.run(arguments)
        except SystemExit as end:
            status = end.code if isinstance(end.code, int) else 0
        output.flush()
        return status
    except Failure as failure:
        return report_failure(failure)
    except Exception as error:
        return report_failure(failure_of(error, called_on(arguments)))


def report_failure(failure: Failure) -> int:
    for line in failure.lines:
        output.complain(line)
    return failure.status


def main(words: Sequence[str] | None = None) -> int:
    open_streams()
    output.set_quiet(False)
    # File names are bytes: bytes that are not valid in this locale are printed unchanged.
    for stream in (sys.stdout, sys.stderr):
        if isinstance(stream, io.TextIOWrapper):
            # Line ends are the same on every system.
            stream.reconfigure(encoding=sys.getfilesystemencoding(), errors="surrogateescape", newline="\n")
    try:
        with stopping():
            status = followed(words)
    except KeyboardInterrupt as stop:
        output.complain("stopped")
        status = failures.STOPPED + getattr(stop, "number", signal.SIGINT)
    finally:
        beside.sweep()
    try:
        output.flush()
    except Failure:
        let_go_of_output()
    return status
