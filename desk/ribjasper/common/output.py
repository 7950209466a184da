"""How the desk writes, the same for all commands: `Outputs` gets the files that a call reads and those that it writes,
refuses everything that would destroy a file of the user, and lets either all outputs appear or none."""
import argparse
import contextlib
import io
import json
import os
import socket
import stat
import sys
import tempfile
from types import TracebackType
from typing import Any, Iterable, Sequence, TextIO

from . import read_files, records
from .beside import WaitingFile, forget, give_name, held_back, keep_folder, link_or_move, made_beside, new_mode
from .failures import (
    Failure as Failure,
    Missing as Missing,
    Name,
    Refusal as Refusal,
    Several,
    reading,
    shown as shown,
    writing,
)
from .kinds import Kind
from .targets import DASH as DASH, Target, against_standard_output, inputs_of, standard_output

# The name of standard output in messages.
STANDARD_OUTPUT = "standard output"
# Programs that write a file themselves go by its ending. A longer part behind a dot is no ending.
LONGEST_ENDING = 16
# Outputs that are no files are kept in memory up to this number of bytes, and larger ones in a file without a name.
KEPT_IN_MEMORY = 1 << 26
COPIED_AT_ONCE = 1 << 20
# A file that is read as a whole is never longer: a device could be endless.
MOST_READ = 1 << 28
# The names in pip of packages whose modules have other names.
PIP_NAMES = {"PIL": "Pillow"}
ALL_MODES = stat.S_IRWXU | stat.S_IRWXG | stat.S_IRWXO


def package(module: str, debian: str) -> Any:
    """Imports a module that only some commands need, or raises a failure that names the package to install."""
    try:
        return __import__(module, fromlist=["_"])
    except ImportError as error:
        pip = PIP_NAMES.get(module.split(".")[0], module.split(".")[0])
        raise Missing(f"this needs {pip} (apt-get install {debian}, or pip install {pip}): {error}") from None


_is_quiet = False
# The progress bar on the terminal, if there is one: it is cleared before anything is printed.
_bar: Any = None


def show_bar(bar: Any) -> None:
    global _bar
    _bar = bar


def shown_bar() -> Any:
    return _bar


def set_quiet(quiet: bool) -> None:
    """Sets whether notes and progress bars are left out, as requested by `-q`."""
    global _is_quiet
    _is_quiet = quiet


def is_quiet() -> bool:
    return _is_quiet


def tell(message: str) -> None:
    """Prints a note on standard error, except with `-q`."""
    if not _is_quiet:
        complain(message)


def complain(message: str) -> None:
    """Prints an error message on standard error."""
    if _bar is not None:
        _bar.clear()
    if sys.stderr is not None:
        with contextlib.suppress(OSError):
            print(f"ribjasper-desk: {message}", file=sys.stderr)


def write_text(text: str, to: TextIO | None = None) -> None:
    """Writes a text to standard output, or to its replacement."""
    if _bar is not None:
        _bar.clear()
    with writing(STANDARD_OUTPUT):
        print(text, end="", file=to or sys.stdout)


def write_row(cells: Sequence[object], to: TextIO | None = None) -> None:
    """Prints a line of a table, with tabs between the cells."""
    write_text("\t".join(shown(str(cell)) for cell in cells) + "\n", to)


class Table:
    """A table that a command prints: a line of names, and then cells between tabs; or in JSON an object for each
    row."""

    def __init__(self, names: Sequence[str], as_json: bool = False, to: TextIO | None = None) -> None:
        self.names, self.as_json, self.to = names, as_json, to
        if not as_json:
            write_row(names, to)

    def row(self, cells: Sequence[object]) -> None:
        """Prints a row; a dash is `null` in JSON, and numbers remain numbers."""
        if self.as_json:
            values = (cell if isinstance(cell, (int, float)) else str(cell) for cell in cells)
            named = {name: None if value == "-" else value for name, value in zip(self.names, values)}
            write_text(json.dumps(named) + "\n", self.to)
        else:
            write_row(cells, self.to)


def add_json(parser: argparse.ArgumentParser) -> None:
    parser.add_argument("--json", action="store_true", help="print the table as JSON, an object for each row")


def flush() -> None:
    """Flushes printed text to standard output."""
    with writing(STANDARD_OUTPUT):
        sys.stdout.flush()


def read_file(path: Name) -> bytes:
    """The bytes of a file, or a refusal that names it."""
    with reading(path), open(path, "rb") as file:
        before = os.fstat(file.fileno())
        parts, size = list[bytes](), 0
        while part := file.read(COPIED_AT_ONCE):
            parts.append(part)
            size += len(part)
            if size > MOST_READ:
                raise Refusal(path, f"has more than {MOST_READ:,} bytes, which is too long")
        check_unchanged(path, before, os.fstat(file.fileno()))
        return b"".join(parts)


def check_unchanged(path: Name, before: os.stat_result, after: os.stat_result) -> None:
    """Refuses a file that another program wrote while it was read."""
    if stat.S_ISREG(after.st_mode) and (before.st_size, before.st_mtime_ns) != (after.st_size, after.st_mtime_ns):
        raise Refusal(path, "was changed while it was read")


class Output:
    """An output of a call; it appears when all outputs are complete."""

    def __init__(self, name: Name, kind: Kind, force: bool) -> None:
        self.target, self.kind, self.force = Target(name), kind, force
        self.part: WaitingFile | None = None
        self.waits: str | None = None
        self.kept: str | None = None
        self.is_put = False

    @property
    def name(self) -> str:
        return STANDARD_OUTPUT if self.target.is_dash else self.target.name

    def check(self) -> None:
        if why := self.target.against(self.kind, self.force):
            raise Refusal(self.name, why)

    def open(self) -> WaitingFile:
        """Opens the file to which it is written."""
        if self.part is None:
            if self.target.is_stream:
                self.part = WaitingFile(self.name, tempfile.SpooledTemporaryFile(KEPT_IN_MEMORY))
            else:
                self.part = WaitingFile(self.name, os.fdopen(self._beside(self.target.folder), "w+b"))
        return self.part

    def path(self, ending: str) -> str:
        """The name of a temporary file, for a program that writes it itself."""
        if self.waits is None:
            os.close(self._beside(tempfile.gettempdir() if self.target.is_stream else self.target.folder, ending))
        assert self.waits is not None
        return self.waits

    def _beside(self, folder: str, ending: str = "") -> int:
        with writing(self.name):
            own = os.path.splitext(self.target.path)[1]
            number, self.waits = made_beside(folder, own if 0 < len(own) <= LONGEST_ENDING else ending)
        return number

    def finish(self) -> None:
        """Writes the file completely to the disk."""
        if self.part is not None and not self.target.is_stream:
            self.part.close()
        if self.waits is not None:
            with writing(self.name), open(self.waits, "rb+") as file:
                os.fsync(file.fileno())

    def send(self) -> None:
        """Writes the waiting bytes to a stream."""
        with writing(self.name):
            if self.part is not None:
                self.part.seek(0)
                _copy(self.part._file, self.target)
                self.part.close()
            elif self.waits is not None:
                with open(self.waits, "rb") as file:
                    _copy(file, self.target)

    def put(self, placed: Sequence["Output"], is_alone: bool) -> None:
        """Renames a file to its name; an old file of this name is kept until all files of the call have their names."""
        # A file that appeared there during the call is judged like one that was there before.
        self.target = Target(self.target.name)
        self.check()
        if self.target.is_stream or self.target.identity() in [one.target.identity() for one in placed]:
            raise Refusal(self.name, "was replaced while the command ran")
        assert self.waits is not None
        if self.kind.is_recorded:
            with read_files.paused():
                records.keep(self.target.path, self.waits)
        with writing(self.name):
            found = self.target.found
            os.chmod(self.waits, found.st_mode & ALL_MODES if found else new_mode())
            if found and hasattr(os, "chown") and (found.st_uid, found.st_gid) != (os.geteuid(), os.getegid()):
                with contextlib.suppress(OSError):
                    os.chown(self.waits, found.st_uid, found.st_gid)
            if found:
                if not is_alone:
                    self._keep()
                os.replace(self.waits, self.target.path)
            else:
                give_name(self.waits, self.target.path)
            self.is_put = True
            self.target.found = os.stat(self.target.path)

    def _keep(self) -> None:
        number, self.kept = made_beside(self.target.folder)
        os.close(number)
        os.unlink(self.kept)
        link_or_move(self.target.path, self.kept)

    def take_back(self) -> None:
        """Restores the old file."""
        with contextlib.suppress(OSError):
            if self.kept is not None and os.path.lexists(self.kept):
                os.replace(self.kept, self.target.path)
            elif self.is_put:
                os.unlink(self.target.path)

    def drop(self) -> None:
        """Removes temporary files and kept old files."""
        if self.part is not None:
            with contextlib.suppress(Failure, OSError):
                self.part.close()
        for beside in (self.waits, self.kept):
            if beside is not None:
                forget(beside)
        self.part = self.waits = self.kept = None


def _copy(file: Any, target: Target) -> None:
    """Writes a file to standard output, a pipe, a device or a socket."""
    if target.is_dash:
        sys.stdout.flush()
        while content := file.read(COPIED_AT_ONCE):
            sys.stdout.buffer.write(content)
        sys.stdout.buffer.flush()
    elif target.found is not None and stat.S_ISSOCK(target.found.st_mode):
        with socket.socket(socket.AF_UNIX) as connected:
            connected.connect(target.name)
            while content := file.read(COPIED_AT_ONCE):
                connected.sendall(content)
    else:
        with open(
            os.open(target.name, os.O_WRONLY | getattr(os, "O_NOCTTY", 0) | getattr(os, "O_BINARY", 0)), "wb"
        ) as out:
            while content := file.read(COPIED_AT_ONCE):
                out.write(content)


class Outputs:
    """The outputs of a call, for use in a `with`. The arguments are the files that the call reads and those that it
    writes, each with its kind (a name that is None is ignored). An output that would cost the user a file is refused at
    once. Within the `with`, each file that is opened for reading also counts as an input, for example a file next to a
    dump. If the `with` ends without an exception, all outputs appear together; otherwise none appears."""

    def __init__(
        self,
        reads: Iterable[Name | None],
        writes: Iterable[tuple[Name | None, Kind]],
        force: bool = False,
        folders: bool = False,
    ) -> None:
        self.folders, self.made = folders, list[str]()
        self.all: dict[str, Output] = {}
        inputs = inputs_of([os.fsdecode(name) for name in reads if name is not None])
        failures: list[Failure] = against_standard_output(inputs)
        for name, kind in writes:
            if name is not None:
                try:
                    output = Output(name, kind, force)
                    self._check_alone(output, inputs)
                    output.check()
                    self.all[output.target.name] = output
                except Failure as failure:
                    failures.append(failure)
        if failures:
            raise Several(failures) if len(failures) > 1 else failures[0]
        self.read_files = read_files.ReadFiles()

    def _check_unread(self, output: Output) -> None:
        """Refuses an output that was read meanwhile."""
        target = output.target
        if target.found is not None and (read := self.read_files.files.get(target.identity())) is not None:
            raise _is_read(output, read)

    def _check_alone(self, output: Output, inputs: dict[tuple[object, ...], str]) -> None:
        """Refuses an output that is an input, another output, or the file to which standard output is redirected."""
        target = output.target
        if target.found is not None and stat.S_ISCHR(target.found.st_mode):
            return
        read = None if target.is_dash else inputs.get(target.identity())
        if read is not None:
            raise _is_read(output, read)
        for other in self.all.values():
            if other.target.identity() == target.identity():
                raise Refusal(output.name, f"is the same file as another output, {shown(other.name)}")
        if target.found is not None and (out := standard_output()) is not None and os.path.samestat(target.found, out):
            raise Refusal(output.name, f"is the file that standard output is written to; {DASH} means this file")

    @property
    def printed(self) -> TextIO:
        """The stream for printed text: standard output, or standard error if an output uses that."""
        return sys.stderr if DASH in self.all else sys.stdout

    def table(self, names: Sequence[str], as_json: bool = False) -> Table:
        """A table that the call prints."""
        return Table(names, as_json, self.printed)

    def open(self, name: Name) -> WaitingFile:
        """Opens an output for writing bytes."""
        return self._output(name).open()

    def write(self, name: Name, content: bytes) -> None:
        """Writes the whole content of an output."""
        self.open(name).write(content)

    def write_png(self, name: Name, image: Any) -> None:
        self.write(name, png(image))

    def path(self, name: Name, ending: str = "") -> str:
        """The name of a file for a program that writes the output itself; it has the ending of the output's name, or
        this one if that has none."""
        return self._output(name).path(ending)

    def drop(self) -> None:
        """Discards all outputs: nothing appears."""
        with held_back():
            for output in self.all.values():
                output.drop()

    def _output(self, name: Name) -> Output:
        output = self.all[os.fsdecode(name)]
        self._check_unread(output)
        if self.folders and not output.target.is_stream:
            self._make_folders(output.target.folder)
        return output

    def _make_folders(self, folder: str) -> None:
        if not os.path.isdir(folder):
            self._make_folders(os.path.dirname(folder))
            with held_back(), writing(folder):
                os.mkdir(folder)
                self.made.append(folder)

    def __enter__(self) -> "Outputs":
        self.read_files = read_files.start_recording()
        return self

    def __exit__(self, kind: type[BaseException] | None, error: BaseException | None, _: TracebackType | None) -> None:
        try:
            if error is None:
                self._appear()
                self.made.clear()
        finally:
            read_files.stop_recording(self.read_files)
            self.drop()
            for folder in reversed(self.made):
                with contextlib.suppress(OSError):
                    os.rmdir(folder)

    def _appear(self) -> None:
        """Lets all opened outputs appear. Bytes that were sent to a stream cannot be taken back, so streams come first:
        if one of them fails, no file appears."""
        flush()
        opened = [output for output in self.all.values() if output.part is not None or output.waits is not None]
        for output in opened:
            self._check_unread(output)
        for output in opened:
            output.finish()
        for output in opened:
            if output.target.is_stream:
                output.send()
        files = [output for output in opened if not output.target.is_stream]
        with held_back():
            put: list[Output] = []
            try:
                for output in files:
                    put.append(output)
                    output.put(put[:-1], len(files) == 1)
            except BaseException:
                for output in reversed(put):
                    output.take_back()
                raise
            for folder in {output.target.folder for output in put}:
                keep_folder(folder)


def _is_read(output: Output, read: str) -> Refusal:
    """Why an output is refused that is also an input."""
    same = "" if read == output.target.name else f" as {shown(read)}"
    return Refusal(output.name, f"is an input{same} and would be overwritten")


def stem_of(name: Name) -> str:
    """The name from which the names of several files are made, from the arguments."""
    stem = os.fsdecode(name)
    if stem == DASH:
        raise Refusal(DASH, f"means standard output, which can hold only one file; use ./{DASH} for files of this name")
    if os.path.basename(stem) in ("", os.curdir, os.pardir):
        raise Refusal(stem or "''", "is not a file name; the names of several outputs begin with it")
    return stem


def add_force(parser: argparse.ArgumentParser) -> None:
    """Adds the option that lets outputs overwrite any file."""
    parser.add_argument("--force", action="store_true", help="overwrite an existing output of any kind")


def png(image: Any) -> bytes:
    """A Pillow picture as a PNG file."""
    content = io.BytesIO()
    image.save(content, "PNG", optimize=True)
    return content.getvalue()


def write_file(path: Name, content: bytes, kind: Kind, force: bool = False) -> None:
    """Writes one file of a call with other outputs, for example a report."""
    with Outputs([], [(path, kind)], force) as outputs:
        outputs.write(path, content)
