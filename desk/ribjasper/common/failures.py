"""Failures from outside, their error messages, and the exit statuses of the desk."""
import contextlib
import os
import warnings
from typing import Iterator, NamedTuple


Name = str | bytes | os.PathLike[str] | os.PathLike[bytes]
# The exit statuses of the desk other than 0. Status 1 (damage was found, or files differ) is a result, not a failure.
FOUND = 1
# A file cannot be used: an input has the wrong content, or an output would overwrite another file.
REFUSED = 3
# A picture is late.
LATE = 4
# A package, a program or the library is missing.
MISSING = 5
# An output cannot be written.
UNWRITTEN = 6
# The memory is not enough.
NO_MEMORY = 7
# A bug of the desk.
FAULT = 8
# There is nothing to do.
NOTHING = 9
# A signal ended the desk: this number plus the number of the signal.
STOPPED = 128


def shown(name: str) -> str:
    """A name on one line: unchanged, except that a backslash, a tab and line ends are written with a backslash."""
    marks = (("\\", "\\\\"), ("\t", "\\t"), ("\n", "\\n"), ("\r", "\\r"))
    for mark, spelled in marks:
        name = name.replace(mark, spelled)
    return name


class Failure(Exception):
    """The reason why a command cannot continue, in lines that name a file, and the exit status of the desk."""

    status: int = REFUSED

    def __init__(self, *lines: str) -> None:
        super().__init__("\n".join(lines))
        self.lines = lines


class Refusal(Failure):
    """A file that cannot be used, and each reason why."""

    def __init__(self, path: Name, *causes: str) -> None:
        name = shown(os.fsdecode(path))
        super().__init__(*(f"{name}: {cause}" for cause in causes))
        self.cause = "; ".join(causes)


class Unwritten(Refusal):
    """An output that cannot be written, and the reason."""

    status = UNWRITTEN


class NoMemory(Refusal):
    status = NO_MEMORY


class Missing(Failure):
    """Something must be installed or built first."""

    status = MISSING


class Nothing(Failure):
    """Nothing to do."""

    status = NOTHING


class Fault(Refusal):
    """A bug of the desk."""

    status = FAULT


class Several(Failure):
    """Failures that are reported together. The exit status is that of the first."""

    def __init__(self, failures: list[Failure]) -> None:
        super().__init__(*(line for failure in failures for line in failure.lines))
        self.status = failures[0].status


class Refusals:
    """Collects all errors in a file, so that they are reported together."""

    def __init__(self, path: Name) -> None:
        self.path, self.causes = path, list[str]()

    def add(self, cause: str) -> None:
        self.causes.append(cause)

    def end(self) -> None:
        """Refuses the file if anything is wrong with it."""
        if self.causes:
            raise Refusal(self.path, *self.causes)


class Outside(NamedTuple):
    """The meaning of an exception: the rest of the error message, and the kind of failure."""

    cause: str
    failure: type[Refusal]


# Exceptions are listed by name, so that no package is loaded for them. An exception without its own entry has the entry
# of its nearest base class.
OUTSIDE = {
    "MemoryError": Outside("there is not enough memory for it", NoMemory),
    "RecursionError": Outside("is nested too deeply", Refusal),
    "UnidentifiedImageError": Outside("is not a readable image", Refusal),
    "DecompressionBombError": Outside("has too many pixels for an image", Refusal),
    "DecompressionBombWarning": Outside("has too many pixels for an image", Refusal),
    "UnicodeDecodeError": Outside("is not UTF-8 text", Refusal),
    "EOFError": Outside("ends too early", Refusal),
    "Error": Outside("cannot be read", Refusal),
    "error": Outside("cannot be read", Refusal),
    "OSError": Outside("", Refusal),
}


def cause(error: OSError) -> str:
    """Why the system refused, in its own words."""
    return (error.strerror or str(error) or type(error).__name__).lower()


def failure_of(error: BaseException, path: Name, writing: bool = False) -> Failure:
    """The failure that an exception means, if it occurred while a file was read or written."""
    if isinstance(error, Failure):
        return error
    for base in type(error).__mro__:
        if base.__name__ in OUTSIDE:
            outside = OUTSIDE[base.__name__]
            said = cause(error) if isinstance(error, OSError) and not outside.cause else outside.cause
            return Unwritten(path, said) if writing and isinstance(error, OSError) else outside.failure(path, said)
    where = error.__traceback__
    while where and where.tb_next:
        where = where.tb_next
    at = f"{os.path.basename(where.tb_frame.f_code.co_filename)}:{where.tb_lineno}" if where else "?"
    said = f"an internal error of the desk: {type(error).__name__}: {error} ({at})"
    return Fault(path, shown(said))


@contextlib.contextmanager
def reading(path: Name) -> Iterator[None]:
    """Turns an exception while a file is read into a failure that names the file."""
    try:
        with warnings.catch_warnings():
            # For a picture of half the size that it refuses, Pillow only warns.
            warnings.filterwarnings("error", ".*decompression bomb")
            yield
    except Exception as error:
        raise failure_of(error, path) from None


@contextlib.contextmanager
def writing(path: Name) -> Iterator[None]:
    """Turns an error of the system while a file is written into a failure that names the file."""
    try:
        yield
    except (OSError, MemoryError) as error:
        raise failure_of(error, path, writing=True) from None
