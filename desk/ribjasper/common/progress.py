"""A progress bar on a terminal, for tasks of more than two seconds; none without tqdm, with `-q` or elsewhere."""
import contextlib
import sys
import threading
from typing import Any, Callable, Iterable, Iterator, TypeVar

from . import output

Item = TypeVar("Item")
# Seconds before a bar is shown.
DELAY = 2.0


_is_off = False


def turn_off() -> None:
    """Turns progress bars off in this process, for example in workers that read files for another process."""
    global _is_off
    _is_off = True


def bar(total: int | None, unit: str, is_scaled: bool = False) -> Any:
    """A progress bar of tqdm, or None if none is to be shown; there is one at a time, only in the main thread."""
    if _is_off or output.is_quiet() or output.shown_bar() or threading.current_thread() is not threading.main_thread():
        return None
    if sys.stderr is None or not sys.stderr.isatty():
        return None
    with contextlib.suppress(ImportError):
        tqdm: Any = __import__("tqdm").tqdm
        return tqdm(
            total=total, unit=unit, delay=DELAY, file=sys.stderr, leave=False, dynamic_ncols=True, unit_scale=is_scaled
        )
    return None


def progress(items: Iterable[Item], total: int | None, unit: str) -> Iterator[Item]:
    """Iterates over items, and shows how many are done."""
    with counted(total, f" {unit}") as advance:
        for item in items:
            yield item
            advance(1)


@contextlib.contextmanager
def counted(total: int | None, unit: str, is_scaled: bool = False) -> Iterator[Callable[[int], object]]:
    """A function that adds to the progress."""
    shown = bar(total, unit, is_scaled)
    if shown is None:
        yield lambda _: None
        return
    output.show_bar(shown)
    try:
        yield shown.update
    finally:
        output.show_bar(None)
        shown.close()
