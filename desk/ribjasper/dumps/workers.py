"""Examines files in several processes, here or on the workers of a scheduler."""
import collections
import concurrent.futures
import contextlib
import ctypes
import logging
import multiprocessing
import os
import signal
import site
import sys
from concurrent.futures import Future, ProcessPoolExecutor
from concurrent.futures.process import BrokenProcessPool
from typing import Any, Generator, Iterator, NamedTuple, Sequence

from ..common import library
from ..common.beside import STOPS
from ..common.failures import Refusal, shown
from ..common.output import complain, package, tell
from ..common.progress import turn_off
from .examine import COLUMNS, Examined, UNREAD, examine
from .loading import DumpOptions

# The option of Linux's prctl that signals a process when its parent ends.
PR_SET_PDEATHSIG = 1
COULD_NOT = "could not be examined: its process crashed each time"


class FileTask(NamedTuple):
    """A file to be examined: its path, and its name in the report."""

    path: str
    name: str


class How(NamedTuple):
    """The options for all files: whether pictures are made, and the options of the dumps."""

    with_pictures: bool
    words: DumpOptions = DumpOptions()


def examine_task(task: FileTask, how: How) -> Examined:
    return examine(task.path, task.name, how.with_pictures, how.words)


def lost_row(name: str, why: str) -> Examined:
    """The row of a file that no process could examine."""
    return Examined(dict.fromkeys(COLUMNS) | {"file": name, "status": UNREAD, "why": why}, was_lost=True)


def end_with_parent() -> None:
    """Lets a worker end with the run that started it, and leaves Ctrl-C and the terminal to that run."""
    turn_off()
    for number in STOPS:
        signal.signal(number, signal.SIG_IGN if number == signal.SIGINT else signal.SIG_DFL)
    if sys.platform == "linux":
        ctypes.CDLL(None).prctl(PR_SET_PDEATHSIG, signal.SIGTERM)


def processors() -> int:
    """How many processors this process may use."""
    return len(os.sched_getaffinity(0)) if hasattr(os, "sched_getaffinity") else os.cpu_count() or 1


def pool_of(count: int) -> ProcessPoolExecutor:
    # Windows has no fork, and on macOS libraries of the system crash after it.
    how = "fork" if sys.platform == "linux" else "spawn"
    return ProcessPoolExecutor(count, mp_context=multiprocessing.get_context(how), initializer=end_with_parent)


def here(tasks: Sequence[FileTask], how: How, count: int) -> Iterator[Examined]:
    """Examines files in `count` processes on this machine. If a process crashes, the files that were being examined are
    tried again one by one. A file that crashes its process again is a row that reports this."""
    waiting = collections.deque(tasks)
    while waiting:
        suspects = yield from in_pool(waiting, how, count)
        if suspects:
            names = ", ".join(shown(task.path) for task in suspects)
            tell(f"a worker process ended unexpectedly; the files that were open are tried again one by one: {names}")
        for task in suspects:
            yield look_alone(task, how)


def in_pool(waiting: collections.deque[FileTask], how: How, count: int) -> Generator[Examined, None, list[FileTask]]:
    """Examines the waiting files, one in each process, until a process crashes. Then it returns the files that were
    being examined."""
    running: dict[Future[Examined], FileTask] = {}
    pool = pool_of(count)
    try:
        while waiting or running:
            while waiting and len(running) < count:
                running[pool.submit(examine_task, waiting[0], how)] = waiting[0]
                waiting.popleft()
            done, _ = concurrent.futures.wait(running, return_when=concurrent.futures.FIRST_COMPLETED)
            for future in done:
                found = future.result()
                del running[future]
                yield found
    except BrokenProcessPool:
        return list(running.values())
    finally:
        pool.shutdown(wait=True, cancel_futures=True)
    return []


def look_alone(task: FileTask, how: How) -> Examined:
    """Examines a file in its own process."""
    with pool_of(1) as pool:
        try:
            return pool.submit(examine_task, task, how).result()
        except BrokenProcessPool:
            complain(f"{shown(task.path)}: {COULD_NOT}")
            return lost_row(task.name, COULD_NOT)


def finder(distributed: Any, folder: str) -> Any:
    """Prepares each worker by telling it the path of the desk."""

    class Finder(distributed.WorkerPlugin):  # type: ignore[misc]
        def setup(self, worker: Any) -> None:
            site.addsitedir(folder)

    return Finder()


def by_cluster(tasks: Sequence[FileTask], how: How, address: str) -> Iterator[Examined]:
    """Examines files on the workers of a scheduler, which see the same files and the same checkout."""
    distributed = package("distributed", "python3-distributed")
    # Messages about tasks that are cut off at the end do not help a user.
    sys.unraisablehook = lambda _: None
    # Errors are reported in a line of our own.
    logging.disable(logging.CRITICAL)
    try:
        client = distributed.Client(address, timeout=10)
    except (OSError, ValueError) as error:
        raise Refusal(address, f"no scheduler responds: {error}") from None
    gone = f"the scheduler or all of its workers disappeared; the next run continues ({len(tasks)} files were still to be examined)"
    try:
        register = getattr(client, "register_plugin", None) or client.register_worker_plugin
        register(finder(distributed, str(library.TOP / "desk")))
        waiting = {
            client.submit(examine_task, FileTask(os.path.abspath(task.path), task.name), how, pure=False): task
            for task in tasks
        }
        for done in distributed.as_completed(waiting):
            if done.status == "finished":
                yield done.result()
            elif done.status == "error":
                complain(f"{shown(waiting[done].path)}: {COULD_NOT}: {done.exception()}")
                yield lost_row(waiting[done].name, f"{COULD_NOT}: {done.exception()}")
            else:
                raise Refusal(address, gone)
            done.release()
    except (OSError, RuntimeError, distributed.comm.CommClosedError, concurrent.futures.CancelledError) as error:
        raise Refusal(address, gone) from error
    finally:
        # A client that no longer responds cannot be closed in order.
        with contextlib.suppress(Exception):
            client.close(timeout=2)
