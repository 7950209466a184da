"""Runs the tests of the desk, and prints in one line how many ran, and how many were skipped for which reason.

A test that takes longer than LIMIT seconds fails. A failed test runs once more, because some tests wait for processes
and the machine may be busy; the output says so. Arguments are names of modules: `python -m tests test_harm`."""
import collections
import signal
import sys
import time
import unittest
from pathlib import Path
from types import FrameType

HERE = Path(__file__).resolve().parent
LIMIT = 600
SLOWEST = 10


class TimedResult(unittest.TestResult):
    """A result that stops each test at the limit and records its duration."""

    def __init__(self) -> None:
        super().__init__()
        self.seconds: list[tuple[float, str]] = []
        self._began = 0.0

    def startTest(self, test: unittest.TestCase) -> None:
        super().startTest(test)
        self._began = time.monotonic()
        if hasattr(signal, "SIGALRM"):
            signal.signal(signal.SIGALRM, _too_long)
            signal.alarm(LIMIT)

    def stopTest(self, test: unittest.TestCase) -> None:
        if hasattr(signal, "SIGALRM"):
            signal.alarm(0)
        self.seconds.append((time.monotonic() - self._began, test.id()))
        super().stopTest(test)


def _too_long(_number: int, _frame: FrameType | None) -> None:
    raise TimeoutError(f"the test takes longer than {LIMIT} s")


def summary(result: unittest.TestResult) -> str:
    skipped = collections.Counter(reason for _, reason in result.skipped)
    summary = f"desk: {result.testsRun - len(result.skipped)} tests run, {len(result.skipped)} skipped"
    reasons = "; ".join(f"{count}: {reason}" for reason, count in sorted(skipped.items()))
    return f"{summary} ({reasons})" if reasons else summary


def once_more(result: unittest.TestResult) -> unittest.TestResult:
    """Runs each failed test again, by itself."""
    failed = {test.id(): test for test, _ in [*result.failures, *result.errors]}
    again = TimedResult()
    for test in failed.values():
        whole = getattr(test, "test_case", test)
        if isinstance(whole, unittest.TestCase):
            unittest.TestSuite([whole]).run(again)
        else:
            again.errors.append((test, "could not be run again"))
    return again


def chosen_tests(modules: list[str]) -> unittest.TestSuite:
    """The tests of these modules, or of all."""
    find = unittest.defaultTestLoader.discover
    patterns = [f"{module}.py" for module in modules] or ["test*.py"]
    return unittest.TestSuite([find(str(HERE), pattern=pattern, top_level_dir=str(HERE)) for pattern in patterns])


def main() -> int:
    result = TimedResult()
    chosen_tests(sys.argv[1:]).run(result)
    for test, why in [*result.failures, *result.errors]:
        print(f"{test}\n{why}", file=sys.stderr)
    print(summary(result))
    for seconds, name in sorted(result.seconds, reverse=True)[:SLOWEST]:
        print(f"desk: {seconds:.0f} s {name}")
    if result.wasSuccessful():
        return 0
    again = once_more(result)
    for test, why in [*again.failures, *again.errors]:
        print(f"{test} fails again\n{why}", file=sys.stderr)
    print(
        f"desk: {again.testsRun} tests were run once more, {len(again.failures) + len(again.errors)} of them failed again"
    )
    return 0 if again.wasSuccessful() else 1


if __name__ == "__main__":
    sys.exit(main())
