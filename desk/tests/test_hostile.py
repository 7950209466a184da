"""Some thousand random calls, the same in each run: see hostile.py."""
import unittest

from fixtures import needs, needs_library, needs_plan

CASES = 2000


@needs_library
@needs_plan
@needs("hypothesis", "python3-hypothesis")
class HostileTest(unittest.TestCase):
    def test_calls_as_chance_makes_them(self) -> None:
        from hypothesis import HealthCheck, given, settings

        from hostile import Made, calls, check

        @settings(
            max_examples=CASES, deadline=None, database=None, derandomize=True, suppress_health_check=list(HealthCheck)
        )
        @given(calls())
        def try_all(call: Made) -> None:
            check(call)

        try_all()


if __name__ == "__main__":
    unittest.main()
