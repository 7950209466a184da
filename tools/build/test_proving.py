#!/usr/bin/env python3
"""Tests of prove_crates.py: which crates are proved, in which order, and with how many processors."""
import pathlib
import subprocess
import sys
import tempfile
import unittest
import unittest.mock

import prove_crates


class ProvedTest(unittest.TestCase):
    def test_a_library_is_current_only_over_current_libraries(self) -> None:
        below: dict[str, list[str]] = {"low": [], "other": [], "middle": ["low"], "high": ["middle", "other"]}
        stamp = dict.fromkeys(below, "new")
        for stale, current in {
            "": {"low", "other", "middle", "high"},
            "low": {"other"},
            "middle": {"low", "other"},
            "other": {"low", "middle"},
        }.items():
            with self.subTest(stale=stale):
                stored = {**stamp, stale: "old"}
                with unittest.mock.patch.object(prove_crates, "stored_stamp", stored.__getitem__):
                    self.assertEqual(prove_crates.proved(list(below), below, stamp), current)


class LockTest(unittest.TestCase):
    def test_a_second_call_waits_for_the_first(self) -> None:
        code = "import prove_crates; prove_crates.lock_checkout(); print('locked')"
        folder = pathlib.Path(prove_crates.__file__).parent
        with prove_crates.lock_checkout():
            second = subprocess.Popen([sys.executable, "-c", code], cwd=folder, stdout=subprocess.PIPE, text=True)
            assert second.stdout is not None
            self.assertIn("waiting", second.stdout.readline())
            self.assertIsNone(second.poll())
        self.assertEqual(second.communicate(timeout=60)[0], "locked\n")


class OrderTest(unittest.TestCase):
    def test_each_library_comes_after_the_libraries_below_it(self) -> None:
        below = prove_crates.graph()
        order = prove_crates.libraries(below, ["ribjasper", "ribjasper_c"])
        for place, name in enumerate(order):
            self.assertTrue(set(below[name]) <= set(order[:place]), name)

    def test_a_chain_costs_the_sum_of_its_crates(self) -> None:
        below: dict[str, list[str]] = {"slow": [], "low": [], "high": ["low"]}
        with tempfile.TemporaryDirectory() as folder:
            table = pathlib.Path(folder) / "seconds.tsv"
            prove_crates.write_table(table, {"slow": 60, "low": 20, "high": 50.4})
            with unittest.mock.patch.object(prove_crates, "TABLE", table):
                proving = prove_crates.Proving(list(below), below, dict.fromkeys(below, "a stamp"), 1)
        self.assertEqual(proving.chain, {"slow": 60, "low": 70, "high": 50})

    def test_a_crate_gets_free_processors_and_more_if_its_chain_is_long(self) -> None:
        below: dict[str, list[str]] = {"low": [], "other": [], "third": [], "high": ["low"]}
        for cost, ready, jobs in (
            ({"low": 100, "other": 100, "third": 100, "high": 100}, 3, 2),
            ({"low": 100, "other": 10, "third": 10, "high": 100}, 3, 3),
            ({"low": 100, "other": 10, "third": 10, "high": 100}, 1, 4),
            ({"low": 50, "other": 200, "third": 200, "high": 50}, 3, 2),
            ({"low": 50, "other": 200, "third": 200, "high": 50}, 4, 1),
        ):
            with self.subTest(cost=cost, ready=ready):
                with unittest.mock.patch.object(prove_crates, "read_table", lambda _file, table=cost: table):
                    proving = prove_crates.Proving(list(below), below, dict.fromkeys(below, "a stamp"), 4)
                self.assertEqual(proving.jobs("low", ready), jobs)


class TableTest(unittest.TestCase):
    def test_it_names_crates_of_the_repository(self) -> None:
        seconds = prove_crates.read_table(prove_crates.TABLE)
        self.assertLessEqual(seconds.keys(), prove_crates.graph().keys())
        self.assertTrue(all(it > 0 for it in seconds.values()))

    def test_a_command_is_measured_with_the_processes_that_it_starts(self) -> None:
        code = "sum(range(3_000_000))"
        inner = f"import subprocess, sys; subprocess.run([sys.executable, '-c', '{code}']); sys.exit(3)"
        with tempfile.TemporaryFile("w+") as log:
            status, used = prove_crates.run_measured([sys.executable, "-c", inner], prove_crates.ROOT, log)
        self.assertEqual(status, 3)
        self.assertGreater(used, 0.01)


if __name__ == "__main__":
    unittest.main()
