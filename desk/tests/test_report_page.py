"""The script of the page of a report, in Node: the order of the rows, and the rows that a filter leaves."""
import json
import shutil
import subprocess
import unittest
from typing import Any

from fixtures import TOP

SCRIPT = TOP / "desk" / "ribjasper" / "dumps" / "report.js"
# The data of the page about dumps: the share is empty if there is no Q.
ROWS = [
    {"status": "good", "share": "1", "name": "Disc One.sub"},
    {"status": "damaged", "share": "0.875", "name": "disc two.sub"},
    {"status": "good", "share": "", "name": "Three.cdg"},
    {"status": "damaged", "share": "0", "name": "four.raw"},
]
ALL = {"state": "", "name": "", "least": "", "most": ""}


@unittest.skipUnless(shutil.which("node"), "node is not installed")
class ReportScriptTest(unittest.TestCase):
    def run_script(self, code: str) -> Any:
        words = ["node", "-e", f"const report = require({json.dumps(str(SCRIPT))});\n{code}"]
        ran = subprocess.run(words, capture_output=True, text=True)
        self.assertEqual((ran.returncode, ran.stderr), (0, ""))
        return json.loads(ran.stdout)

    def ordered(self, values: list[str], turn: int) -> Any:
        code = f"const of = (x, y) => report.order(x, y, {turn});"
        return self.run_script(f"{code} console.log(JSON.stringify({json.dumps(values)}.sort(of)))")

    def shown(self, **asked: str) -> list[str]:
        call = f"{json.dumps(ROWS)}.filter((row) => report.isShown(row, {json.dumps(ALL | asked)}))"
        return [row["name"] for row in self.run_script(f"console.log(JSON.stringify({call}))")]

    def test_numbers_by_size_and_empty_cells_last(self) -> None:
        self.assertEqual(self.ordered(["10", "9", "", "0.5", "-1"], 1), ["-1", "0.5", "9", "10", ""])
        self.assertEqual(self.ordered(["10", "9", "", "0.5", "-1"], -1), ["10", "9", "0.5", "-1", ""])

    def test_texts_by_alphabet(self) -> None:
        self.assertEqual(self.ordered(["torn", "", "Bad", "good", "10"], 1), ["10", "Bad", "good", "torn", ""])

    def test_filters(self) -> None:
        names = [row["name"] for row in ROWS]
        self.assertEqual(self.shown(), names)
        self.assertEqual(self.shown(state="good"), [names[0], names[2]])
        self.assertEqual(self.shown(name="DISC"), names[:2])
        self.assertEqual(self.shown(name="disc", state="damaged"), [names[1]])

    def test_shares_of_good_q(self) -> None:
        """Both limits are inclusive, and either limit excludes a dump without Q."""
        names = [row["name"] for row in ROWS]
        self.assertEqual(self.shown(least="87.5"), names[:2])
        self.assertEqual(self.shown(most="87.5"), [names[1], names[3]])
        self.assertEqual(self.shown(least="0", most="100"), [names[0], names[1], names[3]])


if __name__ == "__main__":
    unittest.main()
