"""Reads the tables of docs/FORMATS.md, for the tools that write documents and for the tests of its statements."""
import re
from pathlib import Path

FORMATS = Path(__file__).resolve().parents[2] / "docs" / "FORMATS.md"
FORMS = ["raw", "sector", "cooked"]
# The head of the table of commands, and the head of the two tables of reasons, for the sheet and for the script.
COMMANDS, REASONS = "| Words | Inputs | Output |", "| Why | For example | What to do |"

Row = list[str]


def rows_after(text: str, head: str) -> list[list[Row]]:
    """The rows of each table with this head, each a list of its cells."""
    found = []
    for part in text.split(f"{head}\n")[1:]:
        rows = []
        for line in part.splitlines()[1:]:
            if not line.startswith("|"):
                break
            rows.append([cell.strip() for cell in line.strip("|").split("|")])
        found.append(rows)
    return found


def table(text: str, head: str) -> list[Row]:
    """The rows of the first table with this head."""
    return rows_after(text, head)[0]


def reasons(text: str) -> dict[str, list[Row]]:
    """The reasons why a line of the sheet or the script is refused, with examples and remedies."""
    return dict(zip(("cue", "script"), rows_after(text, REASONS)))


def bare(cell: str) -> str:
    """A cell without backticks."""
    return cell.replace("`", "")


def quoted(cell: str) -> list[str]:
    """The texts between backticks in a cell."""
    return re.findall("`([^`]+)`", cell)
