"""The page of a report. It needs no network, and sorts and filters its rows itself."""
import collections
import html as marks
import os
from pathlib import Path
from typing import Sequence
from urllib.parse import quote

from . import damage_map
from .examine import ReportRow

FOLDER = Path(__file__).parent
# The columns of numbers on the page, with their headings; the tables have more.
NUMBERS = {
    "q-good": "good Q", "blocks": "blocks", "bad": "lost words", "q-bad": "bad Q", "empty": "empty", "runs": "runs",
    "jumps": "jumps",
}  # fmt: skip
# A longer text is folded; a file name is never cut.
LONGEST_TEXT = 160
# The number of lines of texts on the page; the tables have all lines.
MOST_TEXTS = 12


def escaped(text: object) -> str:
    """A text in the page; bytes of a name that are no text are written as \\xHH."""
    plain = os.fsencode(str(text)).decode("utf-8", "backslashreplace")
    return marks.escape(plain)


def link(name: str, inside: str) -> str:
    return f'<a href="{quote(name)}">{inside}</a>'


def picture_cell(row: ReportRow, out: Path, name: str) -> str:
    """The first picture of a dump, or the reason why there is none."""
    if (out / name).exists():
        said = escaped(f"first picture of {row['file']}")
        return link(name, f'<img class="first" loading="lazy" src="{quote(name)}" alt="{said}">')
    return f'<div class="none">{escaped(row["picture"] or "")}</div>'


def map_cell(out: Path, name: str) -> str:
    if not (out / name).exists():
        return ""
    return link(name, f'<img class="map" loading="lazy" src="{quote(name)}" alt="map of the damage">')


def numbers(row: ReportRow) -> str:
    cells = []
    for name, label in NUMBERS.items():
        value = row[name]
        text = "" if value is None else f"{value:.4f}" if isinstance(value, float) else f"{value:,}"
        shown = "" if value is None else value
        cells.append(f'<td class="number" data-label="{label}" data-value="{shown}">{text}</td>')
    return "".join(cells)


def folded(text: str, kind: str) -> str:
    """A text in its own lines, or folded if it is long."""
    if not text:
        return ""
    inside = f'<div class="{kind}">{escaped(text)}</div>'
    if len(text) <= LONGEST_TEXT:
        return inside
    head = escaped(text[: LONGEST_TEXT // 2].replace("\n", "; "))
    return f"<details><summary>{head} ..</summary>{inside}</details>"


def about(row: ReportRow, out: Path, places: str) -> str:
    """The text of a dump's row."""
    texts = row["texts"] or []
    more = [f"and {len(texts) - MOST_TEXTS} more"] if len(texts) > MOST_TEXTS else []
    form = f"{row['form']}, lead-in {row['lead-in']}" if row["form"] else ""
    notes = "; ".join(row["notes"] or [])
    listed = ""
    if row["damage"] and (out / places).exists():
        count = row["runs"] + row["jumps"]
        listed = f"<div>{link(places, f'{count} damaged place' + 's' * (count != 1))}</div>"
    return (
        f'<div class="name">{escaped(row["file"])}</div>'
        f'<div>{form}</div>{listed}{folded(chr(10).join([*texts[:MOST_TEXTS], *more]), "texts")}'
        f'{folded(notes, "why")}{folded(row["why"] or "", "why")}'
    )


def line(row: ReportRow, names: tuple[str, str, str], out: Path) -> str:
    first, mapped, places = names
    share = "" if row["q-good"] is None else row["q-good"]
    name = escaped(row["file"])
    return (
        f'<tr data-status="{row["status"]}" data-share="{share}" data-name="{name}"><td>{picture_cell(row, out, first)}</td>'
        f'<td class="about" data-value="{name}">{about(row, out, places)}</td>'
        f'<td class="state {row["status"]}">{row["status"]}</td>'
        f"{numbers(row)}<td>{map_cell(out, mapped)}</td></tr>"
    )


def filters(statuses: Sequence[str]) -> str:
    options = "".join(f'<option value="{status}">{status}</option>' for status in statuses)
    return (
        f'<form hidden><label>state <select name="state"><option value="">all</option>{options}</select></label>'
        '<label>name <input name="name" type="search" placeholder="a part of it"></label>'
        '<label>good Q from <input name="least" type="number" min="0" max="100" step="any" size="5"> to '
        '<input name="most" type="number" min="0" max="100" step="any" size="5"> %</label>'
        '<label>sort by <select name="sort"><option value="">name of the file</option></select></label>'
        '<input type="reset" value="show all"><output id="message"></output></form>'
    )


def heads() -> str:
    """The headings; those with a button sort."""
    words = "".join(f"<th><button>{name}</button></th>" for name in ("dump", "state"))
    counts = "".join(f'<th class="number"><button>{name}</button></th>' for name in NUMBERS.values())
    return f"<th>first picture</th>{words}{counts}<th>map</th>"


def legend() -> str:
    """The legend of all maps."""
    parts = (
        f'<span><i style="background: rgb{colour}"></i>{escaped(name)}</span>' for name, colour in damage_map.meanings()
    )
    return f'<p class="legend">In the maps a cell is a second and a row a minute: {"".join(parts)}</p>'


def html(rows: Sequence[tuple[ReportRow, tuple[str, str, str]]], out: Path) -> bytes:
    counts = collections.Counter(row["status"] for row, _ in rows)
    said = ", ".join(f"{count} {status}" for status, count in sorted(counts.items()))
    body = "\n".join(line(row, names, out) for row, names in rows)
    files = ", ".join(link(name, name) for name in ("table.tsv", "table.jsonl", "dumps.dat"))
    style, script = ((FOLDER / name).read_text(encoding="utf-8") for name in ("report.css", "report.js"))
    page = (
        '<!DOCTYPE html>\n<html lang="en"><head><meta charset="utf-8">'
        '<meta name="viewport" content="width=device-width, initial-scale=1">'
        '<meta name="generator" content="ribjasper-desk"><title>Dumps</title>'
        f"<style>\n{style}</style></head>\n<body><h1>{len(rows)} dumps</h1>\n<p>{said}</p>\n"
        f"<p>All columns, and the checksums: {files}</p>\n{legend()}\n{filters(sorted(counts))}\n"
        f"<table><thead><tr>{heads()}</tr></thead>\n<tbody>\n{body}\n</tbody></table>\n<script>\n{script}</script></body></html>\n"
    )
    return page.encode()
