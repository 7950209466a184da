"use strict";
// The script of a report page. It sorts the rows by a heading or by the form, and hides the rows that the filter excludes. Without
// this script, the page shows all rows in their original order.

// Compares the values of two cells: numbers by size, texts by alphabet, and empty cells last. `turn` is 1 for ascending order, and
// -1 for descending order.
function order(x, y, turn) {
  if (x === "" || y === "") return (x === "") - (y === "");
  return turn * (isNaN(x) || isNaN(y) ? x.localeCompare(y) : x - y);
}

// Whether the filter shows a row. The status, the name and the share of good Q frames (empty for a dump without Q) must match.
function isShown(row, form) {
  const least = form.least === "" ? 0 : Number(form.least), most = form.most === "" ? 100 : Number(form.most);
  const share = row.share === "" ? null : 100 * row.share;
  const isWithin = share === null ? form.least === "" && form.most === "" : share >= least && share <= most;
  return (form.state === "" || row.status === form.state) && isWithin && row.name.toLowerCase().includes(form.name.toLowerCase());
}

function begin() {
  const body = document.querySelector("tbody"), form = document.querySelector("form"), message = document.querySelector("#message");
  const rows = [...body.rows];
  const value = (row, place) => row.cells[place].dataset.value ?? row.cells[place].textContent;
  function sort(head, turn) {
    document.querySelectorAll("th").forEach((other) => other.removeAttribute("aria-sort"));
    head.setAttribute("aria-sort", turn > 0 ? "ascending" : "descending");
    const place = head.cellIndex;
    body.append(...rows.sort((a, b) => order(value(a, place), value(b, place), turn)));
  }
  document.querySelectorAll("th button").forEach((button) => {
    const head = button.parentElement;
    button.addEventListener("click", () => sort(head, head.ariaSort === "ascending" ? -1 : 1));
    for (const [turn, mark] of [[1, "\u25B2"], [-1, "\u25BC"]]) {
      form.sort.add(new Option(`${button.textContent} ${mark}`, `${head.cellIndex} ${turn}`));
    }
  });
  form.sort.addEventListener("input", () => {
    const [place, turn] = form.sort.value.split(" ");
    if (turn) sort(document.querySelectorAll("th")[place], Number(turn));
  });
  function filter() {
    const values = { state: form.state.value, name: form.name.value, least: form.least.value, most: form.most.value };
    let shown = 0;
    for (const row of rows) {
      row.hidden = !isShown(row.dataset, values);
      shown += !row.hidden;
    }
    message.textContent = shown === rows.length ? "" : `${shown} of ${rows.length} are shown`;
  }
  form.hidden = false;
  form.addEventListener("input", filter);
  form.addEventListener("submit", (event) => event.preventDefault());
  form.addEventListener("reset", () => setTimeout(filter));
  filter();
}

// The tests load this file in Node and call its functions. A page starts it at once.
if (typeof module === "object") module.exports = { order, isShown };
else begin();
