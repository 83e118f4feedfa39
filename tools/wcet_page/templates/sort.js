"use strict";
// Sorts a table by the column whose head is clicked; the page is whole without it.
function valueOf(row, column) {
  const text = row.cells[column].dataset.sort ?? row.cells[column].textContent.trim();
  const number = Number(text);
  return text !== "" && !Number.isNaN(number) ? number : text;
}
function compare(a, b) {
  if (typeof a === typeof b) return a < b ? -1 : a > b ? 1 : 0;
  return typeof a === "number" ? 1 : -1;
}
function sortBy(head) {
  const table = head.closest("table"), body = table.tBodies[0], column = head.cellIndex;
  const first = head.classList.contains("n") ? "descending" : "ascending";
  const way = head.getAttribute("aria-sort") === first ? (first === "ascending" ? "descending" : "ascending") : first;
  for (const each of table.tHead.rows[0].cells) each.removeAttribute("aria-sort");
  head.setAttribute("aria-sort", way);
  const sign = way === "ascending" ? 1 : -1;
  const rows = Array.from(body.rows).map((row, place) => ({ row, place, value: valueOf(row, column) }));
  rows.sort((a, b) => sign * compare(a.value, b.value) || a.place - b.place);
  body.append(...rows.map((each) => each.row));
}
for (const head of document.querySelectorAll("table.sorts th")) {
  head.dataset.sortable = "";
  head.addEventListener("click", () => sortBy(head));
}
