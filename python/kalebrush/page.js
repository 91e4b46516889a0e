"use strict";
// One kernel is shown at a time; a node marks its line, and `#KERNEL.NODE` in the address does so from outside.
const all = (query, from = document) => Array.from(from.querySelectorAll(query));

function showKernel(name) {
  all("[data-kernel]").forEach((part) => { part.hidden = part.dataset.kernel !== name; });
  all("nav button[data-show]").forEach((button) => button.classList.toggle("on", button.dataset.show === name));
}

function markNode(kernel, number) {
  all("tr.marked").forEach((row) => row.classList.remove("marked"));
  const row = document.getElementById(`${kernel}.${number}`);
  if (!row) return;
  showKernel(kernel);
  row.classList.add("marked");
  const line = document.getElementById(`${kernel}:${row.dataset.line}`);
  if (line) {
    line.classList.add("marked");
    line.scrollIntoView({ block: "center" });
  }
}

function sortBy(head) {
  const body = head.closest("table").tBodies[0];
  const column = Array.from(head.parentNode.children).indexOf(head);
  const down = head.dataset.sort !== "down";
  head.dataset.sort = down ? "down" : "up";
  const value = (row) => { const text = row.cells[column].textContent; const number = parseFloat(text); return Number.isNaN(number) ? text : number; };
  const order = (a, b) => (value(a) > value(b) ? 1 : value(a) < value(b) ? -1 : 0);
  Array.from(body.rows).sort((a, b) => (down ? order(b, a) : order(a, b))).forEach((row) => body.append(row));
}

function showWords(kind) {
  all("[data-hex]").forEach((cell) => { cell.textContent = kind === "hex" ? cell.dataset.hex : cell.dataset.value; });
  all("nav button[data-words]").forEach((button) => button.classList.toggle("on", button.dataset.words === kind));
}

function fromAddress() {
  const [kernel, number] = decodeURIComponent(location.hash.slice(1)).split(".");
  if (number !== undefined) markNode(kernel, number);
}

all("nav button[data-show]").forEach((button) => button.addEventListener("click", () => showKernel(button.dataset.show)));
all("nav button[data-words]").forEach((button) => button.addEventListener("click", () => showWords(button.dataset.words)));
all("tr.node").forEach((row) => row.addEventListener("click", () => { location.hash = row.id; }));
all("th[data-sort]").forEach((head) => head.addEventListener("click", () => sortBy(head)));
window.addEventListener("hashchange", fromAddress);
const first = document.querySelector("nav button[data-show]");
if (first) showKernel(first.dataset.show);
fromAddress();
document.body.dataset.ready = "yes";
