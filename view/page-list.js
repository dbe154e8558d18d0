// The list of records beside the picture: only the rows in sight are there, and they are real text.
const MOST_HIGH = 8e6;                   // a browser's element cannot be as high as a million rows
const pool = [];                         // the rows' elements
let rowHigh = 24;
const listRows = () => view.chosen ? view.chosen.length : n;
const recordOfRow = i => view.chosen ? view.chosen[i] : i;
const rowOfRecord = k => view.chosen ? below(view.chosen, k) : k;

// The list's height, and the widths of its columns; every row is filled anew.
function layList() {
  const style = document.documentElement.style, all = listRows() + 1;
  style.setProperty("--record", plain(n).length * 8 + 6 + "px");
  style.setProperty("--tick", Math.max(4, commas(log.ticks).length) * 8 + "px");
  rowHigh = parseFloat(getComputedStyle(document.documentElement).getPropertyValue("--row"));
  $("rows").style.height = Math.min(all * rowHigh, MOST_HIGH) + "px";
  $("list").setAttribute("aria-rowcount", all);
  for (const row of pool) row.shows = null;
}
// The row at the top, and going to one: where the list is too high for an element, its places stand for many rows.
const rowsSeen = () => $("list").clientHeight / rowHigh;
const scrollRoom = () => $("list").scrollHeight - $("list").clientHeight;
const isScaled = () => (listRows() + 1) * rowHigh > MOST_HIGH;
function rowAtTop() {
  if (!isScaled()) return $("list").scrollTop / rowHigh;
  return scrollRoom() > 0 ? $("list").scrollTop / scrollRoom() * Math.max(0, listRows() + 1 - rowsSeen()) : 0;
}
function scrollToRow(top) {
  $("list").scrollTop = isScaled() ? within(top / (listRows() + 1 - rowsSeen()), 0, 1) * scrollRoom() : top * rowHigh;
}
function seeRow(i) {
  const top = rowAtTop();
  if (i < top + 1 || i > top + rowsSeen() - 2) scrollToRow(Math.max(0, i - rowsSeen() / 3));
}

function drawList() {
  const top = rowAtTop(), first = Math.floor(top), count = Math.ceil(rowsSeen()) + 1, all = listRows() + 1, scrolled = $("list").scrollTop;
  while (pool.length < count) { pool.push(makeRow()); $("rows").append(pool[pool.length - 1]); }
  pool.forEach((row, i) => {
    row.hidden = i >= count || first + i >= all;
    if (row.hidden) return;
    row.style.transform = `translateY(${scrolled + (first + i - top) * rowHigh}px)`;
    if (first + i === all - 1) fillEnd(row, all); else fillRow(row, first + i);
  });
  tellListed(Math.ceil(top), Math.floor(top + rowsSeen()), all - 2);
}
// Which records the list shows, for the ruler.
function tellListed(first, end, last) {
  const from = recordOfRow(Math.min(first, last)) || 0, to = recordOfRow(Math.min(end, last)) || 0;
  if (from === view.listFrom && to === view.listTo) return;
  view.listFrom = from; view.listTo = to;
  draw();
}
function makeRow() {
  const row = element("div", "", "r");
  row.setAttribute("role", "row");
  for (let i = 0; i < 5; i++) { const cell = element("span"); cell.setAttribute("role", "gridcell"); row.append(cell); }
  return row;
}
function fillRow(row, at) {
  const k = recordOfRow(at), text = log.texts[log.text[k]], picked = k === view.picked, seen = k >= view.from - 1 && k < view.from + view.span;
  row.className = "r" + (text.code ? " refused" : text.mark ? " not-met" : "") + (picked ? " picked" : "") + (seen ? "" : " out");
  row.setAttribute("aria-selected", picked);
  if (row.shows === k) return;
  const words = wordsOf(log, k);
  tellRow(row, k, "r" + (k + 1), at, [plain(k), commas(log.tick[k]), threadName(callerOf(log, k)), ...words], words.join(": "));
}
// The last row: how the log ends.
function fillEnd(row, all) {
  row.className = "r end" + (shared.whole ? "" : " bad");
  row.setAttribute("aria-selected", false);
  if (row.shows !== "end") tellRow(row, "end", "end", all - 1, [shared.last], shared.last);
}
function tellRow(row, shows, id, at, told, title) {
  row.shows = shows; row.id = id; row.title = title;
  row.setAttribute("aria-rowindex", at + 1);
  [...row.children].forEach((cell, i) => { cell.textContent = told[i] || ""; cell.hidden = i >= told.length; });
}

// The list goes where the picture goes: to the picked record if it is in sight, else to the first one in sight.
let followed = "";
function followPicture() {
  const key = view.from + " " + view.span, k = view.picked;
  if (key !== followed) {
    followed = key;
    if (k >= 0 && k >= view.from - 1 && k < view.from + view.span) seeRow(rowOfRecord(k));
    else scrollToRow(rowOfRecord(Math.min(Math.floor(view.from), n - 1)));
    const last = Math.min(n, Math.ceil(view.from + view.span)) - 1;
    $("view").setAttribute("aria-label", `Lanes of threads and objects, records ${plain(Math.floor(view.from))} to ${plain(last)}; the list tells the same in words`);
  }
  drawList();
}
