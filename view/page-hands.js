// The hands on the page: pointer, wheel and keys; light and dark; printing; the start.

// ---- pointer on ruler and lanes: drag moves, Shift and drag chooses an area, two fingers zoom, a click picks, resting tells
const fingers = new Map();               // where each finger is
let held = null;                         // what was so when the first came down
const placeIn = event => event.clientX - $("view").getBoundingClientRect().left;
function laneUnder(event) {
  if (event.target !== $("view")) return null;
  const y = event.clientY - $("lanes").getBoundingClientRect().top + $("lanes").scrollTop;
  const row = rows.find(r => y >= r.top && y < r.top + r.height);
  return row && row.lane || null;
}
function press(event) {
  if (event.button > 0) return;
  event.currentTarget.setPointerCapture(event.pointerId);
  fingers.set(event.pointerId, placeIn(event));
  held = {
    x: placeIn(event), y: event.clientY, from: view.from, span: view.span, scroll: $("lanes").scrollTop,
    moved: false, area: event.shiftKey, pinch: fingers.size === 2 ? [...fingers.values()] : null,
  };
  $("tip").hidden = true;
}
function move(event) {
  if (fingers.has(event.pointerId)) fingers.set(event.pointerId, placeIn(event));
  if (!held) { hover(event); return; }
  const x = placeIn(event);
  if (Math.abs(x - held.x) > 4 || Math.abs(event.clientY - held.y) > 4) held.moved = true;
  if (!held.moved) return;
  document.body.classList.add("held"); $("cursor").hidden = true;
  if (held.pinch && fingers.size === 2) pinch();
  else if (held.area) showArea(held.x, x);
  else {
    show(held.from - (x - held.x) / wide * held.span, held.span);
    $("lanes").scrollTop = held.scroll - (event.clientY - held.y);
  }
}
// Two fingers: the records under them stay under them.
function pinch() {
  const [a, b] = held.pinch, [c, d] = [...fingers.values()], factor = Math.max(20, Math.abs(a - b)) / Math.max(20, Math.abs(c - d));
  const k = held.from + (a + b) / 2 / wide * held.span, span = held.span * factor;
  show(k - (c + d) / 2 / wide * span, span);
}
function release(event) {
  fingers.delete(event.pointerId);
  if (!held) return;
  const was = held;
  if (fingers.size) { held = { ...was, x: [...fingers.values()][0], from: view.from, span: view.span, pinch: null, moved: true }; return; }
  held = null; $("area").hidden = true; document.body.classList.remove("held");
  if (event.type === "pointercancel") return;
  if (!was.moved) { clickAt(event); return; }
  if (was.area) { const [a, b] = [was.x, placeIn(event)].map(recordAt).sort((p, q) => p - q); show(a, b - a); }
}
function clickAt(event) {
  const k = Math.floor(recordAt(placeIn(event))), mark = markUnder(event);
  if (mark >= 0) pick(mark, false); else if (k >= 0 && k < n) pick(k, false);
}
// The mark that is nearest to a place on the ruler, if one is near, or -1.
function markUnder(event) {
  const row = Math.floor((event.clientY - $("ruler").getBoundingClientRect().top - RULER) / MARK), mark = shownMarks()[row];
  if (event.target !== $("ruler") || !mark) return -1;
  const list = mark.list(), i = below(list, recordAt(placeIn(event))), far = k => Math.abs(xOf(k + .5) - placeIn(event));
  const near = [list[i - 1], list[i]].filter(k => k !== undefined && far(k) < 8).sort((a, b) => far(a) - far(b));
  return near.length ? near[0] : -1;
}
function showArea(a, b) {
  const area = $("area");
  area.hidden = false;
  area.style.left = $("view").offsetLeft + Math.min(a, b) + "px"; area.style.width = Math.abs(a - b) + "px";
}
function hover(event) {
  const x = placeIn(event), k = Math.floor(recordAt(x)), end = within(Math.floor(recordAt(x + 1)), k + 1, n);
  if (event.pointerType === "touch") return;
  if (x < 0 || x > wide) { leave(); return; }
  $("cursor").hidden = false; $("cursor").style.left = $("view").offsetLeft + x + "px";
  const mark = markUnder(event);
  if (mark >= 0) tellTip(recordTip(mark, null), event);
  else if (k >= n) tellTip([[shared.last, "no"]], event);
  else tellTip(end - k > 1 ? rangeTip(k, end, laneUnder(event)) : recordTip(k, laneUnder(event)), event);
}
function leave() { $("tip").hidden = true; $("cursor").hidden = true; }
// The wheel zooms around the pointer; sideways, or with Shift, it moves.
function wheel(event) {
  event.preventDefault();
  const unit = event.deltaMode === 1 ? 16 : event.deltaMode === 2 ? 400 : 1, dx = event.deltaX * unit, dy = event.deltaY * unit;
  const sideways = Math.abs(dx) > Math.abs(dy);
  if (event.shiftKey || sideways) show(view.from + (sideways ? dx : dy) * perPixel(), view.span);
  else zoom(wheelFactor(dy, event.ctrlKey), placeIn(event));
  leave();
}
const wheelFactor = (dy, fine) => Math.exp(within(dy, -240, 240) * (fine ? .008 : .0022));

// ---- the overview: its frame moves, its edges stretch it, and a drag elsewhere makes a new one
let framed = null;
function pressOverview(event) {
  const x = event.offsetX, [a, b] = frame($("overview").clientWidth), whole = view.span > END * .98;
  event.currentTarget.setPointerCapture(event.pointerId);
  let kind = "new";
  if (!whole) kind = Math.abs(x - a) < 9 ? "left" : Math.abs(x - b) < 9 ? "right" : x > a && x < b ? "move" : "new";
  framed = { x, kind, from: view.from, span: view.span, moved: false };
}
function moveOverview(event) {
  if (!framed) return;
  const w = $("overview").clientWidth, k = event.offsetX / w * END, k0 = framed.x / w * END, end = framed.from + framed.span;
  if (Math.abs(event.offsetX - framed.x) > 3) framed.moved = true;
  if (!framed.moved) return;
  if (framed.kind === "move") show(framed.from + k - k0, framed.span);
  else if (framed.kind === "left") { const a = within(k, 0, end - leastSpan()); show(a, end - a); }
  else if (framed.kind === "right") show(framed.from, Math.max(k - framed.from, leastSpan()));
  else show(Math.min(k, k0), Math.abs(k - k0));
}
function releaseOverview(event) {
  if (framed && !framed.moved) show(event.offsetX / $("overview").clientWidth * END - view.span / 2, view.span);
  framed = null;
}
function wheelOverview(event) {
  event.preventDefault();
  zoom(wheelFactor(event.deltaY, event.ctrlKey), xOf(event.offsetX / $("overview").clientWidth * END));
}

// ---- keys
const pageOfRows = () => Math.max(1, Math.floor(rowsSeen()) - 1);
const KEY = {
  ArrowRight: () => step(1), ArrowDown: () => step(1), ArrowLeft: () => step(-1), ArrowUp: () => step(-1),
  Home: () => pickRow(0), End: () => pickRow(n), PageDown: () => step(pageOfRows()), PageUp: () => step(-pageOfRows()),
  "+": () => zoomPicked(1 / 1.6), "=": () => zoomPicked(1 / 1.6), "-": () => zoomPicked(1.6), 0: () => show(0, END),
  n: () => trouble(1), N: () => trouble(-1),
  "/": () => { $("what").focus(); $("what").select(); }, "?": () => $("help").showModal(), Escape: forget,
  a: () => show(view.from - view.span / 5, view.span), d: () => show(view.from + view.span / 5, view.span),
  w: () => zoomPicked(1 / 1.6), s: () => zoomPicked(1.6),
};
// Zooms around the picked record where it is in sight, else around the middle.
function zoomPicked(factor) {
  const x = xOf(view.picked + .5);
  zoom(factor, view.picked >= 0 && x >= 0 && x <= wide ? x : wide / 2);
}
function pressKey(event) {
  if (event.ctrlKey || event.metaKey || event.altKey || $("help").open) return;
  const { tagName } = event.target;
  if (tagName === "INPUT" && event.key === "Escape") { forget(); $("list").focus(); return; }
  if (tagName === "INPUT" || tagName === "SELECT" || !KEY[event.key]) return;
  event.preventDefault();
  KEY[event.key]();
}

// ---- light and dark: as the system has it, until it is switched here
const systemDark = matchMedia("(prefers-color-scheme: dark)");
function keptTheme() { try { return localStorage.getItem("call-log-theme"); } catch { return null; } }
const wantsDark = () => keptTheme() ? keptTheme() === "dark" : systemDark.matches;
function setTheme(dark) {
  document.documentElement.dataset.theme = dark ? "dark" : "light";
  $("theme").textContent = dark ? "Light" : "Dark";
  readColours();
  overviewOf = "";
  draw();
}
function switchTheme() {
  const dark = document.documentElement.dataset.theme !== "dark";
  try { localStorage.setItem("call-log-theme", dark ? "dark" : "light"); } catch { /* it is forgotten, then */ }
  setTheme(dark);
}

// ---- printing: the picture as it is seen, light, and the records in it as a table
const MOST_PRINTED = 400;
function beforePrint() {
  document.body.classList.add("printing");
  setTheme(false);
  document.body.append(recordTable());
  drawNow();
}
function recordTable() {
  const table = element("table"), head = table.createTHead().insertRow(), body = table.createTBody(), list = recordsInSight();
  table.id = "printed";
  for (const title of ["Record", "Tick", "By", "Call", "What came of it"]) head.append(element("th", title));
  for (const k of list.slice(0, MOST_PRINTED)) {
    const row = body.insertRow();
    for (const text of [plain(k), commas(log.tick[k]), threadName(callerOf(log, k)), ...wordsOf(log, k)]) row.insertCell().textContent = text;
  }
  if (list.length > MOST_PRINTED) {
    const cell = body.insertRow().insertCell();
    cell.colSpan = 5; cell.textContent = "and " + many(list.length - MOST_PRINTED, "more record") + " in this picture: zoom in to print them";
  }
  return table;
}
function recordsInSight() {
  const first = Math.floor(view.from), end = Math.min(n, Math.ceil(view.from + view.span));
  return view.chosen ? [...view.chosen.slice(below(view.chosen, first), below(view.chosen, end))] : counted(first, end);
}
function afterPrint() {
  document.body.classList.remove("printing");
  $("printed").remove();
  setTheme(wantsDark());
}

// ---- the start
function emptyLog() {
  for (const part of [$("strip"), $("legend"), $("sum"), ...document.querySelectorAll("header form, header .group[role]")]) part.hidden = true;
  const told = shared.whole ? "The log is empty: it has no records." : "No record could be read: " + shared.last + ".";
  document.querySelector("main").replaceChildren(element("div", told, "empty" + (shared.whole ? "" : " bad")));
}
function on(items, events) { for (const item of items) for (const name in events) item.addEventListener(name, events[name], { passive: false }); }
function listen() {
  on([$("view"), $("ruler")], {
    pointerdown: press, pointermove: move, pointerup: release, pointercancel: release, pointerleave: leave, wheel,
    dblclick: event => zoom(1 / 4, placeIn(event)),
  });
  on([$("overview")], { pointerdown: pressOverview, pointermove: moveOverview, pointerup: releaseOverview, wheel: wheelOverview });
  on([$("lanes")], { scroll: draw });
  on([$("list")], { scroll: drawList, click: clickRow });
  on([$("names")], { click: clickName });
  on([$("find")], { submit: event => { event.preventDefault(); find($("what").value, false); } });
  on([$("what")], { keydown: searchKey });
  on(CHOICES.map($), { change: choose });
  const buttons = { back: () => trouble(-1), forward: () => trouble(1), in: KEY["+"], out: KEY["-"], all: KEY[0] };
  for (const id in buttons) $(id).onclick = buttons[id];
  on([window], { keydown: pressKey, resize: resized, hashchange: openAddress, beforeprint: beforePrint, afterprint: afterPrint });
}
function clickRow(event) { const row = event.target.closest(".r"); if (row && row.shows !== "end") pick(row.shows); }
function clickName(event) {
  const row = rows.find(r => r.item === event.target.closest("button"));
  if (row && row.title) openOrClose(row.title); else if (row) chooseLane(row.lane.lane);
}
function searchKey(event) {
  if (event.key !== "Enter" || !event.shiftKey) return;
  event.preventDefault();
  find($("what").value, true);
}
function resized() { layList(); showMarks(); draw(); }
function start() {
  document.title = shared.title || "Call log";
  $("title").textContent = $("title").title = shared.title;
  $("sum").textContent = summary(); $("sum").className = shared.whole ? "" : "bad";
  $("theme").onclick = switchTheme; $("ask").onclick = () => $("help").showModal();
  on([systemDark], { change: () => setTheme(wantsDark()) });
  fillHelp();
  setTheme(wantsDark());
  if (!n) { emptyLog(); return; }
  $("legend").append(...legend());
  layRows(); makeNames(); makeChoices(); showMarks(); layList(); listen();
  drawNow();
  openAddress();
}
start();
