// Finding records: picking one, stepping, the address of the page, search, and choosing records for the list.
function say(text, no = false) { $("said").textContent = text; $("said").className = no ? "no" : ""; }

// ---- picking a record
function pick(k, inSight = true) {
  view.picked = within(k, 0, n - 1);
  if (inSight && (view.picked < view.from || view.picked + 1 > view.from + view.span)) show(view.picked + .5 - view.span / 2, view.span);
  tellDetails(view.picked);
  seeRow(rowOfRecord(view.picked)); drawList();
  $("list").setAttribute("aria-activedescendant", "r" + (view.picked + 1));
  keepAddress(); draw();
}
// Goes to a record and sees it closely.
function goTo(k) {
  if (perPixel() > 1 / 3) { const span = Math.max(leastSpan(), wide / 10); show(k + .5 - span / 2, span); }
  pick(k);
}
// The address names the picked record, but not at once: a key that is held down would change it too often.
let addressLater = 0;
function keepAddress() {
  clearTimeout(addressLater);
  addressLater = setTimeout(() => {
    try { history.replaceState(null, "", "#" + (view.picked + 1)); } catch { location.hash = view.picked + 1; }
  }, 120);
}
function openAddress() {
  let what = location.hash.slice(1);
  try { what = decodeURIComponent(what); } catch { /* it is taken as it is */ }
  if (what !== String(view.picked + 1)) find(what, false);
}

// ---- stepping: to another row of the list, or along a sorted list of records
function step(by) {
  const at = rowOfRecord(view.picked), between = recordOfRow(at) !== view.picked;      // the picked record may not be in the list
  if (view.picked < 0) pickRow(by > 0 ? rowOfRecord(Math.ceil(view.from)) : listRows() - 1);
  else pickRow(at + by - (by > 0 && between ? 1 : 0));
}
function pickRow(i) { if (listRows()) pick(recordOfRow(within(i, 0, listRows() - 1))); }
function stepIn(list, by, name) {
  if (!list.length) { say("no record " + (view.chosen ? "in the list " : "") + "is " + name, true); return; }
  const at = by > 0 ? below(list, view.picked + 1) : below(list, Math.max(view.picked, 0)) - 1;
  const round = at < 0 || at >= list.length, to = !round ? at : by > 0 ? 0 : list.length - 1;
  pick(list[to]);
  say(`${name}: ${plain(to)} of ${commas(list.length)}` + (round && list.length > 1 ? `, from the ${by > 0 ? "start" : "end"} again` : ""));
}
const trouble = by => stepIn(amongChosen(log.troubles), by, "refused or not met");
// Those of a sorted list that are in the list of records.
function amongChosen(list) { return view.chosen ? list.filter(k => view.chosen[below(view.chosen, k)] === k) : list; }

// ---- search: a number, tick N, a thread, an object, or words
let searched = "", search = null;
function find(text, back) {
  const what = text.trim(), number = /^#?([\d,]+)$/.exec(what), tick = /^ticks?\s+([\d,]+)$/i.exec(what), lane = laneAsked(what);
  if (!what) return;
  if (number) findRecord(Number(number[1].replace(/,/g, "")));
  else if (tick) findTick(Number(tick[1].replace(/,/g, "")));
  else if (what === searched && view.found) stepIn(view.found, back ? -1 : 1, "found");
  else {
    searched = what;
    if (lane < 0) searchWords(what);
    else foundAll(lane < SEMAPHORE ? chosen(log, lane, -1, "") : chosen(log, -1, lane, ""));
  }
}
function findRecord(number) {
  if (number < 1 || number > n) { say("records go from 1 to " + commas(n), true); return; }
  say("");
  goTo(number - 1);
}
function findTick(tick) {
  const k = below(log.tick, tick);
  if (tick > log.ticks) say("ticks go from 0 to " + commas(log.ticks), true);
  else if (k >= n) say("tick " + commas(tick) + " comes with the last record", true);
  else { say("first record at tick " + commas(tick)); goTo(k); }
}
// The lane that a text names: T5, task 5, S2, Swi 2, I, semaphore 0, m0, .. or -1.
const ASKED = { t: [0, 32], s: [SWI, 16], i: [INTERRUPT, 1], sem: [SEMAPHORE, 16], e: [EVENT, 8], m: [MAILBOX, 8], c: [CLOCK, 16], h: [HEAP, 1] };
function laneAsked(text) {
  const parts = /^(t|task|s|swi|i|interrupt|sem|semaphore|e|event|m|mailbox|c|clock|heap)\s*(\d*)$/i.exec(text);
  if (!parts) return -1;
  const kind = parts[1].toLowerCase(), [first, size] = ASKED[kind.startsWith("sem") ? "sem" : kind[0]];
  if ((parts[2] === "") !== (size === 1)) return -1;
  return Number(parts[2]) < size ? first + Number(parts[2]) : -1;
}
function foundAll(all) {
  const list = view.found = amongChosen(all);
  showMarks();
  if (list.length) stepIn(list, 1, "found"); else { say("nothing found", true); draw(); }
}
// Looks at the records a part at a time, so that the page stays awake.
function searchWords(text) {
  const mine = search = wordSearch(log, text);
  (function go() {
    if (search !== mine) return;
    for (const until = performance.now() + 30; !mine.done && performance.now() < until;) mine.step(4096);
    if (mine.done) { search = null; foundAll(mine.list.done()); return; }
    say("searching, " + Math.floor(100 * mine.k / n) + " %");
    setTimeout(go);
  })();
}
function forget() {
  $("tip").hidden = true;
  if (!view.found && !searched) return;
  search = null; searched = ""; view.found = null; $("what").value = "";
  say(""); showMarks(); draw();
}

// ---- choosing records for the list
function option(value, text) { const item = element("option", text); item.value = value; return item; }
function makeChoices() {
  const lanes = (first, end) => counted(first, end).filter(lane => log.lanes[lane]).map(lane => option(lane, laneName(lane, true)));
  const result = (value, name, list) => option(value, name + " (" + commas(list.length) + ")");
  const codes = [...new Set(Array.from(log.refused, k => log.texts[log.text[k]].code))].sort((a, b) => a - b);
  $("byThread").append(option("", "Thread"), ...lanes(INTERRUPT, INTERRUPT + 1), ...lanes(SWI, INTERRUPT), ...lanes(0, SWI));
  $("byObject").append(option("", "Object"), ...lanes(SEMAPHORE, SWITCHES));
  $("byResult").append(option("", "Result"), result("trouble", "Refused or not met", log.troubles), result("refused", "Refused", log.refused),
    result("notMet", "Not met", log.notMet), result("lost", "Lost posts: posted already", log.lost),
    ...codes.map(code => result(code, "Code " + code + ": " + (shared.codeName[code] || ""), resultList(log, code))));
}
const CHOICES = ["byThread", "byObject", "byResult"];
const laneChosen = id => $(id).value === "" ? -1 : Number($(id).value);
function choose() {
  view.chosen = chosen(log, laneChosen("byThread"), laneChosen("byObject"), $("byResult").value);
  for (const id of CHOICES) $(id).classList.toggle("set", $(id).value !== "");
  markChosenLanes();
  say(view.chosen ? many(view.chosen.length, "record") + " in the list" : "", view.chosen && !view.chosen.length);
  layList(); showMarks();
  followed = "";
  draw();
}
function markChosenLanes() {
  const lanes = [laneChosen("byThread"), laneChosen("byObject")];
  for (const row of rows) if (row.lane) row.item.classList.toggle("set", lanes.includes(row.lane.lane));
}
// A lane's name chooses its records, and a second time all again.
function chooseLane(lane) {
  const id = lane < SEMAPHORE ? "byThread" : "byObject";
  if (lane === SWITCHES) return;
  $(id).value = $(id).value === String(lane) ? "" : String(lane);
  choose();
}
// The names of the marks, which go to the next one.
function showMarks() {
  const form = isNarrow() ? { notation: "compact" } : {};
  $("marks").replaceChildren(...shownMarks().map(mark => {
    const button = element("button");
    button.type = "button"; button.title = "Next one; with Shift the one before";
    button.append(element("span", mark.name), element("i", mark.list().length.toLocaleString("en", form)));
    button.onclick = event => stepIn(mark.list(), event.shiftKey ? -1 : 1, mark.name.toLowerCase());
    return button;
  }));
}
