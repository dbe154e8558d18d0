// The words of the page: names of lanes, what a lane is at a record, the tip, the details of a record, colours and keys.
const commas = number => number.toLocaleString("en");
const plain = k => commas(k + 1);        // a record's number
const many = (count, one, more = one + "s") => commas(count) + " " + (count === 1 ? one : more);
const hex = word => word > 9 ? "0x" + word.toString(16) : String(word);
function element(tag, text = "", name = "") {
  const item = document.createElement(tag);
  item.textContent = text;
  if (name) item.className = name;
  return item;
}

// ---- names: from a number on, in full, and where there is little room
const KINDS = [[SWITCHES, "Switches", "Switches"], [HEAP, "Heap", "Heap"], [CLOCK, "Clock ", "Clock "], [MAILBOX, "Mailbox ", "Mailbox "],
  [EVENT, "Event ", "Event "], [SEMAPHORE, "Semaphore ", "Sem. "], [INTERRUPT, "Interrupt", "Interr."], [SWI, "Swi ", "Swi "], [0, "Task ", "Task "]];
function laneName(lane, long) {
  const [first, name, short] = KINDS.find(kind => lane >= kind[0]), text = long ? name : short;
  return text.endsWith(" ") ? text + (lane - first) + (lane === 0 && long ? " (idle)" : "") : text;
}
const threadName = thread => thread === INTERRUPT ? "I" : thread >= SWI ? "S" + (thread - SWI) : "T" + thread;

// ---- labels inside the lanes
const LETTER = { semaphore: "s", event: "e", mailbox: "m" }, OFF_WORDS = ["", "Swis off", "tasks off", "both off"];
// The texts that a bar may have, the longest first.
function barLabels(lane, code) {
  const c = code & 15, high = code >> 4;
  if (lane.lane < SWI) {
    if (c !== WAIT) return [];
    const kind = shared.modeObject[high & 15], object = high >> 4;
    return [kind + " " + object, LETTER[kind] + object];
  }
  if (lane.lane < INTERRUPT) return c !== NONE && high ? ["posted again"] : [];
  if (lane.lane === INTERRUPT) return high > 1 ? ["depth " + high, String(high)] : [];
  return lane.lane === SWITCHES && high ? [OFF_WORDS[high], "off"] : [];
}
// A step's value, and who waits there.
function stepLabels(lane, j) {
  const row = lane.waiting[j] & 128 ? rowAt(log, lane, lane.at[j]) : null;
  if (!row) return ["", ""];
  const f = row[1], value = lane.lane === HEAP || lane.lane >= MAILBOX ? f[1] : lane.lane >= EVENT ? hex(f[1]) : f[2];
  return [String(value), waitersIn(lane, f).map(t => "T" + t).join(" ")];
}
// Who waits at an object, from its row.
function waitersIn(lane, f) {
  if (lane.lane >= CLOCK) return [];
  return f.slice(lane.lane >= MAILBOX ? 3 + f[1] : lane.lane >= EVENT ? 3 : 4);
}

// ---- what a lane is at record k
function laneWords(lane, k) {
  const row = rowAt(log, lane, k), j = stretchAt(lane, k);
  if (lane.lane < SWI) return taskWords(lane, k, row, j);
  if (lane.lane < INTERRUPT) return swiWords(lane, row, j);
  if (lane.lane === INTERRUPT) return lane.code[j] === NONE ? "" : "runs, depth " + (lane.code[j] >> 4);
  if (lane.lane === SWITCHES) return lane.code[j] === NONE ? "both on" : OFF_WORDS[lane.code[j] >> 4] + " since record " + plain(lane.at[j]);
  return row ? objectWords(lane, k, row) : "";
}
const signed = priority => priority === 4294967295 ? -1 : priority;
// Ticks that were left at one record and are fewer at a later one.
const ticksLeft = (left, record, k) => many(left - (ticksAfter(log, k) - ticksAfter(log, record)), "tick") + " left";
function taskWords(lane, k, row, j) {
  const [record, f] = row || [0, [lane.lane ? 0 : 1, 0, 0, 0]], [mode, priority, object, left] = f;      // task 0 is there from the start
  if (!mode) return "";
  const c = lane.code[j] & 15, waits = mode >= 2 && mode <= 6, at = shared.modeObject[mode];
  let text = c === RUN ? "runs" : shared.modeName[mode] + (at ? " " + at + " " + object : "");
  text += ", priority " + signed(priority);
  if (waits) text += ", " + (left ? ticksLeft(left, record, k) : "without end");
  return text + (waits || c === READY ? ", since record " + plain(lane.at[j]) : "");
}
function swiWords(lane, row, j) {
  if (!row || !row[1][0]) return "";
  const [, priority, , trigger] = row[1], c = lane.code[j] & 15, again = c !== POSTED && lane.code[j] >> 4;
  const state = c === RUN ? "runs" : c === READY ? "is active, another runs first" : c === POSTED ? "is posted" : "is not posted";
  return state + (again ? ", posted again" : "") + ", priority " + priority + ", trigger " + hex(trigger);
}
function objectWords(lane, k, [record, f]) {
  if (lane.lane === HEAP) return many(f[1], "unit") + " of 256 in " + many(f[0], "block");
  if (!f[0]) return "";
  if (lane.lane >= CLOCK) return (f[4] ? "runs, " + ticksLeft(f[4], record, k) : "stopped") + ", Swi " + f[1] + (f[3] ? ", period " + f[3] : ", once");
  const waiters = waitWords(waitersIn(lane, f), k);
  if (lane.lane >= MAILBOX) return f[1] + " of " + many(f[0], "message") + (f[1] ? ": " + f.slice(2, 2 + f[1]).map(hex).join(" ") : "") + waiters;
  if (lane.lane >= EVENT) return (f[1] ? "bits " + hex(f[1]) : "no bits") + waiters;
  const taken = lastTaken(log, lane, k);
  return "count " + f[2] + " (" + shared.kindName[f[1]] + ")" + waiters + (taken ? "; last taken by " + threadName(taken[0]) + " at record " + plain(taken[1]) : "");
}
function waitWords(who, k) {
  if (!who.length) return "";
  const told = who.map(t => "T" + t + " (priority " + signed(rowAt(log, log.lanes[t], k)[1][1]) + ")");
  return "; " + (who.length === 1 ? "waits: " : "wait: ") + told.join(", ");
}

// ---- the tip under the pointer: lines, each with a class
function tellTip(lines, { clientX: x, clientY: y }) {
  const tip = $("tip");
  tip.replaceChildren(...lines.map(([text, name]) => element("div", text, name)));
  tip.hidden = false;
  const w = tip.offsetWidth, h = tip.offsetHeight;
  tip.style.left = within(x + 14, 4, Math.max(4, innerWidth - w - 6)) + "px";
  tip.style.top = (y + 18 + h > innerHeight ? Math.max(4, y - h - 12) : y + 18) + "px";
}
const recordTitle = k => "Record " + plain(k) + ", tick " + commas(log.tick[k]) + ", by " + threadName(callerOf(log, k));
function recordTip(k, lane) {
  const [call, result] = wordsOf(log, k), lines = [[recordTitle(k), "strong"], [call], [result, log.texts[log.text[k]].code ? "no" : ""]];
  if (lane) lines.push([laneName(lane.lane, true) + ": " + (laneWords(lane, k) || "not in use"), "more"]);
  return lines;
}
// Where a pixel holds many records: how they are shared out.
function rangeTip(from, to, lane) {
  const first = log.tick[from], last = log.tick[to - 1];
  const lines = [["Records " + plain(from) + " to " + plain(to - 1) + ", tick " + commas(first) + (last > first ? " to " + commas(last) : ""), "strong"]];
  if (lane) lines.push([laneName(lane.lane, true) + ": " + (lane.bars ? barWords(lane, from, to) : stepWords(lane, from, to)), "more"]);
  for (const mark of shownMarks()) {
    const list = mark.list(), at = below(list, from), count = below(list, to) - at;
    const refused = mark.key === "refused", codes = refused && count ? " (" + codeWords(list.slice(at, at + count)) + ")" : "";
    if (count) lines.push([mark.name.toLowerCase() + ": " + count + codes + ", first record " + plain(list[at]), refused ? "no" : ""]);
  }
  return lines;
}
// How many of the refused records have each code.
function codeWords(list) {
  const times = new Map();
  for (const k of list) { const { code } = log.texts[log.text[k]]; times.set(code, (times.get(code) || 0) + 1); }
  return [...times].sort(([a], [b]) => a - b).map(([code, count]) => commas(count) + " with code " + code).join(", ");
}
const CLASS_WORDS = ["", "runs", "ready", "posted", "blocked", "asleep", "terminated", "inactive", "off", "running"];
function barWords(lane, from, to) {
  barShares(lane, n, from, to - from, 1, one);
  const name = c => lane.lane >= SWI && c === READY ? "active below another" : CLASS_WORDS[c];
  const told = lane.classes.filter(c => one[c] > 0).map(c => name(c) + " " + percent(one[c]));
  const count = below(lane.marks, to) - below(lane.marks, from);
  if (count) told.push((lane.lane >= CLOCK ? "ran out " : "posted already ") + many(count, "time"));
  return told.join(", ") || "nothing";
}
function stepWords(lane, from, to) {
  stepShares(lane, n, from, to - from, 1, one);
  const [least, greatest, mean, waiting, used] = one;
  if (!used) return "not in use";
  const what = lane.lane === HEAP ? "units " : lane.lane >= MAILBOX ? "messages " : lane.lane >= EVENT ? "bits " : "count ";
  const value = least === greatest ? least : least + " to " + greatest + ", mean " + mean.toFixed(1);
  return what + value + (waiting > 0 ? ", wait on average " + waiting.toFixed(1) : "");
}

// ---- the details of a record: what it was, and how it left threads and objects
function tellDetails(k) {
  const [call, result] = wordsOf(log, k), text = log.texts[log.text[k]], place = "Bytes " + k * 20 + " to " + (k * 20 + 19) + " of the log";
  $("details").hidden = false;
  const came = element("p", "", text.code ? "no" : "");
  came.append(...withLinks(result));
  $("details").replaceChildren(element("h2", recordTitle(k)), element("p", call), came,
    element("p", place + ", call " + text.call + ", " + answerWords(text) + ". After it:"));
  tellStates("Threads", [INTERRUPT, ...counted(SWI, INTERRUPT), ...counted(0, SWI), SWITCHES], k);
  tellStates("Objects", counted(SEMAPHORE, SWITCHES), k);
}
// The answer's numbers, with what a code means and which table a value names.
function answerWords({ code, outcome, table }) {
  return "code " + code + (code ? " (" + shared.codeName[code] + ")" : "") + ", outcome " + outcome + (table ? ", value " + table + " (" + shared.tableName[table] + ")" : "");
}
// The whole numbers from one to before another.
const counted = (first, end) => Array.from({ length: Math.max(0, end - first) }, (_, i) => first + i);
function tellStates(title, lanes, k) {
  const list = element("ul"), changed = lanesChanged(k);
  for (const lane of lanes) {
    const words = log.lanes[lane] ? laneWords(log.lanes[lane], k) : "";
    if (!words || words === "both on") continue;
    const item = element("li", "", changed.has(lane) ? "new" : "");
    item.append(element("b", laneName(lane, true).replace(" (idle)", "") + " "), ...withLinks(words));
    list.append(item);
  }
  if (list.children.length) $("details").append(element("h3", title), list);
}
function lanesChanged(k) {
  const changed = new Set(), parts = changesOf(log, k);
  for (const part in FIRST_LANE) for (const [lane] of parts[part] || []) changed.add(lane);
  return changed;
}
// 'record 1,347' as a link to it.
function withLinks(words) {
  return words.split(/(record [\d,]*\d)/).map(text => {
    if (!/^record \d/.test(text)) return document.createTextNode(text);
    const link = element("a", text);
    link.href = "#" + text.slice(7).replace(/,/g, "");
    return link;
  });
}

// ---- the first line of the page: how long the log is, its levels if they are not 16, what was refused, how it ends
function summary() {
  const found = commas(log.refused.length) + " refused, " + commas(log.notMet.length) + " not met";
  const levels = shared.levels ? ", " + shared.levels : "";
  return many(n, shared.whole ? "record" : "good record") + ", " + many(log.ticks, "tick") + levels + "; " + found + (shared.whole ? "" : ". Then " + shared.last);
}

// ---- colours and keys in words
const LEGEND = [["run", "runs"], ["ready", "ready; a Swi: active below another"], ["posted", "Swi posted"], ["wait", "blocked, waits there"], ["sleep", "asleep"],
  ["ended", "terminated"], ["step", "an object's value"], ["band", "from its least to its greatest"],
  ["ink", "makes the call (close up)", "\u25b8"], ["refused", "refused", "\u25bc"], ["not-met", "not met", "\u25c6"]];
const RUNNERS = [["by-interrupt", "interrupt"], ["by-swi", "Swis"], ["by-task", "tasks"], ["idle", "idle"]];
function legend() {
  return [...LEGEND.map(legendKey), element("span", "In the overview:", "key"), ...RUNNERS.map(legendKey),
    element("span", "A column is filled as high as its share of the records.", "key")];
}
function legendKey([name, words, shape]) {
  const key = element("span", "", "key"), mark = element(shape ? "b" : "i", shape || "", name === "ended" ? "line" : "");
  mark.style[shape ? "color" : "background"] = "var(--" + name + ")";
  key.append(mark, words);
  return key;
}
const KEYS = [
  ["\u2190 \u2192 \u2191 \u2193", "record before, next record"],
  ["Home End", "first and last record"],
  ["PgUp PgDn", "a screen of the list"],
  ["+ \u2212", "zoom in and out (or the wheel, around the pointer)"],
  ["0", "the whole log"],
  ["/", "search: 120, T5, S2, mailbox 0, tick 57 or words; Enter finds the next one, Shift and Enter the one before"],
  ["n N", "next refusal or not met, the one before"],
  ["a d w s", "move left and right, zoom in and out"],
  ["Esc", "forget what was found, close"],
  ["drag", "move; with Shift choose an area to see"],
  ["overview", "drag the frame or its edges"],
  ["#120", "after the page's name opens record 120"],
];
function fillHelp() {
  const list = element("dl"), colours = element("div", "", "keys"), close = element("button", "Close");
  for (const [keys, words] of KEYS) {
    const term = element("dt");
    for (const key of keys.split(" ")) term.append(element("kbd", key), " ");
    list.append(term, element("dd", words));
  }
  colours.append(...legend());
  close.onclick = () => $("help").close();
  $("help").replaceChildren(element("h2", "Keys"), list, element("h2", "Colours"), colours, close);
}
