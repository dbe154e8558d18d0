// data.js PAGE TRACE WORDS: holds the data of a page to the trace that it was made of. What a lane is at each record is worked out here from the trace's text alone
// (docs/TRACE.md), and shares are added up record by record; WORDS has the lines that view/words.awk tells. Of the page's own words its first line and the tasks' priorities are held to the trace. The last line is `page: N checks`, the status 1 where one failed.
"use strict";
const fs = require("fs"), vm = require("vm"), path = require("path");
const [pageFile, traceFile, wordsFile] = process.argv.slice(2);
const core = vm.createContext({});
for (const part of ["page-data.js", "page-words.js"]) vm.runInContext(fs.readFileSync(path.join(__dirname, "../../view", part), "utf8"), core);
const inPage = code => vm.runInContext(code, core);

let checks = 0, failures = 0;
function check(what, is, wanted) {
  checks++;
  const same = typeof wanted === "number" ? Math.abs(is - wanted) < 1e-6 : JSON.stringify(is) === JSON.stringify(wanted);
  if (!same && failures++ < 20) console.log(`FAILED ${what}: ${JSON.stringify(is)}, not ${JSON.stringify(wanted)}`);
}

// ---- the page's data
function openPage(file) {
  const html = fs.readFileSync(file, "latin1");
  const shared = JSON.parse(/<script type="application\/json" id="log">([^<]*)<\/script>/.exec(html)[1]);
  const lines = [...html.matchAll(/<script type="text\/plain" class="rows">\n([^<]*)<\/script>/g)].map(found => found[1]).join("");
  core.shared = shared; core.data = new Uint8Array(Buffer.from(lines, "latin1"));
  inPage("globalThis.log = readLog(shared, data); globalThis.n = log.n");
  return core.log;
}

// ---- the same from the trace's text: of each lane what it is after each record
const CLASS = { none: 0, run: 1, ready: 2, posted: 3, wait: 4, sleep: 5, ended: 6, inactive: 7, off: 8, ticking: 9 };
const MODE_CLASS = ["none", "ready", "sleep", "wait", "wait", "wait", "wait", "ended", "inactive"];
const FIRST = { S: 32, s: 49, e: 65, m: 73, c: 81 };
function readTrace(file) {
  const lines = fs.readFileSync(file, "latin1").trimEnd().split("\n"), last = lines.pop();
  const bars = new Map(), steps = new Map(), records = [];
  const now = { tasks: new Array(32).fill(0), priorities: new Array(32).fill(0), clocks: new Array(16).fill(0), steps: new Map(), taken: new Array(16).fill(null), takenAt: [] };
  now.tasks[0] = 1;
  const bar = (lane, k, name) => { if (!bars.has(lane)) bars.set(lane, new Uint8Array(lines.length)); bars.get(lane)[k] = CLASS[name]; };
  lines.forEach((line, k) => {
    const parts = line.split(";").map(part => part.trim() === "" ? [] : part.trim().split(" "));
    const [, tick, caller, call, a, , , , code, outcome, value, thread] = parts[0], changed = new Set(), lost = [];
    const each = (part, step, take) => {
      const p = parts[part].map(Number);
      for (let i = 0; i < p.length;) { const size = step(p, i); take(p.slice(i, i + size)); i += size; }
    };
    const line9 = (lane, value, waiting, used) => { now.steps.set(lane, [value, waiting, used]); changed.add(lane); };
    each(2, () => 7, p => { now.tasks[p[0]] = p[1]; now.priorities[p[0]] = p[2]; changed.add(p[0]); });
    each(3, () => 3, p => { if (p[2]) lost.push(p[1]); });
    each(7, (p, i) => 5 + p[i + 4], p => line9(FIRST.s + p[0], p[3], p[4], p[1] ? 1 : 0));
    each(8, (p, i) => 4 + p[i + 3], p => line9(FIRST.e + p[0], p[2].toString(2).replace(/0/g, "").length, p[3], p[1] ? 1 : 0));
    each(9, (p, i) => { const at = i + 3 + p[i + 2]; return at + 1 + p[at] - i; }, p => line9(FIRST.m + p[0], p[2], p[3 + p[2]], p[1] ? 1 : 0));
    each(10, () => 7, p => changed.add(FIRST.S + p[0]));
    each(11, () => 6, p => { now.clocks[p[0]] = p[5]; changed.add(FIRST.c + p[0]); });
    each(12, () => 2, p => line9(97, p[1], 0, 1));
    if (call === "34" && code === "0" && outcome === "0") now.taken[a] = [threadNumber(caller), k];
    if (call === "35" && code === "0" && parts[2].length) now.taken[a] = [Number(parts[2][0]), k];
    const [depth, swisOn, tasksOn] = parts[1].map(Number), posted = parts[5].map(Number), active = parts[6].map(Number);
    for (let t = 0; t < 32; t++) bar(t, k, thread === "T" + t ? "run" : MODE_CLASS[now.tasks[t]]);
    for (let s = 0; s < 16; s++) bar(32 + s, k, thread === "S" + s ? "run" : active.includes(s) ? "ready" : posted.includes(s) ? "posted" : "none");
    for (let c = 0; c < 16; c++) bar(81 + c, k, now.clocks[c] ? "ticking" : "none");
    bar(48, k, depth ? "run" : "none"); bar(98, k, swisOn && tasksOn ? "none" : "off");
    for (const [lane, row] of now.steps) { if (!steps.has(lane)) steps.set(lane, []); steps.get(lane)[k] = row; }
    records.push({
      tick: Number(tick), caller: threadNumber(caller), thread: threadNumber(thread), call: Number(call), code: Number(code), outcome: Number(outcome), value: Number(value),
      levels: Number(parts[1][5]), changed, lost, taken: [...now.taken], modes: [...now.tasks], priorities: [...now.priorities],
    });
  });
  return { bars, steps, records, last };
}
const threadNumber = t => t === "I" ? 48 : (t[0] === "S" ? 32 : 0) + Number(t.slice(1));

// ---- checks
function checkRecords(log, trace) {
  check("records", log.n, trace.records.length);
  trace.records.forEach((r, k) => {
    check(`tick of record ${k + 1}`, log.tick[k], r.tick);
    check(`caller of record ${k + 1}`, core.callerOf(log, k), r.caller);
    check(`thread after record ${k + 1}`, log.thread[k], r.thread);
    const { call, code, outcome, table } = log.texts[log.text[k]];
    check(`answer of record ${k + 1}`, [parseInt(call, 16), code, outcome, table], [r.call, r.code, r.outcome, r.code === 3 || r.code === 11 ? r.value : 0]);
  });
  const where = test => trace.records.map((r, k) => test(r) ? k : -1).filter(k => k >= 0);
  check("refused", [...log.refused], where(r => r.code !== 0));
  check("not met", [...log.notMet], where(r => r.code === 0 && r.outcome === 1 && r.call !== 6));
  check("lost posts", [...log.lost], where(r => r.lost.length > 0));
}
function checkWords(log, words) {
  for (let k = 0; k < log.n; k++) check(`words of record ${k + 1}`, core.wordsOf(log, k).join(": "), words[k]);
  for (const sought of ["refused", "Semaphore 1", "pend mailbox 0, without end", "0x1", "woke task 1", "code 3: ", "code 11: ", "outside its table", "deleted at record", "no such words"]) {
    core.log = log; core.sought = sought;
    const found = inPage("(() => { const s = wordSearch(log, sought); while (!s.done) s.step(100); return s.list.done(); })()");
    const form = text => text.toLowerCase().replace(/[:;,]?\s+/g, " ");
    check(`search for '${sought}'`, [...found], words.slice(0, log.n).map((w, k) => form(w).includes(form(sought).trim()) ? k : -1).filter(k => k >= 0));
  }
}
// What a lane is at each record, and each share for columns of many widths.
function checkLanes(log, trace) {
  for (const [lane, wanted] of trace.bars) {
    const is = log.lanes[lane];
    if (!is) { check(`lane ${lane} without a lane`, [...wanted].every(c => c === 0), true); continue; }
    for (let k = 0; k < log.n; k++) check(`lane ${lane} at record ${k + 1}`, is.code[core.stretchAt(is, k)] & 15, wanted[k]);
  }
  for (const [lane, wanted] of trace.steps) {
    const is = log.lanes[lane];
    for (let k = 0; k < log.n; k++) {
      const j = core.stretchAt(is, k), row = wanted[k] || [0, 0, 0];
      check(`lane ${lane} at record ${k + 1}`, [is.value[j], is.waiting[j] & 127, is.waiting[j] >> 7], row);
    }
  }
}
// What the page says of each task that is there, at some records: its priority.
function checkPriorities(log, trace) {
  for (let k = 0; k < log.n; k += log.n < 200 ? 1 : 37) trace.records[k].modes.forEach((mode, t) => {
    if (!mode || !log.lanes[t]) return;
    core.lane = log.lanes[t]; core.k = k;
    const priority = trace.records[k].priorities[t], told = /, priority (-?\d+)/.exec(inPage("laneWords(lane, k)"));
    check(`priority of task ${t} at record ${k + 1}`, told && told[1], priority === 4294967295 ? "-1" : String(priority));
  });
}
// How the log ends, in words: what the fault `version` means goes by its place and by the levels of the records before it.
const FAULTS = { cut: () => "the log ends inside a record", length: () => "the record's length is not 18",
  version: (at, levels) => "the record's version is " + (at === "0" ? "neither 1 nor 2" : "not the first record's (" + (levels === 32 ? 2 : 1) + ")") };
function lastLine({ last, records }) {
  const [word, number] = last.split(" ");
  if (word === "end") return "end of the log: " + number + " record" + (number === "1" ? "" : "s");
  return `the log is damaged at byte ${number}: ${word}, ${FAULTS[word](number, records.length && records[0].levels)}`;
}
// The first line of the page. How many levels there are is the sixth number of part 2, and is told where it is 32.
function firstLine(trace) {
  const { records } = trace, last = records[records.length - 1], count = test => records.filter(test).length.toLocaleString("en");
  const many = (number, word) => number.toLocaleString("en") + " " + word + (number === 1 ? "" : "s");
  const whole = trace.last.startsWith("end "), ticks = records.filter(r => r.call === 0x76 && r.code === 0).length;
  return many(records.length, whole ? "record" : "good record") + ", " + many(ticks, "tick") + (last && last.levels === 32 ? ", 32 levels (version 2)" : "") + "; "
    + count(r => r.code !== 0) + " refused, " + count(r => r.code === 0 && r.outcome === 1 && r.call !== 6) + " not met" + (whole ? "" : ". Then " + lastLine(trace));
}
let seed = 7;
const chance = () => (seed = (seed * 1103515245 + 12345) % 2147483648) / 2147483648;
// Where columns begin and how wide they are, in parts of a 64th, so that adding them up is exact.
function views(n) {
  const list = [[0, n, 1], [0, 64, Math.ceil(n / 64)], [0, n / 650, 650], [n * .9, n / 100, 20]];
  for (const per of [.07, .5, 1, 1.7, 5, 63.9, 64, 128, 333.3]) list.push([chance() * n, per, 60], [Math.floor(chance() * n), per, 60]);
  return list.map(([from, per, columns]) => [Math.floor(from * 64) / 64, Math.max(1, Math.floor(per * 64)) / 64, columns]);
}
function checkShares(log, trace) {
  const n = log.n, out = new Float64Array(1e5);
  for (const [from, per, columns] of views(n)) {
    for (const [lane, wanted] of trace.bars) if (log.lanes[lane]) {
      core.barShares(log.lanes[lane], n, from, per, columns, out);
      for (let c = 0; c < columns; c++) {
        const sum = new Float64Array(14);
        eachRecord(from + c * per, from + (c + 1) * per, n, (k, part) => { sum[wanted[k]] += part / per; });
        for (let q = 1; q < 14; q++) check(`share of class ${q} in lane ${lane}, from ${from}, ${per} records to a column, column ${c}`, out[c * 14 + q], sum[q]);
      }
    }
    for (const [lane, wanted] of trace.steps) {
      core.stepShares(log.lanes[lane], n, from, per, columns, out);
      for (let c = 0; c < columns; c++) checkStep(lane, wanted, from + c * per, per, n, [...out.slice(c * 5, c * 5 + 5)], c);
    }
  }
}
function checkStep(lane, wanted, a, per, n, is, c) {
  let low = Infinity, high = 0, value = 0, waiting = 0, used = 0, length = 0;
  eachRecord(a, a + per, n, (k, part) => {
    const [v, w, u] = wanted[k] || [0, 0, 0];
    low = Math.min(low, v); high = Math.max(high, v); value += v * part; waiting += w * part; used += u * part; length += part;
  });
  const told = length > 1e-9 ? [low, high, value / length, waiting / length, used / length] : is;
  for (let i = 0; i < 5; i++) check(`number ${i} of lane ${lane} from ${a}, ${per} records, column ${c}`, is[i], told[i]);
}
// The records between two places, and how much of each.
function eachRecord(a, b, n, take) {
  const end = Math.min(b, n);
  for (let k = Math.max(0, Math.floor(a)); k < end; k++) { const part = Math.min(k + 1, end) - Math.max(k, a); if (part > 1e-9) take(k, part); }
}
function checkChoosing(log, trace) {
  const where = test => trace.records.map((r, k) => test(r, k) ? k : -1).filter(k => k >= 0);
  for (const lane of [0, 1, 2, 3, 32, 33, 48]) {
    const is = core.chosen(log, lane, -1, "");
    check(`records of lane ${lane}`, [...is].filter(k => log.object[k] !== lane + 1), where((r, k) => log.object[k] !== lane + 1 && (r.caller === lane || r.changed.has(lane))));
  }
  for (const lane of [49, 50, 64, 65, 73, 81, 97]) {
    const is = core.chosen(log, -1, lane, "");
    check(`records of lane ${lane}`, [...is].filter(k => log.object[k] !== lane + 1), where((r, k) => log.object[k] !== lane + 1 && r.changed.has(lane)));
  }
  for (const k of where(r => r.call >= 33 && r.call <= 36)) {
    const named = Number(/\bsemaphore (\d+)/.exec(core.wordsOf(log, k)[0])[1]);
    check(`record ${k + 1} names its semaphore`, log.object[k], named > 15 ? 0 : 50 + named);
  }
  for (const code of [3, 5, 11]) check(`records with code ${code}`, [...core.chosen(log, -1, -1, String(code))], where(r => r.code === code));
  for (let k = 0; k < log.n; k += 37) for (let s = 0; s < 16; s++) if (log.lanes[49 + s]) {
    const is = core.lastTaken(log, log.lanes[49 + s], k), used = trace.steps.get(49 + s)[k];
    if (used && used[2]) check(`semaphore ${s} last taken, at record ${k + 1}`, is, trace.records[k].taken[s]);
  }
}

const log = openPage(pageFile), trace = readTrace(traceFile), words = fs.readFileSync(wordsFile, "latin1").split("\n");
check("last line", log.shared.last, words[log.n]);
check("last line in words", log.shared.last, lastLine(trace));
check("whole", log.shared.whole, trace.last.startsWith("end "));
check("first line", inPage("summary()"), firstLine(trace));
check("one number of levels", new Set(trace.records.map(r => r.levels)).size <= 1, true);
checkRecords(log, trace); checkPriorities(log, trace); checkWords(log, words); checkLanes(log, trace); checkShares(log, trace); checkChoosing(log, trace);
console.log(`page: ${checks} checks, ${failures} failed`);
process.exitCode = failures ? 1 : 0;
