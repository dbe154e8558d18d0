"use strict";
// The data of the page: reads the lines of symbols that timeline.awk wrote, makes lanes of them, and adds up shares. Nothing here knows of a screen.

// ---- numbers in symbols of five bits, the low ones first; a symbol from 32 on says that more follow
const SYMBOLS = "0123456789ABCDEFGHIJKLMNOPQRSTUVWXYZabcdefghijklmnopqrstuvwxyz-_";
const VALUE = new Uint8Array(256);
for (let i = 0; i < 64; i++) VALUE[SYMBOLS.charCodeAt(i)] = i;
let bytes = new Uint8Array(0), at = 0;   // what is read, and the place in it

function next() {
  let value = VALUE[bytes[at++]];
  if (value < 32) return value;
  value -= 32;
  for (let weight = 32; ; weight *= 32) {
    const more = VALUE[bytes[at++]];
    if (more < 32) return value + more * weight;
    value += (more - 32) * weight;
  }
}

// ---- lanes by number: tasks from 0, then each kind from its first number on
const SWI = 32, INTERRUPT = 48, SEMAPHORE = 49, EVENT = 65, MAILBOX = 73, CLOCK = 81, HEAP = 97, SWITCHES = 98, LANES = 99;
// What a lane shows of a record: its class. The last four are the kinds of threads, for the overview.
const NONE = 0, RUN = 1, READY = 2, POSTED = 3, WAIT = 4, SLEEP = 5, ENDED = 6, INACTIVE = 7, OFF = 8, TICKING = 9;
const BY_INTERRUPT = 10, BY_SWI = 11, BY_TASK = 12, IDLE = 13, CLASSES = 14;
const CLASS_OF_MODE = [NONE, READY, SLEEP, WAIT, WAIT, WAIT, WAIT, ENDED, INACTIVE];

// A row of a part of the trace (docs/TRACE.md): numbers after the object's, then so many lists, each after its length.
const SHAPE = { 3: [6, 0], 4: [2, 0], 8: [3, 1], 9: [2, 1], 10: [1, 2], 11: [6, 0], 12: [5, 0], 13: [2, 0] };
const FIRST_LANE = { 3: 0, 8: SEMAPHORE, 9: EVENT, 10: MAILBOX, 11: SWI, 12: CLOCK, 13: HEAP };
const fields = [];                       // the row that was read last, lists with their lengths
let number = 0;                          // and its object's number

// Reads one row of a part, and says how many numbers it has.
function readRow(part) {
  const [plain, lists] = SHAPE[part];
  number = part === 13 ? 0 : next();
  fields.length = 0;
  for (let i = 0; i < plain; i++) fields.push(next());
  for (let i = 0; i < lists; i++) {
    const length = next();
    fields.push(length);
    for (let j = 0; j < length; j++) fields.push(next());
  }
  return fields.length + (part === 13 ? 0 : 1);
}

// ---- lists that grow, of small numbers
class Growing {
  constructor(Type) { this.items = new Type(16); this.size = 0; }
  push(value) {
    if (this.size === this.items.length) { const more = new this.items.constructor(this.size * 2); more.set(this.items); this.items = more; }
    this.items[this.size++] = value;
  }
  done() { return this.items.slice(0, this.size); }
}

// ---- a lane of bars: stretches, each from `at` to the next one's; a code is the class, and above four bits what its label tells
function barLane(lane) {
  return {
    lane, bars: true, at: new Growing(Uint32Array), code: new Growing(Uint16Array),
    changed: new Growing(Uint32Array), marks: new Growing(Uint32Array), last: FRESH,
  };
}
const FRESH = -1, ANEW = -2;             // as the last code: no stretch yet; the next one is new even if it is like the last
function putBar(lane, k, code) {
  if (code === lane.last) return;
  if (lane.last === FRESH && k > 0) { lane.at.push(0); lane.code.push(NONE); }
  lane.at.push(k); lane.code.push(code); lane.last = code;
}
// ---- a lane of steps: a value from `at` to the next one's, and how many wait (128 and more: in use); before the first change it is not in use
function stepLane(lane, most) {
  return {
    lane, bars: false, at: new Growing(Uint32Array), value: new Growing(Uint32Array), waiting: new Growing(Uint8Array),
    most, mostWaiting: 0,
  };
}
function putStep(lane, k, value, waiting, used, most) {
  if (!lane.at.size && k > 0) { lane.at.push(0); lane.value.push(0); lane.waiting.push(0); }
  lane.at.push(k); lane.value.push(value); lane.waiting.push(waiting + (used ? 128 : 0));
  lane.most = Math.max(lane.most, most, value); lane.mostWaiting = Math.max(lane.mostWaiting, waiting);
}
function bitsSet(word) {
  let count = 0;
  for (let w = word >>> 0; w; w = (w & (w - 1)) >>> 0) count++;
  return count;
}

// ---- reading a log: `shared` is what all records share, `data` the bytes of their lines
function readLog(shared, data) {
  const n = shared.records;
  const log = {
    n, shared, data, texts: shared.texts.map(readText),
    // of each record: where its line begins, the thread and the state after it, the tick before it, its text, the object that it names
    rowAt: new Uint32Array(n), thread: new Uint8Array(n), state: new Uint8Array(n), tick: new Uint32Array(n),
    text: new (shared.texts.length > 65535 ? Uint32Array : Uint16Array)(n), object: new Uint8Array(n),
    // lanes by number, and who runs by kind of thread; lists of records
    lanes: new Array(LANES).fill(null), kinds: barLane(-1),
    refused: new Growing(Uint32Array), notMet: new Growing(Uint32Array), lost: new Growing(Uint32Array),
    // as far as it is read: the tick, each task's mode and object, which Swis are posted and active, which one was started
    ticks: 0, modes: new Uint16Array(32), posted: new Uint8Array(16), active: new Uint8Array(16), started: -1,
  };
  log.modes[0] = 1;
  bytes = data; at = 0;
  for (let k = 0; k < n; k++) readRecord(log, k);
  finish(log);
  return log;
}
function readRecord(log, k) {
  while (bytes[at] === 10) at++;
  log.rowAt[k] = at;
  const thread = log.thread[k] = next(), state = next(), text = log.text[k] = next();
  log.state[k] = state;
  log.tick[k] = log.ticks;
  log.ticks += state & 1;
  for (const slot of log.texts[text].slots) skipNumber(slot);
  log.object[k] = next();
  let swis = k === 0 || thread !== log.thread[k - 1];
  log.started = -1;
  for (let part = next(); part; part = next()) { takePart(log, k, part, next()); if (part >= 5 && part <= 7) swis = true; }
  if (log.texts[text].code) log.refused.push(k); else if (log.texts[text].mark) log.notMet.push(k);
  putThreads(log, k, thread, state, swis);
}
function skipNumber(slot) { const length = next(); if (slot !== "#") at += length; }
function takePart(log, k, part, count) {
  if (part === 5) { log.started = next(); return; }
  if (part === 6) { log.posted.fill(0); for (let i = 0; i < count; i++) log.posted[next()] = 1; return; }
  if (part === 7) { log.active.fill(0); for (let i = 0; i < count; i++) log.active[next()] = 1; return; }
  for (let read = 0; read < count;) {
    read += readRow(part);
    if (part === 4) takePost(log, k); else takeRow(log, k, part);
  }
}
// A post: the clock's number (16: the call posts), the Swi, whether it was posted already.
function takePost(log, k) {
  if (number < 16) laneOf(log, CLOCK + number).marks.push(k);
  if (!fields[1]) return;
  laneOf(log, SWI + fields[0]).marks.push(k);
  if (log.lost.size === 0 || log.lost.items[log.lost.size - 1] !== k) log.lost.push(k);
}
function laneOf(log, lane) {
  const steps = lane >= SEMAPHORE && lane < CLOCK || lane === HEAP;
  if (!log.lanes[lane]) log.lanes[lane] = steps ? stepLane(lane, lane === HEAP ? 256 : 1) : barLane(lane);
  return log.lanes[lane];
}
// A changed row of a task or an object.
function takeRow(log, k, part) {
  const lane = laneOf(log, FIRST_LANE[part] + number);
  if (part === 3) { log.modes[number] = fields[0] | fields[2] << 4; putTask(log, k, number, log.thread[k]); }
  else if (part === 8) putStep(lane, k, fields[2], fields[3], fields[0], 1);
  else if (part === 9) putStep(lane, k, bitsSet(fields[1]), fields[2], fields[0], 1);
  else if (part === 10) putStep(lane, k, fields[1], fields[2 + fields[1]], fields[0], fields[0]);
  else if (part === 12) putBar(lane, k, fields[4] ? TICKING : NONE);
  else if (part === 13) putStep(lane, k, fields[1], 0, 1, 256);
  if (lane.bars) lane.changed.push(k);
}
// A task's code: its class, above it the mode and the object.
function putTask(log, k, task, thread) {
  const mode = log.modes[task] & 15;
  putBar(laneOf(log, task), k, (thread === task ? RUN : CLASS_OF_MODE[mode]) | log.modes[task] << 4);
}
function putThreads(log, k, thread, state, swis) {
  const before = k ? log.thread[k - 1] : -1, off = (state & 4 ? 0 : 1) + (state & 2 ? 0 : 2), depth = state >> 3;
  if (thread !== before) {
    if (before >= 0 && before < SWI) putTask(log, k, before, thread);
    if (thread < SWI) putTask(log, k, thread, thread);
    putBar(log.kinds, k, thread === INTERRUPT ? BY_INTERRUPT : thread >= SWI ? BY_SWI : thread ? BY_TASK : IDLE);
  }
  if (k === 0) putTask(log, 0, 0, thread);
  if (depth || log.lanes[INTERRUPT]) putBar(laneOf(log, INTERRUPT), k, depth ? RUN | depth << 4 : NONE);
  if (off || log.lanes[SWITCHES]) putBar(laneOf(log, SWITCHES), k, off ? OFF | off << 4 : NONE);
  if (swis) for (let i = 0; i < 16; i++) putSwi(log, k, i, thread);
}
// A Swi's code: its class, above it whether it is posted while it is active. One that ended and was started anew has a new stretch.
function putSwi(log, k, i, thread) {
  if (log.started === i && log.lanes[SWI + i] && log.lanes[SWI + i].last !== FRESH) log.lanes[SWI + i].last = ANEW;
  const cls = thread === SWI + i ? RUN : log.active[i] ? READY : log.posted[i] ? POSTED : NONE;
  if (cls !== NONE || log.lanes[SWI + i]) putBar(laneOf(log, SWI + i), k, cls | (log.posted[i] && cls !== POSTED ? 16 : 0));
}
// All lists in their last length, and sums for each block of records.
function finish(log) {
  for (const lane of [...log.lanes, log.kinds]) if (lane) {
    if (lane.bars && lane.last === FRESH) putBar(lane, 0, NONE);
    for (const key of Object.keys(lane)) if (lane[key] instanceof Growing) lane[key] = lane[key].done();
    if (lane.bars) blocksOfBars(lane, log.n); else blocksOfSteps(lane, log.n);
    if (!lane.bars) lane.changed = lane.at.subarray(lane.waiting[0] & 128 ? 0 : 1);
  }
  for (const key of ["refused", "notMet", "lost"]) log[key] = log[key].done();
  log.troubles = joined(log.refused, log.notMet);
}

// ---- sorted lists of records
function joined(a, b) {
  const all = new Uint32Array(a.length + b.length);
  all.set(a); all.set(b, a.length);
  return all.sort();
}
// How many entries of a sorted list are below a value: the place of the first that is not.
function below(list, value, from = 0, to = list.length) {
  while (from < to) { const middle = from + to >> 1; if (list[middle] < value) from = middle + 1; else to = middle; }
  return from;
}
// The stretch or step of a lane that holds record k.
function stretchAt(lane, k) { return below(lane.at, k + 1) - 1; }

// ---- sums for blocks of 64 records, so that a share needs no walk through a million records
const BLOCK = 64;
function blocksOfBars(lane, n) {
  const blocks = Math.floor(n / BLOCK) + 1, { at: starts, code } = lane;
  lane.first = new Uint32Array(blocks);
  lane.sums = new Array(CLASSES).fill(null);
  lane.classes = [];
  for (const each of code) {
    const c = each & 15;
    if (c !== NONE && !lane.sums[c]) { lane.sums[c] = new Uint32Array(blocks); lane.classes.push(c); }
  }
  lane.classes.sort((a, b) => a - b);
  const sum = new Float64Array(CLASSES);
  let j = 0, pos = 0;
  for (let b = 0; b < blocks; b++) {
    const end = b * BLOCK;
    while (pos < end) {
      const stop = j + 1 < starts.length ? Math.min(starts[j + 1], end) : end;
      sum[code[j] & 15] += stop - pos; pos = stop;
      if (j + 1 < starts.length && starts[j + 1] <= pos) j++;
    }
    lane.first[b] = j;
    for (const c of lane.classes) lane.sums[c][b] = sum[c];
  }
}
function blocksOfSteps(lane, n) {
  const blocks = Math.floor(n / BLOCK) + 1, { at: starts, value, waiting } = lane;
  lane.first = new Uint32Array(blocks); lane.least = new Uint32Array(blocks).fill(4294967295); lane.greatest = new Uint32Array(blocks);
  lane.total = new Float64Array(blocks); lane.waits = new Float64Array(blocks); lane.inUse = new Uint32Array(blocks);
  let j = 0, pos = 0, total = 0, waits = 0, used = 0;
  for (let b = 0; b < blocks; b++) {
    lane.first[b] = j; lane.total[b] = total; lane.waits[b] = waits; lane.inUse[b] = used;
    for (const end = Math.min((b + 1) * BLOCK, n); pos < end;) {
      const stop = j + 1 < starts.length ? Math.min(starts[j + 1], end) : end, v = value[j];
      total += v * (stop - pos); waits += (waiting[j] & 127) * (stop - pos); if (waiting[j] & 128) used += stop - pos;
      if (v < lane.least[b]) lane.least[b] = v;
      if (v > lane.greatest[b]) lane.greatest[b] = v;
      pos = stop;
      if (j + 1 < starts.length && starts[j + 1] <= pos) j++;
    }
  }
}

// ---- shares: for columns of `per` records each (a fraction where one record takes several columns), from record `from` on.
// In `out` there are CLASSES shares for each column: how much of it the lane is in each class. Past the log's end they are 0.
function barShares(lane, n, from, per, columns, out) {
  const { at: starts, code, first, sums, classes } = lane, size = starts.length;
  out.fill(0, 0, columns * CLASSES);
  let pos = Math.max(from, 0), j = size ? stretchAt(lane, Math.floor(pos)) : 0;
  for (let c = 0; c < columns && pos < n; c++) {
    const end = Math.min(from + (c + 1) * per, n), base = c * CLASSES;
    while (pos < end) {
      if (end - pos >= BLOCK && pos % BLOCK === 0) {
        const a = pos / BLOCK, b = Math.floor(end / BLOCK);
        for (const q of classes) out[base + q] += sums[q][b] - sums[q][a];
        pos = b * BLOCK; j = first[b];
        continue;
      }
      const later = j + 1 < size ? starts[j + 1] : n;
      let stop = later < end ? later : end;
      if (end - pos > BLOCK) stop = Math.min(stop, (Math.floor(pos / BLOCK) + 1) * BLOCK);
      out[base + (code[j] & 15)] += stop - pos;
      pos = stop;
      if (pos >= later && j + 1 < size) j++;
    }
    for (let q = 0; q < CLASSES; q++) out[base + q] /= per;
  }
}
// For steps, in `out` there are five numbers for each column: least, greatest and mean value, mean number that wait, share of the time in use.
const STEP_NUMBERS = 5;
function stepShares(lane, n, from, per, columns, out) {
  const { at: starts, value, waiting, first, least, greatest, total, waits, inUse } = lane, size = starts.length;
  out.fill(0, 0, columns * STEP_NUMBERS);
  let pos = Math.max(from, 0), j = size ? stretchAt(lane, Math.floor(pos)) : 0;
  for (let c = 0; c < columns && pos < n; c++) {
    const begin = pos, end = Math.min(from + (c + 1) * per, n);
    let low = Infinity, high = 0, sum = 0, wait = 0, used = 0;
    while (pos < end) {
      if (end - pos >= BLOCK && pos % BLOCK === 0) {
        const a = pos / BLOCK, b = Math.floor(end / BLOCK);
        for (let i = a; i < b; i++) { if (least[i] < low) low = least[i]; if (greatest[i] > high) high = greatest[i]; }
        sum += total[b] - total[a]; wait += waits[b] - waits[a]; used += inUse[b] - inUse[a];
        pos = b * BLOCK; j = first[b];
        continue;
      }
      const later = j + 1 < size ? starts[j + 1] : n;
      let stop = later < end ? later : end;
      if (end - pos > BLOCK) stop = Math.min(stop, (Math.floor(pos / BLOCK) + 1) * BLOCK);
      const v = value[j];
      if (v < low) low = v;
      if (v > high) high = v;
      sum += v * (stop - pos); wait += (waiting[j] & 127) * (stop - pos); if (waiting[j] & 128) used += stop - pos;
      pos = stop;
      if (pos >= later && j + 1 < size) j++;
    }
    const length = end - begin, base = c * STEP_NUMBERS;
    if (length > 0) out.set([low, high, sum / length, wait / length, used / length], base);
  }
}

// ---- words: a text has '#' for each number in it, '$' for each hexadecimal one, '@' for words that are written out
function readText([call, code, outcome, table, mark, before, after]) {
  return { call, code, outcome, table, mark, before, after, sought: soughtForm(before + ": " + after), slots: (before + after).replace(/[^#$@]/g, "") };
}
// Words as they are searched: small letters, and no commas or colons between them.
function soughtForm(words) { return words.toLowerCase().replace(/[:;,]?\s+/g, " "); }
// The words of record k: its call, and what came of it.
function wordsOf(log, k) {
  bytes = log.data; at = log.rowAt[k];
  next(); next();
  const text = log.texts[next()];
  return [text.before, text.after].map(words => words.replace(/[#$@]/g, slot => slot === "#" ? next() : (slot === "$" ? "0x" : "") + taken(next())));
}
function taken(length) { at += length; return String.fromCharCode(...bytes.subarray(at - length, at)); }

// ---- what record k changed: for each part of the trace its rows as [lane or number, fields]
function changesOf(log, k) {
  bytes = log.data; at = log.rowAt[k];
  next(); next();
  for (const slot of log.texts[next()].slots) skipNumber(slot);
  next();
  const parts = {};
  for (let part = next(); part; part = next()) {
    const count = next(), rows = parts[part] = [];
    if (part >= 5 && part <= 7) for (let i = 0; i < count; i++) rows.push(next());
    else for (let read = 0; read < count;) { read += readRow(part); rows.push([part === 4 ? number : FIRST_LANE[part] + number, ...fields]); }
  }
  return parts;
}
// The row of a task or object as record k left it: [record at which it came to be, fields]; null where there is none yet.
function rowAt(log, lane, k) {
  const j = below(lane.changed, k + 1) - 1;
  if (j < 0) return null;
  const parts = changesOf(log, lane.changed[j]);
  for (const part in FIRST_LANE) for (const row of parts[part] || []) if (row[0] === lane.lane) return [lane.changed[j], row.slice(1)];
  return null;
}
// A list of Swis (part 6 posted, 7 active) as record k left it.
function swiList(log, part, k) {
  for (let j = k; j >= 0; j--) { const rows = changesOf(log, j)[part]; if (rows) return rows; }
  return [];
}
function callerOf(log, k) { return k ? log.thread[k - 1] : 0; }
function ticksAfter(log, k) { return log.tick[k] + (log.state[k] & 1); }

// Who took a semaphore last, at record k or before: [thread, record], or null. It is taken by a pend (call 22) that took one from the
// count, or by the one whom a post (call 23) served.
function lastTaken(log, lane, k) {
  for (let j = stretchAt(lane, k); j > 0; j--) {
    const record = lane.at[j], { call } = log.texts[log.text[record]], fewer = (lane.waiting[j] & 127) < (lane.waiting[j - 1] & 127);
    if (call === "22" && lane.value[j] < lane.value[j - 1]) return [callerOf(log, record), record];
    if (call === "23" && fewer) return [changesOf(log, record)[3][0][0], record];
  }
  return null;
}

// ---- choosing records: by thread (who made the call, or which changed), by object (which the call names, or which changed), by what
// came of it. A lane is -1 and a result "" where it is not asked for; the answer is null where nothing is.
function chosen(log, thread, object, result) {
  const want = (thread >= 0 ? 1 : 0) + (object >= 0 ? 2 : 0) + (result !== "" ? 4 : 0);
  if (!want) return null;
  const marks = new Uint8Array(log.n), list = new Growing(Uint32Array);
  if (thread >= 0) markLane(log, marks, thread, 1, k => callerOf(log, k) === thread || log.object[k] === thread + 1);
  if (object >= 0) markLane(log, marks, object, 2, k => log.object[k] === object + 1);
  if (result !== "") for (const k of resultList(log, result)) marks[k] |= 4;
  for (let k = 0; k < log.n; k++) if (marks[k] === want) list.push(k);
  return list.done();
}
function markLane(log, marks, lane, bit, alsoThis) {
  if (log.lanes[lane]) for (const k of log.lanes[lane].changed) marks[k] |= bit;
  for (let k = 0; k < log.n; k++) if (alsoThis(k)) marks[k] |= bit;
}
function resultList(log, result) {
  if (result === "trouble") return log.troubles;
  if (result === "refused" || result === "notMet" || result === "lost") return log[result];
  return log.refused.filter(k => log.texts[log.text[k]].code === Number(result));
}

// ---- searching by words: all records whose words hold the text. A text that cannot hold it, whatever its numbers are, is left out at once.
function wordSearch(log, asked) {
  const sought = soughtForm(asked).trim(), form = sought.replace(/[0-9]+/g, "#"), list = new Growing(Uint32Array);
  const verdicts = log.texts.map(text => verdict(text.sought, sought, form));
  return { list, k: 0, done: false, step(most) {                 // looks at so many records
    for (const end = Math.min(log.n, this.k + most); this.k < end; this.k++) {
      const v = verdicts[log.text[this.k]];
      if (v === "yes" || v === "look" && soughtForm(wordsOf(log, this.k).join(": ")).includes(sought)) list.push(this.k);
    }
    this.done = this.k >= log.n;
  } };
}
// Whether all records of a text hold what is sought, none does, or each has to be looked at.
function verdict(text, sought, form) {
  if (/[#$@]/.test(sought) || /[$@]/.test(text)) return "look";
  if (text.includes(sought)) return "yes";
  return form.includes("#") && text.includes(form) ? "look" : "no";
}
