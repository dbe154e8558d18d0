"use strict";
// The picture: overview, ruler, marks and lanes. `view` says what is seen; draw() draws it at the next frame.
const $ = id => document.getElementById(id);
const shared = JSON.parse($("log").textContent);
const log = readLog(shared, dataOfPage()), n = log.n;
// Where the axis ends: a damaged log has room for its fault.
const END = Math.max(1, shared.whole ? n : n + Math.max(1, n * .03));
const view = { from: 0, span: END, picked: -1, found: null, chosen: null, listFrom: 0, listTo: 0, drawn: 0 };

// The records' lines as bytes; their elements are let go.
function dataOfPage() {
  const encoder = new TextEncoder(), parts = [];
  for (const part of document.querySelectorAll("script.rows")) { parts.push(encoder.encode(part.textContent)); part.remove(); }
  const all = new Uint8Array(parts.reduce((sum, part) => sum + part.length, 0));
  let to = 0;
  for (const part of parts) { all.set(part, to); to += part.length; }
  return all;
}

// ---- colours, from the style sheet: as text, and as pixels
const CLASS_COLOUR = ["paper", "run", "ready", "posted", "wait", "sleep", "ended", "inactive", "off", "ticking",
  "by-interrupt", "by-swi", "by-task", "idle"];
const OTHER_COLOUR = ["ink", "soft", "line", "grid", "step", "band", "refused", "not-met", "lost", "found", "picked", "on-run", "on-light", "on-bright"];
const colour = {}, pixel = {}, classPixel = new Uint32Array(CLASSES);
function readColours() {
  const style = getComputedStyle(document.documentElement);
  for (const name of [...CLASS_COLOUR, ...OTHER_COLOUR]) {
    const text = style.getPropertyValue("--" + name).trim(), rgb = parseInt(text.slice(1), 16);
    colour[name] = text;
    pixel[name] = (0xff000000 | (rgb & 255) << 16 | rgb & 0xff00 | rgb >> 16) >>> 0;
  }
  CLASS_COLOUR.forEach((name, c) => { classPixel[c] = pixel[name]; });
}

// ---- places: a record's left edge on the screen, and the record at a place
let wide = 1;                            // of the lanes, in pixels of the style sheet
const xOf = k => (k - view.from) / view.span * wide;
const recordAt = x => view.from + x / wide * view.span;
const perPixel = () => view.span / wide;
const leastSpan = () => Math.min(END, Math.max(2, wide / 160));
const within = (value, least, most) => Math.min(Math.max(value, least), most);

// Shows so many records from one on, as far as there are any.
function show(from, span) {
  view.span = within(span, leastSpan(), END);
  view.from = within(from, 0, END - view.span);
  draw();
}
function zoom(factor, x = wide / 2) {
  const k = recordAt(x), span = within(view.span * factor, leastSpan(), END);
  show(k - x / wide * span, span);
}

// ---- rows of the picture: threads, then objects; each has its lane, its place and its height. A closed group has its title only.
const rows = [], closed = new Set();
let tall = 0;
function layRows() {
  const lanes = (from, to) => log.lanes.slice(from, to).filter(lane => lane);
  rows.length = 0; tall = 0;
  layGroup("Threads", [...lanes(INTERRUPT, INTERRUPT + 1), ...lanes(SWI, INTERRUPT), ...lanes(0, SWI), ...lanes(SWITCHES, LANES)]);
  layGroup("Objects", lanes(SEMAPHORE, SWITCHES));
  tall += 6;
}
function layGroup(title, lanes) {
  if (lanes.length) layRow({ title }, 24);
  if (!closed.has(title)) for (const lane of lanes) layRow({ lane }, lane.bars ? 24 : lane.mostWaiting ? 42 : 32);
}
function layRow(row, height) { rows.push({ ...row, top: tall, height }); tall += height; }

// ---- marks above the lanes: which records were refused, not met, ..
const MARKS = [
  { key: "refused", name: "Refused", colour: "refused", shape: "triangle", list: () => log.refused },
  { key: "notMet", name: "Not met", colour: "not-met", shape: "diamond", list: () => log.notMet },
  { key: "lost", name: "Lost posts", colour: "lost", shape: "bar", list: () => log.lost },
  { key: "found", name: "Found", colour: "found", shape: "bar", list: () => view.found || [] },
  { key: "chosen", name: "In the list", colour: "run", shape: "bar", list: () => view.chosen || [] },
];
const shownMarks = () => MARKS.filter(m => m.key === "refused" || m.key === "notMet" || m.list().length);
// The columns that hold marks of a sorted list: [column, how many, the first one's record].
function markColumns(list, from, per, columns) {
  const found = [];
  for (let i = below(list, from); i < list.length;) {
    const column = Math.floor((list[i] - from) / per);
    if (column >= columns) break;
    const end = below(list, from + (column + 1) * per, i + 1);
    found.push([column, end - i, list[i]]);
    i = end;
  }
  return found;
}

// ---- drawing, at the next frame, in the screen's own pixels
let asked = false;
function draw() {
  if (asked || !n) return;
  asked = true;
  requestAnimationFrame(() => { asked = false; drawNow(); });
}
function drawNow() {
  const begun = performance.now();
  wide = Math.max(1, $("view").clientWidth);
  MARK = parseFloat(getComputedStyle(document.documentElement).getPropertyValue("--mark"));
  view.span = within(view.span, leastSpan(), END);
  drawOverview(); drawRuler(); drawLanes(); tellShares(); followPicture();
  view.drawn = performance.now() - begun;
}
function fitted(canvas, w, h) {
  const ratio = devicePixelRatio || 1, W = Math.max(1, Math.round(w * ratio)), H = Math.max(1, Math.round(h * ratio));
  if (canvas.width !== W || canvas.height !== H) { canvas.width = W; canvas.height = H; canvas.style.height = h + "px"; }
  const ctx = canvas.getContext("2d");
  ctx.setTransform(ratio, 0, 0, ratio, 0, 0);
  return ctx;
}
const FONT = "11px system-ui, sans-serif", BOLD = "600 10px system-ui, sans-serif";

// ---- the overview: who runs over the whole log, its marks, and a frame around what is seen
let overviewOf = "";
const overviewBase = document.createElement("canvas");
function drawOverview() {
  const canvas = $("overview"), w = canvas.clientWidth, h = canvas.clientHeight, ctx = fitted(canvas, w, h), W = canvas.width, H = canvas.height;
  canvas.style.height = "";
  const key = [W, H, colour.paper].join();
  if (key !== overviewOf) { overviewOf = key; drawOverviewBase(W, H); }
  ctx.setTransform(1, 0, 0, 1, 0, 0);
  ctx.drawImage(overviewBase, 0, 0);
  ctx.setTransform(W / w, 0, 0, H / h, 0, 0);
  drawFrame(ctx, w, h);
}
function drawFrame(ctx, w, h) {
  const [a, b] = frame(w);
  ctx.fillStyle = colour.paper; ctx.globalAlpha = .62;
  ctx.fillRect(0, 0, a, h); ctx.fillRect(b, 0, w - b, h);
  ctx.globalAlpha = 1; ctx.strokeStyle = colour.ink; ctx.lineWidth = 1.5;
  ctx.strokeRect(a + .75, .75, Math.max(b - a - 1.5, 1), h - 1.5);
  ctx.fillStyle = colour.ink;
  for (const x of [a, b]) ctx.fillRect(within(x - 2, 0, w - 4), h / 2 - 9, 4, 18);
  if (view.picked >= 0) ctx.fillRect(view.picked / END * w - .5, 0, 1.5, h);
}
// The frame's edges; it is never too narrow to be held.
function frame(w) {
  const a = view.from / END * w, b = (view.from + view.span) / END * w, middle = (a + b) / 2;
  return b - a < 8 ? [Math.max(0, middle - 4), Math.min(w, middle + 4)] : [a, b];
}
function drawOverviewBase(W, H) {
  overviewBase.width = W; overviewBase.height = H;
  const ctx = overviewBase.getContext("2d"), base = ctx.createImageData(W, H), out = new Uint32Array(base.data.buffer);
  out.fill(pixel.paper);
  // The columns of a short log are wider than a pixel, else it would be a flicker of single records.
  const columns = Math.min(W, Math.max(60, Math.round(n / 12)));
  barShares(log.kinds, n, 0, END / columns, columns, shares);
  for (let x = 0; x < W; x++) paintColumn(out, W, H, x, Math.floor(x * columns / W), log.kinds.classes, Math.round(H * .34), H);
  ctx.putImageData(base, 0, 0);
  for (const [list, name, y] of [[log.refused, "refused", 0], [log.notMet, "not-met", .17]]) {
    ctx.fillStyle = colour[name];
    for (const [x] of markColumns(list, 0, END / W, W)) ctx.fillRect(x - 1, y * H, 3, H * .13);
  }
  if (!shared.whole) { ctx.fillStyle = colour.refused; ctx.fillRect(n / END * W, 0, W, H); }
}

// ---- the ruler: records and ticks, then the marks
const RULER = 36;
let MARK = 18;
function drawRuler() {
  const marks = shownMarks(), h = RULER + marks.length * MARK, ctx = fitted($("ruler"), wide, h);
  $("ruler").style.width = wide + "px";       // the lanes may have a scroll bar beside them
  ctx.fillStyle = colour.paper; ctx.fillRect(0, 0, wide, h);
  ctx.font = FONT; ctx.textBaseline = "middle";
  for (const k of gridRecords()) {
    const x = xOf(k);
    ctx.fillStyle = colour.line; ctx.fillRect(Math.round(x), 0, 1, h);
    ctx.fillStyle = colour.ink; ctx.fillText(plain(k), x + 4, 10);
    ctx.fillStyle = colour.soft; ctx.fillText("tick " + commas(log.tick[k]), x + 4, 26);
  }
  marks.forEach((mark, i) => drawMarks(ctx, mark, RULER + i * MARK));
  drawFault(ctx, h);
  if (!shared.whole && xOf(n) < wide) drawDamaged(ctx);
  drawPicked(ctx, h);
  ctx.fillStyle = colour.soft;                // which records the list shows
  ctx.fillRect(xOf(view.listFrom), RULER - 3, Math.max(3, (view.listTo + 1 - view.listFrom) / perPixel()), 3);
}
// The records that get a line and a number: each step is 1, 2 or 5 times a power of ten.
function gridRecords() {
  const least = Math.max(1, (wide < 500 ? 70 : 96) * perPixel()), power = 10 ** Math.floor(Math.log10(least));
  const step = [1, 2, 5, 10].map(f => f * power).find(s => s >= least), list = [];
  const last = Math.min(view.from + view.span, n - 1);
  for (let r = Math.max(step, Math.ceil((view.from + 1) / step) * step); r - 1 <= last; r += step) list.push(r - 1);
  if (view.from < 1 && (!list.length || xOf(list[0]) > 60)) list.unshift(0);
  return list;
}
function drawMarks(ctx, mark, top) {
  const per = perPixel(), width = 1 / per, margin = 6 * per;
  ctx.fillStyle = colour[mark.colour];
  let last = -99;
  for (const [, count, k] of markColumns(mark.list(), Math.max(0, view.from - margin), per, wide + 12)) {
    const x = xOf(k) + width / 2, high = within(count / per, .35, 1) * (MARK - 4);
    if (x - last >= 8) drawShape(ctx, mark.shape, x, top + MARK / 2);
    else ctx.fillRect(x - .5, top + MARK - 2 - high, within(width, 1, 3), high);
    last = x;
  }
  ctx.fillStyle = colour.grid; ctx.fillRect(0, top + MARK - 1, wide, 1);
}
function drawShape(ctx, shape, x, y) {
  ctx.beginPath();
  if (shape === "triangle") { ctx.moveTo(x - 5, y - 5); ctx.lineTo(x + 5, y - 5); ctx.lineTo(x, y + 5); }
  else if (shape === "diamond") { ctx.moveTo(x, y - 6); ctx.lineTo(x + 5, y); ctx.lineTo(x, y + 6); ctx.lineTo(x - 5, y); }
  else ctx.rect(x - 1.5, y - 6, 3, 12);
  ctx.fill();
}
// The record that was picked: an outline over its column.
function drawPicked(ctx, h) {
  if (view.picked < 0) return;
  ctx.strokeStyle = colour.picked; ctx.lineWidth = 2;
  ctx.strokeRect(xOf(view.picked), -4, Math.max(1 / perPixel(), 2), h + 8);
}
// Where a damaged log ends: stripes up to the right edge.
function drawFault(ctx, h) {
  const x = xOf(n);
  if (shared.whole || x >= wide) return;
  ctx.save();
  ctx.beginPath(); ctx.rect(x, 0, wide - x, h); ctx.clip();
  ctx.strokeStyle = colour.refused; ctx.lineWidth = 2;
  for (let s = x - h; s < wide; s += 10) { ctx.beginPath(); ctx.moveTo(s, h); ctx.lineTo(s + h, 0); ctx.stroke(); }
  ctx.restore();
  ctx.fillStyle = colour.refused; ctx.fillRect(x, 0, 2, h);
}
function drawDamaged(ctx) {
  const width = ctx.measureText("damaged").width;
  ctx.fillStyle = colour.paper; ctx.fillRect(wide - width - 8, 10, width + 8, 16);
  ctx.fillStyle = colour.refused; ctx.fillText("damaged", wide - width - 4, 18);
}

// ---- the lanes: columns of pixels show shares; then labels where there is room
let image = null, pixels = null;
const shares = new Float64Array(8192 * CLASSES);
function drawLanes() {
  const printing = document.body.classList.contains("printing"), h = printing ? tall : $("lanes").clientHeight;
  const canvas = $("view"), ctx = fitted(canvas, wide, h), W = canvas.width, H = canvas.height, scroll = printing ? 0 : $("lanes").scrollTop;
  if (!image || image.width !== W || image.height !== H) { image = ctx.createImageData(W, H); pixels = new Uint32Array(image.data.buffer); }
  const seen = rows.filter(row => row.top + row.height > scroll && row.top < scroll + h);
  pixels.fill(pixel.paper);
  paintGrid(W, H, seen, scroll);
  for (const row of seen) if (row.lane) paintLane(row, W, H, scroll);
  ctx.putImageData(image, 0, 0);
  ctx.textBaseline = "middle";
  for (const row of seen) if (row.lane) drawOnLane(ctx, row, row.top - scroll);
  drawCallers(ctx, seen, scroll);
  drawFault(ctx, h);
  drawPicked(ctx, h);
}
function paintGrid(W, H, seen, scroll) {
  const ratio = W / wide;
  for (const k of gridRecords()) {
    const x = Math.round(xOf(k) * ratio);
    if (x >= 0 && x < W) for (let y = 0, i = x; y < H; y++, i += W) pixels[i] = pixel.grid;
  }
  for (const row of seen) {
    const y = Math.round((row.top + row.height - scroll) * ratio) - 1;
    if (y >= 0 && y < H) pixels.fill(row.title ? pixel.line : pixel.grid, y * W, (y + 1) * W);
  }
}
function paintLane({ lane, top, height }, W, H, scroll) {
  const ratio = W / wide, from = Math.round((top - scroll + 4) * ratio), to = Math.round((top + height - scroll - 4) * ratio);
  if (lane.bars) paintBars(lane, W, H, from, to); else paintSteps(lane, W, H, from, to);
}
function paintBars(lane, W, H, top, bottom) {
  const per = view.span / W, isThin = c => c === ENDED || c === INACTIVE;
  if (per > 1) barShares(lane, n, view.from, per, W, shares); else barColumns(lane, view.from, per, W);
  const filled = lane.classes.filter(c => !isThin(c)), thin = lane.classes.filter(isThin);
  for (let x = 0; x < W; x++) {
    paintColumn(pixels, W, H, x, x, filled, top, bottom);
    for (const c of thin) if (shares[x * CLASSES + c] >= .5) paintThin(W, H, x, top + bottom >> 1, c);
  }
}
// A column is filled from below, each class as high as its share; a share above 0 is at least a pixel.
function paintColumn(out, W, H, x, column, classes, top, bottom) {
  const base = column * CLASSES, high = bottom - top;
  let sum = 0, y = bottom, left = 0;
  for (const c of classes) if (shares[base + c] > 0) left++;
  for (const c of classes) {
    const share = shares[base + c];
    if (!(share > 0)) continue;
    left--; sum += share;
    const to = Math.max(Math.min(bottom - Math.round(sum * high), y - 1), top + left);
    for (let line = Math.min(y, H) - 1; line >= Math.max(to, 0); line--) out[line * W + x] = classPixel[c];
    y = Math.max(to, top);
  }
}
// A terminated task is a thin line, an inactive one a dashed line.
function paintThin(W, H, x, y, c) {
  if (c === INACTIVE && (x >> 2) % 2 === 0) return;
  for (const line of [y, y + 1]) if (line >= 0 && line < H) pixels[line * W + x] = classPixel[c];
}
// Where a record is wider than a column: each column is as the record under its middle.
function barColumns(lane, from, per, W) {
  shares.fill(0, 0, W * CLASSES);
  eachColumn(lane, from, per, W, (x, j) => { shares[x * CLASSES + (lane.code[j] & 15)] = 1; });
}
function stepColumns(lane, from, per, W) {
  shares.fill(0, 0, W * STEP_NUMBERS);
  eachColumn(lane, from, per, W, (x, j) => {
    const value = lane.value[j], base = x * STEP_NUMBERS;
    shares[base] = shares[base + 1] = shares[base + 2] = value;
    shares[base + 3] = lane.waiting[j] & 127; shares[base + 4] = lane.waiting[j] >> 7;
  });
}
function eachColumn(lane, from, per, W, take) {
  let j = stretchAt(lane, Math.max(0, Math.floor(from)));
  for (let x = 0; x < W; x++) {
    const k = from + (x + .5) * per;
    if (k >= n) return;
    while (j + 1 < lane.at.length && lane.at[j + 1] <= k) j++;
    take(x, j);
  }
}
// Steps: below the value (full up to the least of the column, light up to the greatest, a line at the mean); above, hanging, how many wait.
function paintSteps(lane, W, H, top, bottom) {
  const per = view.span / W, room = bottom - top, waits = Math.round(room * waitShare(lane)), high = room - waits - (waits ? 1 : 0);
  if (per > 1) stepShares(lane, n, view.from, per, W, shares); else stepColumns(lane, view.from, per, W);
  const put = (x, from, to, value) => { for (let y = Math.max(from, 0); y < Math.min(to, H); y++) pixels[y * W + x] = value; };
  const height = v => v > 0 ? Math.max(2, Math.round(v / lane.most * high)) : 0;
  for (let x = 0; x < W; x++) {
    const base = x * STEP_NUMBERS, mean = height(shares[base + 2]), waiting = shares[base + 3];
    if (!(shares[base + 4] > 0)) continue;
    put(x, bottom - 1, bottom, pixel.ended);
    put(x, bottom - height(shares[base + 1]), bottom, pixel.band);
    put(x, bottom - height(shares[base]), bottom, pixel.step);
    if (mean) put(x, bottom - mean, bottom - mean + 2, pixel.step);
    if (waiting > 0) put(x, top, top + Math.max(1, Math.round(waiting / lane.mostWaiting * waits)), pixel.wait);
  }
}
// How much of a lane's height is for those who wait.
const waitShare = lane => lane.mostWaiting ? .36 : 0;

// ---- on the lanes: labels, marks, gaps, callers
function drawOnLane(ctx, row, top) {
  const { lane, height } = row;
  ctx.font = FONT;
  if (!lane.bars) { eachWide(lane, 18, (j, from, to) => drawStepLabels(ctx, row, j, from, to, top)); return; }
  eachWide(lane, 22, (j, from, to) => {
    const code = lane.code[j];
    drawLabel(ctx, barLabels(lane, code), from, to, top + height / 2 + .5, inkOn(code & 15));
  });
  if (lane.marks.length) drawLaneMarks(ctx, lane, top, height);
  if (lane.lane >= SWI && lane.lane < INTERRUPT && perPixel() < 1 / 4) drawGaps(ctx, lane, top, height);
}
// Every stretch that is so wide holds one of the places that are looked at.
function eachWide(lane, least, tell) {
  for (let x = 0; x < wide;) {
    const k = Math.floor(recordAt(x));
    if (k >= n) return;
    const j = stretchAt(lane, k), end = j + 1 < lane.at.length ? lane.at[j + 1] : n;
    const from = Math.max(xOf(lane.at[j]), 0), to = Math.min(xOf(end), wide);
    if (to - from >= least) tell(j, from, to);
    x = Math.max(to, x + least / 2) + .01;
  }
}
const inkOn = c => c === RUN || c === OFF ? colour["on-run"] : [POSTED, WAIT, SLEEP].includes(c) ? colour["on-bright"] : colour["on-light"];
// The first of some texts that has room; none where none has.
function drawLabel(ctx, texts, from, to, y, ink) {
  const text = texts.find(t => t && ctx.measureText(t).width <= to - from - 6);
  if (!text) return;
  ctx.fillStyle = ink;
  ctx.fillText(text, from + 3, y);
}
function drawStepLabels(ctx, row, j, from, to, top) {
  const { lane } = row, [value, waiting] = stepLabels(lane, j), room = row.height - 8, waits = room * waitShare(lane);
  const high = lane.value[j] / lane.most * (room - waits), inside = high > 14, hanging = (lane.waiting[j] & 127) / lane.mostWaiting;
  drawLabel(ctx, [value], from, to, top + row.height - 10 - (inside ? 0 : Math.max(high, 1)), inside ? colour["on-run"] : colour.ink);
  ctx.font = BOLD;
  drawLabel(ctx, [waiting], from, to, top + 4 + waits / 2 + .5, hanging > .6 ? colour["on-bright"] : colour.ink);
  ctx.font = FONT;
}
// On a clock's lane where it ran out, on a Swi's where a post found it posted already.
function drawLaneMarks(ctx, lane, top, height) {
  const clock = lane.lane >= CLOCK, per = perPixel(), width = within(1 / per, 1, 3), room = (height - 8) * (clock ? 1 : .4);
  ctx.fillStyle = clock ? colour.step : colour.lost;
  for (const [column, count] of markColumns(lane.marks, view.from, per, wide)) {
    const high = within(count / per, .25, 1) * room;
    ctx.fillRect(column, clock ? top + height - 4 - high : top + 2, width, high);
  }
}
// A gap where a Swi ended and was started anew.
function drawGaps(ctx, lane, top, height) {
  ctx.fillStyle = colour.paper;
  const first = Math.max(1, stretchAt(lane, Math.floor(view.from)));
  for (let j = first; j < lane.at.length && lane.at[j] < view.from + view.span; j++)
    if (lane.code[j] === lane.code[j - 1]) ctx.fillRect(xOf(lane.at[j]) - 1, top + 4, 2, height - 8);
}
// Who made each call: a small arrow at the left edge of its column, where there is room.
function drawCallers(ctx, seen, scroll) {
  if (perPixel() > 1 / 9) return;
  ctx.fillStyle = colour.ink;
  for (let k = Math.floor(view.from); k < Math.min(n, view.from + view.span); k++) {
    const row = seen.find(r => r.lane && r.lane.lane === callerOf(log, k));
    if (!row) continue;
    const x = xOf(k), y = row.top - scroll + row.height / 2;
    ctx.beginPath(); ctx.moveTo(x - 3, y - 4); ctx.lineTo(x + 2, y); ctx.lineTo(x - 3, y + 4); ctx.fill();
  }
}

// ---- names beside the lanes, with the share of what is seen
function makeNames() {
  $("names").style.height = tall + "px";
  $("names").replaceChildren(...rows.map(row => {
    const item = row.item = element("button");
    item.type = "button"; item.style.top = row.top + "px"; item.style.height = row.height + "px";
    item.append(element("span"), element("i"));
    if (row.title) titleRow(item, row.title, !closed.has(row.title)); else item.title = "Only the records of " + laneName(row.lane.lane, true);
    return item;
  }));
}
function titleRow(item, title, open) {
  item.className = "title"; item.title = "Show or hide these lanes";
  item.setAttribute("aria-expanded", open);
  item.firstChild.textContent = title; item.lastChild.textContent = open ? "\u25be" : "\u25b8";
}
function openOrClose(title) {
  if (!closed.delete(title)) closed.add(title);
  layRows(); makeNames(); markChosenLanes(); draw();
}
function tellShares() {
  const narrow = isNarrow();
  for (const row of rows) if (row.lane) {
    const [name, share] = row.item.children, text = laneName(row.lane.lane, !narrow), told = shareOf(row.lane);
    if (name.textContent !== text) name.textContent = text;
    if (share.textContent !== told) share.textContent = told;
  }
}
const isNarrow = () => $("names").clientWidth < 120;
const one = new Float64Array(CLASSES);   // for one column
function shareOf(lane) {
  const span = Math.min(view.span, n - view.from);
  if (span <= 0) return "";
  if (!lane.bars) {
    stepShares(lane, n, view.from, span, 1, one);
    return !one[4] ? "" : one[0] === one[1] ? String(one[0]) : one[0] + "\u2013" + one[1];
  }
  if (lane.lane >= CLOCK && lane.lane < HEAP) {
    const count = below(lane.marks, view.from + span) - below(lane.marks, view.from);
    return count ? count + "\u00d7" : "";
  }
  barShares(lane, n, view.from, span, 1, one);
  return percent(one[lane.lane === SWITCHES ? OFF : RUN]);
}
function percent(share) { return share <= 0 ? "" : share < .01 ? "<1 %" : Math.round(share * 100) + " %"; }
