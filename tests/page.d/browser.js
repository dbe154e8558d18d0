// browser.js CHROMIUM FOLDER SHOTS: opens the pages of FOLDER (small, long, damaged and empty .html) in a browser and tries them by wheel, pointer, keys and fingers.
// SHOTS is a folder for pictures of them, or empty. The last line is `N passed, M failed`, the status 1 where one failed.
"use strict";
const fs = require("fs"), path = require("path"), { Chrome } = require("./chrome.js");
const [program, folder, shots] = process.argv.slice(2);
const chrome = new Chrome(program);
const url = (name, hash = "") => "file://" + path.join(folder, name + ".html") + hash;
let passed = 0, failed = 0;
function check(what, ok, told = "") { if (ok) passed++; else { failed++; console.log("FAILED " + what + (told === "" ? "" : ": " + told)); } }
const near = (a, b, by) => Math.abs(a - b) <= by;
const get = expression => chrome.value(expression);
const seen = () => get("({ from: view.from, span: view.span, picked: view.picked, n, wide })");
const said = () => get("$('said').textContent");
async function place(id) { return get(`(() => { const r = $("${id}").getBoundingClientRect(); return { x: r.left, y: r.top, w: r.width, h: r.height }; })()`); }

async function whole() {
  await chrome.open(url("small"));
  const v = await seen();
  check("opens on the whole log", v.from === 0 && v.span === v.n);
  check("the log's name is shown as it is", await get("$('title').textContent === shared.title && shared.title.includes('</script>')"));
  check("no word of the name became an element", await get("!document.querySelector('h1 *') && !window.broken"));
  const names = await get("[...document.querySelectorAll('#names span')].map(s => s.textContent)");
  for (const name of ["Interrupt", "Swi 0", "Task 1", "Semaphore 0", "Event 0", "Mailbox 0", "Clock 0", "Heap"]) check("a lane: " + name, names.includes(name));
}
async function wheelAndDrag() {
  const box = await place("view"), x = Math.round(box.x + box.w * .3), y = box.y + 60, under = () => get(`recordAt(${x - box.x})`);
  const before = await under(), wide = (await seen()).span;
  await chrome.wheel(x, y, -240); await chrome.wheel(x, y, -240);
  check("the wheel zooms in around the pointer", near(await under(), before, .5) && (await seen()).span < wide * .5);
  await chrome.wheel(x, y, 120);
  check("and out around it", near(await under(), before, .5));
  const v = await seen();
  await chrome.drag(x, y, x - 80, y);
  check("a drag moves the picture", near((await seen()).from, v.from + 80 / v.wide * v.span, 1) && near((await seen()).span, v.span, .001));
  await chrome.drag(x, y, x + 100, y, 8);
  check("Shift and drag sees an area", near((await seen()).span, v.span * 100 / v.wide, 1));
  const top = (await place("ruler")).y;
  await get("$('lanes').scrollTop = 200, new Promise(requestAnimationFrame)");
  check("the ruler stays while the lanes scroll", (await place("ruler")).y === top && await get("$('lanes').scrollTop") > 0);
  await get("$('lanes').scrollTop = 0");
  await chrome.key("0");
  const names = await place("names"), lanes = await get("rows.length");
  await chrome.click(names.x + 30, names.y + 12);
  check("a group of lanes closes", await get("rows.length") < lanes && await get("rows[1].title === 'Objects'"));
  await chrome.click(names.x + 30, names.y + 12);
  check("and opens", await get("rows.length") === lanes);
}
async function hoverAndClick() {
  await get("show(100, 60)"); await chrome.frames(3);
  const box = await place("view"), k = Math.floor(await get(`recordAt(${box.w / 2})`));
  await chrome.point(box.x + box.w / 2, box.y + 40);
  const tip = await get("$('tip').hidden ? '' : $('tip').innerText"), words = await get(`wordsOf(log, ${k}).join('\\n')`);
  check("resting the pointer tells record, tick, caller, call and result", tip.startsWith(`Record ${k + 1}, tick `) && / by [TSI]/.test(tip) && tip.includes(words), tip);
  await chrome.click(box.x + box.w / 2, box.y + 40);
  check("a click picks the record", (await seen()).picked === k && (await get("$('details').innerText")).startsWith(`Record ${k + 1}, tick `));
  await new Promise(ok => setTimeout(ok, 250));
  check("and puts it into the address", (await get("location.hash")) === "#" + (k + 1));
  await get("show(0, END)"); await chrome.frames(3);
  await chrome.point(box.x + box.w / 2, box.y + 40);
  const many = await get("$('tip').innerText");
  check("where a pixel holds many records the tip tells shares", /^Records \d/.test(many) && /Interrupt: .* %|Interrupt: nothing/.test(many), many);
}
async function keys() {
  for (const [key, wanted] of [["Home", "0"], ["End", "n - 1"], ["ArrowRight", "0"], ["ArrowLeft", "n - 1"]]) {
    await chrome.open(url("small"));
    await chrome.key(key);
    check(`${key} where nothing is picked`, await get(`view.picked === ${wanted}`));
  }
  await chrome.open(url("small", "#120"));
  const v = await seen();
  check("#120 opens record 120", v.picked === 119 && v.from <= 119 && 119 < v.from + v.span && v.span < v.n);
  const after = async (key, wanted, told = key) => {
    await chrome.key(key);
    const is = (await seen()).picked;
    check(told, is === wanted, `record ${is + 1}, not ${wanted + 1}`);
  };
  await after("ArrowRight", 120); await after("ArrowLeft", 119); await after("ArrowDown", 120); await after("ArrowUp", 119);
  await after("End", v.n - 1); await after("Home", 0);
  await chrome.key("PageDown");
  const page = (await seen()).picked;
  check("Page Down goes a screen of the list on", page > 5 && page < 60);
  await after("PageUp", 0, "Page Up goes back");
  const span = (await seen()).span;
  await chrome.key("+"); check("+ zooms in", (await seen()).span < span);
  await chrome.key("-"); check("- zooms out", near((await seen()).span, span, 1));
  const troubles = await get("[...log.troubles]"), first = troubles.find(k => k > 0);
  await after("n", first, "n goes to the next refusal or not met");
  await after("n", troubles[troubles.indexOf(first) + 1], "n again");
  await after("N", first, "N goes back");
  await get(`pick(${troubles[troubles.length - 1]})`);
  await after("n", troubles[0], "after the last one n starts again");
  check("and says so", (await said()).includes("from the start again"));
  await get("location.hash = '#77'"); await chrome.frames(4);
  check("another address goes there", (await seen()).picked === 76);
}
async function search() {
  const find = async text => {
    await chrome.key("/");
    await get("$('what').value = ''");
    await chrome.type(text);
    for (let i = 0; i < 50 && await get("search !== null"); i++) await chrome.frames(2);
    return (await seen()).picked;
  };
  check("search by number", await find("42") === 41);
  check("/ goes to the field", await get("document.activeElement === $('what')"));
  await chrome.key("Escape");
  const tick = await get("log.tick[n >> 1]");
  check("search by tick", await find("tick " + tick) === await get(`log.tick.indexOf(${tick})`));
  await chrome.key("Escape"); await get("pick(0)");
  check("search by thread", await get(`chosen(log, 1, -1, '').includes(${await find("T1")})`));
  await chrome.key("Escape"); await get("pick(0)");
  const hit = await find("pend semaphore");
  check("search by words", hit > 0 && (await get(`wordsOf(log, ${hit})[0]`)).includes("pend semaphore"));
  check("says how many", /^found: [\d,]+ of [\d,]+$/.test(await said()));
  await chrome.key("Enter");
  check("Enter finds the next one", (await seen()).picked > hit);
  await find("no such words");
  check("says that nothing is found", (await said()) === "nothing found");
  await chrome.key("Escape");
  await find("9999999");
  check("says which numbers there are", (await said()).startsWith("records go from 1 to "));
  await chrome.key("Escape");
}
// In the page: the rows that are there, and how many the list says it has.
const HELP = "window.shownRows = () => [...document.querySelectorAll('#rows .r:not([hidden])')]; window.rowCount = () => Number($('list').getAttribute('aria-rowcount'))";
async function list() {
  await chrome.open(url("small"));
  await get(HELP);
  check("few rows are there", await get("document.querySelectorAll('#rows .r').length") < 80);
  check("the list is a grid and says how many rows it has", await get("$('list').getAttribute('role') === 'grid' && rowCount() === n + 1"));
  check("its rows are real text with roles", await get("shownRows().every(r => r.getAttribute('role') === 'row' && r.textContent)"));
  const { nodes } = await chrome.send("Accessibility.getFullAXTree");
  const cells = nodes.filter(node => node.role && node.role.value === "gridcell").map(node => node.name ? node.name.value : "");
  check("a screen reader has them", cells.some(text => /create|yield|set|post/.test(text)));
  await get("show(1000, 300)"); await chrome.frames(4);
  check("the list follows the picture", near(await get("view.listFrom"), 1000, 2));
  await get("$('list').scrollTop = 100 * rowHigh"); await chrome.frames(4);
  check("scrolling the list leaves the picture", near(await get("view.listFrom"), 100, 2) && (await seen()).from === 1000);
  const box = await place("list");
  await chrome.click(box.x + 60, box.y + 10 + 24 * 3);
  const v = await seen();
  check("a click on a row picks it, and the picture goes there", near(v.picked, 103, 1) && v.picked >= v.from && v.picked < v.from + v.span);
  await get("$('list').scrollTop = 1e9"); await chrome.frames(4);
  check("the last row is the log's end", (await get("shownRows().pop().textContent")).startsWith("end of the log"));
}
const CHOICES = [
  ["byThread", "2", "callerOf(log, k) === 2 || log.object[k] === 3 || log.lanes[2].changed.includes(k)"],
  ["byObject", "49", "log.object[k] === 50 || log.lanes[49].changed.includes(k)"],
  ["byResult", "refused", "log.texts[log.text[k]].code > 0"],
  ["byResult", "3", "log.texts[log.text[k]].code === 3"],
  ["byResult", "11", "log.texts[log.text[k]].code === 11"],
];
const CODES = { 3: "an object number outside its table", 11: "an object not in use" }, TABLES = ["", "tasks", "Swis", "semaphores", "events", "mailboxes", "clocks"];
// The choice, the tip and the details of records with a code, whose answers' values name tables.
async function answers(code) {
  const chosen = await get("[...view.chosen]");
  check(`the choice of code ${code} says what it means`, (await get("$('byResult').selectedOptions[0].textContent")) === `Code ${code}: ${CODES[code]} (${chosen.length})`);
  check(`the tip of many records counts code ${code}`, (await get("rangeTip(0, n).map(line => line[0]).join(';')")).includes(`${chosen.length} with code ${code}`));
  for (const k of chosen.slice(0, 12)) {
    const table = await get(`pick(${k}), log.texts[log.text[${k}]].table`), details = await get("$('details').innerText");
    check(`the details of record ${k + 1} name its table`, TABLES[table] && details.includes(`, code ${code} (${CODES[code]}), outcome 0, value ${table} (${TABLES[table]}). After it:`), details);
  }
}
async function choosing() {
  const set = async (id, value) => { await get(`$('${id}').value = '${value}', $('${id}').dispatchEvent(new Event('change'))`); await chrome.frames(4); };
  for (const [id, value, test] of CHOICES) {
    await set(id, value);
    check(`only some records: ${id} ${value}`, await get(`view.chosen.length > 0 && [...view.chosen].every(k => ${test}) && rowCount() === view.chosen.length + 1`));
    await chrome.key("Home");
    check("Home is the first of them", await get("view.picked === view.chosen[0]"));
    await chrome.key("ArrowDown");
    check("the arrow goes to the next of them", await get("view.picked === view.chosen[1]"));
    await chrome.key("End");
    check("End is the last of them", await get("view.picked === view.chosen[view.chosen.length - 1]"));
    if (value in CODES) await answers(value);
    await set(id, "");
  }
}
async function overview() {
  await get("show(0, END)"); await chrome.frames(3);
  const box = await place("overview"), y = box.y + box.h / 2, at = share => box.x + box.w * share;
  await chrome.drag(at(.4), y, at(.5), y);
  let v = await seen();
  check("a drag on the overview sees that part", near(v.from, v.n * .4, v.n * .01) && near(v.span, v.n * .1, v.n * .01));
  await chrome.drag(at(.45), y, at(.65), y);
  v = await seen(); check("its frame moves", near(v.from, v.n * .6, v.n * .01) && near(v.span, v.n * .1, v.n * .01));
  await chrome.drag(at(.7), y, at(.9), y);
  v = await seen(); check("and stretches by its edge", near(v.from, v.n * .6, v.n * .01) && near(v.span, v.n * .3, v.n * .01));
}
// The picture's own pixels: how much of a lane is filled with the colour of 'runs', against the share of the records.
const FILLED = `(lane => {
  const row = rows.find(r => r.lane && r.lane.lane === lane), W = $("view").width, ratio = W / wide, top = Math.round((row.top + 4) * ratio);
  const data = $("view").getContext("2d").getImageData(0, top, W, Math.round((row.height - 8) * ratio)).data;
  const filled = new Uint32Array(data.buffer).filter(p => p === pixel.run).length / (data.length / 4);
  barShares(row.lane, n, 0, n, 1, one);
  return [filled, one[RUN]];
})`;
async function pixelShares() {
  for (const name of ["small", "long"]) {
    await chrome.open(url(name));
    for (const lane of ["INTERRUPT", "0"]) {
      const [drawn, wanted] = await get(`${FILLED}(${lane})`);
      check(`${name}: lane ${lane} is filled by its share`, near(drawn, wanted, .03), `drawn ${drawn.toFixed(3)}, share ${wanted.toFixed(3)}`);
    }
  }
}
const FRAMES = `(async () => {
  const took = [];
  for (let i = 0; i < 60; i++) {
    if (i < 20) zoom(.8, 300); else if (i < 40) zoom(1.25, 400); else show(i * n / 80, n / 20);
    const begun = performance.now();
    drawNow();
    took.push(performance.now() - begun);
    await new Promise(requestAnimationFrame);
  }
  return took.sort((a, b) => a - b);
})()`;
async function timing() {
  const opened = await chrome.open(url("long"));
  const took = await get(FRAMES);
  console.log(`${await get("many(n, 'record')")}: open ${opened} ms; a frame ${took[30].toFixed(1)} ms in the middle, ${took[56].toFixed(1)} ms at 95 %, ${took[59].toFixed(1)} ms the slowest`);
  check("19 frames of 20 take less than 50 ms", took[56] < 50);
  await chrome.open(url("long", "#77777"));
  check("the long log opens at a record", (await seen()).picked === 77776 && await get("view.listFrom <= 77776 && view.listTo >= 77776"));
}
async function damagedAndEmpty() {
  await chrome.open(url("damaged"));
  check("a damaged log says so on top", await get("$('sum').className === 'bad' && $('sum').textContent.includes('the log is damaged at byte')"));
  await get("$('list').scrollTop = 1e9"); await chrome.frames(4);
  check("and at the end of the list", (await get("document.querySelector('.r.end.bad:not([hidden])').textContent")).startsWith("the log is damaged at byte"));
  check("and in the picture", await get("END > n"));
  await chrome.open(url("empty"));
  check("an empty log says so", (await get("document.querySelector('main').innerText")).startsWith("The log is empty"));
}
async function dark() {
  await chrome.open(url("small"), 1400, 900, { dark: true });
  check("dark where the system is", await get("document.documentElement.dataset.theme === 'dark' && getComputedStyle(document.body).backgroundColor === 'rgb(18, 24, 31)'"));
  await get("$('theme').click()");
  check("and light by the switch", await get("document.documentElement.dataset.theme === 'light'"));
  await get("localStorage.clear()");
}
async function narrow() {
  await chrome.open(url("small"), 390, 844, { touch: true, ratio: 2 });
  check("390 pixels are enough", await get("document.documentElement.scrollWidth <= 390 && $('view').clientWidth > 250 && $('list').clientHeight > 150"));
  const small = await get("[...document.querySelectorAll('header button, header select, header input')].filter(b => b.getBoundingClientRect().height < 32).length");
  check("what is pressed is big enough", small === 0);
  const box = await place("view"), y = box.y + 60, at = (...xs) => xs.map(x => [box.x + x, y]);
  for (const [type, points] of [["touchStart", at(100, 150)], ["touchMove", at(60, 190)], ["touchMove", at(40, 210)], ["touchEnd", []]]) await chrome.touch(type, points);
  await chrome.frames(3);
  const v = await seen();
  check("two fingers zoom", v.span < v.n * .5);
  for (const [type, points] of [["touchStart", at(150)], ["touchMove", at(120)], ["touchMove", at(90)], ["touchEnd", []]]) await chrome.touch(type, points);
  await chrome.frames(3);
  check("one finger moves", (await seen()).from > v.from);
}
async function print() {
  await chrome.open(url("small", "#120"), 1400, 900, { dark: true });
  await get("beforePrint()");
  check("print is light", await get("document.documentElement.dataset.theme === 'light'"));
  check("it has all lanes, and the records as a table", await get("$('view').clientHeight >= tall - 1 && document.querySelectorAll('#printed tbody tr').length > 20"));
  await get("afterPrint()");
  await chrome.frames(2);
  check("and leaves nothing behind", await get("document.documentElement.dataset.theme === 'dark' && !document.getElementById('printed')"));
}
async function pictures() {
  if (!shots) return;
  fs.mkdirSync(shots, { recursive: true });
  for (const file of fs.readdirSync(folder).filter(f => f.endsWith(".html"))) {
    const name = file.slice(0, -5);
    for (const [width, height, dark] of [[1400, 900, false], [1400, 900, true], [390, 844, false]]) {
      await chrome.open(url(name), width, height, { dark, touch: width < 600, ratio: width < 600 ? 2 : 1 });
      await chrome.shot(path.join(shots, `${name}-${width}${dark ? "-dark" : ""}.png`));
    }
    await chrome.open(url(name)); await chrome.print(path.join(shots, name + ".pdf"));
  }
}

(async () => {
  try {
    const parts = [whole, wheelAndDrag, hoverAndClick, keys, search, list, choosing, overview, pixelShares, timing, damagedAndEmpty, dark, narrow, print];
    for (const part of parts) await part();
    check("no error in the console", chrome.errors.length === 0, chrome.errors.join("; "));
    check("nothing was asked of a network", chrome.asked.every(u => u.startsWith("file://") || u.startsWith("about:")), chrome.asked.join(" "));
    await pictures();
  } catch (error) { check("a part that ended early", false, error.stack); }
  await chrome.end();
  console.log(`${passed} passed, ${failed} failed`);
  process.exitCode = failed ? 1 : 0;
})();
