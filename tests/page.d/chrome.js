// A headless Chromium over a pipe (the DevTools protocol on descriptors 3 and 4): nothing goes over a network.
"use strict";
const { spawn } = require("child_process"), fs = require("fs"), os = require("os"), path = require("path");
const KEY_CODE = { Enter: 13, Escape: 27, PageUp: 33, PageDown: 34, End: 35, Home: 36, ArrowLeft: 37, ArrowUp: 38, ArrowRight: 39, ArrowDown: 40 };

class Chrome {
  constructor(program) {
    this.profile = fs.mkdtempSync(path.join(os.tmpdir(), "page-browser-"));
    const words = ["--headless=new", "--no-sandbox", "--disable-gpu", "--no-first-run", "--disable-background-networking",
      "--remote-debugging-pipe", "--user-data-dir=" + this.profile, "about:blank"];
    this.process = spawn(program, words, { stdio: ["ignore", "ignore", "ignore", "pipe", "pipe"] });
    this.count = 0; this.waiting = new Map(); this.errors = []; this.asked = [];
    let rest = Buffer.alloc(0);
    this.process.stdio[4].on("data", chunk => {
      rest = Buffer.concat([rest, chunk]);
      for (let at; (at = rest.indexOf(0)) >= 0; rest = rest.subarray(at + 1)) this.take(JSON.parse(rest.subarray(0, at).toString()));
    });
  }
  take(message) {
    if (message.id) {
      const [ok, no] = this.waiting.get(message.id);
      this.waiting.delete(message.id);
      if (message.error) no(new Error(message.error.message)); else ok(message.result);
    } else if (message.method === "Runtime.exceptionThrown") this.errors.push(message.params.exceptionDetails.exception.description);
    else if (message.method === "Log.entryAdded" && message.params.entry.level === "error") this.errors.push(message.params.entry.text);
    else if (message.method === "Network.requestWillBeSent") this.asked.push(message.params.request.url);
  }
  send(method, params = {}, session = this.session) {
    const id = ++this.count;
    this.process.stdio[3].write(JSON.stringify({ id, method, params, ...(session ? { sessionId: session } : {}) }) + "\0");
    return new Promise((ok, no) => this.waiting.set(id, [ok, no]));
  }
  // Opens a page in a window of that size, and says how many milliseconds it took until the first picture.
  async open(url, width = 1400, height = 900, { dark = false, touch = false, ratio = 1 } = {}) {
    if (this.session) await this.send("Target.closeTarget", { targetId: this.target }, null);
    this.target = (await this.send("Target.createTarget", { url: "about:blank" }, null)).targetId;
    this.session = (await this.send("Target.attachToTarget", { targetId: this.target, flatten: true }, null)).sessionId;
    for (const domain of ["Page", "Runtime", "Log", "Network"]) await this.send(domain + ".enable");
    await this.send("Emulation.setDeviceMetricsOverride", { width, height, deviceScaleFactor: ratio, mobile: touch });
    if (touch) await this.send("Emulation.setTouchEmulationEnabled", { enabled: true, maxTouchPoints: 2 });
    await this.send("Emulation.setEmulatedMedia", { features: [{ name: "prefers-color-scheme", value: dark ? "dark" : "light" }] });
    const begun = Date.now();
    await this.send("Page.navigate", { url });
    while (await this.value("document.readyState") !== "complete") await new Promise(ok => setTimeout(ok, 10));
    await this.frames(2);
    return Date.now() - begun;
  }
  async value(expression) {
    const { result, exceptionDetails } = await this.send("Runtime.evaluate", { expression, awaitPromise: true, returnByValue: true });
    if (exceptionDetails) throw new Error(expression + ": " + exceptionDetails.exception.description);
    return result.value;
  }
  frames(count) { return this.value(`new Promise(ok => { let left = ${count}; const next = () => left-- > 0 ? requestAnimationFrame(next) : ok(); next(); })`); }
  mouse(type, x, y, more = {}) { return this.send("Input.dispatchMouseEvent", { type, x, y, ...more }); }
  async point(x, y) { await this.mouse("mouseMoved", x, y); await this.frames(1); }
  async wheel(x, y, deltaY, more = {}) { await this.mouse("mouseWheel", x, y, { deltaX: 0, deltaY, ...more }); await this.frames(3); }
  click(x, y) { return this.drag(x, y, x, y); }
  async drag(x0, y0, x1, y1, modifiers = 0) {
    await this.mouse("mouseMoved", x0, y0);
    await this.mouse("mousePressed", x0, y0, { button: "left", clickCount: 1, modifiers });
    for (let i = 1; i <= 4 && (x0 !== x1 || y0 !== y1); i++)
      await this.mouse("mouseMoved", x0 + (x1 - x0) * i / 4, y0 + (y1 - y0) * i / 4, { button: "left", buttons: 1, modifiers });
    await this.mouse("mouseReleased", x1, y1, { button: "left", clickCount: 1, modifiers });
    await this.frames(3);
  }
  async touch(type, points) { await this.send("Input.dispatchTouchEvent", { type, touchPoints: points.map(([x, y], id) => ({ x, y, id })) }); }
  async key(key) {
    const letter = key === "Enter" ? "\r" : key.length === 1 ? key : "", code = { key, windowsVirtualKeyCode: KEY_CODE[key] };
    await this.send("Input.dispatchKeyEvent", { type: letter ? "keyDown" : "rawKeyDown", ...code, ...(letter ? { text: letter } : {}) });
    await this.send("Input.dispatchKeyEvent", { type: "keyUp", ...code });
    await this.frames(3);
  }
  async type(text) { for (const letter of text) await this.send("Input.insertText", { text: letter }); await this.key("Enter"); }
  async shot(file) { await this.frames(2); fs.writeFileSync(file, Buffer.from((await this.send("Page.captureScreenshot", { format: "png" })).data, "base64")); }
  async print(file) { fs.writeFileSync(file, Buffer.from((await this.send("Page.printToPDF", { preferCSSPageSize: true })).data, "base64")); }
  async end() {
    const ended = new Promise(ok => this.process.once("exit", ok));
    this.send("Browser.close", {}, null).catch(() => {});
    const late = setTimeout(() => this.process.kill(), 3000);
    await ended; clearTimeout(late);
    fs.rmSync(this.profile, { recursive: true, force: true, maxRetries: 5 });
  }
}
module.exports = { Chrome };
