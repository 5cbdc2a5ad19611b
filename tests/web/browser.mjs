/* Chromium without a window, driven by its DevTools protocol over a pipe: what a user does, and what the page then shows. */
import { spawn } from "node:child_process";
import { mkdtempSync, rmSync } from "node:fs";
import { tmpdir } from "node:os";
import { join } from "node:path";

const KEYS = {
  Tab: 9, Enter: 13, Escape: 27, " ": 32, PageUp: 33, PageDown: 34, End: 35, Home: 36, ArrowLeft: 37, ArrowUp: 38, ArrowRight: 39,
  ArrowDown: 40, Backspace: 8,
};

export class Browser {
  #process;
  #folder = mkdtempSync(join(tmpdir(), "pocsag-web-"));
  #number = 0;
  #waiting = new Map();
  #heard = new Map();

  constructor(program) {
    const flags = ["--headless=new", "--no-sandbox", "--disable-gpu", "--mute-audio", "--no-first-run", "--disable-background-networking",
      "--disable-component-update", "--disable-sync", "--remote-debugging-pipe", `--user-data-dir=${this.#folder}`, "about:blank"];
    this.#process = spawn(program, flags, { stdio: ["ignore", "ignore", "ignore", "pipe", "pipe"] });
    let held = "";
    this.#process.stdio[4].setEncoding("utf8").on("data", (text) => {
      const parts = (held + text).split("\0");
      held = parts.pop();
      for (const part of parts) this.#take(JSON.parse(part));
    });
  }

  #take({ id, result, error, method, params, sessionId }) {
    if (id === undefined) {
      this.#heard.get(sessionId)?.(method, params);
      return;
    }
    const { done, failed } = this.#waiting.get(id);
    this.#waiting.delete(id);
    if (error) failed(new Error(error.message));
    else done(result);
  }

  send(method, params = {}, sessionId = undefined) {
    const id = ++this.#number;
    this.#process.stdio[3].write(JSON.stringify({ id, method, params, sessionId }) + "\0");
    return new Promise((done, failed) => this.#waiting.set(id, { done, failed }));
  }

  /* A page of this address, of so many pixels. */
  async open(url, width = 1280, height = 1000) {
    const { targetId } = await this.send("Target.createTarget", { url: "about:blank" });
    const { sessionId } = await this.send("Target.attachToTarget", { targetId, flatten: true });
    const page = new Page(this, sessionId);
    this.#heard.set(sessionId, (method, params) => page.hear(method, params));
    for (const domain of ["Page", "Runtime", "Log", "Network"]) await page.send(`${domain}.enable`);
    await page.size(width, height);
    await page.send("Browser.setDownloadBehavior", { behavior: "allow", downloadPath: this.#folder, eventsEnabled: true });
    page.downloads = this.#folder;
    await page.send("Page.navigate", { url });
    return page;
  }

  /* How many seconds processors were busy with its processes. */
  async busy() {
    return (await this.send("SystemInfo.getProcessInfo")).processInfo.reduce((sum, { cpuTime }) => sum + cpuTime, 0);
  }

  close() {
    this.#process.kill();
    return new Promise((done) => this.#process.on("exit", () => {
      try {
        rmSync(this.#folder, { recursive: true, force: true, maxRetries: 20 });
      } catch (error) {
        if (error.code !== "ENOTEMPTY") throw error; // a child of the browser that still writes is no fault of the page
      }
      done();
    }));
  }
}

class Page {
  errors = [];
  downloaded = 0;
  requests = [];

  constructor(browser, session) {
    [this.browser, this.session] = [browser, session];
  }

  hear(method, params) {
    if (method === "Runtime.exceptionThrown") this.errors.push(params.exceptionDetails.exception?.description ?? params.exceptionDetails.text);
    if (method === "Runtime.consoleAPICalled" && ["error", "warning"].includes(params.type)) this.errors.push(JSON.stringify(params.args));
    if (method === "Log.entryAdded" && params.entry.level === "error") this.errors.push(params.entry.text);
    if (method === "Browser.downloadProgress" && params.state === "completed") this.downloaded++;
    if (method === "Network.requestWillBeSent") this.requests.push(params.request.url);
  }

  send(method, params) {
    return this.browser.send(method, params, this.session);
  }

  size(width, height) {
    return this.send("Emulation.setDeviceMetricsOverride", { width, height, deviceScaleFactor: 1, mobile: false });
  }

  /* What an expression gives in the page. */
  async value(expression) {
    const { result, exceptionDetails } = await this.send("Runtime.evaluate", { expression, returnByValue: true, awaitPromise: true, userGesture: true });
    if (exceptionDetails) throw new Error(`${expression}: ${exceptionDetails.exception?.description}`);
    return result.value;
  }

  text(selector) {
    return this.value(`document.querySelector(${JSON.stringify(selector)})?.textContent`);
  }

  /* Waits until an expression holds; whether it came to that. */
  async comes(expression, seconds = 120) {
    for (const end = Date.now() + 1000 * seconds; Date.now() < end; await new Promise((done) => setTimeout(done, 20))) {
      if (await this.value(expression).catch(() => false)) return true; // what it names may not be there yet
    }
    return false;
  }

  /* Where the middle of an element is, brought into view, once it stands still. */
  async middle(selector) {
    const place = () => this.value(`(() => { const it = document.querySelector(${JSON.stringify(selector)}); it.scrollIntoView({ block: "center" });
      const { left, top, width, height } = it.getBoundingClientRect(); return [left + width / 2, top + height / 2]; })()`);
    for (let before = await place(), tries = 0; ; tries++) {
      await new Promise((next) => setTimeout(next, 30));
      const after = await place();
      if (tries === 50 || (after[0] === before[0] && after[1] === before[1])) return after;
      before = after;
    }
  }

  async mouse(type, [x, y], given = {}) {
    await this.send("Input.dispatchMouseEvent", { type, x, y, ...given });
  }

  async click(selector) {
    const place = await this.middle(selector);
    await this.mouse("mouseMoved", place);
    for (const type of ["mousePressed", "mouseReleased"]) await this.mouse(type, place, { button: "left", clickCount: 1 });
  }

  async pointAt(selector) {
    await this.mouse("mouseMoved", await this.middle(selector));
  }

  /* Types into what has the focus. */
  type(text) {
    return this.send("Input.insertText", { text });
  }

  async key(key, modifiers = 0) {
    const code = KEYS[key] ?? key.toUpperCase().charCodeAt(0), text = key === "Enter" ? "\r" : key.length === 1 ? key : undefined;
    for (const type of ["keyDown", "keyUp"]) {
      const said = type === "keyDown" && !modifiers ? { text } : {};
      await this.send("Input.dispatchKeyEvent", { type, key, code: key, windowsVirtualKeyCode: code, modifiers, ...said });
    }
  }

  /* Fills a field anew. */
  async fill(selector, text) {
    await this.value(`document.querySelector(${JSON.stringify(selector)}).focus()`);
    await this.key("a", 2);
    await this.type(text);
  }

  async choose(selector, value) {
    await this.value(`(() => { const it = document.querySelector(${JSON.stringify(selector)}); it.value = ${JSON.stringify(value)};
      it.dispatchEvent(new Event("input", { bubbles: true })); it.dispatchEvent(new Event("change", { bubbles: true })); })()`);
  }

  async picture() {
    return Buffer.from((await this.send("Page.captureScreenshot", { format: "png" })).data, "base64");
  }
}
