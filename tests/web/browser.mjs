// Chromium without a window, driven over its debugging protocol by pipes: each message is JSON with a zero byte behind it.

import { spawn } from "node:child_process";
import { mkdtempSync, rmSync, writeFileSync } from "node:fs";
import { tmpdir } from "node:os";
import { join } from "node:path";

const FLAGS = ["--headless", "--no-sandbox", "--remote-debugging-pipe", "--disable-gpu", "--no-first-run", "--disable-extensions",
  "--disable-background-networking", "--disable-component-update", "--disable-sync", "--no-default-browser-check",
  "--disable-dev-shm-usage", "--lang=en-US", "--host-resolver-rules=MAP * ~NOTFOUND, EXCLUDE 127.0.0.1"];
const PATIENCE = 60_000 * Number(process.env.PATIENCE || 1);

/** What a browser is given in place of a file, by its address. */
export const given = new Map();

export const wait = (milliseconds) => new Promise((done) => { setTimeout(done, milliseconds); });

/** One Chromium; each page has a context of its own, as another person's browser has. */
export class Browser {
  constructor(program = process.env.CHROMIUM || "chromium") {
    this.folder = mkdtempSync(join(tmpdir(), "page-"));
    const words = [...FLAGS, `--user-data-dir=${this.folder}`, "about:blank"];
    this.process = spawn(program, words, { stdio: ["ignore", "ignore", "ignore", "pipe", "pipe"] });
    this.number = 0;
    this.waiting = new Map();
    this.pages = new Map();
    for (const pipe of this.process.stdio.slice(3)) pipe.on("error", () => {});
    let text = "";
    this.process.stdio[4].setEncoding("utf8").on("data", (piece) => {
      const messages = (text + piece).split("\0");
      text = messages.pop();
      messages.forEach((it) => this.take(JSON.parse(it)));
    });
    this.process.on("exit", () => this.waiting.forEach(({ fail }) => fail(new Error("Chromium has ended"))));
  }

  take(message) {
    const waiting = this.waiting.get(message.id);
    if (!waiting) return this.pages.get(message.sessionId)?.event(message.method, message.params, message.sessionId);
    this.waiting.delete(message.id);
    if (message.error) waiting.fail(new Error(`${waiting.method}: ${message.error.message}`));
    else waiting.done(message.result);
    return undefined;
  }

  call(method, params = {}, sessionId = undefined) {
    const id = ++this.number;
    this.process.stdio[3].write(`${JSON.stringify({ id, method, params, sessionId })}\0`);
    return new Promise((done, fail) => { this.waiting.set(id, { done, fail, method }); });
  }

  /** A page in a context of its own: `width`, `height`, `isDark`, `isMobile`. */
  async open(url, options = {}) {
    const { browserContextId } = await this.call("Target.createBrowserContext");
    const { targetId } = await this.call("Target.createTarget", { url: "about:blank", browserContextId });
    const { sessionId } = await this.call("Target.attachToTarget", { targetId, flatten: true });
    const page = new Page(this, sessionId, browserContextId);
    this.pages.set(sessionId, page);
    await page.begin(url, options);
    return page;
  }

  async close() {
    const ended = new Promise((done) => { this.process.on("exit", done); });
    this.call("Browser.close").catch(() => {});
    await Promise.race([ended, wait(5000).then(() => this.process.kill("SIGKILL"))]);
    rmSync(this.folder, { recursive: true, force: true, maxRetries: 5, retryDelay: 200 });
  }
}

/** A page and its workers: what they asked for, and what they wrote to the console. */
class Page {
  constructor(browser, session, context) {
    Object.assign(this, { browser, session, context, asked: [], console: [], statuses: [] });
  }

  call(method, params, session = this.session) {
    return this.browser.call(method, params, session);
  }

  async begin(url, { width = 1280, height = 800, isDark = false, isMobile = false }) {
    for (const domain of ["Page", "Runtime", "Log", "Network"]) await this.call(`${domain}.enable`);
    await this.call("Target.setAutoAttach", { autoAttach: true, waitForDebuggerOnStart: false, flatten: true });
    if (given.size) await this.call("Fetch.enable", { patterns: [...given.keys()].map((urlPattern) => ({ urlPattern })) });
    await this.call("Emulation.setDeviceMetricsOverride", { width, height, deviceScaleFactor: 1, mobile: isMobile });
    await this.scheme(isDark);
    await this.go(url);
  }

  scheme(isDark) {
    const features = [{ name: "prefers-color-scheme", value: isDark ? "dark" : "light" }];
    return this.call("Emulation.setEmulatedMedia", { features });
  }

  async go(url) {
    await this.call("Page.navigate", { url });
    await this.until("document.readyState === 'complete' && location.href !== 'about:blank'");
  }

  event(method, params) {
    if (method === "Target.attachedToTarget") {
      this.browser.pages.set(params.sessionId, this);
      for (const domain of ["Runtime", "Network"]) this.call(`${domain}.enable`, {}, params.sessionId).catch(() => {});
    }
    if (method === "Fetch.requestPaused") this.give(params);
    if (method === "Network.requestWillBeSent") this.asked.push(params.request);
    if (method === "Network.responseReceived") this.statuses.push([params.response.status, params.response.url]);
    if (method === "Runtime.exceptionThrown") this.console.push(params.exceptionDetails.exception?.description || "exception");
    if (method === "Runtime.consoleAPICalled" && ["error", "warning", "assert"].includes(params.type)) {
      this.console.push(params.args.map((it) => it.value ?? it.description).join(" "));
    }
    if (method === "Log.entryAdded" && params.entry.level === "error") {
      this.console.push(`${params.entry.text} ${params.entry.url || ""}`);
    }
  }

  give({ requestId, request }) {
    const body = given.get(request.url);
    const told = { responseCode: 200, responseHeaders: [{ name: "content-type", value: "application/json" }], body: btoa(body) };
    const called = body === undefined ? this.call("Fetch.continueRequest", { requestId }) : this.call("Fetch.fulfillRequest", { requestId, ...told });
    // The page may have gone on meanwhile.
    called.catch(() => {});
  }

  /** What an expression is in the page, or a function of these values. */
  async run(code, ...values) {
    const expression = typeof code === "function" ? `(${code})(${values.map((it) => JSON.stringify(it)).join()})` : code;
    const told = await this.call("Runtime.evaluate", { expression, awaitPromise: true, returnByValue: true, userGesture: true });
    if (told.exceptionDetails) throw new Error(told.exceptionDetails.exception?.description || told.exceptionDetails.text);
    return told.result.value;
  }

  /** Waits until it is true. */
  async until(code, ...values) {
    const end = Date.now() + PATIENCE;
    for (;;) {
      const isSo = await this.run(code, ...values).catch((fault) => {
        // The page is on its way to another.
        if (/navigat|destroyed|context/i.test(fault.message)) return false;
        throw fault;
      });
      if (isSo) return isSo;
      if (Date.now() > end) throw new Error(`waited for: ${code} ${JSON.stringify(values)}`);
      await wait(50);
    }
  }

  text(selector) {
    return this.run((it) => [...document.querySelectorAll(it)].map((e) => e.textContent).join(" | "), selector);
  }

  click(selector) {
    return this.run((it) => document.querySelector(it).click(), selector);
  }

  /** A key, with the text that it writes. */
  async key(key, text = undefined, modifiers = 0) {
    const code = { Tab: 9, Enter: 13, Escape: 27, Backspace: 8, ArrowLeft: 37, ArrowUp: 38, ArrowRight: 39, ArrowDown: 40 }[key];
    const event = { key, code: key, text, modifiers, windowsVirtualKeyCode: code };
    await this.call("Input.dispatchKeyEvent", { type: text ? "keyDown" : "rawKeyDown", ...event });
    await this.call("Input.dispatchKeyEvent", { type: "keyUp", ...event });
  }

  /** Text, as it is typed. */
  async type(text) {
    await this.call("Input.insertText", { text });
  }

  /** A click of the mouse, or a drag to another point. */
  async mouse(x, y, toX = x, toY = y) {
    const at = { button: "left", clickCount: 1, pointerType: "mouse" };
    await this.call("Input.dispatchMouseEvent", { type: "mouseMoved", x, y });
    await this.call("Input.dispatchMouseEvent", { type: "mousePressed", x, y, ...at });
    if (toX !== x || toY !== y) await this.call("Input.dispatchMouseEvent", { type: "mouseMoved", x: toX, y: toY, ...at, buttons: 1 });
    await this.call("Input.dispatchMouseEvent", { type: "mouseReleased", x: toX, y: toY, ...at });
  }

  async shot(file) {
    const { data } = await this.call("Page.captureScreenshot", { format: "png" });
    writeFileSync(file, Buffer.from(data, "base64"));
  }

  /** Signs in, and waits until the policies are there, and for an operator its fleet and verdicts. */
  async signIn(token) {
    await this.run((it) => {
      document.getElementById("token").value = it;
      document.getElementById("sign").requestSubmit();
    }, token);
    await this.until(async () => {
      const { state } = await import("/state.js");
      return state.me && state.readAt && (state.me.role === "author" || (state.fleet && state.judgedAt)) && true;
    });
    await wait(200);
  }

  close() {
    return this.browser.call("Target.disposeBrowserContext", { browserContextId: this.context });
  }
}
