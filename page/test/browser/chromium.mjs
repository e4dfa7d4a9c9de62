// A headless Chromium, led over its DevTools protocol. CHROMIUM is the browser.

import { spawn } from "node:child_process";
import { mkdtempSync, rmSync, writeFileSync } from "node:fs";
import { tmpdir } from "node:os";
import { join } from "node:path";
import { pageOf } from "../runs.mjs";

const chromium = process.env.CHROMIUM ?? "chromium";
const OPTIONS = ["--headless=new", "--no-sandbox", "--disable-gpu", "--hide-scrollbars", "--remote-debugging-port=0"];

/** What the page must not do, by the protocol's messages: a function gives the fault's text, or nothing. */
const FAULTS = {
  "Runtime.exceptionThrown": ({ exceptionDetails: { exception, text } }) => exception?.description ?? text,
  "Runtime.consoleAPICalled": ({ type, args }) => ["error", "warning"].includes(type) && JSON.stringify(args),
  "Log.entryAdded": ({ entry: { level, text } }) => level !== "info" && text,
  "Network.requestWillBeSent": ({ request: { url } }) => !/^(file|data|blob|about):/.test(url) && `asked for ${url}`,
};

export class Browser {
  waiting = new Map();
  faults = [];
  count = 0;
  loaded = () => {};

  static async start() {
    const browser = new Browser();
    browser.home = mkdtempSync(join(tmpdir(), "page-"));
    const options = [...OPTIONS, `--user-data-dir=${browser.home}/profile`, "about:blank"];
    browser.process = spawn(chromium, options, { stdio: ["ignore", "ignore", "pipe"] });
    const address = await browser.address();
    const pages = await (await fetch(`http://${address}/json`)).json();
    browser.socket = new WebSocket(pages.find(({ type }) => type === "page").webSocketDebuggerUrl);
    await new Promise((resolve) => (browser.socket.onopen = resolve));
    browser.socket.onmessage = ({ data }) => browser.hear(JSON.parse(data));
    for (const domain of ["Page", "Runtime", "Log", "Network"]) await browser.send(`${domain}.enable`);
    await browser.size(1400, 900);
    return browser;
  }

  address() {
    let said = "";
    return new Promise((resolve) => this.process.stderr.on("data", (data) => {
      said += data;
      const found = /DevTools listening on ws:\/\/([^/]+)/.exec(said);
      if (found) resolve(found[1]);
    }));
  }

  hear({ id, error, result, method, params }) {
    if (id) {
      const { resolve, reject } = this.waiting.get(id);
      this.waiting.delete(id);
      return error ? reject(new Error(error.message)) : resolve(result);
    }
    if (method === "Page.loadEventFired") this.loaded();
    const fault = FAULTS[method]?.(params);
    if (fault) this.faults.push(fault);
  }

  send(method, params = {}) {
    const id = ++this.count;
    this.socket.send(JSON.stringify({ id, method, params }));
    return new Promise((resolve, reject) => this.waiting.set(id, { resolve, reject }));
  }

  size(width, height) {
    return this.send("Emulation.setDeviceMetricsOverride", { width, height, deviceScaleFactor: 1, mobile: false });
  }

  /** Opens the page of an example, at a turn if one is given. */
  async open({ path }, turn = 1) {
    const file = join(this.home, "run.html");
    writeFileSync(file, pageOf(path));
    for (const url of ["about:blank", `file://${file}#turn=${turn}`]) { // a new hash alone would load nothing
      const loaded = new Promise((resolve) => (this.loaded = resolve));
      await this.send("Page.navigate", { url });
      await loaded;
    }
    await this.drawn();
  }

  /** Waits until the page has drawn what is asked for. */
  drawn() {
    return this.run("new Promise((go) => requestAnimationFrame(() => requestAnimationFrame(() => setTimeout(go, 0))))");
  }

  async run(expression) {
    const how = { expression, returnByValue: true, awaitPromise: true };
    const { result, exceptionDetails } = await this.send("Runtime.evaluate", how);
    if (exceptionDetails) throw new Error(exceptionDetails.exception?.description ?? exceptionDetails.text);
    return result.value;
  }

  async key(key, modifiers = 0) {
    const text = key.length === 1 ? { text: key } : {};
    await this.send("Input.dispatchKeyEvent", { type: "keyDown", key, modifiers, ...text });
    await this.send("Input.dispatchKeyEvent", { type: "keyUp", key, modifiers });
    await this.drawn();
  }

  async mouse(type, [x, y], more = {}) {
    await this.send("Input.dispatchMouseEvent", { type, x, y, ...more });
  }

  async click(place) {
    await this.mouse("mousePressed", place, { button: "left", clickCount: 1 });
    await this.mouse("mouseReleased", place, { button: "left", clickCount: 1 });
    await this.drawn();
  }

  /** A place in an element, from 0 to 1 across and down. */
  place(selector, x = 0.5, y = 0.5) {
    return this.run(`(() => {
      const one = document.querySelector(${JSON.stringify(selector)});
      one.scrollIntoView({ block: "center" });
      const box = one.getBoundingClientRect();
      return [box.left + box.width * ${x}, box.top + box.height * ${y}];
    })()`);
  }

  /** Sets a control to a value, as a user does. */
  choose(selector, value) {
    return this.run(`(() => {
      const one = document.querySelector(${JSON.stringify(selector)});
      one.value = ${JSON.stringify(value)};
      one.dispatchEvent(new Event(one.type === "range" ? "input" : "change"));
    })()`);
  }

  /** A picture, a PNG, of a part { x, y, width, height, scale } of the page. */
  async picture(clip) {
    const how = { format: "png", captureBeyondViewport: true, clip };
    return Buffer.from((await this.send("Page.captureScreenshot", how)).data, "base64");
  }

  async stop() {
    this.socket.close();
    const ended = new Promise((resolve) => this.process.on("exit", resolve));
    this.process.kill();
    await ended;
    rmSync(this.home, { recursive: true, force: true, maxRetries: 5 });
  }
}
