// Drives a headless Chromium by its DevTools over a pipe: opens a page, evaluates in it, presses keys, takes pictures.

import { spawn } from "node:child_process";
import fs from "node:fs";
import os from "node:os";
import path from "node:path";

const FLAGS = [
  "--headless=new", "--remote-debugging-pipe", "--no-sandbox", "--disable-gpu", "--no-first-run", "--hide-scrollbars",
  "--disable-dev-shm-usage",
];

// The numbers of keys that have no letter.
const KEYS = { ArrowLeft: 37, ArrowUp: 38, ArrowRight: 39, ArrowDown: 40, Home: 36, End: 35, Enter: 13 };

export class Browser {
  constructor(program) {
    this.profile = fs.mkdtempSync(path.join(os.tmpdir(), "page-"));
    const words = [...FLAGS, `--user-data-dir=${this.profile}`, "about:blank"];
    this.process = spawn(program, words, { stdio: ["ignore", "ignore", "ignore", "pipe", "pipe"] });
    this.number = 0;
    this.waiting = new Map();
    this.events = [];
    this.rest = "";
    this.process.stdio[4].setEncoding("utf8").on("data", (data) => this.take(data));
    this.process.on("exit", (status) => this.waiting.forEach((done) => done({ error: { message: `the browser ended with ${status}` } })));
  }

  take(data) {
    const parts = (this.rest + data).split("\0");
    this.rest = parts.pop();
    for (const part of parts) {
      const message = JSON.parse(part);
      if (!message.id) this.events.push(message);
      else this.waiting.get(message.id)(message);
    }
  }

  call(method, params = {}) {
    this.number += 1;
    const id = this.number;
    this.process.stdio[3].write(`${JSON.stringify({ id, method, params, sessionId: this.session })}\0`);
    return new Promise((done, fail) => {
      this.waiting.set(id, (message) => {
        this.waiting.delete(id);
        if (message.error) fail(new Error(`${method}: ${message.error.message}`));
        else done(message.result);
      });
    });
  }

  async open(address, { width = 1600, height = 1000, dark = false } = {}) {
    if (!this.session) {
      const { targetInfos } = await this.call("Target.getTargets");
      const { targetId } = targetInfos.find((target) => target.type === "page");
      this.session = (await this.call("Target.attachToTarget", { targetId, flatten: true })).sessionId;
      for (const domain of ["Page", "Runtime", "Log", "Network"]) await this.call(`${domain}.enable`);
    }
    await this.look({ width, height, dark });
    await this.call("Page.navigate", { url: "about:blank" });
    await this.call("Page.navigate", { url: address });
    await this.until("document.body?.dataset.ready !== undefined");
  }

  async look({ width, height, dark }) {
    await this.call("Emulation.setDeviceMetricsOverride", { width, height, deviceScaleFactor: 1, mobile: false });
    await this.call("Emulation.setEmulatedMedia", { features: [{ name: "prefers-color-scheme", value: dark ? "dark" : "light" }] });
  }

  async evaluate(expression) {
    const answer = await this.call("Runtime.evaluate", { expression, awaitPromise: true, returnByValue: true });
    if (answer.exceptionDetails) throw new Error(answer.exceptionDetails.exception?.description ?? answer.exceptionDetails.text);
    return answer.result.value;
  }

  async until(expression, seconds = 180) {
    for (const end = Date.now() + 1000 * seconds; Date.now() < end;) {
      if (await this.evaluate(expression)) return;
      await new Promise((done) => setTimeout(done, 50));
    }
    throw new Error(`this did not come: ${expression}`);
  }

  async press(key, modifiers = 0) {
    const number = KEYS[key] ?? key.toUpperCase().charCodeAt(0);
    const event = { key, windowsVirtualKeyCode: number, modifiers, text: key.length === 1 ? key : undefined };
    await this.call("Input.dispatchKeyEvent", { type: "keyDown", ...event });
    await this.call("Input.dispatchKeyEvent", { type: "keyUp", ...event });
  }

  // Clicks on the middle of an element, once nothing moves any more.
  async clickAt(selector) {
    const { x, y } = await this.evaluate(`(async () => {
      await Promise.all(document.getAnimations().map((one) => one.finished.catch(() => null)));
      const it = document.querySelector(${JSON.stringify(selector)});
      it.scrollIntoView({ block: "center" });
      const box = it.getBoundingClientRect();
      return { x: box.x + box.width / 2, y: box.y + box.height / 2 };
    })()`);
    for (const type of ["mousePressed", "mouseReleased"]) {
      await this.call("Input.dispatchMouseEvent", { type, x, y, button: "left", clickCount: 1 });
    }
  }

  async picture(file) {
    const { data } = await this.call("Page.captureScreenshot", { format: "png" });
    fs.writeFileSync(file, Buffer.from(data, "base64"));
  }

  // What went wrong by itself: exceptions, errors on the console, and requests but for the page itself.
  faults(address) {
    const isFault = ({ method, params }) => method === "Runtime.exceptionThrown" || (method === "Log.entryAdded" && params.entry.level === "error");
    const said = this.events.filter(isFault);
    const isForeign = (url) => !url.split(/[?#]/)[0].match(/\.svg$/) && url.split(/[?#]/)[0] !== address && url !== "about:blank" && !url.startsWith("blob:");
    const sent = this.events.filter(({ method }) => method === "Network.requestWillBeSent").map(({ params }) => params.request.url);
    const words = ({ params }) => params.exceptionDetails?.exception?.description ?? params.entry?.text ?? "an exception";
    return [...said.map(words), ...sent.filter(isForeign).map((url) => `request of ${url}`)];
  }

  async close() {
    const ended = new Promise((done) => this.process.on("exit", done));
    await this.call("Browser.close").catch(() => {});
    await ended;
    fs.rmSync(this.profile, { recursive: true, force: true });
  }
}
