// What the tests of the page share: a browser that has it open, what it shows, what is done to it, and how many checks passed.

import path from "node:path";
import { pathToFileURL } from "node:url";
import { Browser } from "./browser.mjs";
import { Native, TOP } from "./native.mjs";

export const ADDRESS = pathToFileURL(path.join(TOP, "web/cfpp.html")).href;
export const WALL = { width: 1920, height: 1080 };
export const PROJECTOR = { width: 1280, height: 800 };
export const PHONE = { width: 390, height: 844 };
export const SIZES = [WALL, PROJECTOR, PHONE];

export const movesOf = (script) => script.split("\n").filter((line) => line && !line.startsWith("#"));

export const counts = { passed: 0, failed: 0 };

export function check(what, isRight, told = "") {
  counts[isRight ? "passed" : "failed"] += 1;
  if (!isRight) console.log(`failed: ${what} ${told}`);
}

export const browser = new Browser("chromium");
export const native = new Native();

// What the page shows, and what is done to it.
export const evaluate = (expression) => browser.evaluate(expression);
export const textOf = (id) => evaluate(`document.getElementById(${JSON.stringify(id)}).textContent`);
export const valueOf = (id) => evaluate(`document.getElementById(${JSON.stringify(id)}).value`);
export const click = (id) => evaluate(`document.getElementById(${JSON.stringify(id)}).click()`);
export const isHidden = (id) => evaluate(`document.getElementById(${JSON.stringify(id)}).hidden`);
export const script = async () => movesOf(await valueOf("script"));

export function put(id, value, event) {
  return evaluate(`(() => {
    const it = document.getElementById(${JSON.stringify(id)});
    it.value = ${JSON.stringify(value)};
    it.dispatchEvent(new Event(${JSON.stringify(event)}));
  })()`);
}

export async function choose(title) {
  const isIt = `(option) => option.text.startsWith(${JSON.stringify(title)}) && !option.hidden`;
  const value = await evaluate(`[...document.getElementById("example").options].find(${isIt}).value`);
  await put("example", value, "change");
}

export async function press(...keys) {
  for (const key of keys) await browser.press(key);
}

export async function step(times) {
  for (let at = 0; at < times; at += 1) await browser.press("ArrowRight");
}

// The moves that the native program makes.
export function movesOfRun(layout, program, options) {
  const { report } = native.call(["run", layout, path.join(TOP, program), "--show", "moves", ...options]);
  return [...report.toString().matchAll(/^move \d+ (.*)$/gm)].map(([, move]) => move);
}

// Loads a script, as from a file, and makes all its moves.
export async function playScript(moves) {
  const text = JSON.stringify(moves.map((move) => `${move}\n`).join(""));
  await evaluate(`(() => {
    const files = new DataTransfer();
    files.items.add(new File([${text}], "s"));
    const it = document.getElementById("script-file");
    it.files = files.files;
    it.dispatchEvent(new Event("change"));
  })()`);
  await browser.until("document.getElementById('told').textContent.includes('is ready')");
  await click("forward");
}
