// Tests of how the page is shown: on the wall, in a frame, as a file, to a breakpoint, and by a link.

import fs from "node:fs";
import path from "node:path";
import { pathToFileURL } from "node:url";
import { ADDRESS, PHONE, PROJECTOR, WALL, browser, check, choose, click, evaluate, native, press, put, script, step, textOf, valueOf } from "./drive.mjs";

const isSeen = (selector) => evaluate(`document.querySelector(${JSON.stringify(selector)}).getClientRects().length > 0`);

// Whether two buttons that stand in a row share a point.
const overlap = `(() => {
  const boxes = Array.from(document.querySelectorAll("#top button"), (it) => it.getBoundingClientRect()).filter(({ width }) => width > 0);
  return boxes.some((one, at) => boxes.slice(at + 1).some((other) => one.left < other.right && other.left < one.right && one.top < other.bottom && other.top < one.bottom));
})()`;

async function projector() {
  await browser.open(ADDRESS, PROJECTOR);
  await choose("A memory operation");
  await step(11);
  await press("p");
  const pixels = await evaluate(`parseFloat(getComputedStyle(document.querySelector("#drawing .passenger .code")).fontSize) * document.getElementById("drawing").getScreenCTM().a`);
  check("on the wall code has 16 pixels", pixels >= 16, `${pixels}`);
  const bottom = await evaluate("document.getElementById('drawing').getBoundingClientRect().bottom");
  check("and the drawing is on the screen", bottom <= PROJECTOR.height, `${bottom}`);
  check("the side panel is folded", !(await isSeen("aside")) && (await isSeen("#step")) && (await isSeen("#told")));
  await press("p");
  check("and comes back", await isSeen("aside"));
  await browser.open(ADDRESS, PHONE);
  await press("p");
  check("on a phone the controls are not over one another", await evaluate("document.documentElement.scrollWidth <= innerWidth && !" + overlap));
}

async function bare() {
  await browser.open(`${ADDRESS}?bare`, { width: 700, height: 480 });
  const seen = await evaluate("Array.from(document.querySelectorAll('button, select, input, textarea, p')).filter((it) => it.getClientRects().length > 0).map((it) => it.id)");
  check("a frame has the picture and the step alone", seen.join() === "back,step" && (await isSeen("#drawing")), seen.join());
  await click("step");
  check("it steps", (await script()).join() === "issue next");
  await browser.open(ADDRESS, WALL);
}

// The picture is saved as a file, which a browser opens by itself.
async function savedPicture() {
  await choose("Garnering: an");
  await step(5);
  const text = await evaluate(`new Promise((done) => {
    const make = URL.createObjectURL;
    URL.createObjectURL = (blob) => { blob.text().then(done); return make.call(URL, blob); };
    HTMLAnchorElement.prototype.click = () => {};
    document.getElementById("save-picture").click();
  })`);
  const file = path.join(native.folder, "pipeline.svg");
  fs.writeFileSync(file, text);
  await browser.call("Page.navigate", { url: pathToFileURL(file).href });
  await browser.until("document.documentElement?.localName === 'svg' && document.querySelector('.box') !== null");
  const box = "getComputedStyle(document.querySelector('.passenger .box'))";
  check("the picture opens by itself", (await evaluate("document.documentElement.getBoundingClientRect().width")) > 500);
  check("it has its colours", (await evaluate(`${box}.fill`)) === "rgb(219, 234, 254)", await evaluate(`${box}.fill`));
  check("it has what the drawing has", (await evaluate("document.documentElement.textContent")).includes("#1 addi x1, x1, 1"));
  fs.rmSync(file);
  await browser.open(ADDRESS, WALL);
}

async function breakpoints() {
  await choose("sorted");
  await put("stop-address", "0001000c", "input");
  await evaluate("document.getElementById('stop').dispatchEvent(new Event('input'))");
  await evaluate("document.getElementById('stop').requestSubmit()");
  await browser.until("document.getElementById('stopped').textContent.includes('issued')", 30);
  check("play stops where an address is issued", (await script()).at(-1) === "issue next" && (await textOf("drawing")).includes("fetch 00010010"));
  await put("stop-address", "", "input");
  await put("stop-retired", "3", "input");
  await evaluate("document.getElementById('stop').dispatchEvent(new Event('input'))");
  await evaluate("document.getElementById('stop').requestSubmit()");
  await browser.until("document.getElementById('stopped').textContent.includes('retired')", 30);
  check("and where so many have retired", (await textOf("progress")).includes("3 of 2213") && (await script()).at(-1) === "leave", await textOf("progress"));
  await put("stop-retired", "", "input");
  await evaluate("document.getElementById('stop').dispatchEvent(new Event('input'))");
}

async function wholeLinks() {
  await choose("Garnering: an");
  await step(3);
  const source = await valueOf("source");
  await click("share");
  await browser.until("location.hash.startsWith('#cfpp1.')");
  await browser.open(await evaluate("location.href"), WALL);
  check("a link keeps the source", source.includes("addi") && (await valueOf("source")) === source);
  check("and the moves made", (await script()).length === 3);
  await step(2);
  check("and those to come, with their captions", (await script()).at(-1) === "meet 2" && (await textOf("notes")).startsWith("They meet"));
  await press("i");
  await browser.open(ADDRESS, WALL);
}

export const shown = [projector, bare, savedPicture, breakpoints, wholeLinks];
