// Tests of the page that a class would stumble over: what keeps the lesson, the seeds, the keys, the drawing in its place, each size.

import { ADDRESS, PROJECTOR, SIZES, WALL, browser, check, choose, click, evaluate, isHidden, press, put, script, step, textOf, valueOf } from "./drive.mjs";
import { scriptsOfPage } from "./native.mjs";

// A move by hand that is the script's next one goes on with the script, another one is a branch of it.
async function courses() {
  await choose("Garnering: an");
  await step(3);
  await browser.clickAt('#drawing [data-move="emit"]');
  check("the script's next move by hand goes on with it", !(await evaluate("document.getElementById('again').disabled")));
  check("its caption is there", (await textOf("notes")).startsWith("The register file answers"), await textOf("notes"));
  await press("Home");
  await step(1);
  await browser.clickAt('#drawing [data-move="emit"]');
  check("another one is a branch", !(await isHidden("branch")) && (await script()).join() === "issue next,emit", String(await script()));
  await press("b");
  check("one key comes back to the script", (await isHidden("branch")) && (await script()).join() === "issue next");
  await step(2);
  check("which goes on", (await script()).at(-1) === "issue next" && (await textOf("notes")).startsWith("So does the second"));
  await browser.clickAt("#example");
  await press("Escape");
  await evaluate(`(() => {
    const it = document.getElementById("example");
    it.dispatchEvent(new Event("pointerdown"));
    it.value = it.dataset.shown;
    it.dispatchEvent(new Event("change"));
  })()`);
  check("the shown example is begun anew", (await textOf("told")).includes("10 moves"), await textOf("told"));
  await evaluate("document.getElementById('example').blur()");
}

async function seeds() {
  const drawn = async (seed) => {
    await put("seed", seed, "input");
    await step(15);
    const moves = (await script()).join();
    await press("Home");
    return moves;
  };
  await choose("sorted");
  await put("schedule", "seed", "change");
  const [first, second, again] = [await drawn("1"), await drawn("2"), await drawn("1")];
  check("another seed makes other moves", first !== second && first === again, `${first}\n${second}`);
  await choose("Two orders of moves with one end, the first");
  check("a lesson's script comes by itself", (await valueOf("schedule")) === "script");
  await put("schedule", "seed", "change");
  const [one, other] = [await drawn("1"), await drawn("5")];
  check("seeds are drawn in a lesson too", one !== other, one);
  await put("schedule", "rule", "change");
}

// No placeholder of docs/ERRORS.md is left in what is said of any script's moves, nor of a layout that is refused.
async function placeholders() {
  const left = /\bxRR\b|\b[SLNKCGWR]\b/;
  await evaluate("document.getElementById('barred-details').open = true");
  let letters = 0;
  for (const { title } of scriptsOfPage()) {
    await choose(title);
    await click("forward");
    const told = (await textOf("barred")) + (await textOf("why"));
    check(`${title}: no placeholder`, !left.test(told), left.exec(told)?.[0]);
    letters += told.length;
  }
  check("bars were told", letters > 10000, `${letters}`);
  await evaluate("document.getElementById('barred-details').open = false");
  await put("layout", "lab/late_branch", "change");
  const told = await textOf("loaded");
  check("a layout's stages are told", told.includes("at stage 5, above stage 4") && !left.test(told.replace(/"[^"]*"/g, "")), told);
  check("the processor's name is that of the drawing", (await valueOf("layout")) !== "lab/late_branch");
}

async function keys() {
  await choose("Garnering: an");
  const shown = await valueOf("example");
  await evaluate("document.getElementById('example').focus()");
  await step(2);
  check("→ steps where an example was chosen by keys", (await valueOf("example")) === shown && (await script()).length === 2, String(await script()));
  await evaluate("document.activeElement.blur()");
  await choose("seven");
  await press("i", "c", "c");
  check("the chosen stage climbs along", (await script()).join() === "issue next,climb 1,climb 2", String(await script()));
}

const topOfDrawing = () => evaluate("document.getElementById('drawing').getBoundingClientRect().top + scrollY");

// The drawing's top is the same over all scripts and moves, and what is told has room.
async function steady() {
  for (const size of SIZES) {
    await browser.open(ADDRESS, size);
    const tops = new Set();
    let hasRoom = true;
    for (const { title } of scriptsOfPage()) {
      await choose(title);
      for (const at of [0, 1, 2]) {
        await click(["rewind", "step", "forward"][at]);
        tops.add(await topOfDrawing());
        hasRoom &&= await evaluate("document.getElementById('telling').scrollHeight <= document.getElementById('telling').clientHeight");
      }
    }
    check(`the drawing's top is the same over all scripts at ${size.width}`, tops.size === 1, [...tops].join());
    check(`what is told has room at ${size.width}`, hasRoom);
  }
}

const pixelsOf = (selector) => evaluate(`(() => {
  const it = document.querySelector(${JSON.stringify(selector)});
  return parseFloat(getComputedStyle(it).fontSize) * document.getElementById("drawing").getScreenCTM().a;
})()`);

// Both pipes are on the screen at each size, and what is written can be read.
async function sizes() {
  for (const size of SIZES) {
    await browser.open(ADDRESS, size);
    await choose("A memory operation");
    await step(12);
    const right = await evaluate("Math.max(...Array.from(document.querySelectorAll('#drawing .slot'), (it) => it.getBoundingClientRect().right))");
    const wide = await evaluate("document.documentElement.scrollWidth");
    check(`both pipes are on the screen at ${size.width}`, right > 0 && right <= size.width && wide <= size.width, `${right} ${wide}`);
    const code = await pixelsOf("#drawing .passenger .code");
    check(`code can be read at ${size.width}`, code >= 12, `${code}`);
  }
  await browser.open(ADDRESS, PROJECTOR);
  await choose("A memory operation");
  check("units can be read on a projector", (await pixelsOf("#drawing .units")) >= 10, `${await pixelsOf("#drawing .units")}`);
  await browser.call("Emulation.setEmulatedMedia", { media: "print" });
  await browser.call("Emulation.setDeviceMetricsOverride", { width: 718, height: 1000, deviceScaleFactor: 1, mobile: false });
  const wide = await evaluate("[document.documentElement.scrollWidth, document.getElementById('drawing').getBoundingClientRect().right]");
  check("a print fits", wide.every((right) => right <= 718), String(wide));
  await browser.call("Emulation.setEmulatedMedia", { media: "" });
  await browser.open(ADDRESS, WALL);
}

async function words() {
  await choose("Two orders of moves with one end, the first");
  check("no file is said to stand there", !(await textOf("notes")).includes("script"), await textOf("notes"));
  await choose("A memory operation");
  await step(11);
  check("launch does not say that it climbs", (await script()).at(-1) === "launch 4" && !(await textOf("told")).includes("climbs on"), await textOf("told"));
}

export const mended = [courses, seeds, placeholders, keys, steady, sizes, words];
