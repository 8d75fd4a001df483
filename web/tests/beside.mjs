// Tests of two orders side by side, of rounds as steps, and of the time line.

import { PROJECTOR, WALL, ADDRESS, browser, check, choose, click, evaluate, press, put, script, step, textOf } from "./drive.mjs";
import { moduleOfPage, scriptsOfPage } from "./native.mjs";
import { text } from "../src/program.js";

async function twoOrders() {
  await browser.open(ADDRESS, PROJECTOR);
  await choose("Two orders of moves with one end, the first");
  await click("two-orders");
  const drawings = () => evaluate(`Array.from(document.querySelectorAll("#drawing, #second-drawing"), (it) => it.getBoundingClientRect())
    .map(({ left, right, top }) => [left, right, top])`);
  const [one, other] = await drawings();
  check("two drawings stand side by side", one[1] <= other[0] && other[1] <= PROJECTOR.width && one[2] === other[2], `${one} ${other}`);
  const chosen = await evaluate("document.getElementById('second-by').selectedOptions[0].text");
  check("the other order is the other script", chosen.includes("the second: both instructions at once"), chosen);
  await step(3);
  check("a step is one in both", (await textOf("second-told")) === "3. issue next", await textOf("second-told"));
  check("they have come to different places", (await textOf("compared")).includes("nothing has retired"), await textOf("compared"));
  await press("ArrowLeft");
  check("back is in both", (await textOf("second-told")) === "2. climb 1", await textOf("second-told"));
  await click("finish");
  const ends = "16 and 19 moves, 0 and 0 kills; 2 have retired in both, and the registers are the same. The pipes of both are empty.";
  check("the ends are compared", (await textOf("compared")) === ends, await textOf("compared"));
  await put("second-by", "seed", "input");
  await put("second-seed", "4", "input");
  await click("finish");
  check("a seed is an order too", /and the registers are the same|alike/.test(await textOf("compared")), await textOf("compared"));
  await click("two-orders");
  await browser.open(ADDRESS, WALL);
}

// A round of the page is one of `cfpp rounds`: as many lead to the end, with as many moves.
async function rounds() {
  const { files } = scriptsOfPage().find(({ name }) => name.endsWith("memory.script"));
  const bytes = (one) => new TextEncoder().encode(one);
  const answer = moduleOfPage().call(["rounds", "layout", "program"], { layout: bytes(files.layout), program: files.program });
  const [, wanted, moves] = /^rounds (\d+)\nmoves (\d+)$/m.exec(text(answer.report)).map(Number);
  await choose("A memory operation");
  await press("Home");
  let made = 0;
  for (; made < 200 && (await textOf("ending")) === ""; made += 1) await press("n");
  check("a round is one of cfpp rounds", made === wanted && (await script()).length === moves, `${made} of ${wanted}, ${(await script()).length} of ${moves}`);
}

const cells = (number) => evaluate(`(() => {
  const row = Array.from(document.querySelectorAll("#time tbody tr")).find((one) => one.textContent.startsWith("#${number} "));
  return Array.from(row.querySelectorAll("td"), (it) => it.textContent);
})()`);

async function timeLine() {
  await choose("Three sums that need nothing of one another, in 13");
  await evaluate("document.getElementById('time-details').open = true");
  await click("forward");
  const ticks = await evaluate("document.querySelectorAll('#time thead th').length - 1");
  check("the time line has the script's 13 rounds", ticks === 13, `${ticks}`);
  check("the first sum is issued, executed, sent, and leaves", (await cells(1)).join(",").startsWith("1,X,S,2,✓"), (await cells(1)).join());
  check("the third one leaves last", (await cells(3)).at(-1) === "✓", (await cells(3)).join());
  await choose("Garnering: an");
  await step(5);
  check("a meeting has its letters", (await cells(1)).join().includes("GK"), (await cells(1)).join());
  await evaluate("document.getElementById('time-details').open = false");
}

export const beside = [twoOrders, rounds, timeLine];
