// Drives the page in a headless Chromium: a lesson by keys and clicks, schedules, editors, links, and how long a move takes to draw.
//
//     node web/tests/page.mjs [FOLDER [PART..]]     puts pictures of the page into the folder; does these parts alone

import fs from "node:fs";
import path from "node:path";
import { ADDRESS, WALL, browser, check, choose, click, counts, evaluate, movesOfRun, native, playScript, press, put, script, textOf, valueOf } from "./drive.mjs";
import { beside } from "./beside.mjs";
import { goalParts } from "./goals.mjs";
import { mended } from "./mended.mjs";
import { TOP, scriptsOfPage } from "./native.mjs";
import { predicting } from "./predicting.mjs";
import { searching } from "./searching.mjs";
import { seen } from "./seen.mjs";
import { shown } from "./shown.mjs";

const [PICTURES, ...ONLY] = process.argv.slice(2);

const read = (name) => fs.readFileSync(path.join(TOP, name), "utf8");
const withoutRetired = (report) => report.replace(/^(retire|allowed|barred(?! at line)) .*\n/gm, "");

async function picture(name) {
  if (PICTURES) await browser.picture(path.join(PICTURES, `${name}.png`));
}

async function lesson() {
  check("a script waits to be played", (await textOf("told")).includes("10 moves"));
  await press("ArrowRight", "ArrowRight", "ArrowRight", "ArrowRight", "ArrowRight");
  check("a meeting is named", (await textOf("drawing")).includes("garner") && (await textOf("drawing")).includes("kill"));
  check("the script's comment is shown", (await textOf("notes")).startsWith("They meet"));
  check("the move is told", (await textOf("told")).includes("takes the value that it waited for"));
  await press("ArrowRight", "ArrowRight", "ArrowRight", "ArrowRight", "ArrowRight");
  check("the lesson's script was played", (await valueOf("script")) === read("examples/scripts/garnering.script"));
  check("its report is the stored one", withoutRetired(await textOf("report")) === read("examples/scripts/garnering.report"), await textOf("report"));
}

// Every script of the seven lessons, played to its end, prints the report that docs/LAB.md names. Where its last move is barred the page
// stands before that move, and says which bar it is.
async function lessons() {
  for (const { name, title, report } of scriptsOfPage()) {
    await choose(title);
    await click("forward");
    const [first, ...standing] = withoutRetired(await textOf("report")).split("\n");
    const [wanted, ...rest] = report.split("\n");
    const [, bar] = /^barred at line \d+: (\w+)/.exec(wanted) ?? [];
    check(`${name} prints its report`, standing.join() === rest.join() && (bar !== undefined || first === wanted));
    if (bar) check(`${name} ends with its bar`, (await textOf("why")).includes(bar), await textOf("why"));
  }
}

async function backAndForth() {
  const shown = await textOf("report");
  await press("ArrowLeft", "ArrowLeft");
  check("two moves are taken back", (await script()).length === 8);
  await press("ArrowRight", "ArrowRight");
  check("they are made again", (await textOf("report")) === shown);
  await press("Home");
  check("all are taken back", (await script()).length === 0);
}

async function byHand() {
  await choose("Two orders of moves with one end, the first");
  await press("Home", "m");
  check("a barred move says why", (await textOf("why")).includes("there is no instruction"), await textOf("why"));
  await press("i");
  check("a key issues", (await script()).join() === "issue next");
  await browser.clickAt('#drawing [data-stage="1"] [data-side="passenger"] [data-move="execute 1"]');
  check("a click on a move makes it", (await script()).at(-1) === "execute 1", String(await script()));
  await browser.clickAt('#drawing [data-stage="1"] .packet, #drawing [data-stage="1"] .passenger .code');
  check("a click on a stage makes its one move", (await script()).at(-1) === "send 1", String(await script()));
  await press("ArrowUp", "x");
  check("a barred move at the chosen stage says why", (await textOf("why")).includes("there is no instruction"), await textOf("why"));
  await press("o", "ArrowDown", "c", "v");
  check("keys alone retire an instruction", (await textOf("progress")).includes("1 of 2"), await textOf("progress"));
  check("and the two agree", (await textOf("agreement")).includes("1 of 1 lines are the same"));
  await evaluate("(() => { const it = document.querySelector('#moves button'); it.focus(); it.click(); })()");
  check("the keys stay in the list of moves", await evaluate("document.activeElement.closest('#moves') !== null"));
}

async function schedules() {
  await choose("seven");
  const played = async (options) => {
    await click("rewind");
    await evaluate(`(() => {
      const step = document.getElementById("step");
      for (let at = 0; at < 2000 && !step.disabled; at += 1) step.click();
    })()`);
    return movesOfRun("plain", "examples/seven.bin", options).join();
  };
  await choose("seven");
  const byRule = await played([]);
  check("the rule's moves are those of cfpp run", (await script()).join() === byRule);
  check("the end is told", (await textOf("ending")).includes("exit 7"), await textOf("ending"));
  await choose("seven");
  await put("schedule", "seed", "change");
  await put("seed", "9", "input");
  const bySeed = await played(["--seed", "9"]);
  check("a seed's moves are those of cfpp run", (await script()).join() === bySeed);
  await put("schedule", "rule", "change");
}

async function anyOrder() {
  await choose("fibonacci");
  await click("any-order");
  await browser.until("/^([5-9]|\\d\\d+) of/.test(document.getElementById('order-count').textContent)", 60);
  await click("any-order");
  check("random orders end as the sequential machine does", (await textOf("order-count")).includes("ended as the sequential machine did"));
}

async function editors() {
  await click("edit");
  await put("source", "        li a0, 7\n        foo x1\n", "input");
  const marked = await evaluate("document.querySelector('#source-lines .bad').textContent");
  check("the line of the first fault is marked", marked.trim() === "2");
  const fault = await textOf("source-fault");
  check("the fault is explained", fault.includes("no instruction, directive or label has this form"), fault);
  await put("source", "        li a0, 5\n        li a7, 93\n        ecall\n", "input");
  await click("use-source");
  check("the program is assembled", (await textOf("progress")).includes("exit 5"), await textOf("progress"));
  await put("toml", read("examples/layouts/tiny.toml").replace("stages = 2", "stages = 1"), "input");
  const refusal = await textOf("toml-fault");
  check("a layout's fault is explained", refusal.includes("a pipeline has 2 to 32 stages"), refusal);
  await put("toml", read("examples/layouts/cached.toml"), "input");
  await click("use-toml");
  check("a layout of one's own is drawn", (await evaluate("document.querySelectorAll('#drawing .stage').length")) === 2);
  await click("edit");
}

async function links() {
  await choose("seven");
  await press("i", "c", "x");
  const moves = (await script()).join();
  await click("share");
  await browser.until("location.hash.startsWith('#cfpp1.')");
  const link = await evaluate("location.href");
  await browser.open(link, WALL);
  check("a link brings the moves", (await script()).join() === moves && moves.split(",").length === 3, moves);
  await browser.open(`${ADDRESS}#cfpp1.AAAA`, WALL);
  check("a bad link is told", (await textOf("loaded")).includes("cannot be read"));
  await put("input", "x".repeat(1 << 20), "input");
  await click("use-input");
  await click("share");
  await browser.until("document.getElementById('shared').textContent.includes('too long')", 20);
}

async function hostile() {
  const text = "<img src=x onerror='document.title=1'>";
  await click("edit");
  await put("source", `${text}\n`, "input");
  await put("toml", `format = 1\n"${text}" = 1\n`, "input");
  await put("move-line", text, "input");
  await evaluate("document.getElementById('own-move').requestSubmit()");
  check("nothing typed becomes HTML", await evaluate("document.images.length === 0 && document.title === 'Counterflow pipeline'"));
  check("no message takes it as HTML", (await textOf("why")).includes("<img"), await textOf("why"));
  await click("edit");
}

const DEEP = `format = 1
stages = 32
lane = 64

[units]
add = [2, 5, 8, 11, 14, 20, 30]
logic = [3, 7, 11]
shift = [6, 12]
compare = [4, 9]
branch = [5]
jump = [4]

[[siding]]
classes = ["memory"]
launch = 6
recover = 12
cells = 4
`;

// Times of single moves at 32 stages after some 2,000 moves, layout of the drawing included.
async function speed() {
  await choose("sorted");
  await put("toml", DEEP, "input");
  await click("use-toml");
  fs.writeFileSync(path.join(native.folder, "deep.toml"), DEEP);
  const moves = movesOfRun("deep.toml", "examples/sorted.bin", ["--limit", "60"]).slice(0, 2000);
  await playScript(moves);
  const times = await evaluate(`(() => {
    const times = [];
    for (let at = 0; at < 40; at += 1) {
      const begun = performance.now();
      document.getElementById("step").click();
      document.getElementById("drawing").getBoundingClientRect();
      times.push(performance.now() - begun);
    }
    return times;
  })()`);
  const sorted = times.sort((one, other) => one - other);
  console.log(`a move at 32 stages after ${moves.length} moves: ${sorted[20].toFixed(1)} ms, at worst ${sorted[39].toFixed(1)} ms`);
  check("a move is drawn within 50 ms at 32 stages after 2,000 moves, at best", sorted[0] < 50, `${sorted[0]}`);
  await picture("deep");
}

// How many moves are played where the slider asks for 60 a second. How many come, is a matter of what else the machine does.
async function playing() {
  await choose("sorted");
  await put("speed", "60", "input");
  await click("play");
  await new Promise((done) => setTimeout(done, 5000));
  await click("play");
  const rate = parseInt(await textOf("told"), 10) / 5;
  console.log(`played at 60 a second: ${rate} moves a second`);
  check("moves are played", rate > 2, `${rate}`);
}

// The processor time of the page for each move that is played, on eight stages. On a machine that others use it is twice what it is alone,
// so that it is told, and only much more than that is a fault.
async function frames() {
  const time = async () => (await browser.call("Performance.getMetrics")).metrics.find(({ name }) => name === "TaskDuration").value;
  const count = async () => parseInt(await textOf("told"), 10);
  await choose("sorted");
  await browser.call("Performance.enable", { timeDomain: "threadTicks" });
  await evaluate("for (let at = 0; at < 100; at += 1) document.getElementById('step').click()");
  await put("speed", "60", "input");
  const [before, first] = [await time(), await count()];
  await click("play");
  await new Promise((done) => setTimeout(done, 4000));
  await click("play");
  const each = ((await time()) - before) / ((await count()) - first) * 1000;
  await browser.call("Performance.disable");
  console.log(`a move that is played takes ${each.toFixed(1)} ms of processor time, at ${((await count()) - first) / 4} moves a second`);
  check("a move that is played takes less than 40 ms", each < 40, `${each}`);
}

// How long the page takes until its first picture, at best of three times.
async function opening() {
  const times = [];
  for (let at = 0; at < 3; at += 1) {
    const begun = Date.now();
    await browser.open(ADDRESS, WALL);
    times.push(Date.now() - begun);
  }
  console.log(`the page opens in ${Math.min(...times)} ms`);
  check("the page opens within a second", Math.min(...times) < 1000, `${times}`);
}

async function looks() {
  for (const dark of [false, true]) {
    await browser.open(ADDRESS, { ...WALL, dark });
    await press("ArrowRight", "ArrowRight", "ArrowRight", "ArrowRight", "ArrowRight");
    await picture(`garnering-${dark ? "dark" : "light"}`);
    await choose("sorted");
    await playScript(movesOfRun("plain", "examples/sorted.bin", ["--limit", "7"]));
    await new Promise((done) => setTimeout(done, 400));
    await picture(`sorted-${dark ? "dark" : "light"}`);
  }
}

try {
  await browser.open(ADDRESS, WALL);
  await evaluate("document.getElementById('report-details').open = true");
  check("the page runs", (await evaluate("document.body.dataset.ready")) === "yes", await textOf("told"));
  for (const part of [lesson, backAndForth, lessons, byHand, schedules, anyOrder, editors, links, hostile, speed, frames, playing, opening, looks, ...mended, ...seen, ...shown, ...predicting, ...goalParts, ...beside, ...searching]) {
    if (ONLY.length === 0 || ONLY.includes(part.name)) await part();
  }
  const faults = browser.faults(ADDRESS);
  check("nothing went wrong, and nothing was requested", faults.length === 0, faults.slice(0, 3).join("\n"));
} finally {
  native.end();
  await browser.close();
}
console.log(`page: ${counts.passed} passed, ${counts.failed} failed`);
process.exitCode = counts.failed === 0 ? 0 : 1;
