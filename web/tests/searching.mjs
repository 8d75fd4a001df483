// Tests of a rule taken away, of the picture of all orders, and of ticks as steps.

import fs from "node:fs";
import path from "node:path";
import { ADDRESS, SIZES, WALL, browser, check, choose, click, evaluate, press, put, script, textOf } from "./drive.mjs";
import { TOP } from "./native.mjs";

const read = (name) => fs.readFileSync(path.join(TOP, name), "utf8");
const listed = () => evaluate("Array.from(document.querySelectorAll('#hunt-moves button'), (it) => it.firstChild.data)");
const parting = () => evaluate("document.querySelector('#hunt-moves .parts')?.dataset.at ?? null");
const isSeen = (id) => evaluate(`document.getElementById("${id}").getClientRects().length > 0`);
const isAtRest = `document.getElementById("play-word").textContent === "Play" && !document.getElementById("hunt-found").textContent.startsWith("Searching")`;

// The table of docs/RULES.md: rule, program, moves, in which way the last one is wrong, the line at which the processor stops, and its answer.
const TABLE = [...read("docs/RULES.md").matchAll(/^\| `(\w+:\w+)` \| `(\w+)`(?:, on `\w+`)? \| `\w+` \| (\d+) \| `(\w+)` \| (\d*) ?\| (.*) \|$/gm)]
  .map(([, rule, program, moves, kind, line, answer]) => ({ rule, program, moves: Number(moves), kind, line, answer }));

// What the page says of each of the five ways.
const WAYS = { retired: "an instruction retires", ended: "the program ends", stuck: "nothing can be done", memory: "all is done" };

// `addi x1, x1, 1` and `addi x1, x0, 1`, by their bytes.
const ADDS_TO_X1 = [0x93, 0x80, 0x10, 0x00];
const SETS_X1 = [0x93, 0x00, 0x10, 0x00];

// A flat image of these instructions, opened as from a file.
async function openOwn(instructions) {
  await evaluate(`(() => {
    const files = new DataTransfer();
    files.items.add(new File([new Uint8Array(${JSON.stringify(instructions.flat())})], "image.bin"));
    const it = document.getElementById("program-file");
    it.files = files.files;
    it.dispatchEvent(new Event("change"));
  })()`);
  await browser.until("document.getElementById('example').value === 'own'");
}

async function hunt(rule, program) {
  await put("hunt-rule", rule, "change");
  const at = await evaluate(`Array.from(document.getElementById("hunt-program").options).find((it) => it.text.endsWith(" ${program}"))?.value ?? "shown"`);
  await put("hunt-program", at, "change");
  await click("hunt");
  await browser.until(isAtRest);
}

// Each row of the table: the run that is found, where the processor parts from it, and how it stops.
async function hunts() {
  await browser.open(ADDRESS, WALL);
  await click("hunt-button");
  await put("speed", "60", "input");
  for (const { rule, program, moves, kind, line, answer } of TABLE) {
    await hunt(rule, program);
    const found = await textOf("hunt-found");
    check(`without ${rule} ${program} goes wrong`, found.startsWith(`Wrong after ${moves} moves: ${WAYS[kind]}`) && found.includes("Proved: no wrong run"), found);
    check(`${rule}: the list has its moves`, (await listed()).length === moves, String(await listed()));
    check(`${rule}: the frame says what it is`, (await textOf("hunt-heading")) === `Not the proved processor: without ${rule}`);
    check(`${rule}: the end is shown`, (await textOf("hunt-told")).startsWith(`${moves}. `), await textOf("hunt-told"));
    await click("put-back");
    await browser.until(isAtRest);
    const [, bar] = /is barred: (\w+)/.exec(answer) ?? [];
    if (bar && !rule.startsWith("meet:")) {
      check(`${rule}: the processor stops at line ${line}`, (await script()).length === Number(line) - 1 && (await parting()) === line, `${await script()}`);
      check(`${rule}: it says which bar it is`, (await textOf("why")).includes(bar) && (await textOf("hunt-answer")).includes(bar), await textOf("why"));
    } else if (bar) check(`${rule}: the processor stops`, (await script()).length === Number(line) - 1 && (await textOf("why")).includes(bar));
    else if (answer.includes("refused")) check(`${rule}: the layout is refused`, (await textOf("hunt-answer")).includes("ControlAboveMemory"));
    else check(`${rule}: no move is barred`, (await script()).length === moves && (await textOf("why")) === "", await textOf("why"));
  }
  await click("hunt-button");
  check("without a rule taken away the frame is not there", !(await isSeen("hunt-room")) && (await isSeen("drawing")));
}

// What is shown of a run: the processor's pictures up to the bar, none behind it, and the end as the program reports it.
async function pictures() {
  await browser.open(ADDRESS, WALL);
  await click("hunt-button");
  await hunt("climb:NotMet", "branch_add");
  const drawn = () => textOf("hunt-drawing");
  const go = (at) => evaluate(`document.querySelector('#hunt-moves [data-at="${at}"]').click()`);
  const isFaint = () => evaluate("document.getElementById('hunt-room').classList.contains('unknown')");
  check("the end has the report's registers and results", (await drawn()).includes("2 retired") && (await drawn()).includes("x1=1"), await drawn());
  const lines = await textOf("hunt-lines");
  const wanted = "without the rule2. addi x1, x0, 1, x1=1the sequential machineretires nothing more";
  check("the wrong line is beside the sequential machine's", lines === wanted, lines);
  await go(6);
  const shown = await drawn();
  check("before the bar it is the processor's picture", !(await isFaint()) && shown.includes("#2 addi x1, x0, 1") && shown.includes("1 retired"), shown);
  check("and what was done is told", (await textOf("hunt-told")).includes("#1 beq"), await textOf("hunt-told"));
  await go(8);
  check("behind it there is no picture", (await isFaint()) && (await textOf("hunt-told")).includes("there is no picture here"), await textOf("hunt-told"));
  check("nor a wrong line", (await evaluate("getComputedStyle(document.getElementById('hunt-lines')).visibility")) === "hidden");
  await hunt("meet:die", "branch");
  check("a step of a meeting parts where it would be done", (await parting()) === "6", await parting());
  await click("put-back");
  await browser.until(isAtRest);
  check("there the processor does it", (await textOf("hunt-answer")).endsWith("does what was taken away: die."), await textOf("hunt-answer"));
  await choose("seven");
  check("another program has no run yet", !(await isSeen("hunt-room")) && (await textOf("hunt-found")) === "");
  await put("hunt-rule", "climb:NotMet", "change");
  const words = await textOf("hunt-words");
  check("words that are of two rules name both", words.startsWith("climb:NotMet, fall:NotMet: An instruction and a result"), words);
}

// While Predict asks, neither the frame nor what is said of the run tells the answer.
async function predicted() {
  await browser.open(ADDRESS, WALL);
  await press("q");
  await click("hunt-button");
  await put("speed", "60", "input");
  await hunt("climb:NotMet", "branch_add");
  await click("put-back");
  await browser.until("!document.getElementById('question').hidden");
  const shown = () => evaluate("['hunt-room', 'hunt-answer'].map((id) => getComputedStyle(document.getElementById(id)).visibility).join()");
  check("a bar is asked where the rule is put back", (await textOf("question")).includes("What bars climb 1"), await textOf("question"));
  check("and told nowhere", (await shown()) === "hidden,hidden", await shown());
  await evaluate("document.querySelector('#question [value=NotMet]').checked = true");
  await evaluate("document.querySelector('#question form').requestSubmit()");
  check("then it is", (await shown()) === "visible,visible" && (await textOf("why")).includes("NotMet"), await textOf("why"));
  await press("q");
}

// A layout that is refused has no processor: what would be done to one is not offered.
async function refused() {
  await browser.open(ADDRESS, WALL);
  await click("hunt-button");
  await put("speed", "60", "input");
  await hunt("layout:ControlAboveMemory", "branch_store");
  const offered = await evaluate(`Array.from(document.querySelectorAll("#example, #layout, #step, #round, #tick, #rewind, #forward"))
    .filter((it) => getComputedStyle(it).visibility === "visible").length`);
  check("where there is no processor none can be moved", offered === 0 && (await textOf("hunt-told")).startsWith("19. "), `${offered}`);
  await click("hunt-button");
  check("and then there is one again", (await isSeen("drawing")) && (await evaluate("getComputedStyle(document.getElementById('step')).visibility")) === "visible");
}

async function allOrders() {
  await browser.open(ADDRESS, WALL);
  await click("hunt-button");
  await hunt("meet:garner", "add_one");
  await click("hunt-button");
  await put("graph-issues", "1", "change");
  await evaluate("document.getElementById('graph-details').open = true");
  await browser.until("document.getElementById('graph-counts').textContent !== ''");
  const counts = await textOf("graph-counts");
  check("all orders are counted", counts === "18 states, 23 moves between them, 12 orders. They all end in one state.", counts);
  check("each state is a point, each move a line", await evaluate(
    "document.querySelectorAll('#graph-nodes .node').length === 18 && document.querySelectorAll('#graph-edges line').length === 23"));
  // The state whose point the ring is around.
  const here = () => evaluate(`(() => {
    const [ring] = document.querySelectorAll("#graph-here .here");
    const isAround = (point) => ["cx", "cy"].every((name) => point.getAttribute(name) === ring.getAttribute(name));
    return ring ? Number(Array.from(document.querySelectorAll("#graph-nodes .node")).find(isAround).dataset.node) : null;
  })()`);
  await press("Home");
  check("the page is in the first state", (await here()) === 0, `${await here()}`);
  await press("i", "e");
  check("and goes along with the moves", (await here()) === 2, `${await here()}`);
  await browser.clickAt("#graph-nodes [data-node='9']");
  check("a click makes a script to a state", (await script()).join() === "issue next,emit,fall 2,meet 1,execute 1", `${await script()}`);
  check("in which the page then is", (await here()) === 9 && (await evaluate("document.querySelectorAll('#graph-route line').length")) === 5);
  await press("Home", "i", "c", "i");
  check("what leads out is told", (await textOf("graph-place")).includes("more instructions were issued") && (await here()) === null);
  await evaluate("document.getElementById('graph-details').open = false");
}

// More states than are drawn are counted.
async function manyOrders() {
  await browser.open(ADDRESS, WALL);
  await choose("seven");
  await openOwn(Array.from({ length: 6 }, () => ADDS_TO_X1));
  await put("graph-issues", "2", "change");
  await evaluate("document.getElementById('graph-details').open = true");
  await browser.until("document.getElementById('graph-counts').textContent !== ''");
  const counts = await textOf("graph-counts");
  check("many states are counted and not drawn", /^3004 states, 8465 moves .* At most 600 states are drawn\.$/.test(counts), counts);
  check("then there is no picture", await evaluate("document.getElementById('graph').hasAttribute('hidden')"));
  await evaluate("document.getElementById('graph-details').open = false");
}

// The instruction alone on `tiny`, where to execute takes three ticks and any other of these moves one: what is to come was worked out by
// hand. Behind the instruction is none, so that a trap is issued there, climbs and ends the program.
async function ticksAsSteps() {
  await browser.open(ADDRESS, WALL);
  await choose("Two orders of moves with one end, the first");
  await openOwn([SETS_X1]);
  await evaluate("document.getElementById('ticks-details').open = true");
  await put("delays", "execute 3\n", "input");
  check("no tick has passed", (await textOf("ticks-words")) === "No tick has passed.", await textOf("ticks-words"));
  await press("y", "y", "y", "y", "y", "y");
  check("a tick is one move where one finishes", (await script()).length === 6, `${await script()}`);
  await press("y");
  check("and two where two finish at one time", (await script()).slice(6).join() === "meet 1,leave", `${await script()}`);
  check("their time is told", (await textOf("ticks-words")) === "8 moves are made, in 8 ticks; the last one took from 7 to 8.", await textOf("ticks-words"));
  await evaluate("document.getElementById('time-details').open = true");
  await browser.until("document.querySelector('#time thead') !== null");
  const columns = await evaluate("Array.from(document.querySelectorAll('#time tbody tr:first-child td'), (it) => it.textContent)");
  check("the time line has the times of the run", columns.join() === "1,2,,,X,S,,✓", columns.join());
  await press("y", "y", "y");
  check("the run ends", (await script()).length === 10 && (await textOf("ending")).includes("trap 1 at 00010004"), await textOf("ending"));
  await press("Home", "i", "x");
  check("other moves are not of this run", (await textOf("ticks-words")).includes("take them back"), await textOf("ticks-words"));
  await press("y");
  check("so a tick makes none", (await script()).length === 2);
  for (const id of ["time-details", "ticks-details"]) await evaluate(`document.getElementById("${id}").open = false`);
}

// At each size the run, the frame and the picture are within the screen's width, and each text has room.
async function atEachSize() {
  for (const size of SIZES) {
    await browser.open(ADDRESS, size);
    await click("hunt-button");
    await put("speed", "60", "input");
    await hunt("meet:kill", "add_twice");
    await put("graph-issues", "1", "change");
    await evaluate("document.getElementById('graph-details').open = true");
    const parts = "#hunt-controls, #hunt-program, #hunt-room, #hunt-moves button, #hunt-drawing, #graph-room";
    const wide = await evaluate(`Array.from(document.querySelectorAll("${parts}"), (it) => it.getBoundingClientRect())
      .filter(({ right, left }) => right > innerWidth + 0.5 || left < -0.5).length`);
    check(`at ${size.width} nothing of a hunt is off the screen`, wide === 0, `${wide}`);
    check(`at ${size.width} the page is no wider than the screen`, await evaluate("document.documentElement.scrollWidth <= innerWidth"));
    const bottom = await evaluate("Math.max(...Array.from(document.querySelectorAll('#hunt-drawing .slot'), (it) => it.getBoundingClientRect().bottom))");
    check(`at ${size.width} the run is on the screen`, bottom <= size.height, `${bottom}`);
    await evaluate("document.getElementById('graph-details').open = false");
    const place = () => evaluate("document.getElementById('drawing').getBoundingClientRect().top + scrollY");
    const before = await place();
    await click("put-back");
    await browser.until(isAtRest);
    const top = await evaluate("document.getElementById('drawing').getBoundingClientRect().top");
    check(`at ${size.width} the processor is on the screen where the rule is put back`, top > -1 && top < size.height / 2, `${top}`);
    check(`at ${size.width} the drawing stays where it is`, size.width < 500 || (await place()) === before, `${await place()} ${before}`);
  }
  await browser.open(ADDRESS, WALL);
}

export const searching = [hunts, pictures, predicted, refused, allOrders, manyOrders, ticksAsSteps, atEachSize];
