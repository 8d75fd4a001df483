// Tests of what the drawing tells: who is who, where results come from, what changed, and what is in the way.

import { browser, check, choose, click, evaluate, press, put, script, step, textOf } from "./drive.mjs";

const inDrawing = (selector) => evaluate(`Array.from(document.querySelectorAll("#drawing ${selector}"), (it) => it.textContent)`);
const stageText = (stage, side) => evaluate(`document.querySelector('#drawing [data-stage="${stage}"] .${side}')?.textContent ?? ""`);

async function identities() {
  await choose("Garnering: an");
  await step(1);
  check("a caption says #1", (await textOf("told")).includes("#1 addi"), await textOf("told"));
  await step(2);
  check("a caption says #2", (await textOf("told")).includes("#2 addi"), await textOf("told"));
  check("boxes have the numbers", (await stageText(2, "passenger")).includes("#1 addi") && (await stageText(1, "passenger")).includes("#2 addi"));
  await step(1);
  check("a result says that the register file sent it", (await stageText(2, "packet")).includes("from the register file"), await stageText(2, "packet"));
  check("a line leads there", (await inDrawing(".origin")).length === 1);
  await step(4);
  check("a result says which instruction sent it", (await stageText(1, "packet")).includes("from #1"), await stageText(1, "packet"));
  check("and a line leads to it", (await inDrawing(".origin")).length === 1);
  await choose("Both instructions to their end");
  await click("forward");
  const retired = await evaluate("Array.from(document.querySelectorAll('#machine .retired .who'), (it) => it.textContent)");
  check("the machine's list has the numbers", retired.join() === "#1,#2", retired.join());
  await choose("A store and two loads");
  await step(28);
  check("a siding has the numbers", (await inDrawing(".cell")).some((text) => /#[123]/.test(text)), (await inDrawing(".cell")).join("|"));
}

async function changes() {
  await choose("Garnering: an");
  await step(5);
  check("a killed result stays as a ghost", (await inDrawing(".ghost.killed")).length === 1 && (await stageText(2, "packet")).includes("x1=0"));
  check("a taken value is marked on both sides", (await inDrawing(".taken")).join() === "x1=0" && (await inDrawing(".given")).length === 1);
  await step(1);
  check("the ghost is gone with the next move", (await inDrawing(".ghost")).length === 0);
  await choose("sorted");
  await put("layout", "tiny", "change");
  await press("i", "i");
  check("a barred move outlines its place and what bars it", (await inDrawing(".outline")).length === 2, await textOf("why"));
  await press("c");
  check("and no longer when a move is made", (await inDrawing(".outline")).length === 0, await textOf("why"));
}

const markedBytes = (mark) => evaluate(`Array.from(document.querySelectorAll("#memory .${mark}"), (it) => it.textContent).join(" ")`);

async function memory() {
  await choose("A memory operation");
  await evaluate("document.getElementById('memory-details').open = true");
  await step(13);
  const before = await textOf("memory");
  check("no byte is marked before the access", (await markedBytes("written")) === "" && before.includes("7f0ffff0"), before);
  await step(1);
  check("the access changes memory", (await script()).at(-1) === "access" && (await textOf("memory")) !== before);
  check("what was written is marked", (await markedBytes("written")) === "f0 ff 0f 7f", await markedBytes("written"));
  check("and told", (await textOf("memory-words")) === "Last, #1 wrote 4 bytes at 7f0fffe0.", await textOf("memory-words"));
  await press("ArrowLeft");
  check("taking it back takes it back", (await textOf("memory")) === before);
  await evaluate("document.getElementById('memory-details').open = false");
}

// The names of the animations that run after each kind of move of a lesson; each kind has one, but not where motion is to be reduced.
async function animationsOf(reduced) {
  await browser.call("Emulation.setEmulatedMedia", { features: [{ name: "prefers-reduced-motion", value: reduced ? "reduce" : "no-preference" }] });
  const seen = new Set();
  for (const [title, moves] of [["A store and two loads", 45], ["A program's exit", 30]]) {
    await choose(title);
    for (let at = 0; at < moves; at += 1) {
      await click("step");
      const runs = await evaluate("document.getAnimations().some((it) => it.playState === 'running' || it.playState === 'pending' || it.pending)");
      if (runs) seen.add((await script()).at(-1)?.split(" ")[0]);
    }
  }
  return seen;
}

async function animations() {
  const kinds = ["issue", "emit", "climb", "fall", "meet", "execute", "send", "launch", "slide", "access", "recover", "leave", "exit", "serve"];
  const seen = await animationsOf(false);
  check("each kind of move is animated", kinds.every((kind) => seen.has(kind)), kinds.filter((kind) => !seen.has(kind)).join());
  check("none is where motion is to be reduced", (await animationsOf(true)).size === 0);
  await browser.call("Emulation.setEmulatedMedia", { features: [] });
}

export const seen = [identities, changes, memory, animations];
