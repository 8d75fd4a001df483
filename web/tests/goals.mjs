// Tests of goals: that the lab's are judged rightly, and travel in a link.

import { WALL, browser, check, choose, click, evaluate, press, put, step, textOf, valueOf } from "./drive.mjs";

const GOAL = "x1 = 2, pipes empty, at most 18 moves";

async function reached(title, goal) {
  await choose(title);
  await evaluate("document.getElementById('goal-details').open = true");
  await put("goal", goal, "input");
  await click("forward");
  return textOf("goal-words");
}

async function goals() {
  const counted = await reached("Both instructions to their end", GOAL);
  check("a goal accepts counted.script", counted.startsWith("Reached, with 18 moves"), counted);
  const garnering = await reached("Garnering: an", GOAL);
  check("and refuses garnering.script", garnering.startsWith("Not reached"), garnering);
  check("it says what is missing", (await textOf("goal-parts")).includes("✗ pipes empty"), await textOf("goal-parts"));
  const updated = await reached("Garnering, killing and updating", "an update, a kill");
  check("updates and kills are counted", updated.startsWith("Reached"), updated);
  await put("goal", "pipes full", "input");
  check("what is no goal is told", (await textOf("goal-fault")).includes("pipes full"));
  await choose("The same, with what the dead shift");
  await put("goal", "pipes empty, sidings empty, retired 1, at most 27 moves", "input");
  await click("forward");
  check("the goal of the dead shift is reached by its script", (await textOf("goal-words")).startsWith("Reached"), await textOf("goal-parts"));
  await choose("Three sums that need nothing of one another, in 13");
  check("the lab's goal is the example's", (await valueOf("goal")) === "retired 3, at most 13 ticks", await valueOf("goal"));
  await click("forward");
  check("and its script reaches it", (await textOf("goal-words")).startsWith("Reached"), await textOf("goal-words"));
}

async function goalsInLinks() {
  await choose("Garnering: an");
  await click("forward");
  await put("goal", GOAL, "input");
  await click("share");
  await browser.until("location.hash.startsWith('#cfpp1.')");
  await browser.open(await evaluate("location.href"), WALL);
  check("a link has the goal", (await valueOf("goal")) === GOAL && (await textOf("goal-words")).startsWith("Not reached; so far 10 moves"), await textOf("goal-words"));
  await press("v", "k");
  for (const key of ["v", "s", "o", "c", "v", "e"]) await press(key);
  await step(0);
  check("which goes on with moves by hand", /so far 1\d moves|Reached/.test(await textOf("goal-words")), await textOf("goal-words"));
}

export const goalParts = [goals, goalsInLinks];
