// Tests of Predict: what is hidden until it was said, what is counted, and where the lessons' questions stand.

import { ADDRESS, PHONE, PROJECTOR, WALL, browser, check, choose, click, evaluate, press, script, step, textOf } from "./drive.mjs";
import { scriptsOfPage, shownOfPage } from "./native.mjs";

const OUTCOMES = /garner|kill|update|\bdies?\b|pass each other/i;

// All that can be read on the page, but for the question's choices.
const readable = () => evaluate(`(() => {
  const choices = document.querySelector("#question form");
  const shown = choices?.style.display;
  if (choices) choices.style.display = "none";
  const text = document.body.innerText;
  if (choices) choices.style.display = shown;
  return text;
})()`);

// Says some of the choices, or a value.
const say = (...said) => evaluate(`(() => {
  const said = ${JSON.stringify(said)};
  for (const it of document.querySelectorAll("#question input")) {
    if (it.type === "text") it.value = said[0];
    else it.checked = said.includes(it.value);
  }
  document.querySelector("#question form").requestSubmit();
})()`);

async function predict() {
  await browser.open(ADDRESS, PROJECTOR);
  await press("q");
  check("no caption tells what is to come", !OUTCOMES.test(await textOf("notes")), await textOf("notes"));
  await step(5);
  check("a meeting is asked before it is made", (await script()).length === 4 && (await textOf("question")).includes("#1 addi x1, x1, 1 meets x1=0"));
  const text = await readable();
  check("no outcome word before the answer", !OUTCOMES.test(text), OUTCOMES.exec(text)?.[0]);
  await step(1);
  check("no move is made before it", (await script()).length === 4);
  await say("garner", "kill");
  check("the answer makes the move", (await script()).length === 5 && (await textOf("told")).includes("Garner"));
  check("what is right is counted", (await textOf("score")).startsWith("1 right, 0 wrong. Right."), await textOf("score"));
  await step(1);
  check("the lesson asks at its move", (await textOf("question")).includes("Which move gives the first instruction its x1"), await textOf("question"));
  check("with its answer behind a click", !(await readable()).includes("the fifth move"));
  await evaluate("document.querySelector('#question details').open = true");
  check("which shows it", (await readable()).includes("the fifth move"));
  await evaluate("document.querySelector('#question details button').click()");
  await step(1);
  check("a value is asked", (await textOf("question")).includes("which value does #1"), await textOf("question"));
  await say("7");
  check("what is wrong is counted, and told", (await textOf("score")).startsWith("2 right, 1 wrong. Not so: 1."), await textOf("score"));
  await press("q");
  check("without Predict nothing is asked", (await textOf("score")) === "");
  await step(4);
  check("and the script goes on", (await script()).length === 10);
}

async function bars() {
  await choose("An instruction may not pass a result unseen");
  await press("q");
  await click("forward");
  await press("q", "q");
  await step(1);
  check("a bar is asked", (await textOf("question")).includes("What bars"), await textOf("question"));
  check("and not told before", !(await textOf("why")).includes("NotMet"));
  await say("NotMet");
  check("the bar is told then", (await textOf("why")).includes("NotMet") && (await textOf("score")).includes("Right."), await textOf("score"));
  await press("q");
}

// On a phone a question with all its choices is on the screen as soon as it is asked.
async function onPhone() {
  await browser.open(ADDRESS, PHONE);
  await press("q");
  await step(5);
  const { top, bottom } = await evaluate("document.getElementById('question').getBoundingClientRect().toJSON()");
  check("a question is on the screen of a phone", top >= 0 && bottom <= PHONE.height, `${top} ${bottom}`);
  await browser.open(ADDRESS, WALL);
}

// Each script is predicted to its end: before each answer nothing that can be read has an outcome word.
async function allScripts() {
  const { programs } = shownOfPage().examples;
  await press("q");
  let asked = 0;
  let found = "";
  for (const { title } of scriptsOfPage()) {
    await choose(title);
    const count = programs.find((one) => one.title === title).script.split("\n").filter((line) => line && !line.startsWith("#")).length;
    for (let at = 0; at < 3 * count && (await script()).length < count; at += 1) {
      await click("step");
      if (await evaluate("document.getElementById('question').hidden")) continue;
      const text = await readable();
      asked += 1;
      if (!(await textOf("question")).startsWith("Question")) found ||= OUTCOMES.exec(text)?.[0] ?? "";
      await evaluate("document.querySelector('#question details button')?.click()");
      if (!(await evaluate("document.getElementById('question').hidden"))) {
        if (await evaluate("document.querySelector('#question input').type === 'text'")) await say("0");
        else await say(await evaluate("document.querySelector('#question input').value"));
      }
      if ((await textOf("why")) !== "") break;
    }
  }
  check("many questions were asked", asked > 60, `${asked}`);
  check("no outcome word stood anywhere before an answer", found === "", found);
  await press("q");
  await browser.open(ADDRESS, WALL);
}

export const predicting = [predict, bars, onPhone, allScripts];
