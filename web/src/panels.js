// What is beside the drawing: the moves, one stage's moves with why they are barred, the sequential machine, the script.

import { byId, fill, html, sentence } from "./element.js";
import { lastRetired } from "./identity.js";
import { movesOfStage } from "./moves.js";
import { text } from "./program.js";
import { firstDifference, readRetired } from "./sequential.js";
import { instructionText, registerName, valueText } from "./values.js";

const ROWS_ABOVE = 5;
const ROWS = 14;
// A browser lays out a long text again at each change. The whole script is what Save saves.
const STEPS_SHOWN = 300;

export function showMoves(picture) {
  const buttons = picture.allowed.map((move) => html("button", { "data-move": move }, move));
  const hadFocus = byId("moves").contains(document.activeElement);
  fill(byId("moves"), buttons.length > 0 ? buttons : "nothing");
  // Who makes moves here by keys goes on here.
  if (hadFocus) byId("moves").querySelector("button")?.focus();
}

function movesAt(layout, stage) {
  const ends = [...(stage === layout.stages ? ["leave", "serve", "emit"] : []), ...(stage === 1 ? ["exit"] : [])];
  return [...movesOfStage(stage), ...ends];
}

// The moves of one stage that are barred; a click on one says why.
export function showStage(view) {
  const { picture, layout, selected } = view;
  const barred = movesAt(layout, selected).filter((move) => picture.barred.has(move));
  fill(byId("stage-heading"), `Barred at stage ${selected}, and why`);
  fill(byId("stage-moves"), barred.map((move) => html("button", { "data-move": move }, `${move}: ${picture.barred.get(move)}`)));
}

export function showBarred(picture, reasons) {
  if (!byId("barred-details").open) return;
  const rows = [...picture.barred].flatMap(([move, bar]) => [html("dt", {}, move), html("dd", {}, sentence(reasons.bar(bar)))]);
  fill(byId("barred"), rows);
}

function machineRow(view, line, at, names) {
  const retired = view.picture.retired;
  const { number, address, wrote } = readRetired(line);
  const parts = /^(x\d\d)=(.*)$/.exec(wrote);
  return html("li", { class: at < retired ? "retired" : "" },
    html("span", { class: "number" }, String(number)),
    html("span", { class: "who" }, at < retired ? `#${names[at - retired + names.length]}` : ""),
    html("span", { class: "text" }, instructionText(view.texts, address)),
    html("span", {}, parts ? `${registerName(parts[1])}=${valueText(parts[2])}` : ""));
}

// The lines of the sequential machine around the place that the processor has reached.
export function showMachine(view, machine) {
  const retired = view.picture.retired;
  const from = Math.max(0, Math.min(retired - ROWS_ABOVE, machine.lines.length - ROWS));
  const names = lastRetired(view.who, retired - from);
  const rows = machine.lines.slice(from, from + ROWS).map((line, at) => machineRow(view, line, from + at, names));
  const mark = html("li", { class: "here" }, `▲ the processor has retired ${retired}`);
  rows.splice(Math.min(retired - from, rows.length), 0, mark);
  fill(byId("machine"), rows);
  const total = machine.lines.length;
  const ends = machine.first.startsWith("limit") ? `the first ${total} are shown` : `it retires ${total}, then: ${machine.first}`;
  const bar = html("progress", { value: Math.min(retired, total), max: Math.max(total, 1), "aria-label": "retired" });
  fill(byId("progress"), bar, ` ${retired} of ${total}; ${ends}`);
  showAgreement(machine, view.picture);
}

function showAgreement(machine, picture) {
  const shown = { ...picture, lines: picture.lines.slice(0, machine.lines.length) };
  const place = firstDifference(machine, shown);
  byId("agreement").classList.toggle("fault", place >= 0);
  fill(byId("agreement"), agreementWords(place, picture.retired, shown.lines.length));
}

function agreementWords(place, retired, count) {
  if (place >= 0) return `Instruction ${place + 1} differs. This must not be: please report it, with the script.`;
  if (retired === 0) return "Nothing has retired yet.";
  return `What the processor retired is what this machine retires first: ${count} of ${count} lines are the same.`;
}

export function showWritten(picture) {
  byId("written-words").hidden = byId("written").hidden = picture.output.length === 0;
  fill(byId("written"), text(picture.output));
}

export function showScript(session) {
  const it = byId("script");
  const shown = session.steps.slice(-STEPS_SHOWN);
  const before = session.steps.length - shown.length;
  it.value = `${before > 0 ? `# ${before} moves before these\n` : ""}${session.scriptOf(shown)}`;
  // Where its end is, is known once the page is laid out.
  requestAnimationFrame(() => (it.scrollTop = it.scrollHeight));
}

export function showReport(picture) {
  if (byId("report-details").open) fill(byId("report"), picture.text);
}

export function showLegend() {
  const words = { out: "out: its operation is in a siding", value: "a value", turn: "a turn or a halt" };
  const kinds = ["new", "out", "done", "dead", "trap", "exit", "value", "turn"];
  fill(byId("legend"), kinds.map((kind) => html("span", { class: `is-${kind}` }, words[kind] ?? kind)));
}
