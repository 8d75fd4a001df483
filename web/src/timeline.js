// The time line: instructions down, ticks across. What each move did to an instruction, and at which tick it could be made at the earliest.

import { kindOf, stageOf } from "./moves.js";
import { isDead, namesOfMeeting } from "./telling.js";
import { instructionText } from "./values.js";

const MOST_TICKS = 80;
const MOST_ROWS = 24;

const LETTERS = { execute: "X", send: "S", launch: "L", recover: "R", slide: "↑", access: "A", serve: "E" };
const MEETINGS = { garner: "G", kill: "K", update: "U", die: "D" };

// The instruction that a move is about, by its number; none where it moves a result.
function numberOf(who, move, before) {
  const kind = kindOf(move);
  const [, siding, cell] = move.split(" ").map(Number);
  if (kind === "issue") return who.issued + 1;
  if (kind === "slide") return who.sidings[siding]?.[cell];
  if (kind === "access") return Object.values(who.sidings).map((cells) => cells[Math.max(...Object.keys(cells).map(Number))]).find(Number.isInteger);
  if (kind === "leave" || kind === "serve") return who.instructions[Math.max(...before.stages.keys())];
  return ["emit", "fall", "exit"].includes(kind) ? null : who.instructions[stageOf(move)];
}

function labelOf(move, before, after) {
  const kind = kindOf(move);
  if (kind === "issue") return "1";
  if (kind === "climb") return String(stageOf(move) + 1);
  if (kind === "meet") return namesOfMeeting(move, before, after).map((name) => MEETINGS[name]).join("") || "·";
  if (kind === "leave") return isDead(before.stages.get(Math.max(...before.stages.keys())).passenger) ? "†" : "✓";
  return LETTERS[kind];
}

// What a move did to which instruction, or null where it moved a result alone.
export function eventOf(who, move, before, after) {
  const number = numberOf(who, move, before);
  if (!number) return null;
  const address = kindOf(move) === "issue" ? before.fetch : null;
  return { number, kind: kindOf(move), label: labelOf(move, before, after), address };
}

// The rows of the time line: each instruction with what was done to it at which ticks, and how many moves results made. `ticks` has the tick
// of each step.
export function timelineOf(steps, texts, ticks) {
  const last = Math.max(0, ...ticks);
  const rows = new Map();
  const results = new Map();
  steps.forEach(({ track: { event } }, at) => {
    const tick = ticks[at];
    if (!event) results.set(tick, (results.get(tick) ?? 0) + 1);
    else {
      if (event.address) rows.set(event.number, { number: event.number, text: instructionText(texts, event.address), cells: new Map() });
      rows.get(event.number)?.cells.set(tick, event);
    }
  });
  const first = Math.max(1, last - MOST_TICKS + 1);
  return { first, last, rows: [...rows.values()].slice(-MOST_ROWS), results };
}

// Whether an instruction was on its way at a tick: between its issue and its leave.
export function isUnderWay({ cells }, tick, last) {
  const all = [...cells.keys()];
  const hasLeft = [...cells.values()].some(({ kind }) => kind === "leave");
  return tick >= Math.min(...all) && tick <= (hasLeft ? Math.max(...all) : last);
}
