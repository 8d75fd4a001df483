// What the last move left to see: which part of the drawing moved and how, what is gone and stays as a ghost, and which value was taken.

import { memorySiding } from "./layout.js";
import { kindOf, stageOf } from "./moves.js";
import { namesOfMeeting } from "./telling.js";

const at = (side, stage) => `${side} ${stage}`;
const number = (move, place) => Number(move.split(" ")[place]);

// For each kind of move the part that moves, or that shows that something happened there. A part is named by its side and its stage, or
// `cell`, its siding and its cell.
const PARTS = {
  issue: () => at("passenger", 1),
  emit: (move, layout) => at("packet", layout.stages),
  climb: (move) => at("passenger", stageOf(move) + 1),
  fall: (move) => at("packet", stageOf(move) - 1),
  meet: (move) => at("meeting", stageOf(move)),
  execute: (move) => at("passenger", stageOf(move)),
  send: (move) => at("packet", stageOf(move)),
  launch: (move, layout) => `cell ${layout.sidings.findIndex(({ launch }) => launch === stageOf(move))} 0`,
  slide: (move) => `cell ${number(move, 1)} ${number(move, 2) + 1}`,
  access: (move, layout) => `cell ${memorySiding(layout)} ${layout.sidings[memorySiding(layout)].cells - 1}`,
  recover: (move) => at("passenger", stageOf(move)),
  leave: (move, layout) => at("passenger", layout.stages),
  exit: () => at("packet", 1),
  serve: (move, layout) => at("passenger", layout.stages),
};

// The class of a part that the last move moved, or none.
export function motionOf({ last, layout }, part) {
  if (last === null || PARTS[kindOf(last)](last, layout) !== part) return "";
  return ` moved-${kindOf(last)}`;
}

const GONE = { leave: "passenger", exit: "packet", serve: "passenger" };

// Who was in a part that is empty now: what a meeting killed, or who left at an end.
export function ghostAt({ last, layout, before, picture }, side, stage) {
  if (last === null || !before) return null;
  const kind = kindOf(last);
  const part = at(side, stage);
  const isKilled = kind === "meet" && part === at("packet", stageOf(last));
  const isGone = GONE[kind] === side && part === PARTS[kind](last, layout);
  const was = before.stages.get(stage)?.[side];
  if (!was || picture.stages.get(stage)?.[side] || !(isKilled || isGone)) return null;
  return { content: was, how: isKilled ? "killed" : kind };
}

// The registers whose values the instruction of a stage took in the meeting that was just made.
export function takenAt({ last, before, picture }, stage) {
  if (last === null || !before || last !== `meet ${stage}`) return [];
  const was = before.stages.get(stage).passenger;
  const is = picture.stages.get(stage).passenger;
  return is.sources.filter((source, place) => source && source.value !== null && was.sources[place].value === null);
}

export function isUpdated({ last, before, picture }, stage) {
  return last === `meet ${stage}` && before !== null && namesOfMeeting(last, before, picture).includes("update");
}
