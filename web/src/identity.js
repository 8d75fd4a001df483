// Who is who: each instruction has the number of its issue, and each result the number of the instruction that it comes from, or none
// where the register file sent it. Worked out move by move from the pictures, which give addresses alone.

import { kindOf, stageOf } from "./moves.js";
import { namesOfMeeting } from "./telling.js";
import { REGISTER_FILE } from "./values.js";

// Instructions and results by stage, the operations in the sidings by cell, who asked for what is in the lane, and who retired: a chain
// that begins with the last.
export const NOBODY = { issued: 0, instructions: {}, results: {}, sidings: {}, lane: [], retired: null };

const moved = (places, from, to) => {
  const { [from]: one, ...others } = places;
  return { ...others, [to]: one };
};

// The siding whose cell has changed so that `isIt` holds of what was there and what is there now.
function sidingWhere(before, after, isIt) {
  const all = new Set([...before.sidings.keys(), ...after.sidings.keys()]);
  const cellsOf = (picture, at) => picture.sidings.get(at) ?? [];
  return [...all].find((at) => isIt(cellsOf(before, at), cellsOf(after, at)));
}

const isHeld = (cell) => cell !== undefined && cell !== "-";
const isEntered = (was, is) => !isHeld(was[0]) && isHeld(is[0]);
const isTaken = (was, is) => isHeld(was.at(-1)) && !isHeld(is.at(-1));

// What each kind of move makes of who is where; what it does not name stays.
const CHANGES = {
  issue({ who, before, after }) {
    const number = who.issued + 1;
    const asked = after.lane.slice(before.lane.length).map(() => number);
    return { issued: number, instructions: { ...who.instructions, 1: number }, lane: [...who.lane, ...asked] };
  },
  emit: ({ who, after }) => ({
    lane: who.lane.slice(1),
    results: { ...who.results, [Math.max(...after.stages.keys())]: REGISTER_FILE },
  }),
  climb: ({ who, stage }) => ({ instructions: moved(who.instructions, stage, stage + 1) }),
  fall: ({ who, stage }) => ({ results: moved(who.results, stage, stage - 1) }),
  send: ({ who, stage }) => ({ results: { ...who.results, [stage]: who.instructions[stage] } }),
  meet({ who, stage, move, before, after }) {
    const isUpdate = namesOfMeeting(move, before, after).includes("update");
    return isUpdate ? { results: { ...who.results, [stage]: who.instructions[stage] } } : {};
  },
  launch({ who, stage, before, after }) {
    const at = sidingWhere(before, after, isEntered);
    return at === undefined ? {} : { sidings: { ...who.sidings, [at]: { ...who.sidings[at], 0: who.instructions[stage] } } };
  },
  slide({ who, move }) {
    const [, at, cell] = move.split(" ").map(Number);
    return { sidings: { ...who.sidings, [at]: moved(who.sidings[at], cell, cell + 1) } };
  },
  recover({ who, before, after }) {
    const at = sidingWhere(before, after, isTaken);
    if (at === undefined) return {};
    const { [before.sidings.get(at).length - 1]: taken, ...others } = who.sidings[at];
    return { sidings: { ...who.sidings, [at]: others } };
  },
};

// Those at stages where the picture has somebody or something.
function standing(places, after, side) {
  return Object.fromEntries(Object.entries(places).filter(([stage]) => after.stages.get(Number(stage))?.[side]));
}

// Who retired with this move: the one at the top that is gone.
function retiredBy(who, before, after) {
  if (after.retired === before.retired) return who.retired;
  return { number: who.instructions[Math.max(...Object.keys(who.instructions).map(Number))], before: who.retired };
}

// Who is who after a move, of who was who before it.
export function identitiesAfter(who, move, before, after) {
  const change = CHANGES[kindOf(move)]?.({ who, move, before, after, stage: stageOf(move) }) ?? {};
  const now = { ...who, ...change };
  return {
    ...now,
    instructions: standing(now.instructions, after, "passenger"),
    results: standing(now.results, after, "packet"),
    retired: retiredBy(who, before, after),
  };
}

// The numbers of those that retired last, at most this many, the last one last.
export function lastRetired(who, most) {
  const numbers = [];
  for (let at = who.retired; at !== null && numbers.length < most; at = at.before) numbers.unshift(at.number);
  return numbers;
}
