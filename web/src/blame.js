// Where a move was asked for that cannot be made, and what bars it.

import { memorySiding } from "./layout.js";
import { kindOf, stageOf } from "./moves.js";

function numbersOf(move) {
  return move.split(" ").slice(1).map(Number);
}

// The part of the drawing where a move begins.
function placeOf(move, layout) {
  const kind = kindOf(move);
  const stage = stageOf(move);
  if (kind === "fall") return `packet ${stage}`;
  if (kind === "meet") return `meeting ${stage}`;
  if (stage > 0) return `passenger ${stage}`;
  if (kind === "slide") return `cell ${numbersOf(move).join(" ")}`;
  if (kind === "access") return `cell ${memorySiding(layout)} ${layout.sidings[memorySiding(layout)].cells - 1}`;
  const ends = { issue: "fetch", emit: "lane", exit: "packet 1", leave: `passenger ${layout.stages}`, serve: `passenger ${layout.stages}` };
  return ends[kind] ?? null;
}

// The part where it would lead, which is taken.
function targetOf(move, layout) {
  const stage = stageOf(move);
  const [siding, cell] = numbersOf(move);
  const launched = layout.sidings.findIndex(({ launch }) => launch === stage);
  const targets = {
    climb: `passenger ${stage + 1}`, fall: `packet ${stage - 1}`, send: `packet ${stage}`, issue: "passenger 1",
    emit: `packet ${layout.stages}`, launch: `cell ${launched} 0`, slide: `cell ${siding} ${cell + 1}`,
  };
  return targets[kindOf(move)] ?? null;
}

// From where the value of a register is to come: the nearest result or instruction above that has it or is to give it, or the lane.
function comesFrom(register, stage, layout, picture) {
  for (let above = stage; above <= layout.stages; above += 1) {
    const content = picture.stages.get(above);
    if (content?.packet?.register === register) return `packet ${above}`;
    if (above > stage && content?.passenger?.destination?.register === register) return `passenger ${above}`;
  }
  return "lane";
}

// The stage at which a move is made, that of an end of the pipes included.
function stageAt(stage, move, layout) {
  return stage || (kindOf(move) === "exit" ? 1 : layout.stages);
}

const BARS = {
  Occupied: ({ move, layout }) => targetOf(move, layout),
  NotMet: ({ stage, move, layout }) => `meeting ${stageAt(stage, move, layout)}`,
  AlreadyMet: ({ stage }) => `meeting ${stage}`,
  NoPassenger: ({ stage, layout }) => `passenger ${stage || layout.stages}`,
  NoPacket: ({ stage }) => `packet ${stage || 1}`,
  NoUnit: ({ stage }) => `label ${stage}`,
  SourceMissing: ({ stage, layout, picture, register }) => comesFrom(register, stage, layout, picture),
  LaneFull: () => "lane",
  LaneEmpty: () => "lane",
  FetchWaiting: () => "fetch",
};

// The place of a move and what bars it, as parts of the drawing; `by` is null where it is the place itself.
export function blameOf(move, bar, layout, picture) {
  const [name, register] = bar.split(" ");
  const by = BARS[name]?.({ move, register, layout, picture, stage: stageOf(move) }) ?? null;
  return { place: placeOf(move, layout), by };
}
