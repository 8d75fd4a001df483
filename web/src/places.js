// Which places each move uses, as `cfpp rounds` and `cfpp time` have it: moves that share none can be made at once.

import { memorySiding } from "./layout.js";
import { kindOf, stageOf } from "./moves.js";

function siteOf(siding, cell) {
  return `cell ${siding} ${cell}`;
}

// The first cells of the sidings that launch at a stage, the last ones of those that recover there.
function entries(layout, stage) {
  return layout.sidings.flatMap(({ launch }, at) => (launch === stage ? [siteOf(at, 0)] : []));
}

function exits(layout, stage) {
  return layout.sidings.flatMap(({ recover, cells }, at) => (recover === stage ? [siteOf(at, cells - 1)] : []));
}

const at = (stage) => `stage ${stage}`;

const USES = {
  issue: () => [at(1), "lane", "fetch", "code"],
  emit: ({ layout }) => [at(layout.stages), "lane"],
  climb: ({ stage }) => [at(stage), at(stage + 1)],
  fall: ({ stage }) => [at(stage), at(stage - 1)],
  meet: ({ stage }) => [at(stage)],
  execute: ({ stage }) => [at(stage)],
  send: ({ stage }) => [at(stage)],
  launch: ({ stage, layout }) => [at(stage), ...entries(layout, stage)],
  slide: ({ numbers: [siding, cell] }) => [siteOf(siding, cell), siteOf(siding, cell + 1)],
  access: ({ layout }) => [siteOf(memorySiding(layout), layout.sidings[memorySiding(layout)].cells - 1), "memory"],
  recover: ({ stage, layout }) => [at(stage), ...exits(layout, stage)],
  leave: ({ layout }) => [at(layout.stages)],
  exit: () => [at(1), "fetch"],
  serve: ({ layout }) => [at(layout.stages), "memory", "code"],
};

export function placesOf(move, layout) {
  return USES[kindOf(move)]({ layout, stage: stageOf(move), numbers: move.split(" ").slice(1).map(Number) });
}

// The tick of each move, where each takes one and begins as soon as all earlier moves at its places are done. Ticks count from 1.
export function ticksOf(moves, layout) {
  const busy = new Map();
  return moves.map((move) => {
    const places = placesOf(move, layout);
    const tick = 1 + Math.max(0, ...places.map((place) => busy.get(place) ?? 0));
    for (const place of places) busy.set(place, tick);
    return tick;
  });
}

const ENDS = ["trap", "exit"];

// The moves of a round: those offered, in their order, but for each that uses a place of one that is in it. What ends the program, or
// calls the environment, is a round of its own.
export function roundOf(offered, picture, layout) {
  const top = picture.stages.get(layout.stages)?.passenger;
  const alone = offered.find((move) => move === "serve" || (move === "leave" && ENDS.includes(top?.flag)));
  if (alone) return [alone];
  const taken = new Set();
  return offered.filter((move) => {
    const places = placesOf(move, layout);
    if (places.some((place) => taken.has(place))) return false;
    places.forEach((place) => taken.add(place));
    return true;
  });
}
