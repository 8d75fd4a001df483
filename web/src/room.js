// How much room the drawing has: all the width of its place, and the height that is left of the window below its top.

import { byId } from "./element.js";

const LEAST_HEIGHT = 300;
// What is below the drawing, with the legend and without.
const LEGEND = 38;
const NO_LEGEND = 8;

export function roomOfDrawing() {
  const place = byId("room");
  const top = place.getBoundingClientRect().top + window.scrollY;
  const below = byId("legend").offsetHeight > 0 ? LEGEND : NO_LEGEND;
  return { width: Math.max(320, place.clientWidth), height: Math.max(LEAST_HEIGHT, window.innerHeight - top - below) };
}

// The height of what the red frame has beside its drawing.
const IN_FRAME = 230;

// The room of the drawing in the red frame, which has its moves above it. Beside it is a drawing of this room.
export function roomOfFrame({ height }) {
  return { width: Math.max(320, byId("hunt-told").clientWidth), height: Math.max(LEAST_HEIGHT, height - IN_FRAME), isCompact: true };
}
