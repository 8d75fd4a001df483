// A wrong run of the table of moves without one of its rules, beside the processor that has them all. Everything here is plain values.

import { namesOfMeeting } from "./telling.js";
import { NO_TRACK, trackAfter } from "./track.js";

// A step of a meeting is no bar.
const STEP = /^meet:(\w+)$/;

// The place of the move at which the processor does otherwise than the table without the rule: it bars the move, or its meeting does the
// step that was taken away. `pictures` are the processor's, from its start on, one more than it could make moves of the list.
export function partingOf(rule, moves, pictures) {
  const [, step] = STEP.exec(rule) ?? [];
  const made = moves.slice(0, pictures.length - 1);
  const found = made.findIndex((move, at) => namesOfMeeting(move, pictures[at], pictures[at + 1]).includes(step));
  return found >= 0 ? found : made.length;
}

const sceneOfEnd = (picture, move) => ({ picture, before: null, move, who: NO_TRACK.who, whoBefore: NO_TRACK.who });

// No processor has the layout: it makes no move, and bars none.
export const NO_PARTING = { parting: -1, bar: null };

// What can be drawn of a wrong run after each number of moves: up to the parting the processor's own pictures, since both have made the
// same moves and none was barred; after the last move the picture of the report. Between these nothing is known.
export function scenesOf(moves, pictures, parting, last, texts) {
  const scenes = [sceneOfEnd(pictures[0], null)];
  let track = NO_TRACK;
  for (let at = 0; at < parting; at += 1) {
    const next = trackAfter(track, moves[at], pictures[at], pictures[at + 1], texts);
    scenes.push({ picture: pictures[at + 1], before: pictures[at], move: moves[at], who: next.who, whoBefore: track.who });
    track = next;
  }
  while (scenes.length < moves.length) scenes.push(null);
  return [...scenes.slice(0, moves.length), sceneOfEnd(last, moves.at(-1))];
}

// The same of a layout that no processor has: its end alone.
export function refusedScenes({ moves, picture }) {
  return [...moves.map(() => null), sceneOfEnd(picture, moves.at(-1))];
}

// What the processor with all its rules does at the parting, in words.
export function partingWords(rule, { moves, parting, bar }) {
  if (bar) return `At move ${parting + 1} the processor stops: \`${moves[parting]}\` is barred, ${bar}.`;
  if (parting === moves.length) return "The processor makes all these moves.";
  return `At move ${parting + 1} the processor does what was taken away: ${STEP.exec(rule)[1]}.`;
}
