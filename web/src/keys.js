// The keys: all that the mouse can do.

import { byId, fill, html } from "./element.js";

// Keys that make a move; those with `#` make it at the selected stage.
const MOVE_KEYS = {
  i: "issue next", t: "issue taken", w: "issue wait", e: "emit", m: "meet #", x: "execute #", s: "send #", l: "launch #", r: "recover #",
  c: "climb #", f: "fall #", d: "slide", a: "access", v: "leave", k: "serve", o: "exit",
};

const OTHER_KEYS = [
  ["→", "one move, by the rule or from the seed"],
  ["shift →", "the move again that was taken back last"],
  ["←", "take a move back"],
  ["space", "play, stop"],
  ["Home", "take all moves back"],
  ["End", "all moves again that were taken back"],
  ["n", "a round: moves that share no place, made at once"],
  ["y", "a tick: the moves of a timed run that finish at one time"],
  ["q", "Predict: say what a move does before it is shown; or no more"],
  ["p", "the projector: the pipes with all the room, or the panels again"],
  ["b", "back to the script, where moves of your own left it"],
  ["↑ ↓", "choose a stage"],
  ["Enter", "the move of the chosen stage, where it has just one"],
  ["?", "these keys"],
];

export function showKeys() {
  const moves = Object.entries(MOVE_KEYS).map(([key, move]) => [key, move.replace("#", "at the chosen stage")]);
  const rows = [...OTHER_KEYS, ...moves].map(([key, words]) => [html("dt", {}, html("kbd", {}, key)), html("dd", {}, words)]);
  fill(byId("key-list"), rows);
}

// In a choice the arrows left and right are the page's: those up and down choose.
function isTyping({ target, key }) {
  const isChoosing = target.tagName === "SELECT" && key !== "ArrowRight" && key !== "ArrowLeft";
  return isChoosing || ["INPUT", "TEXTAREA"].includes(target.tagName) || document.querySelector("dialog[open]") !== null;
}

// Calls the action of each key. An element that takes typing, or a key with control or alt, is left alone.
export function listenToKeys(actions) {
  document.addEventListener("keydown", (event) => {
    if (event.ctrlKey || event.altKey || event.metaKey || isTyping(event)) return;
    const isButton = ["BUTTON", "A", "SUMMARY"].includes(event.target.tagName) && (event.key === " " || event.key === "Enter");
    const name = event.shiftKey && event.key === "ArrowRight" ? "again" : event.key;
    const action = actions[name] ?? (MOVE_KEYS[name] && (() => actions.move(MOVE_KEYS[name])));
    if (isButton || !action) return;
    event.preventDefault();
    action();
  });
}
