// The red frame: a wrong run where its moves have led, the first wrong line beside the sequential machine's, and its moves as a list.

import { draw } from "./drawing.js";
import { byId, fill, html, sentence } from "./element.js";
import { memorySiding } from "./layout.js";
import { roomOfFrame } from "./room.js";
import { readRetired } from "./sequential.js";
import { namesOfMeeting, told } from "./telling.js";
import { instructionText, registerName, valueText } from "./values.js";

// A line of what retired: its number, the text of the instruction, and what it wrote.
function retiredWords(line, texts) {
  const { number, address, wrote } = readRetired(line);
  const [, register, value] = /^(x\d\d)=(.*)$/.exec(wrote) ?? [];
  return `${number}. ${instructionText(texts, address)}${register ? `, ${registerName(register)}=${valueText(value)}` : ", which writes nothing"}`;
}

// The picture after this many moves. Where none is known, the last one that is stays, faint.
function showScene({ run, at, subject, room, isFast }) {
  const isKnown = run.scenes[at] !== null;
  const scene = run.scenes[at] ?? run.scenes[run.parting] ?? null;
  byId("hunt-drawing").classList.toggle("still", isFast);
  byId("hunt-room").classList.toggle("unknown", !isKnown);
  byId("hunt-drawing").toggleAttribute("hidden", !scene);
  if (!scene) return;
  const { picture, before, who, whoBefore } = scene;
  const moved = isKnown && before !== null;
  const last = moved ? { last: scene.move, names: namesOfMeeting(scene.move, before, picture) } : { last: null, names: [] };
  const view = { layout: subject.layout, texts: subject.texts, picture: { ...picture, allowed: [] }, before, who, whoBefore, ...last };
  draw(byId("hunt-drawing"), { ...view, selected: 0, blame: null, room: roomOfFrame(room) });
}

function sceneWords({ run, at, subject }) {
  if (at === 0) return "Nothing has happened yet.";
  const scene = run.scenes[at];
  const move = `${at}. \`${run.moves[at - 1]}\``;
  if (at === run.moves.length) return `${move}. This is where the run ends, as the program reports it.`;
  if (!scene) return `${move}. The program reports the end of such a run alone, so there is no picture here.`;
  const who = { before: scene.whoBefore, after: scene.who };
  return `${move} ${told(scene.move, scene.before, scene.picture, { texts: subject.texts, who, memory: memorySiding(subject.layout) })}`;
}

// The first wrong line beside the sequential machine's. Its place is kept while the run has not come to it.
function showLines({ run, at, subject }) {
  byId("hunt-lines").hidden = run.seen === null;
  byId("hunt-lines").classList.toggle("to-come", at < run.moves.length);
  if (run.seen === null) return;
  const wanted = run.wanted === null ? "retires nothing more" : retiredWords(run.wanted, subject.texts);
  fill(byId("hunt-lines"),
    html("tr", { class: "wrong" }, html("th", { scope: "row" }, "without the rule"), html("td", {}, retiredWords(run.seen, subject.texts))),
    html("tr", {}, html("th", { scope: "row" }, "the sequential machine"), html("td", {}, wanted)));
}

// The moves, with the one at which the processor does otherwise. A click on a move shows what is known after it.
function showList({ run, at }) {
  const look = (nth) => [nth + 1 === at ? "current" : "", nth === run.parting ? "parts" : "", nth + 1 > at ? "ahead" : ""].join(" ").trim();
  const bar = (nth) => (nth === run.parting && run.bar ? html("span", { class: "bar" }, ` ${run.bar}`) : null);
  fill(byId("hunt-moves"), run.moves.map((move, nth) => html("li", {}, html("button", { class: look(nth), "data-at": nth + 1 }, move, bar(nth)))));
}

// `shown` has the run with its scenes, after how many moves it is shown, what it is a run of, and the room of the drawing beside it.
export function showFrame(shown) {
  showScene(shown);
  fill(byId("hunt-told"), sentence(sceneWords(shown)));
  showLines(shown);
  showList(shown);
}
