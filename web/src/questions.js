// What Predict asks of a move before it is made, and whether what is said is right. Everything here is plain values.

import { kindOf, stageOf } from "./moves.js";
import { namesOfMeeting } from "./telling.js";
import { instructionText, originText, packetText } from "./values.js";

export const MEETINGS = ["garner", "kill", "update", "die", "pass"];
export const NO_BAR = "nothing: it can be made";
// Bars that a learner takes for one another.
const COMMON_BARS = ["NotMet", "Occupied", "SourceMissing", "NotDone", "Dead", "Owes"];
const MOST_BARS = 4;

function nameOf({ before, who, texts }, stage) {
  const passenger = before.stages.get(stage).passenger;
  return `#${who.instructions[stage]} \`${instructionText(texts, passenger.address)}\``;
}

function ofMeeting(moment) {
  const { move, before, after, who } = moment;
  const stage = stageOf(move);
  const packet = before.stages.get(stage).packet;
  const from = originText(who.results[stage]);
  const names = namesOfMeeting(move, before, after);
  return {
    kind: "meeting",
    text: `\`${move}\`: ${nameOf(moment, stage)} meets ${packetText(packet)} from ${from}. What happens? More than one may.`,
    choices: MEETINGS,
    isMany: true,
    answer: names.length > 0 ? names : ["pass"],
  };
}

function ofBar({ move, bar }) {
  const answer = bar.split(" ")[0];
  const others = COMMON_BARS.filter((name) => name !== answer).slice(0, MOST_BARS - 1);
  return { kind: "bar", text: `What bars \`${move}\` now?`, choices: [...[answer, ...others].sort(), NO_BAR], isMany: false, answer: [answer] };
}

function ofValue(moment) {
  const { move, after } = moment;
  const stage = stageOf(move);
  const destination = after.stages.get(stage)?.passenger?.destination;
  if (!destination?.value) return null;
  const verb = kindOf(move) === "execute" ? "compute" : "bring back";
  const text = `\`${move}\`: which value does ${nameOf(moment, stage)} ${verb}?`;
  return { kind: "value", text, choices: [], isMany: false, answer: [destination.value] };
}

// The question on a move, or null where there is none. A moment has the move, the pictures before and after it or its bar, who is who, and
// the texts of the program.
export function questionOf(moment) {
  const kind = kindOf(moment.move);
  if (moment.bar) return ofBar(moment);
  if (kind === "meet") return ofMeeting(moment);
  return kind === "execute" || kind === "recover" ? ofValue(moment) : null;
}

// The 32 bits that a text means: a short number in decimal, or eight hexadecimal digits; NaN where it is neither.
function valueOfText(text) {
  const bare = text.trim().replace(/^x\d+ *= */, "").replace(/^0x/i, "");
  if (/^-?\d{1,7}$/.test(bare)) return Number(bare) >>> 0;
  return /^[0-9a-f]{1,8}$/i.test(bare) ? parseInt(bare, 16) >>> 0 : NaN;
}

// Whether what was said is the answer: all of it and nothing else.
export function isRight({ kind, answer }, said) {
  if (kind === "value") return said.length === 1 && valueOfText(said[0]) === parseInt(answer[0], 16);
  return said.length === answer.length && answer.every((part) => said.includes(part));
}

export function answerText({ kind, answer }) {
  if (kind !== "value") return answer.join(" and ");
  const value = parseInt(answer[0], 16) | 0;
  return Math.abs(value) < 10000 ? String(value) : answer[0];
}
