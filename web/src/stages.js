// Draws the stages: the instruction on the left, the result on the right, and between them whether the two have met.

import { svg } from "./element.js";
import { unitsOf } from "./layout.js";
import { ghostAt, isUpdated, motionOf, takenAt } from "./motion.js";
import { isDead } from "./telling.js";
import { REGISTER_FILE, bindingText, instructionText, numberText, originText, packetText } from "./values.js";
import { kindOf, stageOf } from "./moves.js";

const LABELS = {
  climb: "↑ climb", fall: "↓ fall", meet: "meet", execute: "execute", send: "send →", launch: "← launch", recover: "recover",
  leave: "↑ leave", serve: "serve", exit: "↓ exit", emit: "↓ emit", slide: "↑", access: "access",
  "issue next": "↑ issue next", "issue taken": "↑ taken", "issue wait": "↑ wait",
};

// Widths of letters, of the moves and of the two sizes of code, and the height of a move.
const LETTER = 7.6;
const CODE_STRONG = 8.5;
const CODE = 7.9;
const CODE_SMALL = 7;
const CODE_NARROW = 7.3;
const CHIP = 22;

export function chipWidth(move) {
  return (LABELS[move] ?? LABELS[kindOf(move)]).length * LETTER + 14;
}

// A move that can be made now, as something to click on.
export function chip(move, x, y) {
  const label = LABELS[move] ?? LABELS[kindOf(move)];
  const width = chipWidth(move);
  return svg("g", { class: "chip", "data-move": move, "aria-hidden": "true" },
    svg("rect", { x, y, width, height: CHIP, rx: 11 }),
    svg("text", { x: x + width / 2, y: y + 15.5, class: "chip-text" }, label));
}

// Chips side by side that end at the right.
function chipsTo(right, y, moves) {
  let x = right;
  return [...moves].reverse().map((move) => {
    x -= chipWidth(move) + 5;
    return chip(move, x + 5, y);
  });
}

function flagClass(passenger) {
  if (isDead(passenger)) return "dead";
  return passenger.flag;
}

const PASSENGERS = ["execute", "send", "launch", "recover", "climb"];
const PACKETS = ["fall"];

// The moves of a stage that can be made now, of its instruction and of its result.
export function allowedAt(view, stage) {
  const { picture, layout } = view;
  const of = (kinds) => kinds.map((kind) => `${kind} ${stage}`).filter((move) => picture.allowed.includes(move));
  const listed = (moves) => moves.filter((move) => picture.allowed.includes(move));
  return {
    passenger: [...of(PASSENGERS), ...(stage === layout.stages ? listed(["serve", "leave"]) : [])],
    packet: [...of(PACKETS), ...(stage === 1 ? listed(["exit"]) : [])],
    meeting: of(["meet"]),
  };
}

function bindingsText(passenger) {
  const sources = passenger.sources.filter((source) => source).map(bindingText);
  const parts = [];
  if (sources.length > 0) parts.push(`takes ${sources.join(", ")}`);
  if (passenger.destination) parts.push(`gives ${bindingText(passenger.destination)}`);
  if (passenger.owes) parts.push(`owes ${packetText(passenger.owes)}`);
  return parts.join("; ");
}

function flagText(passenger) {
  return passenger.guess === "next" ? passenger.flag : `${passenger.flag} (${passenger.guess})`;
}

export function cut(text, letters) {
  return text.length <= letters ? text : `${text.slice(0, Math.max(1, letters - 1))}…`;
}

// A text of code in which the bindings that were just taken are marked.
function markedCode(place, text, taken) {
  const [binding] = taken.map(bindingText);
  const from = binding === undefined ? -1 : text.indexOf(binding);
  if (from < 0) return svg("text", place, text);
  const [before, after] = [text.slice(0, from), text.slice(from + binding.length)];
  return svg("text", place, before, svg("tspan", { class: "taken" }, binding), after);
}

// An instruction's number and its text, in this many letters.
function nameOf({ view, passenger, number }, letters) {
  return cut(`${numberText(number)}${instructionText(view.texts, passenger.address)}`, letters);
}

const widthOf = (moves) => moves.reduce((sum, move) => sum + chipWidth(move) + 5, 0);

// An instruction in one line: its text, what else has room, and its moves.
function passengerLine(one, box) {
  const text = nameOf(one, 24);
  const more = [flagText(one.passenger), bindingsText(one.passenger)].filter((part) => part !== "").join("; ");
  const next = box.x + 26 + text.length * CODE_STRONG;
  const letters = Math.floor((box.x + box.width - next - widthOf(one.moves) - 8) / CODE_SMALL);
  const y = box.y + box.height / 2 + 5;
  return [
    svg("text", { x: box.x + 16, y, class: "code strong" }, text),
    letters > 3 && markedCode({ x: next, y, class: "code small" }, cut(more, letters), one.taken),
    chipsTo(box.x + box.width - 6, box.y + box.height / 2 - CHIP / 2, one.moves),
  ];
}

// An instruction in two lines: text, moves and flag; what it takes, gives and owes.
function passengerLines(one, box) {
  const flag = flagText(one.passenger);
  const used = flag.length * 9 + 34 + widthOf(one.moves);
  const [first, second] = [box.y + box.height * 0.31, box.y + box.height * 0.72];
  const letters = Math.floor((box.width - 24) / CODE);
  return [
    svg("text", { x: box.x + 16, y: first + 5, class: "code strong" }, nameOf(one, Math.floor((box.width - used) / CODE_STRONG))),
    svg("text", { x: box.x + box.width - 10, y: first + 5, class: "flag" }, flag),
    markedCode({ x: box.x + 16, y: second + 5, class: "code" }, cut(bindingsText(one.passenger), letters), one.taken),
    chipsTo(box.x + box.width - flag.length * 9 - 22, first - CHIP / 2, one.moves),
  ];
}

// An instruction in a narrow drawing: its text, and below it its moves, or what it takes, gives and owes.
function passengerNarrow(one, box) {
  const letters = Math.floor((box.width - 14) / CODE_NARROW);
  const second = { x: box.x + 11, y: box.y + 35, class: "code small" };
  return [
    svg("text", { x: box.x + 11, y: box.y + 17, class: "code strong" }, nameOf(one, letters)),
    (one.moves.length === 0 || box.height >= 62) && markedCode(second, cut(bindingsText(one.passenger), letters), one.taken),
    chipsTo(box.x + box.width - 4, box.y + box.height - CHIP - 2, one.moves),
  ];
}

// `one` has the instruction with its number, its moves, and the bindings that it has just taken.
function passengerBox(geometry, stage, one) {
  const { x, width } = geometry.instruction;
  const box = { x, width, y: geometry.y(stage) + 2, height: geometry.row - 4 };
  const form = geometry.isNarrow ? passengerNarrow : geometry.lines === 2 ? passengerLines : passengerLine;
  return [
    svg("title", {}, one.passenger.address),
    svg("rect", { ...box, rx: 6, class: "box" }),
    svg("rect", { ...box, width: 7, rx: 3, class: "edge" }),
    form(one, box),
  ];
}

// Where a result comes from, in the words that have room beside its moves.
function originWords(geometry, number, moves) {
  if (number === undefined) return "";
  if (geometry.isNarrow) return number === REGISTER_FILE ? "" : `from #${number}`;
  const hasRoom = moves.length === 0 || geometry.result.width > 250;
  return number === REGISTER_FILE && !hasRoom ? "register file" : `from ${originText(number)}`;
}

// `one` has the result with the number of the instruction that it comes from, and its moves.
function packetBox(geometry, stage, { packet, number, moves }) {
  const { x, width } = geometry.result;
  const height = Math.min(geometry.row - 4, 54);
  const y = geometry.y(stage) + (geometry.row - height) / 2;
  const middle = y + height / 2;
  const left = x + (geometry.isNarrow ? 9 : 18);
  const hasTwo = geometry.lines === 2;
  const origin = hasTwo ? originWords(geometry, number, moves) : "";
  const text = hasTwo || number === REGISTER_FILE ? packetText(packet) : `${packetText(packet)} ${numberText(number)}`.trimEnd();
  const second = !(geometry.isNarrow && moves.length > 0) && origin !== "";
  const chips = geometry.isNarrow ? y + height - CHIP - 2 : middle - CHIP / 2;
  return [
    svg("rect", { x, y, width, height, rx: geometry.isNarrow ? 10 : height / 2, class: "box" }),
    svg("text", { x: left, y: second || geometry.isNarrow ? y + 17 : middle + 5, class: "code strong" }, text),
    second && svg("text", { x: left, y: y + height - 7, class: "heading small" }, origin),
    chipsTo(x + width - 8, chips, moves),
  ];
}

// What is between the two: that they can meet, that they have met, or what the meeting was that was just made.
function meetingMark(view, geometry, stage, content, moves) {
  const middle = geometry.y(stage) + geometry.row / 2;
  const center = geometry.gap.x + geometry.gap.width / 2;
  if (stageOf(view.last ?? "") === stage && kindOf(view.last) === "meet") {
    const names = view.names.length > 0 ? view.names : ["pass", "by"];
    const look = `met strong${motionOf(view, `meeting ${stage}`)}`;
    return svg("text", { x: center, y: middle + 5 - (names.length - 1) * 8, class: look },
      names.map((name, at) => svg("tspan", { x: center, dy: at === 0 ? 0 : 16 }, name)));
  }
  if (moves.length > 0) return chip(moves[0], center - chipWidth(moves[0]) / 2, middle - CHIP / 2);
  if (content.passenger && content.packet && content.met) return svg("text", { x: center, y: middle + 5, class: "met faint" }, geometry.isNarrow ? "met" : "have met");
  return null;
}

// Words in lines of at most this many letters.
function wrapped(words, letters) {
  const lines = [];
  for (const word of words) {
    const joined = lines.length > 0 ? `${lines.at(-1)} ${word}` : word;
    if (lines.length > 0 && joined.length <= letters) lines[lines.length - 1] = joined;
    else lines.push(word);
  }
  return lines;
}

// The stage's number, with what its units execute.
function labelOf(view, geometry, stage) {
  const { x, width } = geometry.label;
  const right = x + width - (geometry.isNarrow ? 6 : 12);
  const y = geometry.y(stage);
  const units = unitsOf(view.layout, stage);
  const touched = view.last !== null && stageOf(view.last) === stage ? " changed" : "";
  const number = (at) => svg("text", { x: right, y: at, class: `stage-number${touched}` }, String(stage));
  if (geometry.isNarrow) return number(y + geometry.row / 2 + 6);
  if (geometry.lines === 1) {
    const short = units.length === 1 ? units[0] : units.map((unit) => unit.slice(0, 3)).join(" ");
    return [number(y + geometry.row / 2 + 6), svg("text", { x: right - 30, y: y + geometry.row / 2 + 5, class: "units" }, cut(short, 11))];
  }
  const lines = wrapped(units, 15).slice(0, geometry.row < 70 ? 2 : 4);
  const first = y + (geometry.row - 12 * lines.length) / 2 + 6;
  return [number(first), lines.map((line, at) => svg("text", { x: right, y: first + 13 + at * 12, class: "units" }, line))];
}

function passengerWords(view, stage, passenger) {
  const name = `${numberText(view.who.instructions[stage])}${instructionText(view.texts, passenger.address)}`;
  return `instruction ${name}, ${passenger.flag}, ${bindingsText(passenger)}`;
}

// What a stage holds, in words, for who cannot see the drawing.
function stageWords(view, stage) {
  const content = view.picture.stages.get(stage);
  if (!content) return `stage ${stage}: empty`;
  const parts = [];
  if (content.passenger) parts.push(passengerWords(view, stage, content.passenger));
  if (content.packet) parts.push(`result ${packetText(content.packet)} from ${originText(view.who.results[stage])}`);
  if (content.passenger && content.packet) parts.push(content.met ? "they have met" : "they have not met");
  return `stage ${stage}: ${parts.join("; ")}`;
}

function passengerOf(view, geometry, stage, passenger, moves) {
  const ghost = passenger ? null : ghostAt(view, "passenger", stage);
  if (!passenger && !ghost) return null;
  const shown = passenger ?? ghost.content;
  const number = (ghost ? view.whoBefore : view.who).instructions[stage];
  const look = ghost ? ` ghost ${ghost.how}` : "";
  const one = { view, passenger: shown, number, moves: ghost ? [] : moves, taken: takenAt(view, stage) };
  const classes = `passenger is-${flagClass(shown)}${look}${motionOf(view, `passenger ${stage}`)}`;
  return svg("g", { key: "passenger", class: classes, "data-side": "passenger" }, passengerBox(geometry, stage, one));
}

function packetOf(view, geometry, stage, packet, moves) {
  const ghost = packet ? null : ghostAt(view, "packet", stage);
  if (!packet && !ghost) return null;
  const shown = packet ?? ghost.content;
  const number = (ghost ? view.whoBefore : view.who).results[stage];
  const marks = [ghost && `ghost ${ghost.how}`, takenAt(view, stage).length > 0 && "given", isUpdated(view, stage) && "updated"];
  const classes = ["packet", `is-${shown.kind}`, ...marks.filter(Boolean)].join(" ") + motionOf(view, `packet ${stage}`);
  const one = { packet: shown, number, moves: ghost ? [] : moves };
  return svg("g", { key: "packet", class: classes, "data-side": "packet" }, packetBox(geometry, stage, one));
}

export function stageGroup(view, geometry, stage) {
  const content = view.picture.stages.get(stage) ?? { passenger: null, packet: null, met: false };
  const moves = allowedAt(view, stage);
  const y = geometry.y(stage);
  const selected = view.selected === stage;
  const slot = ({ x, width }, side) =>
    svg("rect", { x, y: y + 2, width, height: geometry.row - 4, rx: 6, class: "slot", "data-side": side });
  const whole = { x: geometry.label.x, y: y + 1, width: geometry.width - geometry.label.x - 2, height: geometry.row - 2 };
  const role = { role: "button", tabindex: selected ? 0 : -1, "aria-label": stageWords(view, stage) };
  return svg("g", { key: `stage ${stage}`, class: `stage${selected ? " selected" : ""}`, "data-stage": stage, ...role },
    svg("rect", { ...whole, rx: 8, class: "row" }),
    labelOf(view, geometry, stage),
    slot(geometry.instruction, "passenger"),
    slot(geometry.gap, "meeting"),
    slot(geometry.result, "packet"),
    passengerOf(view, geometry, stage, content.passenger, moves.passenger),
    packetOf(view, geometry, stage, content.packet, moves.packet),
    meetingMark(view, geometry, stage, content, moves.meeting));
}
