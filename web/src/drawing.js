// Draws the processor: the register file and the lane on top, the stages with the sidings beside them, fetch and the cache below.

import { fill, svg } from "./element.js";
import { geometryOf } from "./geometry.js";
import { chip, chipWidth, cut, stageGroup } from "./stages.js";
import { memorySiding } from "./layout.js";
import { motionOf } from "./motion.js";
import { REGISTER_FILE, bindingText, instructionText, numberText, registerName, valueText } from "./values.js";

function allowed(view, moves) {
  return moves.filter((move) => view.picture.allowed.includes(move));
}

function registerCell(view, x, y, at) {
  const value = view.picture.registers[at];
  const was = view.before?.registers[at] ?? value;
  const state = was !== value ? "changed" : value === "00000000" ? "faint" : "";
  return svg("text", { x, y, class: `code register ${state}` }, `x${at}`.padEnd(4, "\u00a0") + valueText(value));
}

function fileHeading(view, x, y, width) {
  return [
    svg("text", { x: x + 10, y: y + 19, class: "heading" }, "register file"),
    svg("text", { x: x + width - 12, y: y + 19, class: "heading end" }, `${view.picture.retired} retired`),
  ];
}

function registerFile(view, geometry) {
  const { y, height, columns, heading, line } = geometry.file;
  const x = geometry.isNarrow ? 4 : geometry.label.x + 4;
  const width = geometry.width - x - 6;
  const rows = view.picture.registers.length / columns;
  const column = (width - 10) / columns;
  const cells = view.picture.registers.map((_, at) =>
    registerCell(view, x + 10 + Math.floor(at / rows) * column, y + heading + 10 + (at % rows) * line, at));
  return svg("g", { class: "register-file" },
    svg("rect", { x, y, width, height, rx: 8, class: "frame" }),
    geometry.isCompact ? null : fileHeading(view, x, y, width),
    cells);
}

function laneWords(shown, more) {
  if (shown === 0) return "lane: nothing is asked for";
  return more > 0 ? `lane, and ${more} more` : "lane, next on the right";
}

const shortLaneWords = (shown, more) => (more > 0 ? `lane, ${more} more` : shown === 0 ? "lane: empty" : "lane");

// The registers that were asked for: the rightmost is answered next.
function lane(view, geometry) {
  const y = geometry.lane;
  const right = geometry.result.x + geometry.result.width;
  const emit = allowed(view, ["emit"]);
  const end = right - (emit.length > 0 ? chipWidth("emit") + 10 : 0);
  const most = Math.floor((end - geometry.gap.x + (geometry.isNarrow ? 30 : 150)) / 40);
  const asked = view.picture.lane.slice(0, most);
  const more = view.picture.lane.length - asked.length;
  const words = geometry.isNarrow ? shortLaneWords : laneWords;
  return svg("g", { class: "lane" },
    geometry.isCompact && svg("text", { x: geometry.instruction.x - 12, y: y + 22, class: "heading end" }, `${view.picture.retired} retired`),
    svg("text", { x: geometry.instruction.x + 12, y: y + 22, class: "heading" }, words(asked.length, more)),
    asked.map((register, at) => [
      svg("rect", { x: end - 40 * (at + 1), y: y + 5, width: 36, height: 26, rx: 5, class: "request" }),
      svg("text", { x: end - 40 * (at + 1) + 18, y: y + 23, class: "code center" }, registerName(register)),
    ]),
    emit.map((move) => chip(move, right - chipWidth(move), y + 8)));
}

// The operation in a cell of a siding: its text, and whether it has its answer.
function operationIn(view, at, cell) {
  const held = view.picture.sidings.get(at)?.[cell] ?? "-";
  if (held === "-") return null;
  const text = `${numberText(view.who.sidings[at]?.[cell])}${instructionText(view.texts, held.replace("*", ""))}`;
  return { text, isAnswered: held.endsWith("*") };
}

function movesOfCell(view, at, cell) {
  const isPort = at === memorySiding(view.layout) && cell === view.layout.sidings[at].cells - 1;
  return allowed(view, [`slide ${at} ${cell}`, ...(isPort ? ["access"] : [])]);
}

function sidingCell(view, at, cell, box) {
  const operation = operationIn(view, at, cell);
  const moves = movesOfCell(view, at, cell);
  const middle = box.y + box.height / 2;
  const isLow = box.height < 40;
  const kind = operation ? `holds${operation.isAnswered ? " answered" : ""}` : "";
  const words = operation ? `: ${operation.text}${operation.isAnswered ? ", answered" : ""}` : " is empty";
  const fitting = moves.filter((move) => chipWidth(move) <= box.width);
  const hasBeside = fitting.length > 0 && isLow;
  const place = { x: hasBeside ? box.x + 5 : box.x + box.width / 2, y: middle + (fitting.length > 0 && !isLow ? -4 : 5) };
  const letters = Math.floor((box.width - (hasBeside ? chipWidth(fitting[0]) + 6 : 0)) / 7);
  const motion = motionOf(view, `cell ${at} ${cell}`);
  return svg("g", { class: `cell ${kind}${motion}`, role: "img", "aria-label": `siding ${at}, cell ${cell}${words}` },
    svg("rect", { ...box, rx: 5, class: "slot-of-cell" }),
    operation && svg("text", { ...place, class: `code small${hasBeside ? "" : " center"}` }, cut(operation.text, letters)),
    fitting.map((move) => chip(move, box.x + box.width - chipWidth(move) - 2, isLow ? middle - 11 : middle + 2)));
}

// Where a siding's cells are: from where it launches, below, to where it recovers, above.
function sidingPlace(view, geometry, at) {
  const { launch, recover } = view.layout.sidings[at];
  const middle = (stage) => geometry.y(stage) + geometry.row / 2;
  return { x: geometry.siding(at), width: geometry.sidingWidth, from: middle(launch), to: middle(recover), gap: 12 };
}

// The ways between the pipe and a siding.
function ways(view, geometry, at) {
  const { x, width, from, to, gap } = sidingPlace(view, geometry, at);
  const side = geometry.label.x + 4;
  const center = x + width / 2;
  return svg("g", { class: "ways" },
    svg("path", { d: `M ${side} ${from} H ${center} V ${from - gap}`, class: "way", "marker-end": "url(#arrow)" }),
    svg("path", { d: `M ${center} ${to + gap} V ${to} H ${side}`, class: "way", "marker-end": "url(#arrow)" }));
}

function cellBox(view, geometry, at, cell) {
  const { x, width, from, to, gap } = sidingPlace(view, geometry, at);
  const height = (from - to - 2 * gap) / view.layout.sidings[at].cells;
  return { x, width, y: from - gap - (cell + 1) * height + 1, height: height - 2 };
}

// A siding's cells, and above them what it executes.
function siding(view, geometry, at) {
  const { classes, cells } = view.layout.sidings[at];
  const { x, width, to } = sidingPlace(view, geometry, at);
  const boxes = Array.from({ length: cells }, (_, cell) => cellBox(view, geometry, at, cell));
  return svg("g", { class: "siding" },
    svg("text", { x: x + width / 2, y: to - 6, class: "units center" }, cut(classes.join(" "), Math.floor(width / 5.5))),
    boxes.map((box, cell) => sidingCell(view, at, cell, box)));
}

// The moves that issue, side by side: below the text of the box, or where that is low at its right.
function issueChips(view, geometry, x, width) {
  const { y, height } = geometry.fetch;
  const moves = allowed(view, ["issue next", "issue taken", "issue wait"]);
  const before = (nth) => moves.slice(0, nth).reduce((sum, move) => sum + chipWidth(move) + 8, 0);
  const left = geometry.isCompact ? x + width - before(moves.length) : x + 12;
  return { chips: moves.map((move, nth) => chip(move, left + before(nth), y + height - 29)), used: geometry.isCompact ? before(moves.length) : 0 };
}

// The box below the stages: fetch with what it can issue. Where no cache is beside it, it has all the width.
function fetch(view, geometry) {
  const { x } = geometry.instruction;
  const width = geometry.instruction.width + (view.layout.hasCache ? 0 : geometry.gap.width + geometry.result.width);
  const { y, height } = geometry.fetch;
  const at = view.picture.fetch;
  const words = at === "wait" ? "fetch waits for a turn" : `fetch ${at}`;
  const { chips, used } = issueChips(view, geometry, x, width);
  const letters = Math.floor((width - 140 - used) / 8.5);
  return svg("g", { class: "fetch" },
    svg("rect", { x, y, width, height, rx: 8, class: "frame" }),
    svg("text", { x: x + 12, y: y + 22, class: "heading" }, words),
    at !== "wait" && letters > 8 && svg("text", { x: x + 130, y: y + 22, class: "code strong" }, cut(view.texts.get(at) ?? "", letters)),
    chips);
}

// The register cache: as many of its registers as have room.
function cache(view, geometry) {
  if (!view.layout.hasCache) return null;
  const { x, width } = geometry.result;
  const { y, height } = geometry.fetch;
  const kept = view.picture.cache ?? [];
  const columns = geometry.isNarrow ? 1 : 2;
  const shown = kept.slice(0, geometry.isCompact ? columns : 2 * columns);
  const first = geometry.isCompact ? 29 : 36;
  const more = kept.length - shown.length;
  return svg("g", { class: "cache" },
    svg("rect", { x, y, width, height, rx: 8, class: "frame" }),
    svg("text", { x: x + 12, y: y + (geometry.isCompact ? 14 : 20), class: "heading" }, more > 0 ? `cache, and ${more} more` : "cache"),
    shown.map((binding, at) => {
      const place = { x: x + 12 + (at % columns) * (width / 2 - 6), y: y + first + Math.floor(at / columns) * 15 };
      return svg("text", { ...place, class: "code small" }, bindingText(binding));
    }));
}

// A thin line from where a result comes from to where it is, while it is on its way.
function originLine(view, geometry, stage) {
  const number = view.who.results[stage];
  const middle = (at) => geometry.y(at) + geometry.row / 2;
  // Lines from different origins run side by side.
  const side = geometry.result.x - 6 - 6 * (number % 4);
  const [from] = Object.entries(view.who.instructions).find(([, one]) => one === number) ?? [];
  const begin = number === REGISTER_FILE ? geometry.lane + 34 : from ? middle(Number(from)) : null;
  if (begin === null || Number(from) === stage) return null;
  const start = number === REGISTER_FILE ? `M ${side} ${begin}` : `M ${geometry.gap.x} ${begin} H ${side}`;
  return svg("path", { d: `${start} V ${middle(stage)} H ${geometry.result.x}`, class: `origin is-${view.picture.stages.get(stage).packet.kind}` });
}

// Where a part of the drawing is, by its name.
function partBox(view, geometry, part) {
  const [kind, one, other] = part.split(" ");
  const inner = { y: geometry.y(Number(one)) + 2, height: geometry.row - 4 };
  const columns = { passenger: geometry.instruction, packet: geometry.result, meeting: geometry.gap, label: geometry.label };
  if (columns[kind]) return { ...columns[kind], ...inner };
  if (kind === "cell") return cellBox(view, geometry, Number(one), Number(other));
  if (kind === "lane") return { x: geometry.gap.x, width: geometry.width - geometry.gap.x - 4, y: geometry.lane + 1, height: 34 };
  return { ...geometry.instruction, ...geometry.fetch };
}

// The place of a move that cannot be made, and what bars it.
function outlines(view, geometry) {
  if (!view.blame) return null;
  const isThere = (part) => part !== null && Object.values(partBox(view, geometry, part)).every(Number.isFinite);
  const outline = (part, look) => isThere(part) && svg("rect", { ...partBox(view, geometry, part), rx: 6, class: `outline ${look}` });
  return svg("g", { class: "outlines" }, outline(view.blame.place, "asked"), outline(view.blame.by, "bars"));
}

function arrowHead() {
  const form = { viewBox: "0 0 8 8", refX: 7, refY: 4, markerWidth: 7, markerHeight: 7, orient: "auto" };
  const head = svg("path", { d: "M 0 0 L 8 4 L 0 8 z", class: "arrow-head" });
  return svg("defs", {}, svg("marker", { id: "arrow", ...form }, head));
}

// The size of the drawing and of its stages. Set again it would have the browser look at the whole drawing again.
function setSize(into, geometry) {
  const size = `0 0 ${geometry.width} ${geometry.height}`;
  into.classList.toggle("narrow", geometry.isNarrow);
  if (into.getAttribute("viewBox") === size) return;
  into.setAttribute("viewBox", size);
  into.style.setProperty("--row", `${geometry.row}px`);
  into.style.height = `${geometry.height * geometry.scale}px`;
}

// Draws into the element. `view` has the layout, the picture and the one before it, who is who in both, the texts, the last move with the
// names of its meeting, the selected stage, the place and the bar of a move that could not be made, and the room that there is.
export function draw(into, view) {
  const geometry = geometryOf(view.layout, view.room);
  const stages = Array.from({ length: view.layout.stages }, (_, above) => view.layout.stages - above);
  setSize(into, geometry);
  fill(into,
    arrowHead(),
    registerFile(view, geometry),
    lane(view, geometry),
    // A way passes behind the cells of the sidings that are nearer to the pipe.
    view.layout.sidings.map((_, at) => ways(view, geometry, at)),
    view.layout.sidings.map((_, at) => siding(view, geometry, at)),
    stages.map((stage) => stageGroup(view, geometry, stage)),
    svg("g", { class: "origins" }, Object.keys(view.who.results).map((stage) => originLine(view, geometry, Number(stage)))),
    fetch(view, geometry),
    cache(view, geometry),
    outlines(view, geometry));
}
