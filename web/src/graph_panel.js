// All orders of a small program as a picture below the pipes: a node for each state that can be reached, the moves between them, and which
// state the page is in. A click on a node makes the moves that lead there.

import { byId, fill, svg } from "./element.js";
import { graphOf, placesOf, routeTo, walk } from "./graph.js";

// More states than these are counted and not drawn; more than the others are not counted.
const MOST_DRAWN = 600;
const MOST_STATES = 20000;
// The units of the drawing: between layers, between nodes of a layer, and around all.
const ACROSS = 26;
const DOWN = 17;
const MARGIN = 14;
const NODE = 5;

function lineOf(places, { from, to }, look) {
  const [one, other] = [places[from], places[to]];
  return svg("line", { x1: one.x, y1: one.y, x2: other.x, y2: other.y, class: look });
}

// Each node's point in the drawing, and the drawing's size.
function drawingOf(graph) {
  const places = placesOf(graph);
  const heights = places.map(({ y }) => y);
  const top = Math.min(...heights);
  const points = places.map(({ x, y }) => ({ x: MARGIN + ACROSS * x, y: MARGIN + DOWN * (y - top) }));
  const width = 2 * MARGIN + ACROSS * Math.max(...places.map(({ x }) => x));
  return { points, width, height: 2 * MARGIN + DOWN * (Math.max(...heights) - top) };
}

export class GraphPanel {
  constructor(page) {
    this.page = page;
    this.clear();
  }

  // Forgets the orders of the program before.
  clear() {
    Object.assign(this, { graph: null, answer: null });
  }

  get issues() {
    return Number(byId("graph-issues").value);
  }

  // Asks for all orders, where that has not been done.
  ask() {
    this.answer = this.page.simulator.orders(this.page.session, { issues: this.issues, states: MOST_STATES });
    const isDrawn = this.answer.outcome === "counted" && this.answer.states <= MOST_DRAWN;
    this.graph = isDrawn ? graphOf(this.answer.edges) : null;
    byId("graph").toggleAttribute("hidden", !isDrawn);
    if (isDrawn) this.draw();
    fill(byId("graph-counts"), this.counts());
  }

  counts() {
    const { answer } = this;
    if (answer.outcome === "refused") return `The program refuses this: ${answer.reason}`;
    if (answer.outcome === "too many") return `More than ${answer.most} states can be reached: too many to be counted here.`;
    const ends = answer.ends === 1 ? "They all end in one state" : `They end in ${answer.ends} states`;
    const counts = `${answer.states} states, ${answer.moves} moves between them, ${answer.orders} orders. ${ends}.`;
    const isLarge = answer.states > MOST_DRAWN ? ` At most ${MOST_DRAWN} states are drawn.` : "";
    const read = this.page.session.input.length > 0 ? " These are the orders with an empty input." : "";
    return `${counts}${isLarge}${read}`;
  }

  // What does not change while the page moves through the graph.
  draw() {
    const { points, width, height } = drawingOf(this.graph);
    this.points = points;
    const into = byId("graph");
    into.setAttribute("viewBox", `0 0 ${width} ${height}`);
    into.style.setProperty("--width", `${width}px`);
    fill(byId("graph-edges"), this.graph.edges.map((edge) => lineOf(points, edge, "edge-of-graph")));
    fill(byId("graph-nodes"), points.map(({ x, y }, node) => svg("circle", { cx: x, cy: y, r: NODE, class: this.lookOf(node), "data-node": node },
      svg("title", {}, this.titleOf(node)))));
  }

  lookOf(node) {
    if (node === 0) return "node first";
    return this.graph.leads[node].size === 0 ? "node end" : "node";
  }

  titleOf(node) {
    const next = [...this.graph.leads[node].keys()];
    const length = routeTo(this.graph, node).length;
    return `state ${node}, after ${length} moves at least: ${next.length > 0 ? next.join(", ") : "an end"}`;
  }

  // The script to a node.
  go(node) {
    this.page.resume(routeTo(this.graph, node).map((move) => `${move}\n`).join(""), "");
  }

  show() {
    if (!byId("graph-details").open) return;
    if (this.answer === null) this.ask();
    const nodes = this.graph && walk(this.graph, this.page.session.steps.map(({ move }) => move));
    fill(byId("graph-route"), nodes?.slice(1).map((to, at) => lineOf(this.points, { from: nodes[at], to }, "route")));
    const here = nodes && this.points[nodes.at(-1)];
    fill(byId("graph-here"), here && svg("circle", { cx: here.x, cy: here.y, r: NODE + 3, class: "here" }));
    fill(byId("graph-place"), this.graph && !nodes ? "The moves so far lead out of this picture: more instructions were issued." : "");
  }
}
