// Tests of what the page works out of the answers of `cfpp orders` and of timed runs: `node --test web/tests`.

import assert from "node:assert/strict";
import test from "node:test";
import { graphOf, layersOf, placesOf, routeTo, walk } from "../src/graph.js";
import { partingOf, partingWords, refusedScenes, scenesOf } from "../src/hunt.js";
import { readReport } from "../src/report.js";
import { readSearch } from "../src/search.js";
import { isOfRun, nextTick, readTimed } from "../src/timed.js";

// Two ways to one end, of two and of three moves, and a third one that ends by itself.
const OUTPUT = "0 1 a\n0 2 b\n1 3 b\n2 4 c\n2 5 d\n4 3 a\n";
const COUNTED = "states 6\nmoves 6\nends 2\norders 3\n";

test("counts and edges are read", () => {
  const found = readSearch(COUNTED, OUTPUT);
  assert.deepEqual({ ...found, edges: found.edges.length }, { outcome: "counted", states: 6, moves: 6, ends: 2, orders: "3", edges: 6 });
  assert.deepEqual(found.edges[3], { from: 2, to: 4, move: "c" });
  assert.equal(readSearch("states 1\nmoves 0\nends 1\norders more than 18446744073709551615\n", "").orders, "more than 18446744073709551615");
  assert.deepEqual(readSearch("more than 20 states\n", ""), { outcome: "too many", most: 20 });
  assert.deepEqual(readSearch("bad words at 4\n", ""), { outcome: "refused", reason: "bad words at 4" });
});

test("a wrong run is read with its last picture", () => {
  const lines = ["wrong after 2 moves: retired", "seen retire 1 00010000 00100093 -", "retired 1", "fetch 00010004", "lane -"];
  const found = readSearch(`${lines.join("\n")}\n`, "issue next\nleave\n");
  assert.deepEqual([found.outcome, found.kind, found.moves.join()], ["wrong", "retired", "issue next,leave"]);
  assert.deepEqual([found.seen, found.wanted], ["retire 1 00010000 00100093 -", null]);
  assert.deepEqual([found.picture.retired, found.picture.fetch, found.picture.lines.length], [1, "00010004", 0]);
});

test("a graph has its layers, the ways through it, and a place for each state", () => {
  const graph = graphOf(readSearch(COUNTED, OUTPUT).edges);
  assert.deepEqual(layersOf(graph), [0, 1, 1, 3, 2, 2]);
  assert.deepEqual(routeTo(graph, 3), ["a", "b"]);
  assert.deepEqual(routeTo(graph, 0), []);
  assert.deepEqual(walk(graph, ["b", "c", "a"]), [0, 2, 4, 3]);
  assert.equal(walk(graph, ["b", "b"]), null);
  const places = placesOf(graph);
  assert.deepEqual(places.map(({ x }) => x), [0, 1, 1, 3, 2, 2]);
  assert.equal(new Set(places.map(({ x, y }) => `${x} ${y}`)).size, 6);
});

// A meeting in which a turn makes an instruction dead.
const picture = (...stages) => readReport(["retired 0", "fetch 00010004", "lane -", ...stages].join("\n"));
const ALIVE = picture("stage 1 full | 00010004 next new - - - - | turn 00010008");
const DEAD = picture("stage 1 complete | 00010004 next dead - - - - | turn 00010008");

test("a run parts from the processor at the bar, or where a meeting does what was taken away", () => {
  assert.equal(partingOf("climb:NotMet", ["meet 1", "climb 1"], [ALIVE, DEAD]), 1);
  assert.equal(partingOf("meet:die", ["meet 1", "climb 1"], [ALIVE, DEAD]), 0);
  assert.equal(partingOf("meet:kill", ["meet 1"], [ALIVE, DEAD]), 1);
  assert.equal(partingWords("meet:die", { moves: ["meet 1"], parting: 0, bar: null }), "At move 1 the processor does what was taken away: die.");
  assert.equal(partingWords("climb:Owes", { moves: ["climb 1"], parting: 0, bar: "Owes" }), "At move 1 the processor stops: `climb 1` is barred, Owes.");
  assert.equal(partingWords("meet:kill", { moves: ["meet 1"], parting: 1, bar: null }), "The processor makes all these moves.");
});

test("between the parting and the end there is no picture", () => {
  const end = picture("stage 2 result | halt");
  const scenes = scenesOf(["meet 1", "climb 1", "leave"], [ALIVE, DEAD], 1, end, new Map());
  assert.deepEqual(scenes.map((scene) => scene?.picture), [ALIVE, DEAD, undefined, end]);
  assert.deepEqual([scenes[1].move, scenes[1].before], ["meet 1", ALIVE]);
  assert.equal(scenes[2], null);
  assert.deepEqual(refusedScenes({ moves: ["meet 1"], picture: end }).map((scene) => scene?.picture), [undefined, end]);
});

test("a tick makes the moves that finish at one time", () => {
  const moves = ["from 0 to 1 issue next", "from 1 to 4 meet 1", "from 3 to 4 leave", "from 4 to 5 exit"];
  const timed = readTimed(`${moves.map((line, at) => `move ${at + 1} ${line}\n`).join("")}plain: exit 0 time 5 moves 4 retired 1\n`);
  assert.deepEqual(timed[1], { move: "meet 1", start: 1, finish: 4 });
  assert.deepEqual(nextTick(timed, 0).map(({ move }) => move), ["issue next"]);
  assert.deepEqual(nextTick(timed, 1).map(({ move }) => move), ["meet 1", "leave"]);
  assert.deepEqual(nextTick(timed, 3).map(({ move }) => move), ["exit"]);
  assert.deepEqual(nextTick(timed, 4), []);
  assert.equal(isOfRun(timed, ["issue next", "meet 1"]), true);
  assert.equal(isOfRun(timed, ["issue next", "leave"]), false);
  assert.equal(isOfRun(timed.slice(0, 1), ["issue next", "meet 1"]), false);
});
