// Tests of what the page works out from plain values, without a browser or the program: `node --test web/tests`.

import assert from "node:assert/strict";
import fs from "node:fs";
import test from "node:test";
import { blameOf } from "../src/blame.js";
import { captionOf } from "../src/captions.js";
import { common, isOn, restOf } from "../src/course.js";
import { geometryOf } from "../src/geometry.js";
import { isReached, judged, readGoal } from "../src/goal.js";
import { accessOf, markOf, memoryPlan } from "../src/memory.js";
import { ghostAt, motionOf, takenAt } from "../src/motion.js";
import { chosenAfter } from "../src/moves.js";
import { ticksOf } from "../src/places.js";
import { NO_BAR, answerText, isRight, questionOf } from "../src/questions.js";
import { Reasons } from "../src/reasons.js";
import { comparison } from "../src/second.js";
import { NO_STOP, readStop, stopReached } from "../src/stop.js";

const stepsOf = (text) => text.split(" ").map((move) => ({ move }));
const movesOf = (steps) => steps.map(({ move }) => move).join(" ");

test("moves follow a course, leave it, and go beyond its end", () => {
  const course = stepsOf("a b c");
  assert.equal(common(stepsOf("a b"), course), 2);
  assert.equal(common(stepsOf("a x c"), course), 1);
  assert.equal(common(stepsOf("a b c d"), course), 3);
  assert.equal(isOn(stepsOf("a b"), course), true);
  assert.equal(isOn(stepsOf("b"), course), false);
  assert.equal(isOn([], []), false);
  assert.equal(movesOf(restOf(stepsOf("a"), course)), "c b");
  assert.equal(movesOf(restOf(stepsOf("x"), course)), "");
});

test("the choice goes along with what climbs or falls from it", () => {
  assert.equal(chosenAfter(2, "climb 2"), 3);
  assert.equal(chosenAfter(2, "fall 2"), 1);
  assert.equal(chosenAfter(2, "climb 1"), 2);
  assert.equal(chosenAfter(2, "launch 2"), 2);
});

test("placeholders get what was reported", () => {
  const reasons = new Reasons({
    Bars: { SourceMissing: { placeholders: ["xRR"], why: "waits for xRR", mend: "" } },
    Layouts: { ControlAboveMemory: { placeholders: ["C", "S", "L"], why: "stage S above L", mend: "at or below L" } },
    Programs: { TooShort: { placeholders: ["N"], why: "under 52 bytes (N is 0), or at offset N", mend: "" } },
  });
  assert.equal(reasons.bar("SourceMissing x07"), "SourceMissing x07: waits for x7.");
  assert.equal(reasons.refusal("Layouts", "Refused ControlAboveMemory branch 5 4"), "Refused ControlAboveMemory branch 5 4: stage 5 above 4; at or below 4.");
  assert.equal(reasons.refusal("Programs", "Elf TooShort 9"), "Elf TooShort 9: under 52 bytes, or at offset 9.");
});

test("captions say nothing of files", () => {
  assert.equal(captionOf(["# One thing. Beside it stands other.script.", "# Under `plain`. It goes on."]), "One thing. It goes on.");
  assert.equal(captionOf(["# To the end: examples/scripts/garnering.script, and more. Under tiny, with", "# examples/a.bin."]), "To the end: garnering, and more.");
});

const PLAIN = { stages: 8, sidings: [{ launch: 4, recover: 6 }] };

test("both pipes have their place in each room", () => {
  for (const room of [{ width: 374, height: 600 }, { width: 917, height: 570 }, { width: 1472, height: 850 }, { width: 1240, height: 690 }]) {
    const geometry = geometryOf(PLAIN, room);
    assert.ok(geometry.result.x + geometry.result.width <= geometry.width);
    assert.ok(geometry.instruction.width >= 120 && geometry.result.width >= 90);
    assert.ok(geometry.y(8) === geometry.top && geometry.y(1) + geometry.row === geometry.bottom);
  }
});

test("a room that is large makes all larger, and a small one stages of one line", () => {
  assert.ok(geometryOf(PLAIN, { width: 1472, height: 850 }).scale > 1.4);
  assert.equal(geometryOf(PLAIN, { width: 900, height: 400 }).scale, 1);
  assert.equal(geometryOf(PLAIN, { width: 900, height: 400 }).lines, 1);
});

test("play stops at an address or a count", () => {
  const stop = readStop("1000C", "3");
  assert.deepEqual(stop, { address: "0001000c", retired: 3 });
  assert.deepEqual(readStop("", ""), NO_STOP);
  assert.equal(stopReached(stop, "issue next", { fetch: "0001000c", retired: 0 }, { retired: 0 }), "0001000c was issued");
  assert.equal(stopReached(stop, "climb 1", { fetch: "0001000c", retired: 0 }, { retired: 0 }), null);
  assert.equal(stopReached(stop, "leave", { retired: 2 }, { retired: 3 }), "3 have retired");
  assert.equal(stopReached(stop, "leave", { retired: 3 }, { retired: 4 }), null);
});

test("loads and stores tell which bytes they reach", () => {
  const x2 = { register: "x02", value: "7f0ffff0" };
  assert.deepEqual(accessOf("sw x5, -16(x2)", [x2, { register: "x05", value: "00000001" }]), { isStore: true, size: 4, address: 0x7f0fffe0 });
  assert.deepEqual(accessOf("lbu x5, 3(x2)", [x2, null]), { isStore: false, size: 1, address: 0x7f0ffff3 });
  assert.deepEqual(accessOf("lh x5, 8(x0)", [null, null]), { isStore: false, size: 2, address: 8 });
  assert.equal(accessOf("addi x5, x2, 1", [x2, null]), null);
});

test("memory is planned by region, with what was written marked", () => {
  const store = { isStore: true, size: 4, address: 0x7f0fffe0, number: 1 };
  const load = { isStore: false, size: 2, address: 0x00011008, number: 2 };
  const plan = memoryPlan({ access: load, before: { access: store, before: null } }, 0x7f0ffff0);
  assert.deepEqual(plan.regions, [
    { name: "Data", rows: [0x11000, 0x11008, 0x11010] },
    { name: "Stack", rows: [0x7f0fffe0, 0x7f0ffff0] },
  ]);
  assert.equal(markOf(plan, 0x11009), "read");
  assert.equal(markOf(plan, 0x1100a), "");
  assert.equal(markOf(plan, 0x7f0fffe3), "stored");
  assert.equal(memoryPlan(null, 0x7f0ffff0).last, null);
});

test("what is said is judged", () => {
  const meeting = { kind: "meeting", answer: ["garner", "kill"] };
  assert.equal(isRight(meeting, ["kill", "garner"]), true);
  assert.equal(isRight(meeting, ["garner"]), false);
  assert.equal(isRight(meeting, ["garner", "kill", "die"]), false);
  const value = { kind: "value", answer: ["ffffffff"] };
  assert.equal(isRight(value, ["-1"]), true);
  assert.equal(isRight(value, ["0xffffffff"]), true);
  assert.equal(isRight(value, ["x5 = -1"]), true);
  assert.equal(isRight(value, ["1"]), false);
  assert.equal(answerText(value), "-1");
});

test("a bar is asked with bars that are taken for it, and one that nothing bars", () => {
  const question = questionOf({ move: "climb 1", bar: "SourceMissing x01" });
  assert.deepEqual(question.answer, ["SourceMissing"]);
  assert.equal(new Set(question.choices).size, 5);
  assert.ok(question.choices.includes("SourceMissing") && question.choices.includes(NO_BAR));
  assert.equal(questionOf({ move: "climb 1", bar: null }), null);
});

const PICTURE = { registers: Array.from({ length: 32 }, (_, at) => (at === 1 ? "00000002" : "00000000")), stages: new Map(), sidings: new Map(), retired: 2, kills: 1 };
const STATE = { picture: PICTURE, updates: 0, moves: 18, ticks: 15 };
const reaches = (text, state = STATE) => isReached(judged(readGoal(text), state));

test("a goal is read from words, and judged", () => {
  assert.equal(reaches("x1 = 2, pipes empty, at most 18 moves"), true);
  assert.equal(reaches("x1 = 2, pipes empty, at most 17 moves"), false);
  assert.equal(reaches("x1=3"), false);
  assert.equal(reaches("a kill, retired 2,at most 15 ticks"), true);
  assert.equal(reaches("an update"), false);
  assert.equal(reaches("x1 = 2, pipes empty", { ...STATE, picture: { ...PICTURE, stages: new Map([[1, {}]]) } }), false);
  assert.equal(readGoal("x1 = 2, pipes full").fault, "pipes full");
  assert.equal(readGoal("x32 = 1").fault, "x32 = 1");
  assert.equal(reaches(""), false);
});

const TINY = { stages: 2, sidings: [{ launch: 1, recover: 2, cells: 1, classes: ["memory"] }] };
const answer = (name) => fs.readFileSync(new URL(`../../examples/answers/${name}.script`, import.meta.url), "utf8");

// The rounds that the lab's scripts tell in their comments were written by hand.
test("moves have the ticks of the rounds that the lab tells", () => {
  for (const name of ["apart_two_adders", "chain_two_adders", "apart_one_adder"]) {
    let round = 0;
    const wanted = [];
    const moves = [];
    for (const line of answer(name).split("\n")) {
      if (/^# round/.test(line)) round += 1;
      else if (line !== "" && !line.startsWith("#")) {
        moves.push(line);
        wanted.push(round);
      }
    }
    const ticks = ticksOf(moves, TINY);
    assert.equal(Math.max(...ticks), round, name);
    assert.ok(ticks.every((tick, at) => tick <= wanted[at]), name);
  }
});

const standsAt = (stage, content) => new Map([[stage, { passenger: null, packet: null, ...content }]]);

test("a bar has its place and what bars it", () => {
  const layout = { stages: 8, sidings: [{ launch: 4, recover: 6, cells: 2, classes: ["memory"] }] };
  const picture = { stages: standsAt(5, { packet: { kind: "value", register: "x07" } }) };
  assert.deepEqual(blameOf("climb 3", "Occupied", layout, picture), { place: "passenger 3", by: "passenger 4" });
  assert.deepEqual(blameOf("fall 3", "NotMet", layout, picture), { place: "packet 3", by: "meeting 3" });
  assert.deepEqual(blameOf("leave", "NotMet", layout, picture), { place: "passenger 8", by: "meeting 8" });
  assert.deepEqual(blameOf("exit", "NotMet", layout, picture), { place: "packet 1", by: "meeting 1" });
  assert.deepEqual(blameOf("execute 3", "SourceMissing x07", layout, picture), { place: "passenger 3", by: "packet 5" });
  assert.deepEqual(blameOf("execute 3", "SourceMissing x08", layout, picture), { place: "passenger 3", by: "lane" });
  assert.deepEqual(blameOf("launch 4", "Occupied", layout, picture), { place: "passenger 4", by: "cell 0 0" });
  assert.deepEqual(blameOf("issue next", "FetchWaiting", layout, picture), { place: "fetch", by: "fetch" });
});

test("what stays of a move: a ghost of who was killed, and the value that was taken", () => {
  const source = (value) => [{ register: "x01", value }, null];
  const packet = { kind: "value", register: "x01", value: "00000000" };
  const destination = { register: "x01", value: null };
  const before = { stages: standsAt(2, { passenger: { flag: "new", sources: source(null), destination }, packet }) };
  const picture = { stages: standsAt(2, { passenger: { flag: "new", sources: source("00000000"), destination } }) };
  const view = { last: "meet 2", layout: { stages: 2, sidings: [] }, before, picture };
  assert.deepEqual(ghostAt(view, "packet", 2), { content: packet, how: "killed" });
  assert.equal(ghostAt(view, "packet", 1), null);
  assert.deepEqual(takenAt(view, 2), [source("00000000")[0]]);
  assert.equal(motionOf(view, "meeting 2"), " moved-meet");
  assert.equal(motionOf(view, "meeting 1"), "");
});

test("two orders are compared by what they retired", () => {
  const at = (retired, lines, registers = ["0"]) => ({ retired, lines, registers, moves: 5, kills: 1, stages: new Map() });
  assert.match(comparison(at(1, ["a"]), at(2, ["a", "b"])), /1 and 2 have retired, the first one alike/);
  assert.match(comparison(at(1, ["a"]), at(1, ["b"])), /must not be/);
  assert.match(comparison(at(1, ["a"]), at(1, ["a"])), /registers are the same\. The pipes of both are empty/);
  assert.match(comparison(at(1, ["a"]), at(1, ["a"], ["1"])), /differ/);
});
