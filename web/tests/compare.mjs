// Compares the page's module with the native program, byte for byte: every stored script, each command on stored files, and random calls
// from a seed.
//
//     node web/tests/compare.mjs [COUNT [SEED]]

import fs from "node:fs";
import path from "node:path";
import { text } from "../src/program.js";
import { BySeed } from "../src/schedule.js";
import { Native, TOP, difference, moduleOfPage, scriptsOfPage, shownOfPage } from "./native.mjs";

const COUNT = Number(process.argv[2] ?? 300);
const SEED = Number(process.argv[3] ?? 1);

const read = (name) => fs.readFileSync(path.join(TOP, name));

function list(folder, ending) {
  const names = fs.readdirSync(path.join(TOP, folder)).filter((name) => name.endsWith(ending));
  return names.map((name) => `${folder}/${name}`);
}

const layouts = list("examples/layouts", ".toml").map(read);
const sources = [...list("examples", ".s"), ...list("examples/scripts", ".s")].map(read);
const programs = ["examples", "examples/scripts"].flatMap((folder) => [...list(folder, ".bin"), ...list(folder, ".elf")]).map(read);
const inputs = [...list("examples", ".input").map(read), Buffer.alloc(0)];

// A source of random choices.
class Draw {
  constructor(seed) {
    this.words = new BySeed(seed);
  }

  below(bound) {
    return this.words.word() % bound;
  }

  of(choices) {
    return choices[this.below(choices.length)];
  }
}

const KINDS = ["climb", "fall", "meet", "execute", "send", "launch", "recover"];

function randomLine(draw) {
  const choices = [
    `${draw.of(KINDS)} ${1 + draw.below(8)}`,
    `issue ${draw.of(["next", "taken", "wait", "to 00010008"])}`,
    draw.of(["emit", "access", "leave", "exit", "serve"]),
    `slide ${draw.below(3)} ${draw.below(3)}`,
  ];
  return draw.below(40) === 0 ? draw.of(["climb", "jump 3", "fall 1 2", "# a note", ""]) : draw.of(choices);
}

// The moves of a run from a seed, at times with one that may be barred behind them.
function randomScript(draw, native, layout, program, input) {
  const words = ["run", "layout", "program", "--seed", String(draw.below(1000)), "--limit", String(1 + draw.below(12)), "--show", "moves"];
  const { report } = native.call(words, { layout, program }, input);
  const moves = [...report.toString().matchAll(/^move \d+ (.*)$/gm)].map(([, move]) => move);
  const kept = moves.slice(0, draw.below(moves.length + 1));
  const more = Array.from({ length: draw.below(4) }, () => randomLine(draw));
  return Buffer.from([...kept, ...more].map((line) => `${line}\n`).join(""));
}

function changed(draw, bytes) {
  const copy = Buffer.from(bytes);
  for (let count = draw.below(4); count > 0; count -= 1) copy[draw.below(copy.length)] = draw.below(128);
  return copy;
}

function randomCall(draw, native) {
  const files = { layout: draw.of(layouts), program: draw.of(programs) };
  const input = draw.of(inputs);
  const shown = ["--show", draw.of(["report", "retired", "moves"])];
  const limit = ["--limit", String(draw.below(60))];
  const onProcessor = ["run", "layout", "program"];
  const kind = draw.below(12);
  if (kind < 4) {
    files.script = randomScript(draw, native, files.layout, files.program, input);
    const words = draw.of([[...onProcessor, ...shown], ["moves", "layout", "program"]]);
    return [[...words, "--script", "script"], files, input];
  }
  if (kind < 7) return [[...onProcessor, "--seed", String(draw.words.word()), ...limit, ...shown], files, input];
  if (kind === 7) {
    const words = ["machine", "program", "--limit", String(draw.below(3000)), "--show", draw.of(["report", "retired"])];
    return [[...words, ...draw.of([[], ["--mul"]])], files, input];
  }
  if (kind === 8) {
    const words = draw.of([["check", "layout"], ["list", "program"], [...onProcessor, ...limit]]);
    return [words, { layout: changed(draw, files.layout), program: changed(draw, files.program) }, input];
  }
  if (kind === 9) return [["asm", "source"], { source: changed(draw, draw.of(sources)) }, input];
  if (kind === 10) return [["rounds", "layout", "program", ...limit], files, input];
  const delays = changed(draw, read("examples/delays/slow_memory.delays"));
  return [["time", "delays", "program", "plain", "layout", ...limit], { ...files, delays }, input];
}

const native = new Native();
const module = moduleOfPage();
let failed = 0;

function count(what, fault) {
  if (!fault) return;
  failed += 1;
  console.log(`failed: ${what}: ${fault}`);
}

const scripts = scriptsOfPage();
for (const { name, files, report } of scripts) {
  const words = ["run", "layout", "program", "--script", "script"];
  const answer = module.call(words, Object.fromEntries(Object.entries(files).map(([file, content]) => [file, Buffer.from(content)])));
  const fault = text(answer.report) === report ? null : "it is not the stored report";
  count(name, difference(answer, native.call(words, files)) ?? fault);
}

// What a hunt asks: for each rule that can be taken away its own programs.
function hunts() {
  const { layouts: texts, rules } = shownOfPage().rules;
  return rules.flatMap(({ name, programs: own }) => own.map(({ image, layout }) =>
    [["orders", "layout", "program", "--without", name], { layout: Buffer.from(texts[layout]), program: Buffer.from(image, "base64") }, new Uint8Array()]));
}

// Calls of the other commands on stored files: what a traced run shows is audited and judged as a log, also with a byte changed.
function storedCalls() {
  const files = (names) => Object.fromEntries(Object.entries(names).map(([name, file]) => [name, read(file)]));
  const seven = files({ layout: "examples/layouts/tiny.toml", program: "examples/seven.bin" });
  const sorted = files({
    delays: "examples/delays/slow_memory.delays", program: "examples/sorted.bin",
    tiny: "examples/layouts/tiny.toml", deep: "examples/layouts/deep.toml", cached: "examples/layouts/cached.toml",
  });
  const rule = files({ layout: "examples/layouts/tiny.toml", program: "examples/rules/one_and_one.bin", delays: "examples/delays/slow_memory.delays" });
  const guess = files({ program: "examples/debug/wrong_guess.bin" });
  const { report } = native.call(["run", "layout", "program", "--show", "moves"], seven);
  const trace = report.subarray(0, report.indexOf("exit 7\n"));
  const changed = Buffer.from(trace);
  changed[changed.lastIndexOf("fetch") + 6] ^= 1;
  const none = new Uint8Array();
  return [
    ...[["help"], ["--help"], ["--version"], ["gen", "40"], ["gen", "40", "--run"], ["gen", "0"], []].map((words) => [words, {}, none]),
    ...["layout", "plain"].map((layout) => [["rounds", layout, "program", "--limit", "60"], seven, none]),
    [["rounds", "cached", "program"], sorted, none],
    ...[trace, changed, trace.subarray(0, 200), none].map((bytes) => [["audit", "layout", "program", "trace"], { ...seven, trace: bytes }, none]),
    ...[trace, changed, none].map((log) => [["conform", "layout", "program"], seven, log]),
    [["time", "delays", "program", "plain", "tiny", "deep", "cached", "--limit", "300"], sorted, none],
    [["time", "tiny", "program", "plain"], sorted, none],
    [["time", "delays", "program", "layout", "--show", "moves"], rule, none],
    ...[["help", "orders"], ["help", "time"]].map((words) => [words, {}, none]),
    ...[["--issues", "2", "--show", "edges"], ["--without", "meet:update"], ["--without", "meet:none"], ["--states", "20"]]
      .map((options) => [["orders", "layout", "program", ...options], rule, none]),
    [["debug", "plain", "program"], guess, read("examples/debug/wrong_guess.commands")],
    [["debug", "plain", "program"], guess, Buffer.from("auto 40\nshow\nregs\nmem 00010000 16\nbound\nback\nback\nmove serve\nleap\n")],
  ];
}

const stored = [...storedCalls(), ...hunts()];
for (const call of stored) count(`the call ${call[0].join(" ")}`, difference(module.call(...call), native.call(...call)));

const statuses = new Map();
let moves = 0;
for (let at = 0; at < COUNT; at += 1) {
  const draw = new Draw(SEED * 1000003 + at);
  const call = randomCall(draw, native);
  const answer = module.call(...call);
  statuses.set(answer.status, (statuses.get(answer.status) ?? 0) + 1);
  moves += Number(/^moves (\d+)$/m.exec(Buffer.from(answer.report).toString())?.[1] ?? 0);
  count(`call ${at} of seed ${SEED}: ${call[0].join(" ")}`, difference(answer, native.call(...call)));
}
native.end();
const ended = [...statuses].sort(([one], [other]) => one - other).map(([status, times]) => `${status} (${times})`).join(", ");
console.log(`${scripts.length} stored scripts, ${stored.length} stored calls and ${COUNT} random calls with ${moves} moves, statuses ${ended}: ${failed} differ`);
process.exitCode = failed === 0 ? 0 : 1;
