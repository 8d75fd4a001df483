// Tests what the page does without its drawing: the lessons move by move, what can be made next, the reasons, and the schedules, whose
// moves are those of the native program.
//
//     node web/tests/session.mjs [--alone]     leaves out what needs the native program

import fs from "node:fs";
import path from "node:path";
import { memorySiding } from "../src/layout.js";
import { allMoves } from "../src/moves.js";
import { Reasons } from "../src/reasons.js";
import { ByRule, BySeed } from "../src/schedule.js";
import { differences, firstDifference } from "../src/sequential.js";
import { Session } from "../src/session.js";
import { Simulator } from "../src/simulator.js";
import { namesOfMeeting, told } from "../src/telling.js";
import { Native, TOP, moduleOfPage, scriptsOfPage, shownOfPage } from "./native.mjs";

const MOVES = 120;

// Layout, program and options of runs whose moves are compared.
const RUNS = [
  ["plain", "seven", []],
  ["tiny", "sorted", []],
  ["sidings", "sorted", ["--seed", "7"]],
  ["cached", "fibonacci", ["--seed", "4294967295"]],
];

const REASONS = [
  ["Layouts", "Refused ControlAboveMemory branch 5 4"],
  ["Programs", "Elf TooShort 0"],
  ["Scripts", "UnknownMove"],
  ["Assembly", "Text UnknownName"],
  ["Assembly", "TooFar 9"],
];

const bytesOf = (name) => fs.readFileSync(path.join(TOP, name));
const textOf = (name) => bytesOf(name).toString();

let passed = 0;
let failed = 0;

function check(what, isRight, found = "") {
  if (isRight) passed += 1;
  else {
    failed += 1;
    console.log(`failed: ${what} ${found}`);
  }
}

const simulator = new Simulator(moduleOfPage());
const native = new Native();

function sessionOf(files) {
  const session = new Session(simulator);
  Object.assign(session, { layout: simulator.check(files.layout).layout, bytes: files.program, texts: simulator.list(files.program).texts });
  session.load(files.script ?? "");
  return session;
}

// Each instruction and each result of a picture has its number, and nobody else has one.
function sameStages(name, who, picture) {
  for (const [places, side] of [[who.instructions, "passenger"], [who.results, "packet"]]) {
    const wanted = [...picture.stages].filter(([, content]) => content[side]).map(([stage]) => stage).sort((one, other) => one - other);
    check(`${name}: numbers`, Object.keys(places).map(Number).join() === wanted.join() && Object.values(places).every(Number.isInteger), JSON.stringify(places));
  }
  check(`${name}: the lane's numbers`, who.lane.length === picture.lane.length);
}

// Each script of the lessons is played move by move; each move is told, and each meeting that counts has a name.
function lessons() {
  const names = new Map();
  for (const { name, files, report, questions } of scriptsOfPage()) {
    const session = sessionOf(files);
    const machine = simulator.machine(session, 100);
    let dead = 0;
    while (session.undone.length > 0 && session.again() === null) {
      const { last, before, picture, texts, layout, who, whoBefore } = session;
      const sentence = told(last.move, before, picture, { texts, who: { before: whoBefore, after: who }, memory: memorySiding(layout) });
      check(`${name}: ${last.move} is told`, sentence.length > 10 && !/undefined|NaN/.test(sentence), sentence);
      sameStages(name, who, picture);
      const found = namesOfMeeting(last.move, before, picture);
      found.forEach((part) => names.set(part, (names.get(part) ?? 0) + 1));
      dead += found.includes("die") ? 1 : 0;
      check(`${name}: kills after ${last.move}`, found.includes("kill") === (picture.kills > before.kills));
      check(`${name}: the retired instructions are the machine's`, firstDifference(machine, picture) < 0);
    }
    const { who } = session;
    session.last.track = undefined;
    check(`${name}: the same who is who, found anew`, JSON.stringify(session.who) === JSON.stringify(who));
    check(`${name}: its questions are asked on the way`, questions.every(({ at }) => at <= session.steps.length));
    check(`${name}: who died`, dead === session.picture.dead, `${dead}`);
    const barred = /^barred at line \d+: (.*)$/.exec(report.split("\n")[0]);
    if (barred) check(`${name}: ends with its bar`, session.again()?.reason === barred[1]);
    else check(`${name}: ends with its report`, session.picture.text.replace(/^(retire|allowed|barred) .*\n/gm, "") === report, session.picture.text);
  }
  check("garner, update, kill and die were seen", ["garner", "update", "kill", "die"].every((part) => names.has(part)), [...names].join());
}

// The rule's and a seed's moves are those of the native program, also after moves that were taken back.
function schedules() {
  for (const [layout, program, options] of RUNS) {
    const files = { layout: textOf(`examples/layouts/${layout}.toml`), program: bytesOf(`examples/${program}.bin`) };
    const session = sessionOf(files);
    const schedule = options.length > 0 ? new BySeed(options[1]) : new ByRule(session.layout);
    for (let at = 0; at < MOVES; at += 1) {
      const move = session.chosenBy(schedule);
      if (move === null) break;
      session.choose(move);
      if (at % 50 === 49) {
        session.back();
        session.undone = [];
        session.choose(session.chosenBy(schedule));
      }
    }
    const { report } = native.call(["run", "layout", "program", "--show", "moves", "--limit", "40", ...options], files);
    const wanted = [...report.toString().matchAll(/^move \d+ (.*)$/gm)].map(([, move]) => move).slice(0, session.steps.length);
    const made = session.steps.map(({ move }) => move);
    check(`the moves of ${program} on ${layout} ${options.join(" ")}`, made.length > 30 && made.join() === wanted.join());
    const counted = session.issues;
    session.last.track = undefined;
    check(`issues counted anew of ${program} on ${layout}`, session.issues === counted, `${counted}`);
  }
}

// What is listed as allowed can be made, and each bar is the one that the move meets.
function listed() {
  const [{ files }] = scriptsOfPage();
  const session = sessionOf({ ...files, script: files.script.split("\n").slice(0, 9).join("\n") });
  session.forward();
  for (const move of allMoves(session.layout)) {
    const { first } = simulator.run(session, `${session.script}${move}\n`);
    const bar = /^barred at line \d+: (.*)$/.exec(first)?.[1];
    check(`${move} is listed`, session.picture.barred.get(move) === bar && session.picture.allowed.includes(move) === !bar);
  }
}

function orders() {
  const session = sessionOf({ layout: textOf("examples/layouts/plain.toml"), program: bytesOf("examples/fibonacci.bin") });
  const machine = simulator.machine(session, 300);
  for (const seed of [1, 2]) check(`seed ${seed} ends as the machine`, differences(machine, simulator.anyOrder(session, seed, 300)).length === 0);
  check("another end is seen", differences({ ...machine, retired: 1 }, simulator.anyOrder(session, 3, 300)).length > 0);
}

function reasons() {
  const all = new Reasons(shownOfPage().explanations);
  const [, variants] = /pub enum Bar \{([^}]*)\}/.exec(textOf("crates/cf_bind/src/moves.rt"));
  const bars = variants.match(/^    [A-Z]\w+/gm);
  for (const bar of bars) check(`${bar.trim()} is explained`, all.bar(bar.trim()).includes(": "));
  for (const [table, reason] of REASONS) check(`${reason} is explained`, all.refusal(table, reason).includes(": "));
}

const alone = [lessons, listed, orders, reasons];
for (const part of process.argv.includes("--alone") ? alone : [...alone, schedules]) part();
native.end();
console.log(`session: ${passed} passed, ${failed} failed`);
process.exitCode = failed === 0 ? 0 : 1;
