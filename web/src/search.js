// Reads what `cfpp orders` answers: the shortest wrong list of moves, the counts of all orders with where each move leads, or that there
// are too many states.

import { readReport } from "./report.js";

const EDGE = /^(\d+) (\d+) (.*)$/gm;

// How a list of moves is wrong, in words.
export const WRONG = {
  retired: "an instruction retires otherwise than on the sequential machine",
  ended: "the program ends otherwise than on the sequential machine, or with other registers or memory",
  output: "a call of the environment is not the sequential machine's next, or has another answer",
  stuck: "nothing can be done any more, and not all is done",
  memory: "all is done, and registers, memory or the address of fetch are not the sequential machine's",
};

function edgesOf(output) {
  return [...output.matchAll(EDGE)].map(([, from, to, move]) => ({ from: Number(from), to: Number(to), move }));
}

function wrongOf(kind, report, output) {
  const line = (name) => new RegExp(`^${name} (retire .*)$`, "m").exec(report)?.[1] ?? null;
  const moves = output.split("\n").filter((move) => move !== "");
  return { outcome: "wrong", kind, moves, seen: line("seen"), wanted: line("wanted"), picture: readReport(report) };
}

// The answer of a search by its report and its output, both as text.
export function readSearch(report, output) {
  const [, kind] = /^wrong after \d+ moves: (\w+)$/m.exec(report) ?? [];
  if (kind) return wrongOf(kind, report, output);
  const [, most] = /^more than (\d+) states$/m.exec(report) ?? [];
  if (most) return { outcome: "too many", most: Number(most) };
  const count = (name) => new RegExp(`^${name} (.*)$`, "m").exec(report)?.[1];
  if (count("states") === undefined) return { outcome: "refused", reason: report.trim() };
  const [states, moves, ends, orders] = ["states", "moves", "ends", "orders"].map(count);
  return { outcome: "counted", states: Number(states), moves: Number(moves), ends: Number(ends), orders, edges: edgesOf(output) };
}
