// Reads a report of the program: how the call ended, what was counted, the registers, the picture, and what can be done next.

// A binding is a register with its value, which is null while it is not known.
function binding(word) {
  const parts = /^(x\d\d)=(.*)$/.exec(word);
  return parts && { register: parts[1], value: parts[2] === "?" ? null : parts[2] };
}

// An instruction in flight, from `00010000 next done x01=00000000 - x01=00000001 -`.
function passenger(words) {
  const [address, guess, flag, first, second, destination, ...owes] = words.split(" ");
  return {
    address,
    guess,
    flag,
    sources: [binding(first), binding(second)],
    destination: binding(destination),
    owes: owes[0] === "-" ? null : packet(owes.join(" ")),
  };
}

// A result: a value of a register, a turn to an address, or a halt.
function packet(words) {
  const turn = /^turn (.*)$/.exec(words);
  if (turn) return { kind: "turn", address: turn[1] };
  if (words === "halt") return { kind: "halt" };
  return { kind: "value", ...binding(words) };
}

function stage(what, parts) {
  const empty = { passenger: null, packet: null, met: false };
  if (what === "instruction") return { ...empty, passenger: passenger(parts[0]) };
  if (what === "result") return { ...empty, packet: packet(parts[0]) };
  return { passenger: passenger(parts[0]), packet: packet(parts[1]), met: what === "complete" };
}

function words(text) {
  return text === "-" ? [] : text.split(" ");
}

// What each line of the closing report adds to what is known, by the first of these forms that the line has.
const LINES = [
  [/^(retired|moves|meets|kills|dead) (\d+)$/, (into, [, what, count]) => (into[what] = Number(count))],
  [/^x\d\d=/, (into, _, line) => into.registers.push(...line.split(" ").map((word) => word.slice(4)))],
  [/^fetch (.*)$/, (into, [, where]) => (into.fetch = where)],
  [/^lane (.*)$/, (into, [, asked]) => (into.lane = words(asked))],
  [/^cache (.*)$/, (into, [, kept]) => (into.cache = words(kept).map(binding))],
  [/^stage (\d+) (\w+) \| (.*)$/, (into, [, at, what, rest]) => into.stages.set(Number(at), stage(what, rest.split(" | ")))],
  [/^siding (\d+) (.*)$/, (into, [, at, cells]) => into.sidings.set(Number(at), cells.split(" "))],
  [/^retire \d+ /, (into, _, line) => into.lines.push(line)],
  [/^allowed (.*)$/, (into, [, move]) => into.allowed.push(move)],
  [/^barred (?!at line)(.*) ([A-Z]\w*(?: x\d\d)?)$/, (into, [, move, bar]) => into.barred.set(move, bar)],
];

export function readReport(text) {
  const report = {
    first: "", text, lines: [], registers: [], lane: [], cache: null, fetch: null,
    stages: new Map(), sidings: new Map(), allowed: [], barred: new Map(),
    retired: 0, moves: 0, meets: 0, kills: 0, dead: 0,
  };
  for (const line of text.split("\n")) {
    if (line === "") continue;
    const form = LINES.find(([pattern]) => pattern.test(line));
    if (form) form[1](report, form[0].exec(line), line);
    else if (report.first === "") report.first = line;
  }
  return report;
}
