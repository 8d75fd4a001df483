// What is shown of memory: which bytes a load or a store reaches, and the rows around those that were reached last, by region.

import { kindOf } from "./moves.js";

const SIZES = { b: 1, h: 2, w: 4 };
const STACK = [0x7f000000, 0x7f100000];
const ROW = 8;
// At most this many rows of a region are shown.
const MOST_ROWS = 6;

const isStack = (address) => address >= STACK[0] && address < STACK[1];
const rowOf = (address) => address - (address % ROW);
export const addressText = (address) => (address >>> 0).toString(16).padStart(8, "0");

// The access that an instruction makes, by its text and its sources; null where it is no load or store.
export function accessOf(text, sources) {
  const [, kind, width, offset, base] = /^(l|s)([bhw])u? x\d+, (-?\d+)\(x(\d+)\)$/.exec(text) ?? [];
  if (kind === undefined) return null;
  const found = sources.find((source) => source && Number(source.register.slice(1)) === Number(base));
  const value = Number(base) === 0 ? 0 : parseInt(found?.value ?? "", 16);
  if (Number.isNaN(value)) return null;
  return { isStore: kind === "s", size: SIZES[width], address: (value + Number(offset)) >>> 0 };
}

// The access that a move makes, with the number of its instruction; null where it makes none.
export function accessAfter(who, move, before, texts) {
  if (kindOf(move) !== "access") return null;
  const [siding, cells] = [...before.sidings].find(([, held]) => held.at(-1) !== "-" && !held.at(-1).endsWith("*")) ?? [];
  const number = who.sidings[siding]?.[cells.length - 1];
  const [stage] = Object.entries(who.instructions).find(([, one]) => one === number) ?? [];
  const passenger = before.stages.get(Number(stage))?.passenger;
  const access = passenger ? accessOf(texts.get(passenger.address) ?? "", passenger.sources) : null;
  return access && { ...access, number };
}

function listed(chain) {
  const all = [];
  for (let at = chain; at !== null; at = at.before) all.push(at.access);
  return all;
}

// The rows of a region, ascending: those nearest in time, and the neighbours of the very last.
function rowsOf(accesses, isThere, extra) {
  const rows = new Set(extra.filter(isThere));
  for (const { address, size } of accesses) {
    for (const row of [rowOf(address), rowOf(address + size - 1)]) if (isThere(row) && rows.size < MOST_ROWS) rows.add(row);
  }
  return [...rows].sort((one, other) => one - other);
}

// What is to be shown: the last access, and for each region the addresses of its rows. `stackPointer` is what x2 has.
export function memoryPlan(accesses, stackPointer) {
  const all = listed(accesses);
  const [last] = all;
  const around = last ? [rowOf(last.address) - ROW, rowOf(last.address), rowOf(last.address) + ROW].filter((row) => row >= 0) : [];
  const stack = isStack(stackPointer) ? [rowOf(stackPointer)] : [];
  const regions = [
    { name: "Data", rows: rowsOf(all, (row) => !isStack(row), around) },
    { name: "Stack", rows: rowsOf(all, isStack, [...around, ...stack]) },
  ];
  return { last: last ?? null, stored: all.filter(({ isStore }) => isStore), regions: regions.filter(({ rows }) => rows.length > 0) };
}

export function addressesOf(row) {
  return Array.from({ length: ROW }, (_, at) => row + at);
}

// How a byte is marked: by the last access, or by an earlier store.
export function markOf(plan, address) {
  const isIn = (access) => address >= access.address && address < access.address + access.size;
  if (plan.last && isIn(plan.last)) return plan.last.isStore ? "written" : "read";
  return plan.stored.some(isIn) ? "stored" : "";
}
