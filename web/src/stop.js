// Where play is to stop: when an instruction at an address is issued, or when a number of them has retired.

import { kindOf } from "./moves.js";

export const NO_STOP = { address: null, retired: null };

// What was typed, as a stop.
export function readStop(address, retired) {
  const hasAddress = /^[0-9a-f]{1,8}$/i.test(address.trim());
  return { address: hasAddress ? address.trim().toLowerCase().padStart(8, "0") : null, retired: Number(retired) > 0 ? Number(retired) : null };
}

// Which of its conditions a move has reached, in words, or null.
export function stopReached(stop, move, before, after) {
  if (stop.address !== null && kindOf(move) === "issue" && before.fetch === stop.address) return `${stop.address} was issued`;
  if (stop.retired !== null && before.retired < stop.retired && after.retired >= stop.retired) return `${after.retired} have retired`;
  return null;
}
