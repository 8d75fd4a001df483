// Which of the listed moves comes next: by the fixed rule, or drawn from a seed. Both are those of `cfpp run`, so that the same moves
// come there; and both choose among the moves that the program lists, never others.

import { allMoves, kindOf } from "./moves.js";

// Issue is held back where twice as many instructions as there are stages were issued since the last one retired, or since nothing
// was anywhere; but not where nothing else can be done.
export function candidates(layout, standing, issues) {
  const others = standing.allowed.filter((move) => kindOf(move) !== "issue");
  return issues < 2 * layout.stages || others.length === 0 ? standing.allowed : others;
}

function isDrained(report) {
  return report.stages.size === 0 && report.sidings.size === 0 && report.lane.length === 0;
}

// How many issues there were since then, after one more move.
export function issuesAfter(issues, move, before, after) {
  if (after.retired > before.retired || isDrained(after)) return 0;
  return kindOf(move) === "issue" ? issues + 1 : issues;
}

// The rule: the first candidate after the last move in the order of all moves, or else the first.
export class ByRule {
  constructor(layout) {
    this.place = new Map(allMoves(layout).map((move, at) => [move, at]));
  }

  next(moves, steps) {
    const last = this.place.get(steps.at(-1)?.move) ?? -1;
    return moves.find((move) => this.place.get(move) > last) ?? moves[0];
  }
}

const MULTIPLIER = 6364136223846793005n;
const WORD = (1n << 64n) - 1n;

// Draws from a seed: PCG XSH RR 64/32 on stream 1. The word drawn for a move is that of its place in the script, so that a move taken back
// comes again.
export class BySeed {
  constructor(seed) {
    this.seed = BigInt(seed);
    this.begin();
  }

  begin() {
    this.increment = 3n;
    this.state = (this.seed + this.increment) & WORD;
    this.drawn = 0;
    this.advance();
  }

  advance() {
    this.state = (this.state * MULTIPLIER + this.increment) & WORD;
  }

  word() {
    const state = this.state;
    this.advance();
    this.drawn += 1;
    const mixed = Number((((state >> 18n) ^ state) >> 27n) & 0xffffffffn);
    const by = Number(state >> 59n);
    return ((mixed >>> by) | (mixed << (-by & 31))) >>> 0;
  }

  next(moves, steps) {
    if (this.drawn > steps.length) this.begin();
    while (this.drawn < steps.length) this.word();
    return moves[this.word() % moves.length];
  }
}
