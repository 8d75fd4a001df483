// 'Any order': plays the whole program in one random order after another, and counts that each ended as the sequential machine does.

import { byId } from "./element.js";
import { differences } from "./sequential.js";

export class AnyOrder {
  constructor(simulator, limit) {
    this.simulator = simulator;
    this.limit = limit;
    this.timer = null;
    this.clear();
  }

  clear() {
    this.stop();
    this.seed = 0;
    this.moves = new Set();
    byId("order-count").textContent = "";
    byId("order-last").textContent = "";
  }

  toggle(session, machine) {
    if (this.timer !== null) this.stop();
    else this.playNext(session, machine);
  }

  stop() {
    clearTimeout(this.timer);
    this.timer = null;
    byId("any-order").textContent = this.seed ? "Go on" : "Begin";
  }

  playNext(session, machine) {
    this.seed += 1;
    const run = this.simulator.anyOrder(session, this.seed, this.limit);
    const found = differences(machine, run);
    this.moves.add(run.moves);
    const counts = `${run.moves} moves, ${run.meets} meetings, ${run.kills} killed, ${run.dead} dead`;
    byId("order-last").textContent = `Seed ${this.seed}: ${counts}. ${run.first}, ${run.retired} retired.`;
    if (found.length > 0) {
      this.stop();
      byId("order-count").textContent = `Seed ${this.seed} differs: ${found.join(", ")}. This must not be: please report it.`;
      return;
    }
    const [least, most] = [Math.min(...this.moves), Math.max(...this.moves)];
    byId("order-count").textContent = `${this.seed} of ${this.seed} orders ended as the sequential machine did, in ${least} to ${most} moves.`;
    byId("any-order").textContent = "Stop";
    this.timer = setTimeout(() => this.playNext(session, machine), 0);
  }
}
