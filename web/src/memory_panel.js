// Memory beside the drawing: the bytes around the last load or store, by region, as the program's debugger reports them.

import { byId, fill, html } from "./element.js";
import { addressText, addressesOf, markOf, memoryPlan } from "./memory.js";

export class MemoryPanel {
  constructor(simulator) {
    this.simulator = simulator;
    // What was shown last, and of which state.
    this.shown = null;
  }

  show(session) {
    if (!byId("memory-details").open) return;
    const { accesses } = session.track;
    const stackPointer = parseInt(session.picture.registers[2], 16);
    if (this.shown?.accesses === accesses && this.shown.stackPointer === stackPointer && this.shown.bytes === session.bytes) return;
    this.shown = { accesses, stackPointer, bytes: session.bytes };
    const plan = memoryPlan(accesses, stackPointer);
    fill(byId("memory-words"), this.words(session, plan));
    fill(byId("memory"), this.isKnown(session) ? this.tables(session, plan) : []);
  }

  // The debugger's input is empty: what a program read is not in its memory.
  isKnown(session) {
    return session.input.length === 0 || !session.steps.some(({ move }) => move === "serve");
  }

  words(session, { last }) {
    if (!this.isKnown(session)) return "The program has read input, which the debugger does not have: memory is not shown.";
    if (!last) return "No load or store has been made.";
    const what = last.isStore ? "wrote" : "read";
    return `Last, #${last.number} ${what} ${last.size === 1 ? "the byte" : `${last.size} bytes`} at ${addressText(last.address)}.`;
  }

  tables(session, plan) {
    const rows = plan.regions.flatMap((region) => region.rows);
    const bytes = this.simulator.bytesAt(session, session.script, rows.flatMap(addressesOf));
    const rowHtml = (row) => html("tr", {},
      html("th", { scope: "row" }, addressText(row)),
      addressesOf(row).map((address) => html("td", { class: markOf(plan, address) }, bytes.get(address) ?? "··")));
    const isMapped = (row) => addressesOf(row).some((address) => bytes.has(address));
    return plan.regions.map(({ name, rows: own }) => [
      html("h3", {}, name),
      html("table", { class: "bytes" }, html("tbody", {}, own.filter(isMapped).map(rowHtml))),
    ]);
  }
}
