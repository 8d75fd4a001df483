// The two editors: a program in assembly, with the line of its first fault marked, and a layout in TOML.

import { byId, fill, html } from "./element.js";

export class Editors {
  constructor(simulator, reasons) {
    this.simulator = simulator;
    this.reasons = reasons;
    byId("source").addEventListener("input", () => this.checkSource());
    byId("source").addEventListener("scroll", () => (byId("source-lines").scrollTop = byId("source").scrollTop));
    byId("toml").addEventListener("input", () => this.checkLayout());
  }

  fill(source, toml) {
    byId("source").value = source;
    byId("toml").value = toml;
    this.checkSource();
    this.checkLayout();
  }

  numberLines(bad) {
    const count = byId("source").value.split("\n").length;
    const lines = Array.from({ length: count }, (_, at) => html("span", { class: at + 1 === bad ? "bad" : "" }, `${at + 1}\n`));
    fill(byId("source-lines"), lines);
  }

  // The program that the source is, or null where it is refused: then the fault is shown and its line marked.
  checkSource() {
    const answer = this.simulator.assemble(byId("source").value);
    const [, line, reason] = /^bad source line (\d+): (.*)$/.exec(answer.refused ?? "") ?? [];
    this.numberLines(Number(line));
    byId("source-fault").textContent = answer.refused ? (line ? `Line ${line}: ${this.reasons.refusal("Assembly", reason)}` : answer.refused) : "";
    byId("use-source").disabled = answer.refused !== undefined;
    return answer.bytes ?? null;
  }

  // The layout that the TOML is, or null where it is refused.
  checkLayout() {
    const answer = this.simulator.check(byId("toml").value);
    byId("toml-fault").textContent = answer.refused ? this.reasons.refusal("Layouts", answer.refused.replace(/^bad layout: /, "")) : "";
    byId("use-toml").disabled = answer.refused !== undefined;
    return answer.layout ?? null;
  }
}
