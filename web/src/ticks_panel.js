// Ticks as steps: the moves of a timed run which finish at one time are made at once, under delays that can be chosen and changed.

import { byId, fill, html } from "./element.js";
import { isOfRun, nextTick } from "./timed.js";

// The timed run is asked for up to this many retired instructions.
const LIMIT = 300;

export class TicksPanel {
  constructor(page, files) {
    Object.assign(this, { page, files });
    fill(byId("delays-choice"), Object.keys(files).map((name) => html("option", { value: name }, name)));
    this.choose();
  }

  // Takes the delays of a file.
  choose() {
    byId("delays").value = this.files[byId("delays-choice").value];
    this.clear();
  }

  // Forgets the run of the program, or of the delays, before.
  clear() {
    Object.assign(this, { run: null, refused: "" });
  }

  // The timed run, asked for once; null where the delays are refused.
  get timed() {
    if (this.run === null && this.refused === "") {
      const { moves = null, refused = "" } = this.page.simulator.timed(this.page.session, byId("delays").value, LIMIT);
      Object.assign(this, { run: moves, refused });
    }
    return this.run;
  }

  get made() {
    return this.page.session.steps.map(({ move }) => move);
  }

  // Whether the moves so far are the first ones of the timed run.
  get isOnRun() {
    return this.timed !== null && isOfRun(this.timed, this.made);
  }

  // Makes the moves of the next tick.
  step() {
    byId("ticks-details").open = true;
    if (this.isOnRun) for (const { move } of nextTick(this.timed, this.made.length)) this.page.session.choose(move);
  }

  words() {
    if (this.refused !== "") return `The delays are refused: ${this.refused}.`;
    if (!this.isOnRun) return "The moves so far are not those of this timed run: take them back first.";
    const made = this.made.length;
    const behind = made === this.timed.length ? " The run goes no further." : "";
    if (made === 0) return "No tick has passed.";
    const { start, finish } = this.timed[made - 1];
    return `${made} moves are made, in ${finish} ticks; the last one took from ${start} to ${finish}.${behind}`;
  }

  show() {
    if (byId("ticks-details").open) fill(byId("ticks-words"), this.words());
  }

  // The tick at which each move so far has finished, where these are the moves of the timed run that is shown.
  get finishes() {
    return byId("ticks-details").open && this.isOnRun ? this.timed.slice(0, this.made.length).map(({ finish }) => finish) : null;
  }
}
