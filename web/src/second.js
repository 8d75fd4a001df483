// A second order of the same program beside the first: its own script, rule or seed, drawn by itself, and the states of the two compared.

import { draw } from "./drawing.js";
import { byId, fill, html } from "./element.js";
import { ByRule, BySeed } from "./schedule.js";
import { firstDifference } from "./sequential.js";
import { Session } from "./session.js";
import { namesOfMeeting } from "./telling.js";

// At most this many moves are made at once.
const MOST = 600;

// How the states of two orders of one program compare, in words: what is the same must be.
export function comparison(one, other) {
  const common = Math.min(one.retired, other.retired);
  const differs = firstDifference({ lines: other.lines.slice(0, common) }, { lines: one.lines.slice(0, common) }) >= 0;
  if (differs) return "They retired different instructions. This must not be: please report it.";
  const moves = `${one.moves} and ${other.moves} moves, ${one.kills} and ${other.kills} kills`;
  if (common === 0) return `${moves}; nothing has retired in both yet.`;
  if (one.retired !== other.retired) return `${moves}; ${one.retired} and ${other.retired} have retired, the first ${common === 1 ? "one" : common} alike.`;
  const isSame = one.registers.join() === other.registers.join();
  const ends = one.stages.size + other.stages.size === 0 ? " The pipes of both are empty." : "";
  return `${moves}; ${one.retired} have retired in both, and the registers ${isSame ? "are the same" : "differ: please report it"}.${ends}`;
}

export class SecondOrder {
  constructor(page) {
    this.page = page;
    this.isOn = false;
    this.session = new Session(page.simulator);
  }

  // The scripts of the page that are for this program and this processor.
  scripts() {
    const { session, examples } = this.page;
    const bytes = btoa(String.fromCharCode(...session.bytes.slice(0, 1 << 16)));
    return examples.programs.filter(({ script, image, layout }) => script && image === bytes && examples.layouts[layout] !== undefined
      && this.page.simulator.check(examples.layouts[layout]).layout?.text === session.layout.text);
  }

  toggle() {
    this.isOn = !this.isOn;
    byId("two-orders").setAttribute("aria-pressed", String(this.isOn));
    document.body.classList.toggle("two", this.isOn);
    this.begin();
    this.page.resize();
  }

  // Takes the program and the processor of the first order.
  begin() {
    if (!this.isOn) return;
    const { layout, bytes, input, texts } = this.page.session;
    Object.assign(this.session, { layout, bytes, input, texts });
    const scripts = this.scripts();
    fill(byId("second-by"),
      html("option", { value: "rule" }, "the rule"),
      html("option", { value: "seed" }, "draws from seed"),
      scripts.map(({ title }, at) => html("option", { value: at }, title)));
    this.texts = scripts.map(({ script }) => script);
    const other = scripts.findIndex(({ script }) => this.session.scriptOf(this.page.session.course) !== script && this.page.session.course.length > 0);
    byId("second-by").value = other >= 0 ? String(other) : "seed";
    this.restart();
  }

  restart() {
    const by = byId("second-by").value;
    byId("second-seed").disabled = by !== "seed";
    this.session.load(this.texts[Number(by)] ?? "");
  }

  get schedule() {
    if (byId("second-by").value !== "seed") return new ByRule(this.session.layout);
    return new BySeed(Math.min(4294967295, Math.max(0, Math.floor(Number(byId("second-seed").value) || 0))));
  }

  // One more move; whether there was one. A script ends where it ends.
  advance() {
    if (!this.isOn) return false;
    if (this.session.course.length > 0) return this.session.undone.length > 0 && this.session.again() === null;
    const move = this.session.chosenBy(this.schedule);
    return move !== null && this.session.choose(move) === null;
  }

  back() {
    if (this.isOn) this.session.back();
  }

  rewind() {
    if (this.isOn) this.session.rewind();
  }

  // Both orders to their end, or this many moves on.
  finish() {
    const { page } = this;
    for (let at = 0; at < MOST && this.advance(); at += 1);
    if (page.replays) page.session.forward();
    else for (let at = 0; at < MOST && page.advanceAlone(); at += 1);
    page.show();
  }

  show() {
    if (!this.isOn) return;
    const { layout, picture, before, texts, last, who, whoBefore } = this.session;
    const still = { ...picture, allowed: [] };
    const names = last && before ? namesOfMeeting(last.move, before, picture) : [];
    const view = { layout, picture: still, before, texts, last: last?.move ?? null, names, selected: 0, who, whoBefore, blame: null };
    byId("second-drawing").classList.toggle("still", this.page.player.isFast);
    draw(byId("second-drawing"), { ...view, room: this.page.room });
    byId("second-told").textContent = last ? `${this.session.steps.length}. ${last.move}` : "";
    byId("compared").textContent = comparison(this.page.session.picture, picture);
  }
}
