// Take a rule away: the program searches the shortest run that goes wrong without it. The run is played in a red frame, beside the proved
// processor, on which the same script is then played.

import { OWN } from "./choices.js";
import { fromBase64 } from "./data.js";
import { byId, fill, html, sentence } from "./element.js";
import { NO_PARTING, partingOf, partingWords, refusedScenes, scenesOf } from "./hunt.js";
import { showFrame } from "./hunt_frame.js";
import { readLayout } from "./layout.js";
import { WRONG } from "./search.js";

// How far a hunt goes.
const ISSUES = 3;
const MOST_STATES = 100000;
// The milliseconds that the browser gets to show that a search has begun.
const PAUSE = 40;
// The choice of the program that the page shows.
const SHOWN = "shown";

// Where the run is below the processor, and not beside it, only one of them is on the screen.
function bringIntoView(id) {
  const [one, other] = ["room", "hunt-room"].map((each) => byId(each).getBoundingClientRect());
  if (other.top >= one.bottom) byId(id).scrollIntoView({ block: "start" });
}

const scriptOf = (moves) => moves.map((move) => `${move}\n`).join("");

// What a hunt has found, in words.
const FOUND = {
  wrong: ({ kind, moves }) => `Wrong after ${moves.length} moves: ${WRONG[kind]}. Proved: no wrong run with at most ${ISSUES} issues is shorter.`,
  counted: ({ states, moves }) => `No run with at most ${ISSUES} issues goes wrong: all ${states} states and ${moves} moves were gone through.`,
  "too many": ({ most }) => `Nothing was found: runs with at most ${ISSUES} issues have more than ${most} states.`,
  refused: ({ reason }) => `The program refuses this: ${reason}.`,
};

export class HuntPanel {
  constructor(page, { rules, layouts }) {
    Object.assign(this, { page, rules, layouts, isOn: false });
    fill(byId("hunt-rule"), rules.map(({ name }) => html("option", { value: name }, name)));
    this.chooseRule();
  }

  get rule() {
    return this.rules.find(({ name }) => name === byId("hunt-rule").value);
  }

  // Forgets the run that was found. `at` is how many of its moves are shown.
  clear() {
    Object.assign(this, { run: null, subject: null, at: 0, words: "", answer: "" });
    this.showClasses();
  }

  // Another rule: its own programs are offered beside the one that is shown.
  chooseRule() {
    const { programs } = this.rule;
    const own = programs.map(({ name }, at) => html("option", { value: at }, `its own program, ${name}`));
    fill(byId("hunt-program"), own, html("option", { value: SHOWN }, "the program shown"));
    byId("hunt-program").value = programs.length > 0 ? "0" : SHOWN;
    this.clear();
  }

  toggle() {
    this.isOn = !this.isOn;
    byId("hunt-button").setAttribute("aria-pressed", String(this.isOn));
    this.clear();
    this.page.resize();
  }

  // Opens a program of the rule. A layout that is refused for the rule has no processor: then the page stays as it is.
  opened({ image, source, layout: name }) {
    const { page } = this;
    const toml = this.layouts[name];
    const { layout, refused } = page.simulator.check(toml);
    const bytes = fromBase64(image);
    if (refused) return { layout: { ...readLayout(toml), text: toml }, bytes, texts: page.simulator.list(bytes).texts, refused };
    byId("example").value = OWN;
    byId("layout").value = page.layoutChoice = page.examples.layouts[name] ? name : OWN;
    page.editors.fill(source, toml);
    page.open({ layout, bytes, input: new Uint8Array(), script: "", source, name: "" });
    return page.session;
  }

  // Says that it searches, which may take some seconds, and then does.
  begin() {
    this.page.player.stop();
    this.clear();
    this.words = "Searching all orders.";
    this.page.show();
    setTimeout(() => this.hunt(), PAUSE);
  }

  hunt() {
    const { page } = this;
    const at = byId("hunt-program").value;
    // All orders are those with an empty input.
    if (at === SHOWN && page.session.input.length > 0) page.reopen({ input: new Uint8Array() });
    const { layout, bytes, texts, refused = null } = at === SHOWN ? page.session : this.opened(this.rule.programs[Number(at)]);
    this.clear();
    this.subject = { layout, bytes, texts, refused, input: new Uint8Array() };
    const found = page.simulator.orders(this.subject, { issues: ISSUES, states: MOST_STATES, without: this.rule.name });
    this.words = FOUND[found.outcome](found);
    if (found.outcome === "wrong") this.take(found);
    this.showClasses();
    page.resize();
    if (this.run && !refused) bringIntoView("hunt-room");
  }

  // Takes a wrong run, and begins to play it. The processor beside it has the same script before it.
  take(found) {
    this.run = this.subject.refused ? { ...found, ...NO_PARTING, scenes: refusedScenes(found) } : { ...found, ...this.compared(found) };
    if (!this.subject.refused) this.page.load(scriptOf(found.moves));
    this.page.player.begin(false, () => this.advance());
  }

  // The run beside the processor with all its rules: where the two part, and what can be drawn.
  compared({ moves, picture }) {
    const after = (count) => this.page.simulator.run(this.subject, scriptOf(moves.slice(0, count)));
    const { first, moves: made } = after(moves.length);
    const pictures = Array.from({ length: made + 1 }, (_, count) => after(count));
    const parting = partingOf(this.rule.name, moves, pictures);
    const [, bar = null] = parting === made ? /^barred at line \d+: (.*)$/.exec(first) ?? [] : [];
    return { parting, bar, scenes: scenesOf(moves, pictures, parting, picture, this.subject.texts) };
  }

  // One more move of the wrong run; whether there may be more.
  advance() {
    this.at += 1;
    return this.at < this.run.moves.length;
  }

  go(at) {
    this.page.player.stop();
    this.at = at;
    this.page.show();
  }

  // Plays the same script on the proved processor, to its bar or to its end.
  putBack() {
    const { page, run, subject } = this;
    this.at = run.moves.length;
    if (subject.refused) {
      this.answer = `With the rule the layout is refused. ${page.reasons.refusal("Layouts", subject.refused.replace(/^bad layout: /, ""))}`;
      page.show();
      return;
    }
    this.answer = partingWords(this.rule.name, run);
    page.load(scriptOf(run.moves));
    page.player.begin(false, () => page.replays && page.play());
    bringIntoView("room");
  }

  // What the page's style goes by: it makes room for the frame.
  showClasses() {
    const { classList } = document.body;
    classList.toggle("hunting", this.isOn);
    classList.toggle("found", this.run !== null);
    classList.toggle("no-processor", Boolean(this.subject?.refused));
  }

  show() {
    if (!this.isOn) return;
    // What the rule is for makes room for the run once there is one.
    fill(byId(this.run ? "hunt-why" : "hunt-words"), sentence(this.rule.words));
    fill(byId("hunt-name"), this.rule.name);
    fill(byId("hunt-found"), this.words);
    fill(byId("hunt-answer"), sentence(this.answer));
    byId("put-back").disabled = this.run === null;
    const { run, at, subject, page } = this;
    if (run) showFrame({ run, at, subject, room: page.room, isFast: page.player.isFast });
  }
}
