// The page's one state and what can be done with it: the session, the stage that is chosen, and why a move could not be made.

import { blameOf } from "./blame.js";
import { captionOf } from "./captions.js";
import { OWN } from "./choices.js";
import { fromBase64 } from "./data.js";
import { draw } from "./drawing.js";
import { byId, fill, html, sentence } from "./element.js";
import { Editors } from "./editors.js";
import { GoalPanel } from "./goal_panel.js";
import { GraphPanel } from "./graph_panel.js";
import { HuntPanel } from "./hunt_panel.js";
import { memorySiding } from "./layout.js";
import { MemoryPanel } from "./memory_panel.js";
import { chosenAfter } from "./moves.js";
import { AnyOrder } from "./orders.js";
import { showBarred, showMachine, showMoves, showReport, showScript, showStage, showWritten } from "./panels.js";
import { roundOf } from "./places.js";
import { Player } from "./player.js";
import { Predict } from "./predict.js";
import { Program, bytesOf, text } from "./program.js";
import { Reasons } from "./reasons.js";
import { roomOfDrawing } from "./room.js";
import { ByRule, BySeed, candidates } from "./schedule.js";
import { SecondOrder } from "./second.js";
import { Session } from "./session.js";
import { Simulator } from "./simulator.js";
import { allowedAt } from "./stages.js";
import { NO_STOP, stopReached } from "./stop.js";
import { namesOfMeeting, told } from "./telling.js";
import { TicksPanel } from "./ticks_panel.js";
import { showTimeline } from "./timeline_panel.js";

// The sequential machine and the random orders go no further than this many retired instructions.
const LIMIT = 10000;
const SCRIPT_EVERY = 15;

export class Page {
  constructor(bytes, { explanations, examples, rules, delays }) {
    this.simulator = new Simulator(new Program(bytes));
    this.session = new Session(this.simulator);
    this.reasons = new Reasons(explanations);
    this.examples = examples;
    this.editors = new Editors(this.simulator, this.reasons);
    this.orders = new AnyOrder(this.simulator, LIMIT);
    this.player = new Player(() => this.play(), () => this.show());
    this.memory = new MemoryPanel(this.simulator);
    this.predict = new Predict(this);
    this.goal = new GoalPanel(() => this.show());
    this.second = new SecondOrder(this);
    this.hunt = new HuntPanel(this, rules);
    this.graph = new GraphPanel(this);
    this.ticks = new TicksPanel(this, delays);
    // The questions of the lesson on the script that is played.
    this.questions = [];
    this.selected = 1;
    // Why the last move that was asked for could not be made, and where.
    this.forgive();
    this.room = { width: 900, height: 600 };
    this.stop = NO_STOP;
  }

  // What is drawn.

  get view() {
    const { layout, picture, before, texts, last, who, whoBefore } = this.session;
    const names = last && before ? namesOfMeeting(last.move, before, picture) : [];
    return { layout, picture, before, texts, last: last?.move ?? null, names, selected: this.selected, room: this.room, who, whoBefore, blame: this.blame };
  }

  // What is drawn while a question waits: where the moves have led, but neither what the last one did nor what can be done now.
  get viewOfQuestion() {
    const view = this.view;
    return { ...view, last: null, names: [], blame: null, before: null, picture: { ...view.picture, allowed: [] } };
  }

  show() {
    const view = this.predict.isAsking ? this.viewOfQuestion : this.view;
    const hadFocus = byId("drawing").contains(document.activeElement);
    byId("drawing").classList.toggle("still", this.player.isFast);
    draw(byId("drawing"), view);
    if (hadFocus) byId("drawing").querySelector(".selected").focus();
    this.tell(view);
    showMoves(view.picture);
    showStage(view);
    showBarred(view.picture, this.reasons);
    showMachine(view, this.machine);
    showWritten(view.picture);
    // The script's text is laid out again at each change: while moves come fast it is every few moves.
    if (!this.player.isFast || this.session.steps.length % SCRIPT_EVERY === 0) showScript(this.session);
    showReport(view.picture);
    this.memory.show(this.session);
    this.goal.show(this.session);
    showTimeline(this.session, this.ticks.finishes);
    this.second.show();
    this.hunt.show();
    this.graph.show();
    this.ticks.show();
    byId("back").disabled = byId("rewind").disabled = this.session.steps.length === 0;
    byId("again").disabled = byId("forward").disabled = this.session.undone.length === 0;
    byId("step").disabled = view.picture.allowed.length === 0 && this.session.undone.length === 0;
  }

  // The drawing's room has changed.
  resize() {
    this.room = roomOfDrawing();
    this.show();
  }

  // The caption, but not the one of a move that is to be predicted.
  get notes() {
    const { last, undone } = this.session;
    if (this.predict.isAsking || (this.predict.isOn && !last)) return [];
    return (last ?? undone.at(-1))?.notes ?? [];
  }

  tell(view) {
    const { last, isBranch } = this.session;
    const { isAsking } = this.predict;
    fill(byId("notes"), captionOf(this.notes));
    fill(byId("told"), isAsking ? "" : last ? this.wordsOfLast(view) : this.wordsAtStart());
    const { first } = view.picture;
    fill(byId("ending"), first.startsWith("script end") ? "" : `The run has ended: ${first}.`);
    fill(byId("why"), isAsking ? "" : sentence(this.why));
    this.predict.show();
    byId("branch").hidden = !isBranch;
  }

  wordsOfLast({ before, picture, texts, layout, last, who, whoBefore }) {
    const words = told(last, before, picture, { texts, who: { before: whoBefore, after: who }, memory: memorySiding(layout) });
    return [`${this.session.steps.length}. `, html("b", {}, last), " ", sentence(words)];
  }

  wordsAtStart() {
    const count = this.session.undone.length;
    if (count > 0) return `A script of ${count} moves is ready: → makes them one by one.`;
    return "Nothing has happened yet. Make a move: click on it, or press →.";
  }

  // What is done.

  // Whether a move was made: keeps why not, where it was refused.
  took(move, refused) {
    const reason = refused && (refused.kind === "bar" ? this.reasons.bar(refused.reason) : this.reasons.refusal("Scripts", refused.reason));
    this.why = refused ? `\`${move}\` cannot be made. ${reason}` : "";
    this.blame = refused?.kind === "bar" ? blameOf(move, refused.reason, this.session.layout, this.session.picture) : null;
    return !refused;
  }

  // Nothing that was refused before counts any more.
  forgive() {
    this.why = "";
    this.blame = null;
  }

  make(move) {
    if (this.predict.asks(move)) {
      this.show();
      return false;
    }
    return this.makeAnswered(move);
  }

  // Makes a move of which there is no question any more.
  makeAnswered(move) {
    const isMade = this.took(move, this.session.choose(move));
    if (isMade) this.selected = chosenAfter(this.selected, move);
    this.show();
    return isMade;
  }

  get schedule() {
    if (byId("schedule").value !== "seed") return new ByRule(this.session.layout);
    const seed = Math.min(4294967295, Math.max(0, Math.floor(Number(byId("seed").value) || 0)));
    if (this.seeded?.seed !== BigInt(seed)) this.seeded = new BySeed(seed);
    return this.seeded;
  }

  // Takes another schedule, or another seed: what the one before had chosen is forgotten.
  reschedule() {
    byId("seed").disabled = byId("schedule").value !== "seed";
    this.change((session) => session.forget());
  }

  // Whether the next step makes the move again that was taken back last. The script's moves come where the script is chosen.
  get replays() {
    const { undone, isOnCourse } = this.session;
    return undone.length > 0 && (byId("schedule").value === "script" || !isOnCourse);
  }

  // Makes one move, in both orders where there are two. Whether one was made in either.
  advance() {
    const alone = this.advanceAlone();
    return this.second.advance() || alone;
  }

  // Makes all moves of a round of `cfpp rounds`, which share no place.
  round() {
    const { layout, picture, issues } = this.session;
    this.forgive();
    for (const move of roundOf(candidates(layout, picture, issues), picture, layout)) this.session.choose(move);
    this.show();
  }

  // Makes all moves of a timed run which finish at the next time.
  tick() {
    this.forgive();
    this.ticks.step();
    this.show();
  }

  // Makes one move, of those that were taken back the last, or else what the schedule chooses. Whether it was made.
  advanceAlone() {
    const step = this.session.undone.at(-1);
    if (this.replays) return this.took(step.move, this.session.again());
    const move = this.session.chosenBy(this.schedule);
    return move !== null && this.took(move, this.session.choose(move));
  }

  // Whether the last move led to where play is to stop.
  stops() {
    const { last, before, picture } = this.session;
    const reached = stopReached(this.stop, last.move, before, picture);
    if (reached !== null) byId("stopped").textContent = `Stopped: ${reached}.`;
    return reached !== null;
  }

  // Makes moves as fast as they come, up to where play is to stop.
  runToStop() {
    byId("stopped").textContent = "";
    this.player.stop();
    this.player.begin(true);
  }

  // The move that the next step makes, or null.
  get nextMove() {
    return this.replays ? this.session.undone.at(-1).move : this.session.chosenBy(this.schedule);
  }

  // Makes the next move, but where Predict asks of it.
  advanceUnlessAsked() {
    return !this.predict.asks(this.predict.isOn ? this.nextMove : null, true) && this.advance();
  }

  play() {
    return this.advanceUnlessAsked() && !this.stops();
  }

  step() {
    this.advanceUnlessAsked();
    this.show();
  }

  // Makes the move again that was taken back last, whatever the schedule.
  again() {
    const step = this.session.undone.at(-1);
    if (step) this.make(step.move);
  }

  // Changes the moves that are made, and those of the second order.
  change(how, also = () => {}) {
    this.player.stop();
    this.predict.clear();
    this.forgive();
    how(this.session);
    also();
    this.show();
  }

  forward() {
    this.change((session) => {
      session.forward();
      // What is left begins with a move that cannot be made.
      const step = session.undone.at(-1);
      if (step) this.took(step.move, session.again());
    });
  }

  // Back to the script, where it was left.
  rejoin() {
    if (this.session.isBranch) this.change((session) => session.rejoin());
  }

  back() {
    this.change((session) => session.back(), () => this.second.back());
  }

  rewind() {
    this.change((session) => session.rewind(), () => this.second.rewind());
  }

  // A click on a part of a stage, or Enter on the stage: its one move, or else the stage is chosen, with all its moves beside.
  touch(stage, side) {
    const moves = allowedAt(this.view, stage);
    const possible = side ? moves[side] : [...moves.meeting, ...moves.passenger, ...moves.packet];
    this.selected = stage;
    if (possible.length === 1) this.make(possible[0]);
    else this.select(stage);
  }

  select(stage) {
    this.selected = Math.max(1, Math.min(this.session.layout.stages, stage));
    this.forgive();
    this.show();
  }

  moveByKey(pattern) {
    const move = pattern.replace("#", this.selected);
    const found = move === "slide" ? this.session.picture.allowed.find((one) => one.startsWith("slide")) ?? "slide 0 0" : move;
    this.make(found);
  }

  // What is worked on.

  // Shows a second drawing beside the pipes, or none: the two that there are exclude each other.
  beside(one) {
    const other = one === this.second ? this.hunt : this.second;
    if (other.isOn && !one.isOn) other.toggle();
    one.toggle();
  }

  // Folds the panels away, so that the pipes have all the room; or brings them back.
  project() {
    const isOn = document.body.classList.toggle("projector");
    byId("projector").setAttribute("aria-pressed", String(isOn));
    this.resize();
  }

  // Takes a layout, a program and its input, with its source where that is known, with a script that is to be played, and a goal.
  open({ layout, bytes, input, script, name, source = "", questions = [], goal = "" }) {
    this.player.stop();
    this.goal.set(goal);
    Object.assign(this, { source, questions });
    this.orders.clear();
    const listed = this.simulator.list(bytes);
    Object.assign(this.session, { layout, bytes, input, texts: listed.texts ?? new Map() });
    this.machine = this.simulator.machine(this.session, LIMIT);
    this.selected = 1;
    for (const part of [this.hunt, this.graph, this.ticks]) part.clear();
    const [, problem] = /^bad program: (.*)$/.exec(this.machine.first) ?? [];
    byId("loaded").textContent = problem ? `No program: ${this.reasons.refusal("Programs", problem)}` : name;
    byId("input").value = text(input);
    this.load(script);
    this.second.begin();
    // The frame of a run that was found before makes room.
    this.resize();
  }

  // What a link keeps.
  get shared() {
    const { layout, bytes, input, script, unplayed, course } = this.session;
    return { layout: layout.text, program: bytes, input, script, unplayed, course: this.session.scriptOf(course), source: this.source, goal: this.goal.text };
  }

  // Takes a script that is to be played.
  load(script) {
    this.change((session) => session.load(script));
    this.offerScript();
  }

  // The script is one of the schedules, where there is one.
  offerScript() {
    const hasScript = this.session.course.length > 0;
    byId("by-script").hidden = byId("by-script").disabled = !hasScript;
    if (hasScript) byId("schedule").value = "script";
    else if (byId("schedule").value === "script" || byId("schedule").value === "") byId("schedule").value = "rule";
    byId("seed").disabled = byId("schedule").value !== "seed";
    this.show();
  }

  // What a link has: moves that were made, and those that are still to come.
  resume(script, unplayed) {
    this.change((session) => session.resume(script, unplayed));
  }

  openExample(example) {
    byId("layout").value = this.layoutChoice = example.layout ?? "plain";
    this.editors.fill(example.source ?? "", this.examples.layouts[this.layoutChoice]);
    const bytes = example.image ? fromBase64(example.image) : this.editors.checkSource();
    const { script = "", source = "", input = "", questions = [], goal = "" } = example;
    this.open({ layout: this.editors.checkLayout(), bytes, input: bytesOf(input), script, source, name: "", questions, goal });
  }

  // Takes the layout that the editor has, if it is one. The choice names the processor that is drawn.
  openLayout(choice, name) {
    const layout = this.editors.checkLayout();
    if (layout) {
      this.reopen({ layout, name });
      this.layoutChoice = choice;
    } else byId("loaded").textContent = `${choice} is no processor, and the one before stays. ${byId("toml-fault").textContent}`;
    byId("layout").value = this.layoutChoice;
  }

  reopen(changes) {
    const { layout, bytes, input } = this.session;
    if (changes.bytes) byId("example").value = OWN;
    const source = changes.bytes ? "" : this.source;
    this.open({ layout, bytes, input, script: "", name: "", source, ...changes });
  }
}
