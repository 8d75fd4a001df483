// What the page works on: a layout, a program with its input, and the script of the moves made so far. The script is all the state
// that there is: each picture is the program's answer to it.

import { common, isOn, restOf } from "./course.js";
import { candidates } from "./schedule.js";
import { NO_TRACK, trackAfter } from "./track.js";

export class Session {
  constructor(simulator) {
    this.simulator = simulator;
    this.layout = null;
    this.layoutName = "";
    this.bytes = new Uint8Array();
    this.input = new Uint8Array();
    this.texts = new Map();
    // The steps of the script that was loaded, those made, and those taken back, the next one last.
    this.course = [];
    this.steps = [];
    this.undone = [];
  }

  // A step is a move with the comment lines that are above it in the script.
  scriptOf(steps) {
    return steps.map(({ move, notes }) => `${notes.map((note) => `${note}\n`).join("")}${move}\n`).join("");
  }

  get script() {
    return this.scriptOf(this.steps);
  }

  // Asks the program where the script leads.
  see() {
    this.picture = this.simulator.standing(this, this.script);
    this.before = this.steps.length === 0 ? null : this.simulator.run(this, this.scriptOf(this.steps.slice(0, -1)));
    return this.picture;
  }

  // Where one more move would lead, or why it cannot be made.
  peek(move, notes = []) {
    const after = this.simulator.standing(this, this.script + this.scriptOf([{ move, notes }]), this.picture);
    const refused = /^(barred at line \d+|bad script line \d+): (.*)$/.exec(after.first);
    return { after, refused: refused && { kind: refused[1].startsWith("barred") ? "bar" : "line", reason: refused[2] } };
  }

  // Makes one more move: the answer is the bar where it cannot be made.
  make(move, notes = []) {
    const step = { move, notes };
    const { after, refused } = this.peek(move, notes);
    if (refused) return refused;
    step.track = trackAfter(this.track, move, this.picture, after, this.texts);
    this.before = this.picture;
    this.picture = after;
    this.steps.push(step);
    return null;
  }

  // Makes a move of one's own choice. Where it is the next one it goes on with those that are left; else these are forgotten, but for the
  // course's, where it leads there.
  choose(move) {
    if (this.undone.at(-1)?.move === move) return this.again();
    const refused = this.make(move);
    if (!refused) this.forget();
    return refused;
  }

  // Forgets the moves that were taken back, but for the course's.
  forget() {
    this.undone = restOf(this.steps, this.course);
  }

  get isOnCourse() {
    return isOn([...this.steps, ...[...this.undone].reverse()], this.course);
  }

  // Whether moves were made instead of the course's.
  get isBranch() {
    return common(this.steps, this.course) < Math.min(this.steps.length, this.course.length);
  }

  // Takes back all moves after the place where the course was left.
  rejoin() {
    this.steps = this.course.slice(0, common(this.steps, this.course));
    this.undone = restOf(this.steps, this.course);
    this.see();
  }

  // The move that a schedule chooses next, if there is any.
  chosenBy(schedule) {
    const offered = candidates(this.layout, this.picture, this.issues);
    return offered.length > 0 ? schedule.next(offered, this.steps) : null;
  }

  back() {
    if (this.steps.length === 0) return false;
    this.undone.push(this.steps.pop());
    this.see();
    return true;
  }

  // Makes the move again that was taken back last.
  again() {
    const step = this.undone.at(-1);
    if (!step) return null;
    const refused = this.make(step.move, step.notes);
    if (!refused) this.undone.pop();
    return refused;
  }

  // Takes all moves back: they can be made again one by one.
  rewind() {
    while (this.steps.length > 0) this.undone.push(this.steps.pop());
    this.see();
  }

  // Takes a script instead of the moves so far; none of its moves is made yet.
  load(text) {
    this.course = readSteps(text);
    this.steps = [];
    this.undone = [...this.course].reverse();
    this.see();
  }

  // Takes moves that were made, as far as they can be, and those that are to come after them.
  resume(made, unplayed) {
    this.steps = [];
    this.undone = readSteps(made).reverse();
    this.forward();
    if (this.undone.length === 0) this.undone = readSteps(unplayed).reverse();
  }

  // The moves that were taken back or are still to come, as a script.
  get unplayed() {
    return this.scriptOf([...this.undone].reverse());
  }

  // Makes all moves again that were taken back, up to the first that is barred.
  forward() {
    const all = [...this.steps, ...[...this.undone].reverse()];
    const made = this.simulator.run(this, this.scriptOf(all)).moves;
    this.steps = all.slice(0, made);
    this.undone = all.slice(made).reverse();
    this.see();
  }

  get last() {
    return this.steps.at(-1) ?? null;
  }

  // What the moves so far give beside the picture.
  get track() {
    if (!this.last) return NO_TRACK;
    if (this.last.track === undefined) this.follow();
    return this.last.track;
  }

  // How many issues count for holding issue back.
  get issues() {
    return this.track.issues;
  }

  get who() {
    return this.track.who;
  }

  get whoBefore() {
    return (this.steps.at(-2)?.track ?? NO_TRACK).who;
  }

  // Goes through all moves so far.
  follow() {
    let [before, track] = [this.simulator.run(this, ""), NO_TRACK];
    this.simulator.moments(this, this.script).forEach(({ move, after }, at) => {
      track = trackAfter(track, move, before, after, this.texts);
      this.steps[at].track = track;
      before = after;
    });
  }
}

// The moves of a script with the comments above each.
function readSteps(text) {
  const steps = [];
  let notes = [];
  for (const line of text.split("\n").map((part) => part.replace(/\r$/, ""))) {
    if (line.startsWith("#")) notes.push(line);
    else if (line.trim() !== "") {
      steps.push({ move: line.trim().split(/[ \t]+/).join(" "), notes });
      notes = [];
    }
  }
  return steps;
}
