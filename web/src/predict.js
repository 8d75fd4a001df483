// Predict: the outcome of a move and its caption are hidden until it was said what happens. Right and wrong are counted here and nowhere else.

import { byId, fill, html, sentence } from "./element.js";
import { answerText, isRight, questionOf } from "./questions.js";

const key = (session, move) => `${session.steps.length} ${move}`;

export class Predict {
  constructor(page) {
    this.page = page;
    this.isOn = false;
    this.right = 0;
    this.wrong = 0;
    this.clear();
  }

  // Forgets what was asked of the moves so far, but not how many answers were right.
  clear() {
    // The question that waits for its answer, and what was said to the last one.
    this.pending = null;
    this.verdict = "";
    this.asked = new Set();
  }

  get isAsking() {
    return this.pending !== null;
  }

  toggle() {
    this.isOn = !this.isOn;
    this.clear();
    byId("predict").setAttribute("aria-pressed", String(this.isOn));
    this.page.show();
  }

  // The lesson's questions at the point that the script has come to, and were not asked yet.
  lessonQuestion() {
    const { session, questions } = this.page;
    if (!session.isOnCourse) return null;
    const found = questions.find(({ at, number }) => at === session.steps.length && !this.asked.has(`lesson ${number}`));
    return found ? { kind: "lesson", ...found } : null;
  }

  moveQuestion(move) {
    const { session } = this.page;
    if (move === null || this.asked.has(key(session, move))) return null;
    const { after, refused } = session.peek(move);
    const bar = refused?.kind === "bar" ? refused.reason : null;
    if (refused && !bar) return null;
    const question = questionOf({ move, before: session.picture, after, bar, who: session.who, texts: session.texts });
    return question && { ...question, move };
  }

  // Whether something is to be said before this move is made: then it is asked.
  asks(move, isScripts = false) {
    if (!this.isOn) return false;
    this.verdict = "";
    this.pending ??= this.nextQuestion(move, isScripts);
    return this.isAsking;
  }

  // The lesson asks after what has happened, and so after a bar was shown.
  nextQuestion(move, isScripts) {
    const ofMove = this.moveQuestion(move);
    return (isScripts && ofMove?.kind !== "bar" ? this.lessonQuestion() : null) ?? ofMove;
  }

  // Takes what was said: the move is made, and whether it was right is shown with it.
  answer(said) {
    const { pending } = this;
    const isTrue = isRight(pending, said);
    this.count(isTrue);
    this.asked.add(key(this.page.session, pending.move));
    this.verdict = isTrue ? "Right." : `Not so: ${answerText(pending)}.`;
    this.pending = null;
    this.page.makeAnswered(pending.move);
  }

  count(isTrue) {
    if (isTrue) this.right += 1;
    else this.wrong += 1;
  }

  // The answer to a question of the lesson was looked at.
  close(isTrue) {
    this.count(isTrue);
    this.asked.add(`lesson ${this.pending.number}`);
    this.pending = null;
    this.page.show();
  }

  show() {
    document.body.classList.toggle("asking", this.isAsking);
    byId("question").hidden = !this.isAsking;
    byId("score").textContent = this.isOn ? `${this.right} right, ${this.wrong} wrong. ${this.verdict}` : "";
    byId("score").hidden = !this.isOn;
    fill(byId("question"), this.isAsking ? this.form() : []);
    this.takeFocus();
  }

  // Keys answer a question as soon as it is asked.
  takeFocus() {
    if (this.pending === this.focused) return;
    this.focused = this.pending;
    byId("question").querySelector("input, summary")?.focus();
    byId("question").scrollIntoView({ block: "nearest" });
  }

  form() {
    const { kind } = this.pending;
    if (kind === "lesson") return this.lessonForm();
    const parts = { meeting: () => this.choices("checkbox"), bar: () => this.choices("radio"), value: () => this.field() };
    const form = { key: this.pending.text, onSubmit: (event) => this.submit(event) };
    return [html("p", {}, sentence(this.pending.text)), html("form", form, parts[kind](), html("button", {}, "Say it"))];
  }

  choices(type) {
    return this.pending.choices.map((choice) => [html("label", {}, html("input", { type, name: "said", value: choice }), ` ${choice}`), " "]);
  }

  field() {
    return [html("label", {}, "the value ", html("input", { name: "said", size: 10, autocomplete: "off", spellcheck: "false" })), " "];
  }

  submit(event) {
    event.preventDefault();
    const said = [...new FormData(event.target).values()].filter((part) => part !== "");
    if (said.length > 0) this.answer(said);
  }

  lessonForm() {
    const { number, text, answer } = this.pending;
    return [
      html("p", {}, `Question ${number} of the lesson: `, sentence(text)),
      html("details", { key: `lesson ${number}` }, html("summary", {}, "Its answer"), html("p", {}, sentence(answer)),
        html("button", { type: "button", onClick: () => this.close(true) }, "I had it"), " ",
        html("button", { type: "button", onClick: () => this.close(false) }, "I had not")),
    ];
  }
}
