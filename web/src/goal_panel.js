// The goal beside the drawing: what is to be reached from here, and what of it holds now. It travels in a link.

import { byId, fill, html } from "./element.js";
import { isReached, judged, readGoal } from "./goal.js";
import { ticksOf } from "./places.js";

export class GoalPanel {
  constructor(changed) {
    byId("goal").addEventListener("input", changed);
  }

  get text() {
    return byId("goal").value.trim();
  }

  set(text) {
    byId("goal").value = text;
  }

  stateOf({ picture, track, steps, layout }) {
    const ticks = ticksOf(steps.map(({ move }) => move), layout);
    return { picture, updates: track.updates, moves: steps.length, ticks: Math.max(0, ...ticks) };
  }

  show(session) {
    byId("goal-short").textContent = this.text;
    if (!byId("goal-details").open) return;
    const goal = readGoal(this.text);
    byId("goal-fault").textContent = goal.fault === null ? "" : `This is no part of a goal: ${goal.fault}.`;
    const state = this.stateOf(session);
    const judgement = judged(goal, state);
    fill(byId("goal-parts"), judgement.map(({ text, isMet }) => html("li", { class: isMet ? "met" : "open" }, `${isMet ? "✓" : "✗"} ${text}`)));
    const counts = `${state.moves} moves, ${state.ticks} ticks.`;
    byId("goal-words").textContent = isReached(judgement) ? `Reached, with ${counts}` : judgement.length > 0 ? `Not reached; so far ${counts}` : "";
  }
}
