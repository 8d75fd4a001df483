// The choices of example and processor. An example that is chosen again begins again, which a browser's choice alone does not show.

import { byId, fill, html } from "./element.js";

// The choice that is shown where program or processor is none of the page's, and the one of the example that is shown.
export const OWN = "own";
const SHOWN = "shown";

function groupsOf(programs) {
  const groups = new Map();
  programs.forEach((example, at) => {
    groups.set(example.group, [...(groups.get(example.group) ?? []), html("option", { value: at }, example.title)]);
  });
  return [...groups].map(([group, options]) => html("optgroup", { label: group }, options));
}

export function fillChoices({ programs, layouts }) {
  const own = html("option", { value: OWN, hidden: true }, "your own");
  fill(byId("example"), own, html("option", { value: SHOWN, hidden: true, id: "shown-example" }), groupsOf(programs));
  fill(byId("layout"), own, Object.keys(layouts).map((name) => html("option", { value: name }, name)));
  byId("example").value = "0";
}

// Puts a hidden choice of the same name in the place of the one that is chosen, so that this one can be chosen again.
function standIn(choice) {
  if (choice.value === SHOWN || choice.value === OWN) return;
  choice.dataset.shown = choice.value;
  byId("shown-example").textContent = choice.selectedOptions[0].textContent;
  choice.value = SHOWN;
}

function putBack(choice) {
  if (choice.value === SHOWN) choice.value = choice.dataset.shown;
}

// Calls `open` with each example that is chosen, also where it is the one that is shown.
export function listenToExamples(open) {
  const choice = byId("example");
  choice.addEventListener("pointerdown", () => standIn(choice));
  choice.addEventListener("keydown", ({ key }) => (key === " " ? standIn(choice) : putBack(choice)));
  choice.addEventListener("blur", () => putBack(choice));
  choice.addEventListener("change", () => open(Number(choice.value)));
  choice.addEventListener("keydown", ({ key }) => key === "Enter" && choice.value !== OWN && open(Number(choice.value)));
}

// A choice made with a pointer gives the keys back to the page; one made by keys keeps those that choose.
export function listenToPointer() {
  let byPointer = false;
  document.addEventListener("pointerdown", () => (byPointer = true));
  document.addEventListener("keydown", () => (byPointer = false));
  for (const choice of document.querySelectorAll("select")) choice.addEventListener("change", () => byPointer && choice.blur());
}
