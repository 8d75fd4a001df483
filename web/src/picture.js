// The drawing as a file of its own: an SVG with its style and its size, which needs nothing else.

import { byId, made, svg } from "./element.js";

export function pictureText() {
  const it = byId("drawing").cloneNode(true);
  const [, , width, height] = it.getAttribute("viewBox").split(" ");
  // Nothing moves in it.
  it.classList.add("still");
  const set = { xmlns: "http://www.w3.org/2000/svg", width, height };
  for (const [name, value] of Object.entries(set)) it.setAttribute(name, value);
  for (const name of ["role", "aria-label", "style"]) it.removeAttribute(name);
  for (const button of it.querySelectorAll("[role]")) for (const name of ["role", "tabindex", "aria-label"]) button.removeAttribute(name);
  const drawn = made(svg("svg", {}, svg("style", {}, byId("drawing-style").textContent), svg("rect", { width: "100%", height: "100%", class: "paper" })));
  it.prepend(...drawn.childNodes);
  return `${new XMLSerializer().serializeToString(it)}\n`;
}
