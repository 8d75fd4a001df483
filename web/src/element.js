// Describes elements, and makes the page like a description: what is there already is changed and not made again. What a file, a link or
// the program says becomes the text of a node, never HTML.

import { h, render } from "../library/preact.js";

// The attributes that an element had when it was filled first: filling it leaves them alone.
const ownAttributes = new WeakMap();

const isThere = (part) => part !== null && part !== undefined && part !== false;

function there(parts) {
  return parts.flat(Infinity).filter(isThere);
}

export function html(name, attributes = {}, ...children) {
  return h(name, attributes, there(children));
}

export const svg = html;

// A new node that is like a part.
export function made(part) {
  return render(part, null);
}

// Makes what an element has like the parts.
export function fill(node, ...content) {
  if (!ownAttributes.has(node)) {
    node.replaceChildren();
    ownAttributes.set(node, Object.fromEntries(Array.from(node.attributes, ({ name, value }) => [name, value])));
  }
  render(html(node.localName, ownAttributes.get(node), ...content), node.parentNode, node);
}

// A sentence whose parts between backticks are code.
export function sentence(text) {
  return text.split("`").map((part, at) => (at % 2 === 1 ? html("code", {}, part) : part));
}

export function byId(id) {
  return document.getElementById(id);
}
