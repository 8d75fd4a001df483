// A link that has the layout, the program with its source, its input, the script, the moves that are to come and the goal in its fragment,
// which a browser sends nowhere.

import { bytesOfStream, fromBase64, toBase64 } from "./data.js";
import { bytesOf, text } from "./program.js";

// What a link holds has at most this many bytes, before it is packed.
const MOST = 1 << 20;
const FORM = /^#cfpp1\.([A-Za-z0-9_-]+)$/;

function packed(bytes) {
  return bytesOfStream(new Blob([bytes]).stream().pipeThrough(new CompressionStream("deflate-raw")), 2 * MOST);
}

function unpacked(bytes) {
  return bytesOfStream(new Blob([bytes]).stream().pipeThrough(new DecompressionStream("deflate-raw")), MOST);
}

// The fragment, or null where it would be too long.
export async function fragmentOf({ layout, program, input, ...texts }) {
  const state = bytesOf(JSON.stringify({ layout, program: toBase64(program), input: toBase64(input), ...texts }));
  if (state.length > MOST) return null;
  const code = toBase64(await packed(state));
  return `#cfpp1.${code.replaceAll("+", "-").replaceAll("/", "_").replaceAll("=", "")}`;
}

// What a fragment brings, or null where it is none of ours. Whatever it holds is taken as text and bytes alone.
export async function readFragment(fragment) {
  const [, code] = FORM.exec(fragment) ?? [];
  if (code === undefined) return null;
  const state = JSON.parse(text(await unpacked(fromBase64(code.replaceAll("-", "+").replaceAll("_", "/")))));
  const parts = [state.layout, state.program, state.input, state.script];
  if (!parts.every((part) => typeof part === "string")) throw new Error("a part of the link is missing");
  // Links of earlier pages have none of these.
  const texts = Object.fromEntries(["source", "course", "unplayed", "goal"].map((name) => [name, typeof state[name] === "string" ? state[name] : ""]));
  return { ...texts, layout: state.layout, program: fromBase64(state.program), input: fromBase64(state.input), script: state.script };
}
