// Puts the page together: what each button and key does.

import { OWN, fillChoices, listenToExamples, listenToPointer } from "./choices.js";
import { built, moduleBytes, shownOfPage } from "./data.js";
import { byId, html, made } from "./element.js";
import { listenToKeys, showKeys } from "./keys.js";
import { fragmentOf, readFragment } from "./link.js";
import { Page } from "./page.js";
import { showLegend } from "./panels.js";
import { pictureText } from "./picture.js";
import { bytesOf, text } from "./program.js";
import { readStop } from "./stop.js";

// What is filled in once it is opened.
const DETAILS = ["barred", "report", "memory", "goal", "time", "graph", "ticks"];

function save(name, parts) {
  const link = made(html("a", { download: name, href: URL.createObjectURL(new Blob(parts)) }));
  link.click();
  URL.revokeObjectURL(link.href);
}

function isSource(name) {
  return /\.(s|S|asm|txt)$/.test(name);
}

async function openProgramFile(page, file) {
  const bytes = new Uint8Array(await file.arrayBuffer());
  if (isSource(file.name)) {
    byId("source").value = text(bytes);
    if (page.editors.checkSource()) page.reopen({ bytes: page.editors.checkSource(), source: byId("source").value, name: file.name });
  } else page.reopen({ bytes, name: file.name });
}

function listenToSetup(page) {
  listenToExamples((at) => page.openExample(page.examples.programs[at]));
  byId("layout").addEventListener("change", () => {
    byId("toml").value = page.examples.layouts[byId("layout").value];
    page.openLayout(byId("layout").value, "");
  });
  byId("edit").addEventListener("click", () => {
    byId("editors").hidden = !byId("editors").hidden;
    byId("edit").setAttribute("aria-expanded", String(!byId("editors").hidden));
  });
  byId("use-source").addEventListener("click", () => page.reopen({ bytes: page.editors.checkSource(), source: byId("source").value, name: "your program" }));
  byId("use-toml").addEventListener("click", () => page.openLayout(OWN, "your processor"));
  byId("use-input").addEventListener("click", () => page.reopen({ input: bytesOf(byId("input").value) }));
  byId("program-file").addEventListener("change", ({ target }) => target.files[0] && openProgramFile(page, target.files[0]));
}

function listenToControls(page) {
  for (const action of ["rewind", "back", "again", "forward", "step", "round", "tick", "rejoin"]) byId(action).addEventListener("click", () => page[action]());
  byId("play").addEventListener("click", () => page.player.toggle());
  byId("schedule").addEventListener("change", () => page.reschedule());
  byId("seed").addEventListener("input", () => page.reschedule());
  byId("predict").addEventListener("click", () => page.predict.toggle());
  byId("two-orders").addEventListener("click", () => page.beside(page.second));
  byId("finish").addEventListener("click", () => page.second.finish());
  for (const id of ["second-by", "second-seed"]) byId(id).addEventListener("input", () => {
    page.second.restart();
    page.show();
  });
  byId("projector").addEventListener("click", () => page.project());
  byId("stop").addEventListener("input", () => (page.stop = readStop(byId("stop-address").value, byId("stop-retired").value)));
  byId("stop").addEventListener("submit", (event) => {
    event.preventDefault();
    page.runToStop();
  });
  window.addEventListener("resize", () => page.resize());
  byId("speed").addEventListener("input", () => (byId("speed-shown").textContent = byId("speed").value));
  byId("keys-button").addEventListener("click", () => byId("keys").showModal());
  byId("any-order").addEventListener("click", () => page.orders.toggle(page.session, page.machine));
  byId("own-move").addEventListener("submit", (event) => {
    event.preventDefault();
    if (page.make(byId("move-line").value.trim())) byId("move-line").value = "";
  });
  for (const part of DETAILS) byId(`${part}-details`).addEventListener("toggle", () => page.show());
}

// The rules that can be taken away.
function listenToHunt(page) {
  byId("hunt-button").addEventListener("click", () => page.beside(page.hunt));
  byId("hunt").addEventListener("click", () => page.hunt.begin());
  byId("put-back").addEventListener("click", () => page.hunt.putBack());
  byId("hunt-rule").addEventListener("change", () => {
    page.hunt.chooseRule();
    page.resize();
  });
  byId("hunt-moves").addEventListener("click", ({ target }) => {
    const chosen = target.closest("[data-at]");
    if (chosen) page.hunt.go(Number(chosen.dataset.at));
  });
}

// The picture of all orders, and the delays of ticks.
function listenToOrders(page) {
  byId("graph-issues").addEventListener("change", () => {
    page.graph.clear();
    page.show();
  });
  byId("graph-nodes").addEventListener("click", ({ target }) => {
    const node = target.closest("[data-node]");
    if (node) page.graph.go(Number(node.dataset.node));
  });
  byId("delays-choice").addEventListener("change", () => {
    page.ticks.choose();
    page.show();
  });
  byId("delays").addEventListener("input", () => {
    page.ticks.clear();
    page.show();
  });
}

function listenToScript(page) {
  byId("save-script").addEventListener("click", () => save("moves.script", [page.session.script]));
  byId("save-program").addEventListener("click", () => save("program", [page.session.bytes]));
  byId("save-layout").addEventListener("click", () => save("layout.toml", [page.session.layout.text]));
  byId("save-picture").addEventListener("click", () => save("pipeline.svg", [pictureText()]));
  byId("script-file").addEventListener("change", async ({ target }) => {
    if (!target.files[0]) return;
    page.load(await target.files[0].text());
  });
  byId("share").addEventListener("click", async () => {
    const fragment = await fragmentOf(page.shared);
    if (fragment === null) {
      byId("shared").textContent = "This is too long for a link: save script, program and layout.";
      return;
    }
    history.replaceState(null, "", fragment);
    const copied = await navigator.clipboard?.writeText(location.href).then(() => true, () => false);
    byId("shared").textContent = copied ? "The link is copied; it is the page's address now." : "The link is the page's address now.";
  });
}

function listenToDrawing(page) {
  byId("drawing").addEventListener("click", ({ target }) => {
    const move = target.closest("[data-move]");
    const stage = target.closest("[data-stage]");
    if (move) page.make(move.dataset.move);
    else if (stage) page.touch(Number(stage.dataset.stage), target.closest("[data-side]")?.dataset.side);
  });
  for (const id of ["moves", "stage-moves"]) byId(id).addEventListener("click", ({ target }) => target.dataset.move && page.make(target.dataset.move));
  listenToKeys({
    ArrowRight: () => page.step(),
    ArrowLeft: () => page.back(),
    again: () => page.again(),
    Home: () => page.rewind(),
    End: () => page.forward(),
    b: () => page.rejoin(),
    p: () => page.project(),
    q: () => page.predict.toggle(),
    n: () => page.round(),
    y: () => page.tick(),
    " ": () => page.player.toggle(),
    ArrowUp: () => page.select(page.selected + 1),
    ArrowDown: () => page.select(page.selected - 1),
    Enter: () => page.touch(page.selected, null),
    "?": () => byId("keys").showModal(),
    move: (pattern) => page.moveByKey(pattern),
  });
}

// Opens what the link has, or else the first example.
async function openFirst(page) {
  try {
    const link = await readFragment(location.hash);
    const layout = link && page.simulator.check(link.layout).layout;
    if (!layout) throw new Error("no link, or no layout in it");
    page.editors.fill(link.source, link.layout);
    byId("example").value = byId("layout").value = page.layoutChoice = OWN;
    page.open({ layout, bytes: link.program, input: link.input, script: link.course, source: link.source, goal: link.goal, name: "what the link has" });
    page.resume(link.script, link.unplayed);
    byId("goal-details").open = link.goal !== "";
  } catch (fault) {
    page.openExample(page.examples.programs[0]);
    if (location.hash.startsWith("#cfpp")) byId("loaded").textContent = "The link cannot be read.";
  }
}

async function begin() {
  showLegend();
  showKeys();
  const page = new Page(await moduleBytes(), await shownOfPage());
  fillChoices(page.examples);
  listenToSetup(page);
  listenToPointer();
  listenToControls(page);
  listenToScript(page);
  listenToDrawing(page);
  listenToHunt(page);
  listenToOrders(page);
  const { commit, kit, sources } = built();
  byId("built").textContent = `The program is that of commit ${commit}, built with ${kit}. Its sources have the checksum ${sources}.`;
  document.body.classList.toggle("bare", new URLSearchParams(location.search).has("bare"));
  await openFirst(page);
  page.resize();
  document.body.dataset.ready = "yes";
}

begin().catch((fault) => {
  document.body.dataset.ready = "failed";
  byId("told").textContent = `The page cannot run here: ${fault.message}. It needs WebAssembly and DecompressionStream.`;
});
