// Draws the time line as a table below the pipes.

import { byId, fill, html } from "./element.js";
import { ticksOf } from "./places.js";
import { isUnderWay, timelineOf } from "./timeline.js";

function cellOf(row, tick, last) {
  const event = row.cells.get(tick);
  const look = event ? `at-${event.kind}` : isUnderWay(row, tick, last) ? "waits" : "";
  return html("td", { class: look }, event?.label ?? "");
}

// `finishes` are the ticks of a timed run, or null: then each move takes one.
export function showTimeline(session, finishes) {
  if (!byId("time-details").open) return;
  // The track of each move is known once that of the last one is.
  if (session.track.event === undefined) return void fill(byId("time"), "No move has been made.");
  const ticks = finishes ?? ticksOf(session.steps.map(({ move }) => move), session.layout);
  const { first, last, rows, results } = timelineOf(session.steps, session.texts, ticks);
  const columns = Array.from({ length: last - first + 1 }, (_, at) => first + at);
  const head = html("tr", {}, html("th", { scope: "col" }, "tick"), columns.map((tick) => html("th", { scope: "col" }, String(tick))));
  const body = rows.map((row) => html("tr", { key: row.number },
    html("th", { scope: "row" }, `#${row.number} ${row.text}`), columns.map((tick) => cellOf(row, tick, last))));
  const foot = html("tr", {}, html("th", { scope: "row" }, "moves of results"), columns.map((tick) => html("td", {}, String(results.get(tick) ?? ""))));
  fill(byId("time"), html("table", {}, html("thead", {}, head), html("tbody", {}, body), html("tfoot", {}, foot)));
  byId("time").scrollLeft = byId("time").scrollWidth;
}
