// Reads the canonical form of a layout, which `check` writes: how many stages there are, and what is beside them.

export function readLayout(text) {
  const layout = { text, stages: 0, lane: 0, hasCache: false, units: new Map(), sidings: [] };
  let siding = null;
  for (const line of text.split("\n")) {
    if (line === "[[siding]]") layout.sidings.push((siding = {}));
    const [, key, value] = /^(\w+) = (.*)$/.exec(line) ?? [];
    if (key === undefined) continue;
    const parsed = JSON.parse(value);
    if (siding) siding[key] = parsed;
    else if (key === "stages" || key === "lane") layout[key] = parsed;
    else if (key === "cache") layout.hasCache = parsed;
    else if (Array.isArray(parsed)) layout.units.set(key, parsed);
  }
  return layout;
}

// The classes that a unit of the stage executes.
export function unitsOf(layout, stage) {
  return [...layout.units].filter(([, stages]) => stages.includes(stage)).map(([name]) => name);
}

export function multiplies(layout) {
  return layout.units.has("mul") || layout.sidings.some((siding) => siding.classes.includes("mul"));
}

// The siding at whose end memory is.
export function memorySiding(layout) {
  return layout.sidings.findIndex((siding) => siding.classes.includes("memory"));
}
