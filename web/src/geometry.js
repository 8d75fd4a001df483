// Where everything is in the drawing: columns from left to right, stages from the bottom up. The drawing fills the room that it has:
// its units are pixels where room is short, and otherwise larger, so that what is written can be read from afar.

// Widths of the columns, how the rest is shared between the pipes, and the register file's columns of registers.
const WIDE = { siding: 128, label: 112, gap: 96, share: 0.62, fileColumns: 8, leastRow: 30 };
const NARROW = { siding: 46, label: 26, gap: 52, share: 0.55, fileColumns: 4, leastRow: 48 };
// A room of fewer pixels than these gets the narrow form.
const NARROW_BELOW = 780;
// The width of both pipes, and the height of a stage, from which on the drawing grows.
const PIPES = 560;
const ROW = 44;
const MOST_ROW = 84;
const MOST_SCALE = 2;

// A room of less height than this gets a register file without its heading, and fetch in one line; so does one that asks for it.
const COMPACT_BELOW = 740;

const MARGIN = 6;
const FILE_LINE = 17;
const LANE = 38;
const SPACE_BELOW = 16;
const REGISTERS = 32;

const bounded = (least, value, most) => Math.max(least, Math.min(most, value));

// For each siding its column, from the right: the first one with nothing beside the same stages.
function columnsOf(sidings) {
  const columns = [];
  return sidings.map(({ launch, recover }) => {
    const isFree = (column) => column.every((other) => other.recover < launch || recover < other.launch);
    const found = columns.findIndex(isFree);
    const at = found < 0 ? columns.push([]) - 1 : found;
    columns[at].push({ launch, recover });
    return at;
  });
}

// The columns of the pipes in a drawing of this many units.
function pipesOf(form, beside, width) {
  const label = MARGIN + beside;
  const instruction = label + form.label;
  const rest = width - instruction - form.gap - MARGIN;
  const first = Math.round(rest * form.share);
  return {
    label: { x: label, width: form.label },
    instruction: { x: instruction, width: first },
    gap: { x: instruction + first, width: form.gap },
    result: { x: instruction + first + form.gap, width: rest - first },
  };
}

// The least width that a form's columns need beside the pipes, and the heights of what is above and below the stages.
function around(form, beside, isCompact) {
  const heading = isCompact ? 8 : 30;
  const file = heading + FILE_LINE * (REGISTERS / form.fileColumns);
  const fetch = isCompact ? 36 : 60;
  const width = 2 * MARGIN + beside + form.label + form.gap;
  return { width, heading, file, top: MARGIN + file + LANE, fetch, below: fetch + SPACE_BELOW };
}

export function geometryOf(layout, room) {
  const isNarrow = room.width < NARROW_BELOW;
  const form = isNarrow ? NARROW : WIDE;
  const columns = columnsOf(layout.sidings);
  const count = 1 + Math.max(-1, ...columns);
  const isCompact = room.isCompact || (!isNarrow && room.height < COMPACT_BELOW);
  const { width: others, heading, file, top, fetch, below } = around(form, count * form.siding, isCompact);
  const wanted = Math.min(room.width / (others + PIPES), room.height / (top + below + ROW * layout.stages));
  const scale = isNarrow ? 1 : bounded(1, wanted, MOST_SCALE);
  const row = Math.floor(bounded(form.leastRow, (room.height / scale - top - below) / layout.stages, MOST_ROW));
  const bottom = top + layout.stages * row;
  return {
    ...pipesOf(form, count * form.siding, room.width / scale),
    isNarrow,
    scale,
    row,
    // Whether a stage has room for one line or for two.
    lines: row >= ROW ? 2 : 1,
    siding: (at) => MARGIN + (count - 1 - columns[at]) * form.siding,
    sidingWidth: form.siding - (isNarrow ? 8 : 14),
    isCompact,
    file: { y: MARGIN - 2, height: file, columns: form.fileColumns, heading, line: FILE_LINE },
    fetch: { y: bottom + 10, height: fetch },
    lane: MARGIN + file,
    top,
    bottom,
    width: room.width / scale,
    height: bottom + below,
    // Where the box of a stage begins.
    y: (stage) => top + (layout.stages - stage) * row,
  };
}
