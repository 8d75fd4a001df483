// Moves as lines of a script, in the order in which the program lists them.

const AT_STAGES = ["climb", "fall", "meet", "execute", "send", "launch"];

// All moves of a layout, but those that issue with an address.
export function allMoves(layout) {
  const stages = Array.from({ length: layout.stages }, (_, below) => below + 1);
  const slides = layout.sidings.flatMap((siding, at) => Array.from({ length: siding.cells }, (_, cell) => `slide ${at} ${cell}`));
  return [
    "issue next", "issue taken", "issue wait", "emit",
    ...AT_STAGES.flatMap((kind) => stages.map((stage) => `${kind} ${stage}`)),
    ...slides,
    "access",
    ...stages.map((stage) => `recover ${stage}`),
    "leave", "exit", "serve",
  ];
}

export function kindOf(move) {
  return move.split(" ")[0];
}

// The stage at which a move is made, or 0 where it is none of a stage alone.
export function stageOf(move) {
  const parts = /^(climb|fall|meet|execute|send|launch|recover) (\d+)$/.exec(move);
  return parts ? Number(parts[2]) : 0;
}

// The moves of one stage, as its keys and its list have them.
export function movesOfStage(stage) {
  return ["meet", "execute", "send", "launch", "recover", "climb", "fall"].map((kind) => `${kind} ${stage}`);
}

// The stage that is chosen after a move: who goes on from the chosen one takes the choice along.
export function chosenAfter(chosen, move) {
  if (stageOf(move) !== chosen) return chosen;
  return chosen + ({ climb: 1, fall: -1 }[kindOf(move)] ?? 0);
}
