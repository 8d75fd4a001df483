// A run of `cfpp time`: its moves in order, each with its start and its finish, and which of them the next step makes.

const MOVE = /^move \d+ from (\d+) to (\d+) (.*)$/gm;

export function readTimed(report) {
  return [...report.matchAll(MOVE)].map(([, start, finish, move]) => ({ move, start: Number(start), finish: Number(finish) }));
}

// Whether moves are the first ones of a timed run.
export function isOfRun(timed, moves) {
  return moves.length <= timed.length && moves.every((move, at) => move === timed[at].move);
}

// The moves of the next tick: those behind as many that were made which finish at the same time.
export function nextTick(timed, made) {
  const rest = timed.slice(made);
  const other = rest.findIndex(({ finish }) => finish !== rest[0].finish);
  return other < 0 ? rest : rest.slice(0, other);
}
