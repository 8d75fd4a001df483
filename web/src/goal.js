// A goal in words, as `x1 = 2, pipes empty, at most 18 moves`: what it asks for, and what of it holds.

const EMPTY = (picture) => picture.stages.size === 0;

// What each form of a condition asks of a state: the picture, how many updates there were, how many moves and ticks it took.
const FORMS = [
  [/^x(\d{1,2}) ?= ?(-?\d+|0x[0-9a-f]+)$/i, ([, register, value]) => ({ picture }) =>
    parseInt(picture.registers[Number(register)], 16) === Number(value) >>> 0],
  [/^retired (\d+)$/, ([, count]) => ({ picture }) => picture.retired === Number(count)],
  [/^pipes empty$/, () => ({ picture }) => EMPTY(picture)],
  [/^sidings empty$/, () => ({ picture }) => picture.sidings.size === 0],
  [/^a kill$/, () => ({ picture }) => picture.kills > 0],
  [/^an update$/, () => ({ updates }) => updates > 0],
  [/^no kill$/, () => ({ picture }) => picture.kills === 0],
  [/^at most (\d+) moves$/, ([, count]) => ({ moves }) => moves <= Number(count)],
  [/^at most (\d+) ticks$/, ([, count]) => ({ ticks }) => ticks <= Number(count)],
];

function isRegister([, number]) {
  return number === undefined || Number(number) < 32;
}

function condition(text) {
  for (const [form, holds] of FORMS) {
    const parts = form.exec(text);
    if (parts && (form !== FORMS[0][0] || isRegister(parts))) return { text, holds: holds(parts) };
  }
  return { text, holds: null };
}

// The conditions of a goal, or the first part of it that is none.
export function readGoal(text) {
  const conditions = text.split(",").map((part) => part.trim().replace(/\s+/g, " ")).filter((part) => part !== "").map(condition);
  const wrong = conditions.find(({ holds }) => holds === null);
  return wrong ? { fault: wrong.text, conditions: [] } : { fault: null, conditions };
}

// Each condition with whether it holds of a state.
export function judged({ conditions }, state) {
  return conditions.map(({ text, holds }) => ({ text, isMet: holds(state) }));
}

export function isReached(judgement) {
  return judgement.length > 0 && judgement.every(({ isMet }) => isMet);
}
