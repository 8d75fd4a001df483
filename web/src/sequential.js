// The sequential machine beside the processor: what it retires, how far the processor has come, and whether the two agree.

// The place of the first line in which they differ, or -1 where each line of the processor is the machine's.
export function firstDifference(machine, processor) {
  return processor.lines.findIndex((line, at) => line !== machine.lines[at]);
}

function sameBytes(one, other) {
  return one.length === other.length && one.every((byte, at) => byte === other[at]);
}

// What of a whole run is not as the sequential machine's: nothing, where the proof is right.
export function differences(machine, run) {
  const found = [];
  if (run.first !== machine.first) found.push(`it ended with ${run.first}`);
  if (run.retired !== machine.retired || firstDifference(machine, run) >= 0) found.push("what retired");
  if (run.registers.join() !== machine.registers.join()) found.push("registers");
  const atLimit = run.first.startsWith("limit");
  // At the limit the processor's output may be one call ahead.
  if (!sameBytes(atLimit ? run.output.slice(0, machine.output.length) : run.output, machine.output)) found.push("output");
  return found;
}

// The parts of a retired line: its number, address and what it wrote.
export function readRetired(line) {
  const [, number, address, , wrote] = line.split(" ");
  return { number: Number(number), address, wrote };
}
