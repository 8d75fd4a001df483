// How registers, values and results are written on the page.

export function registerName(register) {
  return `x${Number(register.slice(1))}`;
}

// A small number in decimal, any other in the eight digits of the reports.
export function valueText(hex) {
  const value = parseInt(hex, 16) | 0;
  return Math.abs(value) < 10000 ? String(value) : hex;
}

// A binding: a register with its value, or `?` while that is not known.
export function bindingText(binding) {
  return `${registerName(binding.register)}=${binding.value === null ? "?" : valueText(binding.value)}`;
}

export function packetText(packet) {
  if (packet.kind === "turn") return `turn ${packet.address}`;
  return packet.kind === "halt" ? "halt" : bindingText(packet);
}

// The text of the instruction at an address, as `list` has it.
export function instructionText(texts, address) {
  return texts.get(address) ?? `at ${address}`;
}

// The number of an instruction, before its text; nothing where it is not known.
export function numberText(number) {
  return number === undefined ? "" : `#${number} `;
}

// Where a result comes from: an instruction by its number, or the register file.
export const REGISTER_FILE = 0;

export function originText(number) {
  if (number === undefined) return "somewhere";
  return number === REGISTER_FILE ? "the register file" : `#${number}`;
}
