// Says in plain words what a move did, from the pictures before and after it, and names what happened where two pipes met.

import { stageOf, kindOf } from "./moves.js";
import { bindingText, instructionText, originText, packetText, registerName, valueText } from "./values.js";

const FLAGS_OF_THE_DEAD = ["dead", "dead-out"];

export function isDead(passenger) {
  return FLAGS_OF_THE_DEAD.includes(passenger.flag);
}

// The highest stage where an instruction or a result is.
function topStage(picture) {
  return picture.stages.get(Math.max(...picture.stages.keys()));
}

function meetingParts(before, after) {
  const { passenger, packet } = before;
  if (packet.kind !== "value") return isDead(after.passenger) && !isDead(passenger) ? ["die"] : [];
  const takes = passenger.sources.some((source, at) => source?.value === null && after.passenger.sources[at].value !== null);
  const owns = passenger.destination?.register === packet.register && !isDead(passenger);
  const parts = takes ? ["garner"] : [];
  if (owns) parts.push(after.packet ? "update" : "kill");
  return parts;
}

// What a meeting was: some of garner, update, kill and die, or nothing where the two only pass each other.
export function namesOfMeeting(move, before, after) {
  if (kindOf(move) !== "meet") return [];
  return meetingParts(before.stages.get(stageOf(move)), after.stages.get(stageOf(move)));
}

// The words for one move; each is handed the moment: the pictures before and after it, its stage, and the texts of the program.
const WORDS = {
  issue({ before, after, move, textAt, who }) {
    const entered = `#${who.after.issued} ${textAt(before.fetch)} enters stage 1`;
    const asked = after.lane.slice(before.lane.length).map(registerName);
    const requests = asked.length > 0 ? `; it asks for ${asked.join(" and ")}` : "";
    const guess = move === "issue next" ? "" : `, guessed ${move.slice("issue ".length)}`;
    return `${entered}${guess}${requests}. Fetch ${after.fetch === "wait" ? "waits" : `goes on at ${after.fetch}`}.`;
  },
  emit({ before, after, who }) {
    const packet = topStage(after).packet;
    return `The register file answers the request of #${who.before.lane[0]} for ${registerName(before.lane[0])}: ${packetText(packet)} begins to fall.`;
  },
  climb: ({ stage, was }) => `${was} climbs from stage ${stage} to stage ${stage + 1}.`,
  fall: ({ stage, before }) => `The result ${packetText(before.stages.get(stage).packet)} falls from stage ${stage} to stage ${stage - 1}.`,
  meet(moment) {
    const packet = packetText(moment.before.stages.get(moment.stage).packet);
    const from = ` from ${originText(moment.who.before.results[moment.stage])}`;
    const parts = namesOfMeeting(moment.move, moment.before, moment.after).map((name) => MEETINGS[name](moment));
    if (parts.length === 0) return `${moment.was} and ${packet}${from} pass each other: neither changes.`;
    return `${moment.was} meets ${packet}${from}. ${parts.join(" ")}`;
  },
  execute({ stage, was, is }) {
    return `A unit of stage ${stage} executes ${was}${computed(is)}${owing(is)}.`;
  },
  send: ({ before, stage, was }) => `${was} sends ${packetText(before.stages.get(stage).passenger.owes)} down beside it.`,
  launch({ after, stage, was }) {
    const is = after.stages.get(stage).passenger;
    if (is.flag === "trap") return `${was} traps: memory does not permit it. It owes a halt, and ends the program at the top.`;
    return `${was} leaves its operation in the siding, and may climb on beside it.`;
  },
  slide: ({ move, before, textAt, who }) => {
    const [, siding, cell] = move.split(" ").map(Number);
    const address = before.sidings.get(siding)[cell];
    return `The operation of #${who.before.sidings[siding][cell]} ${textAt(address.replace("*", ""))} moves on to cell ${cell + 1} of siding ${siding}.`;
  },
  access: ({ textAt, before, memory, who }) => {
    const cells = before.sidings.get(memory);
    return `Memory is reached: #${who.before.sidings[memory][cells.length - 1]} ${textAt(cells.at(-1))} is made.`;
  },
  recover({ stage, was, is }) {
    return `${was} takes its operation back at stage ${stage}${computed(is)}${owing(is)}.`;
  },
  leave({ before, after, atTop }) {
    return leaving(topStage(before).passenger, atTop, before, after);
  },
  exit({ before, after }) {
    const packet = before.stages.get(1).packet;
    if (packet.kind === "turn") return `The turn leaves at the bottom: fetch goes on at ${after.fetch}.`;
    if (packet.kind === "halt") return "The halt leaves at the bottom: nothing more is fetched.";
    const kept = after.cache ? " It is kept for later instructions." : "";
    return `The result ${packetText(packet)} leaves at the bottom: nobody waits for it any more.${kept}`;
  },
  serve({ before, after, atTop }) {
    const answer = after.registers[10] === before.registers[10] ? "" : `: x10=${valueText(after.registers[10])}`;
    return `${atTop} is served by the environment${answer}.`;
  },
};

// The words for the parts of a meeting.
const MEETINGS = {
  garner: () => "Garner: it takes the value that it waited for.",
  update: ({ after, stage }) => `Update: the result gets its newer value, ${packetText(after.stages.get(stage).packet)}.`,
  kill: () => "Kill: the result ends here, since the instruction is going to write that register.",
  die: () => "Die: the instruction was fetched on a wrong guess or after the end, and is dead from now on.",
};

function computed(passenger) {
  return passenger.destination?.value ? `: ${bindingText(passenger.destination)}` : "";
}

function owing(passenger) {
  if (!passenger.owes) return "";
  return passenger.owes.kind === "value" ? "; the value has to be sent" : `; it owes a ${packetText(passenger.owes)}`;
}

function leaving(passenger, name, before, after) {
  if (after.retired > before.retired) {
    const written = passenger.destination ? ` and writes ${bindingText(passenger.destination)} to the register file` : "";
    return `${name} leaves at the top${written}: it is retired as number ${after.retired}.`;
  }
  if (isDead(passenger)) return `${name} was dead: it leaves without a trace.`;
  return `${name} leaves at the top and ends the program: ${after.first}.`;
}

// An instruction at a stage by its number and its text.
function named(picture, who, stage, textAt) {
  const passenger = picture.stages.get(stage)?.passenger;
  return passenger ? `#${who.instructions[stage]} ${textAt(passenger.address)}` : "";
}

// What the last move did. `who` has who is who before and after it, `memory` is the siding of loads and stores.
export function told(move, before, after, { texts, who, memory }) {
  const stage = stageOf(move);
  const textAt = (address) => `\`${instructionText(texts, address)}\``;
  const is = (after.stages.get(stage) ?? before.stages.get(stage))?.passenger;
  const was = named(before, who.before, stage, textAt);
  const atTop = named(before, who.before, Math.max(...before.stages.keys()), textAt);
  return WORDS[kindOf(move)]({ move, before, after, stage, textAt, was, is, atTop, memory, who });
}
