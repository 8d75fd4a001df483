// The questions that the page asks of the program. Each answer is the report or the output of a call of it.

import { bytesOf, text } from "./program.js";
import { readLayout, multiplies } from "./layout.js";
import { readReport } from "./report.js";
import { readSearch } from "./search.js";
import { readTimed } from "./timed.js";

export class Simulator {
  constructor(program) {
    this.program = program;
  }

  ask(words, files, input) {
    const answer = this.program.call(words, files, input);
    return { ...answer, report: text(answer.report) };
  }

  // The layout of a TOML text, or why it is refused.
  check(toml) {
    const answer = this.ask(["check", "layout"], { layout: bytesOf(toml) });
    if (answer.status !== 0) return { refused: answer.report.trim() };
    return { layout: readLayout(text(answer.output)) };
  }

  // The program that a source is assembled to, or why it is not.
  assemble(source) {
    const answer = this.ask(["asm", "source"], { source: bytesOf(source) });
    return answer.status === 0 ? { bytes: answer.output } : { refused: answer.report.trim() };
  }

  // The text of each instruction by its address, or why the program is refused.
  list(bytes) {
    const answer = this.ask(["list", "program"], { program: bytes });
    if (answer.status !== 0) return { refused: answer.report.trim() };
    const lines = text(answer.output).matchAll(/^([0-9a-f]{8}) [0-9a-f]{8} (.*)$/gm);
    return { texts: new Map([...lines].map(([, address, instruction]) => [address, instruction])) };
  }

  // What the sequential machine does, up to a limit.
  machine(session, limit) {
    const words = ["machine", "program", "--show", "retired", "--limit", String(limit)];
    if (multiplies(session.layout)) words.push("--mul");
    const answer = this.ask(words, { program: session.bytes }, session.input);
    return { ...readReport(answer.report), output: answer.output };
  }

  // The processor's whole run in the order that a seed gives.
  anyOrder(session, seed, limit) {
    const words = ["run", "layout", "program", "--seed", String(seed), "--show", "retired", "--limit", String(limit)];
    const answer = this.ask(words, { layout: bytesOf(session.layout.text), program: session.bytes }, session.input);
    return { ...readReport(answer.report), output: answer.output };
  }

  scripted(session, script, command, ...options) {
    const files = { layout: bytesOf(session.layout.text), program: session.bytes, script: bytesOf(script) };
    return this.ask([command, "layout", "program", "--script", "script", ...options], files, session.input);
  }

  run(session, script) {
    const answer = this.scripted(session, script, "run", "--show", "retired");
    return { ...readReport(answer.report), output: answer.output };
  }

  // Each move of a script with the picture after it.
  moments(session, script) {
    const [, ...parts] = this.scripted(session, script, "run", "--show", "moves").report.split(/^move \d+ /m);
    let retired = 0;
    return parts.map((part) => {
      const move = part.slice(0, part.indexOf("\n"));
      const picture = readReport(part.slice(move.length));
      retired += picture.lines.length;
      return { move, after: { ...picture, retired } };
    });
  }

  // All orders of a program with an empty input, or the shortest wrong list of moves without a rule of the table.
  orders({ layout, bytes }, { issues, states, without = null }) {
    const words = ["orders", "layout", "program", "--issues", String(issues), "--states", String(states)];
    const options = without === null ? ["--show", "edges"] : ["--without", without];
    const answer = this.ask([...words, ...options], { layout: bytesOf(layout.text), program: bytes });
    return readSearch(answer.report, text(answer.output));
  }

  // The moves of a timed run with their times, or why the delays are refused.
  timed({ layout, bytes, input }, delays, limit) {
    const files = { delays: bytesOf(delays), program: bytes, layout: bytesOf(layout.text), input };
    const words = ["time", "delays", "program", "layout", "--show", "moves", "--limit", String(limit)];
    if (input.length > 0) words.push("--input", "input");
    const { status, report } = this.ask(words, files);
    return status === 0 ? { moves: readTimed(report) } : { refused: report.trim() };
  }

  // The bytes of memory after a script, by address, but for those that are in no region: two digits each.
  bytesAt(session, script, addresses) {
    const moves = script.split("\n").filter((line) => line !== "" && !line.startsWith("#"));
    const asked = addresses.map((address) => `mem ${address.toString(16).padStart(8, "0")} 1\n`);
    const commands = moves.map((move) => `move ${move}\n`).join("") + asked.join("");
    const files = { layout: bytesOf(session.layout.text), program: session.bytes };
    const answers = this.ask(["debug", "layout", "program"], files, bytesOf(commands)).report.trimEnd().split("\n").slice(-addresses.length);
    const pairs = answers.map((answer) => /^([0-9a-f]{8}) ([0-9a-f]{2})$/.exec(answer)).filter((it) => it !== null);
    return new Map(pairs.map(([, address, byte]) => [parseInt(address, 16), byte]));
  }

  // Where a script leads, with the moves that can be made there and why the others cannot. The lines of what retired are asked for
  // only where they are not those of the picture before.
  standing(session, script, before = null) {
    const answer = this.scripted(session, script, "moves");
    const report = readReport(answer.report);
    const lines = report.retired === before?.retired ? before.lines : this.run(session, script).lines;
    return { ...report, output: answer.output, lines };
  }
}
