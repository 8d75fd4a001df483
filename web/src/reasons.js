// Explains a bar or a refusal in the words of docs/ERRORS.md, whose placeholders get what the program reported.

import { registerName } from "./values.js";

const isRegister = (part) => /^x\d\d$/.test(part);

// A row's words with the value of each of its placeholders. A remark on a placeholder itself says nothing once that is filled in.
export function filled(words, placeholders, parts) {
  const bare = words.replace(/ \([A-Z] is \d+\)/g, "");
  return placeholders.reduce((text, placeholder, at) => {
    const part = parts[at];
    if (part === undefined) return text;
    return text.replace(new RegExp(`\\b${placeholder}\\b`, "g"), isRegister(part) ? registerName(part) : part);
  }, bare);
}

export class Reasons {
  constructor(tables) {
    this.tables = tables;
  }

  // Why, and what to do, of the row of a table for a reason; or null.
  row(table, reason) {
    const [name, ...parts] = reason.split(" ");
    const row = this.tables[table]?.[name];
    return row ? [filled(row.why, row.placeholders, parts), filled(row.mend, row.placeholders, parts)] : null;
  }

  // Why a move cannot be made, as `SourceMissing x01: ..`.
  bar(reason) {
    const row = this.row("Bars", reason);
    if (!row) return `${reason}.`;
    const mend = row[1] ? ` What lets it pass: ${row[1]}.` : "";
    return `${reason}: ${row[0]}.${mend}`;
  }

  // Why a source, a layout, a program or a line of a script is refused.
  refusal(table, reason) {
    const word = reason.replace(/^(Refused|Elf|Load) /, "");
    const row = this.row(table, word) ?? this.row(table, word.replace(/^Text (\w+)/, "Text_$1"));
    if (!row) return `${reason}.`;
    return `${reason}: ${row[0]}${row[1] ? `; ${row[1]}` : ""}.`;
  }
}
