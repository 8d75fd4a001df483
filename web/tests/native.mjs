// Calls of the program as it runs natively, and as the page's module, with the same words, files and input.

import { spawnSync } from "node:child_process";
import fs from "node:fs";
import os from "node:os";
import path from "node:path";
import { fileURLToPath } from "node:url";
import zlib from "node:zlib";
import { Program } from "../src/program.js";

export const TOP = fileURLToPath(new URL("../..", import.meta.url));

function partOfPage(name) {
  const page = fs.readFileSync(path.join(TOP, "web/cfpp.html"), "utf8");
  return new RegExp(`id="data-${name}">([^<]*)<`).exec(page)[1];
}

function unpacked(name) {
  return zlib.gunzipSync(Buffer.from(partOfPage(name), "base64"));
}

// The module that the kept page has.
export function moduleOfPage() {
  return new Program(unpacked("module"));
}

// What it shows of the repository.
export function shownOfPage() {
  return JSON.parse(unpacked("shown").toString());
}

// Its scripts, each with layout, program, the report that is to come, and what is asked on the way.
export function scriptsOfPage() {
  const { programs, layouts } = shownOfPage().examples;
  return programs.filter(({ script }) => script).map(({ name, title, layout, image, script, report, questions }) => ({
    name,
    title,
    questions,
    files: { layout: layouts[layout], program: Buffer.from(image, "base64"), script },
    report: fs.readFileSync(path.join(TOP, report), "utf8"),
  }));
}

export class Native {
  constructor() {
    this.folder = fs.mkdtempSync(path.join(os.tmpdir(), "native-"));
  }

  call(words, files = {}, input = new Uint8Array()) {
    for (const [name, bytes] of Object.entries(files)) fs.writeFileSync(path.join(this.folder, name), bytes);
    const ran = spawnSync(path.join(TOP, "cfpp"), words, { cwd: this.folder, input, maxBuffer: 1 << 28 });
    for (const name of Object.keys(files)) fs.rmSync(path.join(this.folder, name));
    return { status: ran.status, output: ran.stdout, report: ran.stderr };
  }

  end() {
    fs.rmSync(this.folder, { recursive: true });
  }
}

// What two answers differ in.
export function difference(one, other) {
  if (one.status !== other.status) return `status ${one.status} and ${other.status}`;
  for (const part of ["output", "report"]) if (Buffer.compare(Buffer.from(one[part]), Buffer.from(other[part])) !== 0) return part;
  return null;
}
