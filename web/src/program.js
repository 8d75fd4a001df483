// The proved program as a WebAssembly module: a call takes words, files and input, and answers status, output and report.

const OUTPUT = 1;
const REPORT = 2;

export class Program {
  constructor(bytes) {
    this.module = new WebAssembly.Module(bytes);
    this.calls = null;
  }

  // Makes a call of the program. `files` has the bytes of each file by its name; every call begins from nothing, as a process does.
  call(words, files = {}, input = new Uint8Array()) {
    if (!this.calls) this.calls = new WebAssembly.Instance(this.module, {}).exports;
    try {
      this.calls.page_begin();
      for (const word of ["cfpp", ...words]) this.calls.page_word(this.put(textBytes(word)));
      for (const [name, bytes] of Object.entries(files)) {
        this.calls.page_file(this.put(textBytes(name)), this.put(bytes), BigInt(bytes.length));
      }
      this.calls.page_input(this.put(input), BigInt(input.length));
      const status = this.calls.page_main();
      return { status, output: this.taken(OUTPUT), report: this.taken(REPORT) };
    } catch (fault) {
      // Nothing is known of a module that stopped: the next call gets a new one.
      this.calls = null;
      throw fault;
    }
  }

  put(bytes) {
    const at = this.calls.page_room(BigInt(bytes.length));
    if (at === 0n) throw new Error("the module has no memory left");
    new Uint8Array(this.calls.memory.buffer, Number(at), bytes.length).set(bytes);
    return at;
  }

  taken(stream) {
    const at = Number(this.calls.page_bytes(stream));
    return new Uint8Array(this.calls.memory.buffer, at, Number(this.calls.page_size(stream))).slice();
  }
}

function textBytes(word) {
  return new TextEncoder().encode(`${word}\0`);
}

export function text(bytes) {
  return new TextDecoder().decode(bytes);
}

export function bytesOf(string) {
  return new TextEncoder().encode(string);
}
