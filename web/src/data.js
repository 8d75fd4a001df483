// What the build puts into the page beside the code: the module, and what is shown of the repository.

function part(id) {
  return document.getElementById(`data-${id}`).textContent;
}

export function fromBase64(text) {
  return Uint8Array.from(atob(text), (letter) => letter.charCodeAt(0));
}

export function toBase64(bytes) {
  return btoa(Array.from(bytes, (byte) => String.fromCharCode(byte)).join(""));
}

// All bytes of a stream, up to a limit.
export async function bytesOfStream(stream, most) {
  const parts = [];
  let size = 0;
  for (const reader = stream.getReader(); ;) {
    const { done, value } = await reader.read();
    if (done) break;
    size += value.length;
    if (size > most) throw new Error("too long");
    parts.push(value);
  }
  return new Uint8Array(await new Blob(parts).arrayBuffer());
}

function unpacked(id) {
  const packed = new Blob([fromBase64(part(id))]);
  return bytesOfStream(packed.stream().pipeThrough(new DecompressionStream("gzip")), 1 << 24);
}

export function moduleBytes() {
  return unpacked("module");
}

// The examples with their layouts; for each reason that a report can name: why, and what to do; the rules that can be taken away, with their
// programs and the layouts of these; and the files of delays by name.
export async function shownOfPage() {
  return JSON.parse(new TextDecoder().decode(await unpacked("shown")));
}

export function built() {
  return JSON.parse(part("built"));
}
