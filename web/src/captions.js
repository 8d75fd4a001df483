// The comments of a script as captions: what they say of files in the repository has no place beside the drawing.

// Sentences that name the layout and the program, which the page shows.
const OF_FILES = /^(Under|Beside it stands) /;
const FILE = /\b(?:[\w-]+\/)*([\w-]+)\.(?:script|bin|elf|s)\b/g;

// A text without what it says of files: their names alone are left.
function withoutFiles(text) {
  const sentences = text.split(/(?<=[.:]) +(?=[A-Z])/);
  return sentences.filter((one) => !OF_FILES.test(one)).join(" ").replace(FILE, (_, name) => name.replaceAll("_", " "));
}

export function captionOf(notes) {
  return withoutFiles(notes.map((note) => note.replace(/^#\s*/, "")).join(" "));
}
