// Where in a source something is wrong, as commands tell it.

const LINE_END = /\r\n|[\n\r\u2028\u2029]/;
// How much of a line is shown.
const WIDTH = 100;
const CUT = "…";

/** The line and the column of an offset in the source, both from 1. */
export function placeAt(source, offset) {
  const before = source.slice(0, offset).split(LINE_END);
  return { line: before.length, column: before.at(-1).length + 1 };
}

/** The line at the place, cut where it is long, and below it a caret at the column. */
export function excerptAt(source, { line, column }) {
  const text = source.split(LINE_END)[line - 1] ?? "";
  const from = Math.max(0, Math.min(column - 1 - WIDTH / 2, text.length - WIDTH));
  const lead = from > 0 ? CUT : "";
  const rest = from + WIDTH < text.length ? CUT : "";
  const before = visible(lead + text.slice(from, column - 1));
  return `  ${before}${visible(text.slice(column - 1, from + WIDTH))}${rest}\n  ${before.replace(/[^\t]/gu, " ")}^`;
}

// What a terminal would take for a command, or not show, is shown as one sign.
function visible(text) {
  return text.replace(/[^\P{C}\t]/gu, "\uFFFD");
}
