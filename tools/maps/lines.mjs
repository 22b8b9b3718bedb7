// The lines of a text, and those that the word `map` writes.

const LINE_END = /\r\n|[\n\r\u2028\u2029]/g;
const NUMBER = "(0|[1-9]\\d{0,14})";
const TOKEN = new RegExp(`^${NUMBER} ${NUMBER} ${NUMBER} ${NUMBER}(?: ${NUMBER})?$`);
const NAME = /^name (".*")$/;

/** A text by its lines. Lines and columns are counted from 0, and columns in units of UTF-16. */
export class Lines {
  constructor(text) {
    this.text = text;
    this.starts = [0];
    for (const { 0: end, index } of text.matchAll(LINE_END)) this.starts.push(index + end.length);
  }

  /** The offset of a place, or null where the text has no such place. */
  offset(line, column) {
    if (line >= this.starts.length) return null;
    const last = line + 1 < this.starts.length ? this.starts[line + 1] - 1 : this.text.length;
    const offset = this.starts[line] + column;
    return offset <= last && !this.partsPair(offset) ? offset : null;
  }

  // Whether the offset stands between the two surrogates of one character.
  partsPair(offset) {
    return /^[\uD800-\uDBFF][\uDC00-\uDFFF]$/.test(this.text.slice(Math.max(0, offset - 1), offset + 1));
  }

  /** The line and the column of an offset. */
  place(offset) {
    const line = countUpTo(this.starts, offset) - 1;
    return [line, offset - this.starts[line]];
  }

  /** The same as it is told, counted from 1. */
  told(offset) {
    return this.place(offset).map((number) => number + 1).join(":");
  }
}

/** How many of the numbers, which rise, are at most the bound. */
export function countUpTo(numbers, bound) {
  let low = 0;
  let high = numbers.length;
  while (low < high) {
    const middle = (low + high) >> 1;
    if (numbers[middle] <= bound) low = middle + 1;
    else high = middle;
  }
  return low;
}

/**
 * The tokens of a map by its lines, and what is wrong in their form. A token has the text of its line as `said`, its four numbers,
 * `line`, `column`, `sourceLine` and `sourceColumn`, and its `name`, null where it has none.
 */
export function readMap(text) {
  const faults = [];
  const tokens = [];
  const names = [];
  const lines = text.split("\n");
  if (lines.pop() !== "") faults.push("the last line has no end");
  for (const said of lines) {
    const numbers = TOKEN.exec(said);
    const name = nameOf(said);
    if (numbers && names.length === 0) tokens.push(tokenOf(said, numbers));
    else if (name !== null) names.push(name);
    else faults.push(numbers ? `a token behind a name: ${said}` : `neither a token nor a name: ${said}`);
  }
  faults.push(...faultsOfNames(tokens, names));
  for (const token of tokens) token.name = names[token.number] ?? null;
  return { tokens, faults };
}

function tokenOf(said, [, line, column, sourceLine, sourceColumn, number]) {
  return {
    said,
    line: Number(line),
    column: Number(column),
    sourceLine: Number(sourceLine),
    sourceColumn: Number(sourceColumn),
    number: number === undefined ? null : Number(number),
  };
}

// The name in a line, or null where it is no JSON of a text.
function nameOf(said) {
  const text = NAME.exec(said)?.[1];
  try {
    return text === undefined ? null : JSON.parse(text);
  } catch {
    return null;
  }
}

// Names are numbered as they first come, each is there once, and each for a token.
function faultsOfNames(tokens, names) {
  const faults = [];
  const seen = new Set();
  for (const name of names) {
    if (seen.has(name)) faults.push(`a name that is there twice: ${JSON.stringify(name)}`);
    seen.add(name);
  }
  let next = 0;
  for (const { said, number } of tokens.filter((token) => token.number !== null)) {
    if (number >= names.length) faults.push(`a number that no name has: ${said}`);
    else if (number > next) faults.push(`a name out of its turn: ${said}`);
    next = Math.max(next, number + 1);
  }
  for (const name of names.slice(next)) faults.push(`a name that no token has: ${JSON.stringify(name)}`);
  return faults;
}
