// Source maps of version 3, by the package `@jridgewell/gen-mapping`, of the lines that the program's word `map` writes; and how a code names
// its map.
import { packageNamed } from "./packages.mjs";

const NAME = /^name (".*")$/;
const LINE_END = "\n";
const SPACE = " ".charCodeAt(0);
const ZERO = "0".charCodeAt(0);
// Line and column in the code, line and column in the source, and the number of a name.
const LEAST_NUMBERS = 4;
const MOST_NUMBERS = 5;

/**
 * The source map by the lines of `map`. `name` is the source's name in the map, `source` its text, and `file` the name of the file
 * that the code is written to, which may be left out.
 */
export function sourceMapOf(lines, { name, source, file }) {
  const { fromMap, toEncodedMap } = packageNamed("@jridgewell/gen-mapping");
  const { names, mappings } = toEncodedMap(fromMap({ version: 3, sources: [name], ...readLines(lines) }));
  return { version: 3, ...(file !== undefined && { file }), sources: [name], sourcesContent: [source], names, mappings };
}

// The names, and the segments of each line of the code, as the packages of @jridgewell have them: column, source, line, column and name.
function readLines(text) {
  const mappings = [];
  const names = [];
  let most = -1;
  for (let at = 0, end; at < text.length; at = end + 1) {
    end = endOfLine(text, at);
    if (end === at) continue;
    const numbers = numbersOf(text, at, end);
    if (numbers === null) {
      names.push(nameOf(text.slice(at, end)));
      continue;
    }
    const [generatedLine, column, line, sourceColumn, number] = numbers;
    while (mappings.length <= generatedLine) mappings.push([]);
    mappings[generatedLine].push(number === undefined ? [column, 0, line, sourceColumn] : [column, 0, line, sourceColumn, number]);
    if (number > most) most = number;
  }
  if (most >= names.length) throw new Error(`no name of the number ${most} in the lines of a map`);
  return { names, mappings };
}

function endOfLine(text, at) {
  const end = text.indexOf(LINE_END, at);
  return end < 0 ? text.length : end;
}

// The four or five numbers that are this part of the text, each behind a space but the first; null where it is something else. It is called for
// each token of a map.
function numbersOf(text, at, end) {
  const numbers = [];
  let number = -1;
  for (let next = at; next < end; next += 1) {
    const code = text.charCodeAt(next);
    const digit = code - ZERO;
    if (digit >= 0 && digit <= 9) {
      number = number < 0 ? digit : 10 * number + digit;
    } else {
      if (code !== SPACE || number < 0) return null;
      numbers.push(number);
      number = -1;
    }
  }
  if (number < 0) return null;
  numbers.push(number);
  return numbers.length < LEAST_NUMBERS || numbers.length > MOST_NUMBERS ? null : numbers;
}

function nameOf(line) {
  const name = NAME.exec(line);
  if (name === null) throw new Error(`no line of a map: ${line}`);
  return JSON.parse(name[1]);
}

/** The code, and behind it the comment that names its map. */
export function linked(code, url) {
  const isAtLineStart = code === "" || code.endsWith("\n");
  return `${code}${isAtLineStart ? "" : "\n"}//# sourceMappingURL=${url}\n`;
}

/** A URL that holds the map itself. */
export function dataUrl(map) {
  return `data:application/json;charset=utf-8;base64,${Buffer.from(JSON.stringify(map)).toString("base64")}`;
}
