// `node tools/estree/roundtrip.mjs [--random COUNT [--seed NUMBER]] [DIRECTORY ..]`: every JavaScript file below the directories
// that is a module is printed whole under each set of options, parsed again, and compared by normal form; where its names are
// printed by tables, with that of the source in which these names alone are renamed.
// With --random, so many programs that are made up are printed so too. A run that fails is told by its file and line (of a program
// that is made up, its number stands for the file), its set of options and what differs, the first ten of them.
import { readFileSync } from "node:fs";
import { RANDOM, Refused, printed, run, seedsOf } from "./command.mjs";
import { jobOf } from "../../bindings/node/lib/convert.mjs";
import { firstDifference, normal } from "./normal.mjs";
import { parsed } from "./parser.mjs";
import { filesBelow, isModule, isTakenByV8 } from "./programs.mjs";
import { randomProgram } from "./random.mjs";
import { isField } from "../../bindings/node/lib/reads.mjs";
import { LETTERS, SIGNS, renamedSource, renaming } from "../../bindings/node/lib/scopes.mjs";

const SETS = {
  pretty: {},
  "pretty with parentheses": { parentheses: true },
  "negative numbers": { negative: true },
  single_quote: { options: { single_quote: true } },
  "indented by spaces": { options: { indent_char: "space", indent_width: 2, initial_indent: 3 } },
  ascii_only: { options: { ascii_only: true } },
  minified: { options: { minify: true } },
  "minified with parentheses": { options: { minify: true }, parentheses: true },
  "minified with negative numbers": { options: { minify: true }, negative: true },
  "minified, ascii_only": { options: { minify: true, ascii_only: true } },
  renamed: { letters: LETTERS },
  "renamed, with parentheses": { letters: LETTERS, parentheses: true },
  "renamed, minified": { options: { minify: true }, letters: LETTERS },
  "renamed, ascii_only": { options: { ascii_only: true }, letters: SIGNS },
  "renamed, minified, ascii_only": { options: { minify: true, ascii_only: true }, letters: SIGNS },
  "with comments and a map's path": { options: { source_map_path: "printed.js.map" }, comments: true },
  "minified with comments": { options: { minify: true }, comments: true },
};
const HAS_NEGATIVE = isField("NumericLiteral", "negative");
const READ_SETS = Object.entries(SETS).filter(([, set]) => HAS_NEGATIVE || !set.negative);
const SHOWN = 10;

class Tally {
  constructor() {
    this.programs = this.passed = this.runs = this.bad = this.unread = 0;
    this.started = Date.now();
  }

  fail(place, set, what) {
    this.bad++;
    if (this.bad <= SHOWN) process.stderr.write(`\n${place}: ${set}: ${what}\n`);
  }

  // One line, which is written over, and only where somebody looks at it.
  progress() {
    if (process.stderr.isTTY) process.stderr.write(`\r${this.programs} programs, ${this.runs} runs, ${this.bad} bad`);
  }

  summary() {
    const seconds = ((Date.now() - this.started) / 1000).toFixed(0);
    return `${this.programs} programs; ${this.passed} files are no modules, or aren't read; ${this.runs} runs, ${this.bad} bad; ${seconds} s${this.unread > 0 ? `; ${this.unread} texts that V8 takes and acorn can't read` : ""}`;
  }
}

// The job of a set, and the source whose tree is to come back.
function jobAndSource(source, { options = {}, parentheses = false, negative = false, letters = null, comments = false }) {
  const program = parsed(source, { parentheses, comments });
  const names = letters && renaming(program, letters);
  const job = jobOf(program, { source, options, negative, names, comments: program.comments });
  return [job, names ? renamedSource(source, names) : source];
}

// A program that is tried: its name and its text.
class Tried {
  constructor(name, text) {
    Object.assign(this, { name, text });
  }

  // Where the offset of a text with this one's lines stands.
  place(text, offset) {
    return `${this.name}:${lineOf(text, offset)}`;
  }
}

// The line of an offset, counted from 1.
function lineOf(text, offset) {
  return text.slice(0, offset).split(/\r\n|[\n\r\u2028\u2029]/).length;
}

// Prints the program under each set, and looks at what comes.
function tryProgram(tally, tried) {
  const wanted = new Map();
  const lengths = {};
  tally.programs++;
  for (const [set, asked] of READ_SETS) {
    tally.runs++;
    const options = asked.options ?? {};
    const [job, source] = jobAndSource(tried.text, asked);
    if (!wanted.has(source)) wanted.set(source, normal(parsed(source)));
    const { status, code, line } = printed(job);
    lengths[set] = code.length;
    if (status !== 0) {
      tally.fail(tried.place(tried.text, offsetIn(line, tried.text)), set, `status ${status}: ${line}`);
      continue;
    }
    const found = differenceOf(wanted.get(source), code);
    if (found?.at === null && isTakenByV8(code)) tally.unread++;
    else if (found) tally.fail(tried.place(source, found.at ?? firstUnparsed(tried.text, asked)), set, found.what);
    if (options.ascii_only && PAST_ASCII.test(code) && !keepsPastAscii(parsed(source), source)) tally.fail(tried.place(tried.text, 0), set, "the text is not ASCII");
  }
  // of texts without comments
  for (const [set, pretty] of [["minified", "pretty"], ["renamed, minified", "renamed"]]) {
    if (lengths[set] > lengths[pretty]) tally.fail(tried.place(tried.text, 0), set, "the text is longer than the pretty one");
  }
}

const PAST_ASCII = /[^\x00-\x7f]/;

// Whether the program has a raw text past ASCII that a tag sees, or such a hashbang: these are printed as they stand.
function keepsPastAscii(node, source) {
  if (/^#!.*[^\x00-\x7f]/.test(source)) return true;
  if (Array.isArray(node)) return node.some((part) => keepsPastAscii(part, ""));
  if (node === null || typeof node !== "object") return false;
  if (node.type === "TaggedTemplateExpression" && node.quasi.quasis.some((piece) => PAST_ASCII.test(piece.value.raw))) return true;
  return Object.values(node).some((part) => keepsPastAscii(part, ""));
}

// The offset in the text of a line that tells one in bytes at its end, as `refused: Name at 12`.
function offsetIn(line, text) {
  const bytes = Number(/ at (\d+)$/.exec(line)?.[1] ?? 0);
  return Buffer.from(text).subarray(0, bytes).toString().length;
}

// What differs, and at which offset of the source, if that is known; and what stands there in the code.
function differenceOf(wanted, code) {
  try {
    const found = firstDifference(wanted, normal(parsed(code)));
    return found && { what: `${found.what}\n  printed: ${excerpt(code, found.at[1])}`, at: found.at[0] };
  } catch (error) {
    if (!(error instanceof SyntaxError)) throw error;
    return { what: `what is printed does not parse: ${error.message}\n  printed: ${excerpt(code, error.pos)}`, at: null };
  }
}

// The offset of the first statement whose own text, as it is printed, does not parse.
function firstUnparsed(text, asked) {
  const isUnparsed = ({ start, end }) => {
    try {
      parsed(printed(jobAndSource(text.slice(start, end), asked)[0]).code);
      return false;
    } catch (error) {
      if (!(error instanceof SyntaxError)) throw error;
      return true;
    }
  };
  return parsed(text).body.find(isUnparsed)?.start ?? 0;
}

function excerpt(code, offset) {
  return JSON.stringify(code.slice(Math.max(0, offset - 40), offset + 80));
}

function tryFile(tally, path) {
  const source = readFileSync(path, "utf8");
  if (isModule(source)) tryProgram(tally, new Tried(path, source));
  else tally.passed++;
}

await run({ usage: "node roundtrip.mjs [--random COUNT [--seed NUMBER]] [DIRECTORY ..]", options: RANDOM }, (values, paths) => {
  const seeds = seedsOf(values);
  if (seeds.length === 0 && paths.length === 0) throw new Refused("a directory, or --random, is wanted");
  const tally = new Tally();
  for (const path of paths.flatMap((path) => [...filesBelow(path)])) {
    tryFile(tally, path);
    tally.progress();
  }
  for (const seed of seeds) {
    tryProgram(tally, new Tried(`random ${seed}`, randomProgram(seed)));
    tally.progress();
  }
  if (process.stderr.isTTY) process.stderr.write("\n");
  process.stdout.write(`${tally.summary()}\n`);
  return tally.bad > 0 ? 1 : 0;
});
