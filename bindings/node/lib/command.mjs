// What commands have in common: their words, their files, and the line on standard error that says what was wrong.
import { fstatSync, readFileSync } from "node:fs";
import { buffer } from "node:stream/consumers";
import { parseArgs } from "node:util";
import { excerptAt, placeAt } from "./places.mjs";
import { MalformedTree, NotRead, startOf } from "./refusals.mjs";

/** The statuses of a command: those of the program (docs/FORMAT.md), and of what isn't built or installed. */
export const STATUS = { done: 0, source: 1, usage: 2, read: 4, write: 5, memory: 6, unbuilt: 70 };

/** What ends a command with a status. Its message is what is said. */
export class Ended extends Error {
  constructor(message, status) {
    super(message);
    this.status = status;
  }
}

/** A faulty command line: the usage stands behind its message. */
export class Refused extends Ended {
  constructor(message) {
    super(message, STATUS.usage);
  }
}

/** What is wrong with a source: the message begins with its name, and with the place where that is known. */
export class SourceFault extends Ended {}

/** The values of the options among the words, and the other words. */
export function wordsBy(options, words) {
  try {
    const { values, positionals, tokens } = parseArgs({ args: words, options, allowPositionals: true, tokens: true });
    const given = tokens.filter(({ kind, name }) => kind === "option" && options[name].type === "string");
    const twice = given.find(({ name }, at) => given.findIndex((token) => token.name === name) < at);
    if (twice) throw new Refused(`Option '${twice.rawName}' is given twice`);
    return { values, positionals };
  } catch (error) {
    throw /^ERR_PARSE_ARGS_/.test(error.code) ? new Refused(error.message.split(/\. |\n/)[0]) : error;
  }
}

/** The whole number that an option's value is. */
export function wholeNumber(name, text) {
  if (!/^\d+$/.test(text) || !Number.isSafeInteger(Number(text))) throw new Refused(`--${name} wants a whole number`);
  return Number(text);
}

/** The text of a file, or of standard input where the path is null, which is UTF-8. */
export async function readText(path) {
  const name = path ?? "standard input";
  let bytes;
  try {
    if (path === null && fstatSync(0).isDirectory()) throw new Error("EISDIR: illegal operation on a directory");
    bytes = path === null ? await buffer(process.stdin) : readFileSync(path);
  } catch (error) {
    throw new Ended(`can't read ${name}: ${reasonOf(error)}`, STATUS.read);
  }
  const text = bytes.toString();
  const back = Buffer.from(text);
  if (back.equals(bytes)) return text.replace(/^\uFEFF/, "");
  // The first bytes of a sign may be the same.
  let wrong = back.findIndex((byte, at) => byte !== bytes[at]);
  while ((back[wrong] & 0xc0) === 0x80) wrong--;
  throw faultAt(path ?? "<stdin>", text, placeAt(text, back.subarray(0, wrong).toString().length), "the text is not UTF-8");
}

/** Does what writes to the name. */
export async function writing(name, write) {
  try {
    await write();
  } catch (error) {
    throw new Ended(`can't write ${name}: ${reasonOf(error)}`, STATUS.write);
  }
}

/** Writes a text to standard output, to its end. */
export function writeOut(text) {
  return writing("standard output", () => new Promise((resolve, reject) => {
    process.stdout.on("error", reject);
    process.stdout.write(text, (error) => (error ? reject(error) : resolve()));
  }));
}

// What the system says of a call that failed, without its code and its path.
function reasonOf(error) {
  return /^E[A-Z0-9]+: ([^,]+)/.exec(error.message)?.[1] ?? (error.code === "EPIPE" ? "broken pipe" : error.message);
}

function faultAt(name, source, place, message, status = STATUS.source) {
  return new SourceFault(`${name}:${place.line}:${place.column}: ${message}\n${excerptAt(source, place)}`, status);
}

/** An error as a SourceFault, where it is one of the parser, the converter or the printer that speaks of this source, or of a tree without one. */
export function faultOf(error, name, source = null) {
  if (isStackFull(error)) return new SourceFault(`${name}: nested too deeply for the stack of node`, STATUS.memory);
  if (!isOfSource(error)) return error;
  const place = source === null ? null : placeOf(error, source);
  if (place === null) return new SourceFault(`${name}: ${error.message}`, statusOf(error));
  return faultAt(name, source, place, error.message.replace(/ \(\d+:\d+\)$| in line \d+, column \d+| at \d+(?= is not read yet)/, ""), statusOf(error));
}

function isStackFull(error) {
  return error instanceof RangeError && /stack/.test(error.message);
}

function isOfSource(error) {
  return isOfTree(error) || (error.name === "JsgenError" && !error.message.startsWith("not built"));
}

// Of the parser, or of the converter.
function isOfTree(error) {
  return [SyntaxError, NotRead, MalformedTree].some((kind) => error instanceof kind);
}

// Acorn counts columns from 0.
function placeOf(error, source) {
  if (error.loc) return { line: error.loc.line, column: error.loc.column + 1 };
  if (Number.isInteger(error.line) && Number.isInteger(error.column)) return { line: error.line, column: error.column };
  const start = startOf(error.node);
  return start === undefined ? null : placeAt(source, start);
}

// An error of a call to the system that nothing foresees is one of reading, since writing is foreseen.
function statusOf(error) {
  if (Number.isInteger(error.status)) return error.status;
  if (isOfTree(error)) return STATUS.source;
  if (isStackFull(error)) return STATUS.memory;
  return error.syscall === undefined ? STATUS.unbuilt : STATUS.read;
}

/**
 * Says what was wrong on standard error, behind the command's name where one is given, and gives its status. What is wrong with the
 * command itself is told with where it was thrown.
 */
export function told(error, name) {
  const isOwnFault = !isOfTree(error) && /^(Type|Reference|Range)Error$/.test(error.name) && !isStackFull(error);
  const line = isOwnFault ? error.stack.split("\n", 2).map((part) => part.trim()).join(" ") : error.message;
  process.stderr.write(error instanceof SourceFault || name === undefined ? `${line}\n` : `${name}: ${line}\n`);
  return statusOf(error);
}

/**
 * Runs a command: `command` gets the values of the options and the other words, and gives its status. `--help` and `-h` are answered by
 * the help; behind what is said of a faulty command line stands the usage.
 */
export async function run({ name, usage, help, options }, command) {
  // A line that can't be written leaves the status as it is.
  process.stderr.on("error", () => {});
  try {
    const { values, positionals } = wordsBy({ ...options, help: { type: "boolean", short: "h" } }, process.argv.slice(2));
    process.exitCode = (await (values.help ? writeOut(help ?? `usage: ${usage}\n`) : command(values, positionals))) ?? STATUS.done;
  } catch (error) {
    process.exitCode = told(error, name);
    if (error instanceof Refused) process.stderr.write(`usage: ${usage}\n`);
  }
}
