// Prints trees of ESTree and of Babel, and jobs, by the addon that build.mjs makes, in this process, or by the program where there is no addon.
import { flatJobOf, jobAndNodes, jobOf as jobOfTree, NotRead } from "./lib/convert.mjs";
import { NoWord } from "./lib/flat_rows.mjs";
import { licencesOf } from "./lib/licences.mjs";
import { placeOfFault } from "./lib/fault_places.mjs";
import { allAnswered, answered } from "./lib/printer.mjs";
import { renaming as renamingOfTree } from "./lib/scopes.mjs";
import { sourceMapOf } from "./lib/source_map.mjs";
import { JsgenError } from "./faults.mjs";

export { JsgenError, NotRead };

const NAMES = { minify: "minify", asciiOnly: "ascii_only", singleQuote: "single_quote" };
const OTHERS = new Set(["source", "indent", "names", "options", "sourceMap", "comments", "keepSourceMappingUrl"]);
const KINDS = ["normal", "jsdoc", "annotation"];
const NO_COMMENTS = { normal: false, jsdoc: false, annotation: false, legal: "none" };
const UNNAMED = "<source>";

/** The code of a job: JSON as a string, or as bytes of UTF-8, or the bytes of a flat job. */
export function printJob(job) {
  return answered("print", job);
}

/** The lines of the source map of a job. */
export function mapJob(job) {
  return answered("map", job);
}

/** The code of a job, the lines of its source map, and those of its licences that stand in a file of their own. */
export function buildJob(job) {
  const { print: code, map, legal: licences } = allAnswered(["print", "map", "legal"], job);
  return { code, map, licences };
}

/** Throws the JsgenError of a job that wouldn't be printed. */
export function checkJob(job) {
  answered("check", job);
}

/** The job of a tree, as `jobOf` of lib/convert.mjs makes it. */
export function jobOf(program, settings) {
  return unlessTooDeep(() => jobOfTree(program, settings));
}

/** The tables of new names of a tree, as `renaming` of lib/scopes.mjs makes them. */
export function renaming(...given) {
  return unlessTooDeep(() => renamingOfTree(...given));
}

/** Prints the tree of a module. */
export function print(program, settings = {}) {
  if (program === null || typeof program !== "object") throw new TypeError("a program is a node of a tree");
  if (settings === null || typeof settings !== "object") throw new TypeError("settings are an object");
  const { source } = settings;
  const options = optionsOf(settings);
  const comments = source === undefined ? [] : (program.comments ?? program.program?.comments ?? []);
  const keepSourceMappingUrl = flag("keepSourceMappingUrl", settings.keepSourceMappingUrl ?? false);
  const asked = { source, names: settings.names ?? null, options, spans: source !== undefined, comments, keepSourceMappingUrl };
  const job = unlessTooDeep(() => unlessTooLong(() => bytesOf(program, asked)));
  try {
    return printed(job, options, settings);
  } catch (error) {
    // The rows have the same numbers in JSON, where each is an object that can be looked into.
    throw error instanceof JsgenError ? placed(error, source, () => unlessTooDeep(() => jobAndNodes(program, asked))) : error;
  }
}

// The flat job, or the one in JSON, which says what no word can, so that it is told what is wrong with it.
function bytesOf(program, asked) {
  try {
    return flatJobOf(program, asked);
  } catch (error) {
    if (!(error instanceof NoWord)) throw error;
    return Buffer.from(JSON.stringify(jobOfTree(program, asked)));
  }
}

// What is too long for a string or a buffer is too long for a job.
function unlessTooLong(work) {
  try {
    return work();
  } catch (error) {
    throw error instanceof RangeError && !/stack/.test(error.message) ? new JsgenError("input too long", { status: 7, cause: error }) : error;
  }
}

function printed(job, options, { source, sourceMap }) {
  const areApart = source !== undefined && /^(linked|external)$/.test(options.legal);
  const words = ["print", ...(sourceMap ? ["map"] : []), ...(areApart ? ["legal"] : [])];
  const texts = allAnswered(words, job);
  const map = sourceMap ? sourceMapOf(texts.map, { name: options.source_map_path, source }) : null;
  return areApart ? { code: texts.print, map, licences: licencesOf(texts.legal, source) } : { code: texts.print, map };
}

// The error with the place of its fault, where one is known. `make` makes the job in JSON, with the nodes of its rows.
function placed(error, source, make) {
  if (error.status !== 1 && error.status !== 3) return error;
  const { words, ...place } = placeOfFault(error, { ...make(), source, check: (job) => checkJob(unlessTooLong(() => JSON.stringify(job))) });
  if (words !== "") error.message += ` (${words})`;
  return Object.assign(error, place);
}

// The converter and the tables of names go down the tree by calls.
function unlessTooDeep(work) {
  try {
    return work();
  } catch (error) {
    if (!(error instanceof RangeError) || !/stack/.test(error.message)) throw error;
    throw new JsgenError("the tree is nested too deeply for this process's stack (node --stack-size)", { status: 6, cause: error });
  }
}

function optionsOf(settings) {
  const options = { ...optionsGiven(settings.options ?? {}) };
  for (const [name, value] of Object.entries(settings).filter(([, given]) => given !== undefined)) {
    if (Object.hasOwn(NAMES, name)) options[NAMES[name]] = flag(name, value);
    else if (!OTHERS.has(name)) throw new TypeError(`unknown setting ${name}`);
  }
  if (settings.indent !== undefined) Object.assign(options, indentOf(settings.indent));
  if (settings.comments !== undefined) Object.assign(options, commentOptions(settings.comments));
  if (settings.sourceMap !== undefined && flag("sourceMap", settings.sourceMap)) {
    if (typeof settings.source !== "string") throw new TypeError("sourceMap wants the source");
    options.source_map_path ??= UNNAMED;
  }
  return options;
}

function optionsGiven(options) {
  if (typeof options !== "object") throw new TypeError("options are an object");
  return options;
}

function flag(name, value) {
  if (typeof value !== "boolean") throw new TypeError(`${name} is true or false`);
  return value;
}

// All of them, none, or by kinds.
function commentOptions(comments) {
  if (typeof comments === "boolean") return comments ? {} : NO_COMMENTS;
  if (comments === null || typeof comments !== "object") throw new TypeError("comments are true, false or an object");
  const { legal, ...kinds } = comments;
  const unknown = Object.keys(kinds).find((name) => !KINDS.includes(name));
  if (unknown !== undefined) throw new TypeError(`unknown setting comments.${unknown}`);
  const flags = Object.entries(kinds).map(([name, value]) => [name, flag(`comments.${name}`, value)]);
  return { ...Object.fromEntries(flags), ...(legal !== undefined && legalOf(legal)) };
}

function legalOf(legal) {
  if (["none", "inline", "eof", "external"].includes(legal)) return { legal };
  if (typeof legal?.linked === "string") return { legal: "linked", legal_path: legal.linked };
  throw new TypeError('comments.legal is "none", "inline", "eof", "external" or { linked: PATH }');
}

function indentOf(indent) {
  if (indent === "tab") return { indent_char: "tab" };
  if (Number.isSafeInteger(indent) && indent >= 0 && indent <= 16) return { indent_char: "space", indent_width: indent };
  throw new TypeError('indent is "tab", or a number of spaces up to 16');
}
