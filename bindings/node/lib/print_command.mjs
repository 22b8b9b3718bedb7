// The command `jsgen-print`: source files, printed with their comments.
import { mkdirSync, readFileSync, writeFileSync } from "node:fs";
import { basename, dirname, join, relative, resolve, sep } from "node:path";
import { print } from "../index.mjs";
import { Refused, STATUS, faultOf, readText, run, told, writeOut, writing } from "./command.mjs";
import { licenceFile } from "./licences.mjs";
import { parsed } from "./parser.mjs";
import { renaming } from "./scopes.mjs";
import { dataUrl, linked } from "./source_map.mjs";

const NAME = "jsgen-print";
const STDIN = "-";
const WIDEST_INDENT = 16;
const LEGAL = /^(?:(none|inline|eof)|(linked|external)=(.+))$/s;
// The options of the kinds of comments, each with that of a job, and those that minified text leaves out.
const KINDS = { normal: "normal", jsdoc: "jsdoc", annotations: "annotation" };
const NOT_MINIFIED = ["normal", "jsdoc"];

const OPTIONS = {
  minify: { type: "boolean" },
  "ascii-only": { type: "boolean" },
  "single-quote": { type: "boolean" },
  indent: { type: "string" },
  rename: { type: "boolean" },
  "source-map": { type: "boolean" },
  output: { type: "string", short: "o" },
  "out-dir": { type: "string" },
  "no-comments": { type: "boolean" },
  ...Object.fromEntries(Object.keys(KINDS).flatMap((name) => [name, `no-${name}`]).map((name) => [name, { type: "boolean" }])),
  legal: { type: "string" },
  version: { type: "boolean" },
};

const helpOf = (name) => `usage: ${name} [OPTION ..] [FILE ..]

Prints JavaScript modules. Without FILE, and where it is -, the source is that of standard input; the code goes to standard output.

  -o FILE               writes the code to FILE (--output too)
  --out-dir DIR         writes the code of each file into DIR, by its path below the folder that all files have in common: a/b.js and
                        a/c/d.js give DIR/b.js and DIR/c/d.js; DIR and the folders in it are made where they aren't there
  --minify              minified text, without normal and JSDoc comments
  --ascii-only          text that is ASCII
  --single-quote        single quotes in place of double ones
  --indent tab|N        a tab, or N spaces up to ${WIDEST_INDENT}, for each level
  --rename              a short name for each binding and each private name
  --source-map          a source map: FILE.map beside the FILE that is written, or else in the code

Comments are printed, and with --minify those that hold a licence or tell a tool something of the code.

  --no-comments         none of them, nor licences
  --no-normal, --no-jsdoc, --no-annotations
                        none of a kind: those of no other kind, those that begin with two stars, those that speak to tools
  --normal, --jsdoc, --annotations
                        those of a kind all the same, beside --minify or --no-comments
  --legal none|inline|eof|linked=FILE|external=FILE
                        licences: left out, where they stand, at the end of the code, or in FILE, which linked names in the code

  -h, --help            prints this
  --version             prints the version

Exit status: 0 done, 1 a source has a syntax error, or what isn't printed yet, or breaks a rule, 2 faulty command line, 4 or 5 a read
or a write failed, 6 memory or the stack ran out, 7 a source is too long, 70 jsgen isn't built, or a package isn't installed. Of several
files those without a fault are printed, and the status is that of the first fault. Each fault is told on standard error, by file, line
and column where it has a place.
`;

/** Runs the command, which was called by this name. */
export function printSources(name) {
  const usage = `${name} [OPTION ..] [FILE ..] (--help lists the options)`;
  return run({ name: NAME, usage, help: helpOf(name), options: OPTIONS }, (values, files) => {
    if (values.version) return writeOut(`${NAME} ${versionOfPackage()}\n`);
    const settings = settingsOf(values);
    return printAll(plannedOf(values, files, settings), settings);
  });
}

function versionOfPackage() {
  return JSON.parse(readFileSync(new URL("../package.json", import.meta.url), "utf8")).version;
}

// ---- what is asked

// The settings of `print` that hold for each file, and where licences go.
function settingsOf(values) {
  const options = commentOptions(values);
  if (values["ascii-only"]) options.ascii_only = true;
  if (values["single-quote"]) options.single_quote = true;
  if (values.minify) options.minify = true;
  if (values.indent !== undefined) Object.assign(options, indentOptions(values.indent));
  const { legal, licences } = legalOf(values);
  if (legal !== undefined) options.legal = legal;
  return { options, licences, sourceMap: values["source-map"] === true, isRenamed: values.rename === true };
}

function commentOptions(values) {
  const options = {};
  for (const [name, kind] of Object.entries(KINDS)) {
    if (values[name] && values[`no-${name}`]) throw new Refused(`--${name} and --no-${name} are both given`);
    const isLeftOut = values["no-comments"] || (values.minify && NOT_MINIFIED.includes(name));
    if (values[`no-${name}`] || (isLeftOut && !values[name])) options[kind] = false;
  }
  return options;
}

function indentOptions(indent) {
  if (indent === "tab") return { indent_char: "tab" };
  if (/^\d+$/.test(indent) && Number(indent) <= WIDEST_INDENT) return { indent_char: "space", indent_width: Number(indent) };
  throw new Refused(`--indent wants tab, or a number of spaces up to ${WIDEST_INDENT}`);
}

// What becomes of licences, and the file that is to hold them.
function legalOf(values) {
  if (values.legal === undefined) return values["no-comments"] ? { legal: "none" } : {};
  const [, placed, apart, licences] = LEGAL.exec(values.legal) ?? [];
  if (!placed && !apart) throw new Refused("--legal wants none, inline, eof, linked=FILE or external=FILE");
  return { legal: placed ?? apart, licences };
}

// Which files are read, null for standard input, and which are written, null for standard output; and, where the code names the file of
// licences, by which path.
function plannedOf(values, files, settings) {
  const { output, "out-dir": folder } = values;
  if (output !== undefined && folder !== undefined) throw new Refused("-o and --out-dir are both given");
  if (folder === undefined && files.length > 1) throw new Refused("several files want --out-dir DIR");
  if (files.length === 0 && process.stdin.isTTY) throw new Refused("a file is wanted, or a source on standard input");
  const plan = folder === undefined ? [{ input: inputOf(files[0]), output: output === STDIN ? null : (output ?? null) }] : mirrored(files, folder);
  refuseOverwriting(plan, settings);
  if (settings.options.legal !== "linked") return plan;
  return plan.map((planned) => ({ ...planned, legalPath: nameBeside(settings.licences, planned.output) }));
}

function inputOf(file) {
  return file === undefined || file === STDIN ? null : file;
}

// Each file in the folder, by its path below the folder that all of them have in common.
function mirrored(files, folder) {
  if (files.length === 0 || files.includes(STDIN)) throw new Refused("--out-dir wants files");
  const parts = files.map((file) => dirname(resolve(file)).split(sep));
  const end = parts[0].findIndex((part, at) => parts.some((other) => other[at] !== part));
  const common = parts[0].slice(0, end < 0 ? undefined : end).join(sep) || sep;
  return files.map((input) => ({ input, output: join(folder, relative(common, resolve(input))), isBelow: true }));
}

// No file is written twice, and none that is read is written.
function refuseOverwriting(plan, { licences, sourceMap }) {
  const taken = new Set(plan.filter(({ input }) => input !== null).map(({ input }) => resolve(input)));
  const written = plan.filter(({ output }) => output !== null).flatMap(({ output }) => (sourceMap ? [output, `${output}.map`] : [output]));
  for (const path of licences === undefined ? written : [...written, licences]) {
    if (taken.has(resolve(path))) throw new Refused(`${path} would be written over`);
    taken.add(resolve(path));
  }
}

// ---- printing

// Prints each file, goes on behind one that has a fault, and gives the status of the first fault.
async function printAll(plan, settings) {
  const licences = new Set();
  let status = STATUS.done;
  for (const planned of plan) {
    try {
      const printed = await printedFile(planned, settings);
      await write(printed, planned);
      for (const licence of printed.licences ?? []) licences.add(licence);
    } catch (error) {
      const statusOfFault = told(error, NAME);
      status ||= statusOfFault;
    }
  }
  if (licences.size > 0) await writing(settings.licences, () => writeFileSync(settings.licences, licenceFile([...licences])));
  return status;
}

async function printedFile({ input, output, legalPath }, { options, sourceMap, isRenamed }) {
  const source = await readText(input);
  const paths = {
    ...(sourceMap && { source_map_path: input === null ? "<stdin>" : nameBeside(input, output) }),
    ...(legalPath !== undefined && { legal_path: legalPath }),
  };
  try {
    const program = parsed(source, { comments: true });
    return print(program, { source, options: { ...options, ...paths }, sourceMap, names: isRenamed ? renaming(program) : null });
  } catch (error) {
    throw faultOf(error, input ?? "<stdin>", source);
  }
}

// The name of a file as one that is written beside it says it: where nothing is written, as it was given.
function nameBeside(path, output) {
  return output === null ? path : relative(dirname(resolve(output)), resolve(path)).split(sep).join("/");
}

// ---- writing

// The code and its map beside it, or both to standard output.
async function write({ code, map }, { output, isBelow }) {
  if (output === null) return writeOut(map === null ? code : linked(code, dataUrl(map)));
  if (isBelow) await writing(dirname(output), () => mkdirSync(dirname(output), { recursive: true }));
  const text = map === null ? code : linked(code, encodeURIComponent(`${basename(output)}.map`));
  await writing(output, () => writeFileSync(output, text));
  if (map === null) return;
  const { version, ...rest } = map;
  await writing(`${output}.map`, () => writeFileSync(`${output}.map`, `${JSON.stringify({ version, file: basename(output), ...rest })}\n`));
}
