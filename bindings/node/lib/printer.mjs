// What prints: the addon that build.mjs makes, in this process, or the program where there is no addon.
import { spawnSync } from "node:child_process";
import { existsSync } from "node:fs";
import { basename, dirname, join } from "node:path";
import { JsgenError, errorOf, errorOfLine } from "../faults.mjs";
import { fileOfPackage, folders, load } from "../folders.mjs";

const CANNOT_RUN = 70;
const NOT_BUILT =
  "not built: the package has neither its addon nor a program. In the repository `node bindings/node/build.mjs` makes the addon of the library for C; "
  + "elsewhere install a release, or name the program of `./jsgen --install DIR`, DIR/bin/jsgen, by the variable JSGEN";
// A deeply nested tree takes stack.
const STARTED = 'ulimit -s unlimited 2>/dev/null || ulimit -s "$(ulimit -H -s)" 2>/dev/null; exec "$0" "$@"';

const { found, failure } = loaded();

/** The addon, or null where it isn't there or doesn't load. */
export const addon = found;

function loaded() {
  const file = fileOfPackage("build", "jsgen.node");
  if (file === null) return { found: null, failure: null };
  try {
    return { found: load(file), failure: null };
  } catch (error) {
    return { found: null, failure: error };
  }
}

/** What one of the program's words (`print`, `map`, `legal`, `check`) gives for a job, which is a string, or bytes of JSON or of a flat job. */
export function answered(word, job) {
  return allAnswered([word], job)[word];
}

/** What these words give, by word. The addon makes all of them by one call, which reads the job once; the program is run for each. */
export function allAnswered(words, job) {
  const bytes = bytesOf(job);
  if (failure !== null) throw new JsgenError(`the addon doesn't load: ${failure.message}`, { status: CANNOT_RUN, cause: failure });
  if (addon === null) return Object.fromEntries(words.map((word) => [word, byProgram(word, bytes)]));
  if (words.length === 1) return { [words[0]]: byAddon(addon[`${words[0]}Job`], bytes).text };
  const { code, map, licences } = byAddon(addon.buildJob, bytes);
  return { print: code, map, legal: licences };
}

function bytesOf(job) {
  if (typeof job === "string") return Buffer.from(job);
  if (!(job instanceof Uint8Array)) throw new TypeError("a job is a string or a Uint8Array");
  // Another thread may write into shared memory while the job is read.
  return job.buffer instanceof SharedArrayBuffer ? Uint8Array.from(job) : job;
}

function byAddon(call, bytes) {
  const answer = answerOf(call, bytes);
  if (answer.status !== 0) throw errorOf(answer);
  return answer;
}

// What the addon throws is that it has no thread for a job, or no string for its text.
function answerOf(call, bytes) {
  try {
    return call(bytes);
  } catch (error) {
    throw new JsgenError(error.message, { status: CANNOT_RUN, cause: error });
  }
}

/** Runs a word of the program over the bytes of a job: its status, its text and its line on standard error. */
export function ranProgram(program, word, bytes) {
  const ran = spawnSync("/bin/sh", ["-c", STARTED, program, word], { input: bytes, maxBuffer: 2 ** 30 });
  // A program that ends before it has read the whole job says why by its status.
  if (ran.error && ran.error.code !== "EPIPE") throw new JsgenError(`the program can't be run: ${ran.error.message}`, { status: CANNOT_RUN, cause: ran.error });
  return { status: ran.status ?? ran.signal, text: ran.stdout.toString("utf8"), line: ran.stderr.toString("utf8").trim() };
}

function byProgram(word, bytes) {
  const program = programPath();
  const { status, text, line } = ranProgram(program, word, bytes);
  // By these statuses a shell tells that it can't start the program.
  if (status === 126 || status === 127) {
    throw new JsgenError(`the program can't be run: ${program} isn't there, or is no program`, { status: CANNOT_RUN });
  }
  if (status !== 0) throw errorOfLine(status, line);
  return text;
}

// The program that the variable JSGEN names, that of the package, or that of the repository.
function programPath() {
  const program = process.env.JSGEN || fileOfPackage("bin", "jsgen") || programOfRepository();
  if (program === null) throw new JsgenError(NOT_BUILT, { status: CANNOT_RUN });
  return program;
}

function programOfRepository() {
  const isInRepository = (folder) => basename(folder) === "node" && basename(dirname(folder)) === "bindings";
  const programs = folders.filter(isInRepository).map((folder) => join(folder, "../../crates/jsgen_cli/out/jsgen_cli"));
  return programs.find((path) => existsSync(path)) ?? null;
}
