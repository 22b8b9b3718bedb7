// What the commands of the tools have in common: the program, and programs that are made up.
import { existsSync } from "node:fs";
import { fileURLToPath } from "node:url";
import { Ended, STATUS, wholeNumber } from "../../bindings/node/lib/command.mjs";
import { ranProgram } from "../../bindings/node/lib/printer.mjs";

export { Refused, run } from "../../bindings/node/lib/command.mjs";

const BUILT = fileURLToPath(new URL("../../crates/jsgen_cli/out/jsgen_cli", import.meta.url));

/** The options of the commands that try programs that are made up. */
export const RANDOM = { random: { type: "string", default: "0" }, seed: { type: "string", default: "1" } };

/** The numbers of the programs that are to be made up. */
export function seedsOf({ random, seed }) {
  const first = wholeNumber("seed", seed);
  return Array.from({ length: wholeNumber("random", random) }, (_, at) => first + at);
}

/** The program's path: what the variable JSGEN says, or where `rt ci` and `./jsgen` build it. Nothing is built here. */
export function program() {
  const path = process.env.JSGEN ?? BUILT;
  if (existsSync(path)) return path;
  const isNamed = process.env.JSGEN !== undefined;
  const why = isNamed ? `JSGEN names no program that is there: ${path}` : "`./jsgen print FILE` builds the program, or the variable JSGEN names it";
  throw new Ended(`not built: ${why}`, STATUS.unbuilt);
}

/** Runs the program's word `print` on a job: its status, its code and its line on standard error. */
export function printed(job) {
  const { status, text, line } = answered("print", job);
  return { status, code: text, line };
}

/** The same of any word of the program: what it writes is the text. */
export function answered(word, job) {
  return ranProgram(program(), word, JSON.stringify(job));
}
