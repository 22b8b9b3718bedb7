// The program, for tests: the one that the variable JSGEN names, or else the one that `rt ci` or `./jsgen` built here, where no
// source is newer than it. What a test starts finds it by JSGEN too.
import { spawnSync } from "node:child_process";
import { fileURLToPath } from "node:url";
import { program } from "./command.mjs";

export { program };

// This builds nothing.
const isNew = () => spawnSync(fileURLToPath(new URL("../../jsgen", import.meta.url)), ["--built"]).status === 0;
if (process.env.JSGEN === undefined && isNew()) process.env.JSGEN = program();

/** Why tests of the program are left out: false where they aren't. A program that JSGEN names and that isn't there is no reason. */
export const unbuilt = process.env.JSGEN === undefined && "the program isn't built, or a source is newer; `rt ci` or `./jsgen print FILE` builds it";

/** Why tests of the word `map` are left out: false where they aren't. */
export const unmapped = unbuilt || (answersUsage("map") && "the program has no word `map`");

function answersUsage(word) {
  return spawnSync(program(), [word], { input: '{"rows":[{"type":"Program","kind":"module"}]}' }).status === 2;
}
