// Whether the program prints comments, and has the word `legal`, for tests.
import { spawnSync } from "node:child_process";
import { jobOf } from "../../../bindings/node/lib/convert.mjs";
import { parsed } from "../../estree/parser.mjs";
import { program, unbuilt } from "../../estree/program.mjs";

/** Why tests of printed comments are left out: false where they aren't. */
export const uncommented = unbuilt || (answer("print") !== "// b\na;\n" && "the program prints no comments");

/** Why tests of licences in a file of their own are left out. */
export const unlicensed = uncommented || (answer("legal", { legal: "external" }) === null && "the program has no word `legal`");

function answer(word, options = {}) {
  const source = "// b\na";
  const tree = parsed(source, { comments: true });
  const ran = spawnSync(program(), [word], { input: JSON.stringify(jobOf(tree, { source, options, comments: tree.comments })) });
  return ran.status === 0 ? ran.stdout.toString() : null;
}
