// `node tools/estree/job.mjs [--minify] [--ascii-only] [--single-quote] [--flat] < TREE`: the job of an ESTree tree, in JSON or flat.
import { faultOf, readText, writeOut } from "../../bindings/node/lib/command.mjs";
import { flatJobOf, jobOf } from "../../bindings/node/lib/convert.mjs";
import { Refused, run } from "./command.mjs";

const FLAGS = { minify: { type: "boolean" }, "ascii-only": { type: "boolean" }, "single-quote": { type: "boolean" }, flat: { type: "boolean" } };

function treeIn(text) {
  try {
    return JSON.parse(text);
  } catch (error) {
    throw faultOf(error, "<stdin>", text);
  }
}

function jobIn(tree, options, isFlat) {
  try {
    return isFlat ? flatJobOf(tree, { options }) : `${JSON.stringify(jobOf(tree, { options }))}\n`;
  } catch (error) {
    throw faultOf(error, "<stdin>");
  }
}

await run({ usage: "node job.mjs [--minify] [--ascii-only] [--single-quote] [--flat] < TREE.json", options: FLAGS }, async ({ flat = false, ...flags }, others) => {
  if (others.length > 0) throw new Refused(`unknown word ${others[0]}`);
  const options = Object.fromEntries(Object.entries(flags).map(([name, value]) => [name.replace("-", "_"), value]));
  await writeOut(jobIn(treeIn(await readText(null)), options, flat));
});
