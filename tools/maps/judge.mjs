// `node tools/maps/judge.mjs [--random COUNT [--seed NUMBER]] [FILE or DIRECTORY ..]`: each module is printed under each set of options
// with its source map, by the program that the variable JSGEN names, or that is built here, and the map is judged (README.md). With
// --random, so are that many programs that are made up. What is wrong is told by file and set of options, the first ten.
import { RANDOM, Refused, answered, run } from "../estree/command.mjs";
import { jobOf } from "../../bindings/node/lib/convert.mjs";
import { parsed } from "../estree/parser.mjs";
import { LETTERS, SIGNS, renaming } from "../../bindings/node/lib/scopes.mjs";
import { Tally, tryAll } from "../estree/trials.mjs";
import { faultsOf } from "./rules.mjs";

const SETS = {
  pretty: {},
  "pretty with parentheses": { parentheses: true },
  "indented by spaces": { options: { indent_char: "space", indent_width: 2, initial_indent: 3 } },
  minified: { options: { minify: true } },
  "minified with parentheses": { options: { minify: true }, parentheses: true },
  ascii_only: { options: { ascii_only: true } },
  "minified, ascii_only": { options: { minify: true, ascii_only: true } },
  renamed: { letters: LETTERS },
  "renamed, minified": { options: { minify: true }, letters: LETTERS },
  "renamed, minified, ascii_only": { options: { minify: true, ascii_only: true }, letters: SIGNS },
};
const USAGE = 2;

function tryProgram(tally, place, source) {
  for (const [set, asked] of Object.entries(SETS)) {
    const job = jobOfSet(source, asked);
    const [code, map] = ["print", "map"].map((word) => answered(word, job));
    if (map.status === USAGE) throw new Refused("the program has no word `map`");
    const refusal = [code, map].find(({ status }) => status !== 0);
    tally.tried++;
    if (refusal) tally.fail(place, set, `status ${refusal.status}: ${refusal.line}`);
    else tally.judge(place, set, code.text, () => faultsOf(source, code.text, map.text)[0]);
  }
}

function jobOfSet(source, { options = {}, parentheses = false, letters = null }) {
  const program = parsed(source, { parentheses });
  const names = letters && renaming(program, letters);
  return jobOf(program, { source, options: { ...options, source_map_path: "source.js" }, names });
}

await run({ usage: "node judge.mjs [--random COUNT [--seed NUMBER]] [FILE or DIRECTORY ..]", options: RANDOM }, (values, paths) => {
  const tally = new Tally();
  tryAll(values, paths, tally, (place, source) => tryProgram(tally, place, source));
  process.stdout.write(`${tally.summary("maps")}\n`);
  return tally.bad > 0 ? 1 : 0;
});
