// `node tools/comments/judge.mjs [--random COUNT [--seed NUMBER]] [FILE or DIRECTORY ..]`: each module is printed with its comments under
// each set of options, by the program that the variable JSGEN names, or that is built here, and the comments of the text are judged
// (README.md). With --random, so are that many programs that are made up, with comments put in. What is wrong is told by file and set,
// the first ten.
import { RANDOM, printed, run } from "../estree/command.mjs";
import { jobOf } from "../../bindings/node/lib/convert.mjs";
import { parsed } from "../estree/parser.mjs";
import { randomProgram } from "../estree/random.mjs";
import { Tally, tryAll } from "../estree/trials.mjs";
import { withComments } from "./random.mjs";
import { judged } from "./rules.mjs";

const SETS = {
  pretty: {},
  minified: { minify: true },
  "licences at the end": { legal: "eof" },
  "minified, licences at the end": { minify: true, legal: "eof" },
};

await run({ usage: "node judge.mjs [--random COUNT [--seed NUMBER]] [FILE or DIRECTORY ..]", options: RANDOM }, (values, paths) => {
  const tally = new Tally();
  const comments = { kept: 0, unprinted: 0 };

  function tryProgram(place, source) {
    const program = parsed(source, { comments: true });
    for (const [set, options] of Object.entries(SETS)) {
      const { status, code, line } = printed(jobOf(program, { source, options, comments: program.comments }));
      tally.tried++;
      if (status !== 0) tally.fail(place, set, `status ${status}: ${line}`);
      else tally.judge(place, set, code, () => firstFault(source, code, options));
    }
  }

  function firstFault(source, code, options) {
    const { faults, kept, unprinted } = judged(source, code, options);
    comments.kept += kept;
    comments.unprinted += unprinted;
    return faults[0];
  }

  tryAll(values, paths, tally, tryProgram, (seed) => withComments(randomProgram(seed), seed));
  process.stdout.write(`${tally.summary("texts", `; ${comments.kept} comments kept, ${comments.unprinted} of them not printed`)}\n`);
  return tally.bad > 0 ? 1 : 0;
});
