// Runs the program over damaged jobs, and compares what it answers with the first fault by docs/FORMAT.md.
import { spawnSync } from "node:child_process";
import { mkdirSync, writeFileSync } from "node:fs";
import { join } from "node:path";
import { program } from "../estree/command.mjs";
import { damagedJob } from "./damaged.mjs";
import { firstFault } from "./fault.mjs";
import { readFormat } from "./format.mjs";
import { parseJson } from "./json.mjs";

const USAGE = `usage: tools/faults/compare N SEED [PROGRAM]          compares N jobs; PROGRAM is the built one where none is given
       tools/faults/compare --write FOLDER N SEED    writes the N jobs to FOLDER, and runs nothing
`;
const REFUSED = /^refused: (Place|Name|Literal|Template|Span|Comment|Indent) at \d+\n$/;
const SHOWN = 20;
const WIDE = 100n;

try {
  process.exitCode = main(process.argv.slice(2));
} catch (error) {
  process.stderr.write(`${error.message}\n`);
  process.exitCode = error.status ?? 2;
}

function main(words) {
  const folder = words[0] === "--write" ? words.splice(0, 2)[1] : null;
  const [count, seed] = words.slice(0, 2).map((word) => (/^\d{1,9}$/.test(word) ? Number(word) : NaN));
  if (!(count >= 0 && seed >= 0) || words.length > (folder === null ? 3 : 2)) {
    process.stderr.write(USAGE);
    return 2;
  }
  const format = readFormat();
  return folder === null ? compare(format, count, seed, words[2] ?? program()) : write(format, count, seed, folder);
}

function write(format, count, seed, folder) {
  mkdirSync(folder, { recursive: true });
  for (let number = 0; number < count; number++) {
    const { bytes } = damagedJob(format, seed, number);
    if (mayRun(firstFault(format, bytes), bytes)) writeFileSync(join(folder, `${number}.json`), bytes);
  }
  return 0;
}

function compare(format, count, seed, program) {
  const tally = new Map();
  let differences = 0;
  for (let number = 0; number < count; number++) {
    const { bytes, names } = damagedJob(format, seed, number);
    const fault = firstFault(format, bytes);
    const answer = mayRun(fault, bytes) ? answerOf(program, bytes) : null;
    if (answer && !agrees(fault, answer)) {
      differences += 1;
      if (differences <= SHOWN) process.stdout.write(difference(number, names, bytes, fault, answer));
    }
    const kind = fault?.split(" ")[0] ?? (answer ? `no fault, status ${answer.status}` : "no fault, not run");
    tally.set(kind, (tally.get(kind) ?? 0) + 1);
  }
  const counts = [...tally].sort().map(([kind, times]) => `${kind}: ${times}`);
  process.stdout.write(`${count} jobs of seed ${seed} (${counts.join("; ")}): ${differences} differences\n`);
  return differences === 0 ? 0 : 1;
}

// A job without a fault isn't run where it may be printed with more indentation than there is memory for.
function mayRun(fault, bytes) {
  if (fault !== null) return true;
  const options = parseJson(bytes).members.get("options")?.members;
  const isGreat = (name) => options?.get(name)?.value > WIDE;
  return options?.get("minify")?.value === true || !(isGreat("indent_width") || isGreat("initial_indent"));
}

function answerOf(program, input) {
  const { status, signal, stdout, stderr, error } = spawnSync(program, ["print"], { input, timeout: 60000, maxBuffer: 2 ** 28 });
  if (error && !["EPIPE", "ETIMEDOUT"].includes(error.code)) throw error;
  return { status: status ?? signal, out: stdout, line: stderr.toString("utf8") };
}

// Whether the program told this fault. Where there is none, what it prints or refuses isn't looked at.
function agrees(fault, { status, out, line }) {
  if (fault !== null) return status === 3 && line === `not a job: ${fault}\n` && out.length === 0;
  return (status === 0 && line === "") || (status === 1 && REFUSED.test(line) && out.length === 0);
}

function difference(number, names, bytes, fault, { status, line }) {
  const wanted = fault === null ? "no fault" : `3, not a job: ${fault}`;
  const shown = JSON.stringify(bytes.toString("latin1")); // a byte a character
  return `job ${number} (${names.join(", ")})\n  wanted: ${wanted}\n  told:   ${status}, ${line.trimEnd()}\n  ${shown}\n`;
}
