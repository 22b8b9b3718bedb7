// Whether a tree's flat job stands for its job in JSON, and is refused as that is.
import assert from "node:assert/strict";
import { flatJobOf, jobOf } from "../../bindings/node/lib/convert.mjs";
import { decoded } from "./decode.mjs";

// Digits from here on are given by their text in a flat job.
const DIGITS_LIMIT = 2 ** 31;

/** Asserts that both jobs say the same, or that neither is there, for the same reason. Gives the job, or undefined. */
export function assertSame(program, settings, what) {
  const [job, flat] = [outcomeOf(jobOf, program, settings), outcomeOf(flatJobOf, program, settings)];
  assert.deepEqual(flat.error, job.error, what);
  if (job.error === undefined) assert.deepEqual(decoded(flat.made), withDigits(job.made), what);
  return job.made;
}

function outcomeOf(convert, program, settings) {
  try {
    return { made: convert(program, settings) };
  } catch (error) {
    return { error: { kind: error.constructor, message: error.message, node: error.node } };
  }
}

// The job as JSON keeps it, with the greater digits as texts.
function withDigits(job) {
  const { rows, ...head } = job;
  const given = rows.map((row) => (typeof row.digits === "number" && row.digits >= DIGITS_LIMIT ? { ...row, digits: String(row.digits) } : row));
  return { ...JSON.parse(JSON.stringify(head)), rows: given };
}
