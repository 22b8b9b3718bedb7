// Where in a tree a fault of its job is.
import { JsgenError } from "../faults.mjs";
import { placeAt } from "./places.mjs";
import { fieldName } from "./reads.mjs";
import { startOf } from "./refusals.mjs";

/**
 * What is known of the place of a fault: `node`, its `line` and `column`, counted from 1 and columns in units of UTF-16, the `fieldName`,
 * and `words` that tell it. `fault` is the JsgenError of the job, `nodes` are the nodes and comments of its rows, and `check` throws the
 * JsgenError of another job.
 */
export function placeOfFault(fault, { job, nodes, source, check }) {
  const row = fault.status === 1 ? rowOfRule(fault, job, source, check) : fault.row;
  const node = row === undefined ? undefined : (nodes[row] ?? undefined);
  const type = row === undefined ? null : job.rows[row].type;
  const isField = fault.status === 3 && fault.field !== undefined;
  const name = isField ? fieldName(type, fault.field) : undefined;
  const at = positionOf(node, source);
  const what = name === undefined ? (node?.type ?? type) : type === null ? name : `${name} of ${type}`;
  const place = at.line !== undefined ? ` in line ${at.line}, column ${at.column}` : at.offset !== undefined ? ` at offset ${at.offset}` : "";
  const known = { node, line: at.line, column: at.column, fieldName: name };
  return { ...known, words: what === null ? "" : `${what}${place}` };
}

// The row at which a rule is broken. The start that is told may be that of several rows, or of none, so another job tells it: that of the
// same tree, in which each row's span is its number. Comments keep their spans, which have a rule of their own.
function rowOfRule({ rule, start }, job, source, check) {
  const last = job.rows.length - 1;
  if (rule === "Indent") return last;
  if (rule === "Span") return rowAt(job, start);
  const first = source === undefined ? 1 : Buffer.byteLength(source) + 1;
  try {
    check(numbered(job, first));
  } catch (error) {
    if (!(error instanceof JsgenError)) throw error;
    if (error.rule === rule && error.start >= first) return error.start - first;
  }
  return rowAt(job, start);
}

function numbered(job, first) {
  const options = { ...job.options, source_map_path: null };
  const rows = job.rows.map((row, at) => (row.type === "Comment" ? row : { ...row, span: [first + at, first + at] }));
  return { ...job, options, rows };
}

// The outermost row that starts there: parents come behind their children.
function rowAt({ rows }, start) {
  const row = rows.findLastIndex(({ type, span }) => span?.[0] === start && type !== "Comment");
  const comment = rows.findIndex(({ type, span }) => span?.[0] === start && type === "Comment");
  return comment >= 0 ? comment : row >= 0 ? row : undefined;
}

function positionOf(node, source) {
  const offset = startOf(node);
  if (typeof offset === "number" && offset <= source?.length) return placeAt(source, offset);
  const start = node?.loc?.start;
  return start ? { line: start.line, column: start.column + 1 } : { offset };
}
