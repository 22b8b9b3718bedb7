// Damages of a job before it is written, each kind by its name. Not every damage is a fault.
import { TABLES } from "./jobs.mjs";
import { DIGITS, LEGAL, NO_JSON, NUMBERS, SPANS, SURROGATES, TYPES, UNITS, WORDS, holdingFloat, nested, oddValue } from "./odd.mjs";
import { anyField, at, atChild, earlier, fieldsOf, inObject, inRow, inRows, isUnread, ofKind, rowsOf, usedRows } from "./places.mjs";
import { Members, Raw } from "./text.mjs";

export const DAMAGES = {
  "odd value": at(anyField, (draw) => oddValue(draw)),
  "float inside": at(anyField, (draw, spot) => holdingFloat(draw, spot.value)),
  absent: at(anyField, (draw) => draw.of([null, undefined])),
  "no JSON": at(anyField, (draw) => raw(draw, NO_JSON)),
  type: at(ofKind("type"), (draw, spot, job) => draw.of([draw.of(TYPES), draw.of([...job.format.types.keys()])])),
  span: at(ofKind("span"), (draw) => raw(draw, SPANS)),
  word: at(ofKind("word"), (draw) => draw.of(WORDS)),
  "text or units": at(ofKind("text", "units"), (draw) => raw(draw, UNITS)),
  flag: at(ofKind("flag"), (draw) => draw.of(["true", "", 0, 1, [], [true], true])),
  digits: at(ofKind("digits"), (draw) => draw.of([draw.of(DIGITS), raw(draw, NUMBERS)])),
  surrogate: at(ofKind("text", "units", "type", "word"), (draw) => raw(draw, SURROGATES)),
  "field that isn't read": at(isUnread, (draw) => oddValue(draw)),
  "field for another kind": at((field) => field.onlyFor, (draw, spot) => forKind(draw, spot.field)),
  "unknown field": inRow((row, draw) => row.set(draw.of(["extra", "Type", "__proto__", "constructor", "\ud800", "type "]), oddValue(draw))),
  "number of a child": atChild((draw, spot, job) => draw.of([raw(draw, NUMBERS), spot.number, spot.number + 1, rowsOf(job).length])),
  "child of another set": atChild((draw, spot, job) => draw.of(earlier(job, spot, false))),
  "shared child": atChild((draw, spot, job) => sharedChild(draw, spot, job)),
  "child's kind": atChild((draw) => draw.of([null, true, "0", [0], [], new Members([])])),
  "list or no list": at(ofKind("child"), (draw, { value }) => (Array.isArray(value) ? (value[0] ?? 0) : [value ?? 0])),
  "order of rows": inRows((rows, draw) => rows.splice(draw.below(rows.length), 0, ...rows.splice(draw.below(rows.length), 1))),
  "odd row": inRows((rows, draw) => rows.splice(draw.below(rows.length), draw.below(2), oddRow(draw, rows))),
  "last row": inRows((rows, draw) => (draw.once(2) ? rows.pop() : rows.push(new Members([["type", draw.of(["Super", "Directive"])]])))),
  rows: (job, draw) => draw.once(3) && inHead(job, "rows", oddRows(draw)),
  "field of the head": (job, draw) => inHead(job, draw.of([...Object.keys(TABLES), "Rows", ""]), oddValue(draw)),
  "member of a table": (job, draw) => inTable(job, draw.of(Object.keys(TABLES)), draw),
  "float in a table": (job, draw) => inTable(job, draw.of(Object.keys(TABLES)), draw, holdingFloat(draw, null)),
  options: (job, draw) => inHead(job, "options", oddOptions(job, draw)),
  "member twice": inObject(twice),
  "deep nesting": inRow(deepNesting),
};

function inHead(job, name, value) {
  if (value === undefined) job.head.remove(name);
  else job.head.set(name, value);
  return true;
}

// An odd member of a table, or this one, in the place of another or between two.
function inTable({ head }, name, draw, member = oddMember(name, draw)) {
  const table = Array.isArray(head.get(name)) ? [...head.get(name)] : TABLES[name](draw);
  table.splice(draw.below(table.length + 1), draw.below(2), member);
  head.set(name, table);
  return true;
}

function oddMember(name, draw) {
  const odd = draw.of([null, oddValue(draw), raw(draw, NUMBERS), raw(draw, SURROGATES)]);
  return name === "private" && draw.below(3) > 0 ? new Members([["a", "b"], ["é", odd]]) : odd;
}

function raw(draw, texts) {
  return new Raw(draw.of(texts));
}

function forKind(draw, field) {
  if (field.kind === "flag") return draw.of([true, true, false, "true"]);
  if (field.kind === "digits") return draw.of([7, draw.of(DIGITS), raw(draw, NUMBERS)]);
  return draw.of(["1.5", "", 7, true, oddValue(draw)]);
}

function sharedChild(draw, spot, job) {
  const used = usedRows(job);
  return draw.of(earlier(job, spot, true).filter((number) => used.has(number) && number !== spot.value));
}

function oddRow(draw, rows) {
  return draw.of([null, 7, new Raw("1.5"), "Program", [], [rows[0]], true, new Members([])]);
}

function oddRows(draw) {
  const float = new Raw("1.5");
  const lists = [[], [], [float], [null], [[]], [7]];
  return draw.of([...lists, undefined, null, new Members([]), new Members([["a", [float]]]), 7, float, "rows", true]);
}

function oddOptions({ head, format }, draw) {
  if (draw.once(6)) return oddValue(draw);
  const members = head.get("options") instanceof Members ? head.get("options") : new Members([]);
  const name = draw.of(draw.of([[...format.options.keys()], [...format.options.keys()], ["Minify", "", "target"]]));
  members.set(name, draw.of([draw.of([true, false, null]), draw.of(LEGAL), oddValue(draw), oddValue(draw)]));
  return members;
}

// A further member of a name that is there, before it or behind it.
function twice(members, draw) {
  const [name, value] = draw.of(members.pairs);
  const other = draw.of([null, value, oddValue(draw), holdingFloat(draw, value)]);
  members.pairs.splice(draw.below(members.pairs.length + 1), 0, [name, other]);
}

// A value that is nested so deeply that the last container is one of 126 to 129.
function deepNesting(row, draw, job) {
  const depth = 126 + draw.below(4);
  if (draw.once(3)) job.head.set(draw.of(["extra", ...Object.keys(TABLES), "options"]), new Raw(nested(draw, depth - 1)));
  else row.set(draw.of(["extra", ...fieldsOf(job, row).map((field) => field.name)]), new Raw(nested(draw, depth - 3)));
}
