// Places in a job (its head before it is written, and the format), and what a damage does there. A damage is called with
// the job and a draw, and answers false where the job has no place for it.
import { Members } from "./text.mjs";

const TYPE = { name: "type", kind: "type" };
const SPAN = { name: "span", kind: "span" };

/** A field of a row, given or absent. */
class Spot {
  constructor(number, row, field) {
    this.number = number;
    this.row = row;
    this.field = field;
  }

  get value() {
    return this.row.get(this.field.name);
  }

  put(value) {
    if (value === undefined) this.row.remove(this.field.name);
    else this.row.set(this.field.name, value);
  }
}

/** Puts what is made for it into a field that is accepted; nothing is put where `undefined` is made. */
export function at(accepts, make) {
  return (job, draw) => {
    const spot = draw.of(spots(job, accepts));
    spot?.put(make(draw, spot, job));
    return spot !== undefined;
  };
}

/** Puts what is made for it in the place of a child, or among a list of them: of the first place for which anything is made. */
export function atChild(make) {
  return (job, draw) => {
    for (const spot of draw.mixed(spots(job, ofKind("child")))) {
      const made = make(draw, spot, job);
      if (made === undefined) continue;
      putChild(spot, made, draw);
      return true;
    }
    return false;
  };
}

function putChild(spot, made, draw) {
  if (!spot.field.isList) spot.put(made);
  else if (Array.isArray(spot.value)) spot.value.splice(draw.below(spot.value.length + 1), draw.below(2), made);
  else spot.put([made]);
}

export function inRow(change) {
  return (job, draw) => {
    const row = draw.of(rowObjects(job));
    if (row) change(row, draw, job);
    return row !== undefined;
  };
}

export function inRows(change) {
  return (job, draw) => {
    const rows = rowsOf(job);
    if (rows.length > 0) change(rows, draw);
    return rows.length > 0;
  };
}

/** The object is the head, the options or a row. */
export function inObject(change) {
  return (job, draw) => {
    const options = job.head.get("options");
    const members = draw.of([job.head, ...(options instanceof Members ? [options] : []), ...rowObjects(job)]);
    if (members.pairs.length > 0) change(members, draw);
    return members.pairs.length > 0;
  };
}

// ---- fields

export function anyField() {
  return true;
}

export function isUnread(field) {
  return field.isUnread;
}

/** Fields that are read and hold one of these. */
export function ofKind(...kinds) {
  return (field) => kinds.includes(field.kind) && !field.isUnread;
}

export function fieldsOf(job, row) {
  return [TYPE, SPAN, ...(job.format.types.get(row.get("type")) ?? [])];
}

function spots(job, accepts) {
  const fields = (row) => (row instanceof Members ? fieldsOf(job, row).filter(accepts) : []);
  return rowsOf(job).flatMap((row, number) => fields(row).map((field) => new Spot(number, row, field)));
}

// ---- rows

export function rowsOf(job) {
  const rows = job.head.get("rows");
  return Array.isArray(rows) ? rows : [];
}

function rowObjects(job) {
  return rowsOf(job).filter((row) => row instanceof Members);
}

/** The numbers of the rows before this one whose types are of the field's set, or of those whose types aren't. */
export function earlier(job, spot, isOfSet) {
  const fits = (row) => row instanceof Members && spot.field.types.has(row.get("type"));
  return [...rowsOf(job).slice(0, spot.number).entries()].filter(([, row]) => fits(row) === isOfSet).map(([number]) => number);
}

/** The rows that are children by now. */
export function usedRows(job) {
  return new Set(spots(job, ofKind("child")).flatMap((spot) => spot.value));
}
