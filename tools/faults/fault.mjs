// The first fault of a job, as docs/FORMAT.md has it ("Faults of a job"), in the plainest way: fields in their order, and
// what each may hold by the table of types (./format.mjs).
import { NotJson, parseJson } from "./json.mjs";

const ROWS = 4;
const LIMIT = { span: 2n ** 32n, number: 2n ** 32n, whole: 2n ** 64n, unit: 2n ** 16n, digits: 2n ** 128n };

/** A fault, whose message is what stands behind `not a job: `. */
export class Fault extends Error {}

/** The first fault of a job in bytes, as the program says it, or null where the reader takes it. */
export function firstFault(format, bytes) {
  try {
    const head = parseJson(bytes);
    if (head.is !== "object") throw new Fault("Json");
    judgeHead(format, head.members);
    new Rows(format.types, head.members.get("rows").items).judge();
    return null;
  } catch (error) {
    if (error instanceof NotJson) return "Json";
    if (error instanceof Fault) return error.message;
    throw error;
  }
}

// A member whose value is null counts as absent.
function given(members, name) {
  const value = members.get(name);
  return value === undefined || value.is === "null" ? null : value;
}

function holdsFloat(value) {
  if (value.is === "list") return value.items.some(holdsFloat);
  if (value.is === "object") return [...value.members.values()].some(holdsFloat);
  return value.is === "float";
}

// The head's fields before the rows, by their numbers, each with the test of its value.
const HEAD = [
  ["options", areOptions],
  ["symbols", (format, value) => isListOf(value, isText)],
  ["references", (format, value) => isListOf(value, (entry) => entry.is === "null" || isBelow(entry, LIMIT.number))],
  ["private", (format, value) => isListOf(value, areNewNames)],
];

function judgeHead(format, members) {
  const fault = (kind, number) => new Fault(`${kind} head field ${number}`);
  HEAD.forEach(([name, mayBe], number) => {
    const value = given(members, name);
    if (value && holdsFloat(value)) throw fault("Float", number);
    if (value && !mayBe(format, value)) throw fault("Wrong", number);
  });
  const rows = given(members, "rows");
  if (!rows) throw fault("Missing", ROWS);
  if (rows.is !== "list") throw fault(holdsFloat(rows) ? "Float" : "Wrong", ROWS);
  if (rows.items.length === 0) throw fault("Wrong", ROWS);
}

function areOptions({ options }, value) {
  if (value.is !== "object") return false;
  const option = (name) => given(value.members, name);
  const mayBe = ([name, kind]) => option(name) === null || mayHold(kind, option(name));
  const isLinkedNowhere = option("legal")?.value === "linked" && option("legal_path") === null;
  return [...options].every(mayBe) && !isLinkedNowhere;
}

// The names of an object with their new names. A null in the place of one is no text: no name is a member of the format.
function areNewNames(value) {
  return value.is === "object" && [...value.members.values()].every(isText);
}

function isListOf(value, isMember) {
  return value.is === "list" && value.items.every(isMember);
}

function isText(value) {
  return value.is === "text";
}

class Rows {
  constructor(known, rows) {
    this.known = known; // the types that are read
    this.rows = rows;
    this.types = []; // of the rows that were judged
    this.used = new Set(); // those that are children already
  }

  judge() {
    this.rows.forEach((row, number) => this.types.push(this.row(row, number)));
    const last = this.rows.length - 1;
    if (this.types[last] !== "Program") throw new Fault(`Wrong row ${last} field 0`);
  }

  // Judges a row, and answers its type.
  row(row, number) {
    const fault = (kind, field) => new Fault(`${kind} row ${number} field ${field}`);
    if (row.is !== "object") throw fault("Wrong", 0);
    const type = given(row.members, "type");
    if (!type) throw fault("Missing", 0);
    if (holdsFloat(type)) throw fault("Float", 0);
    if (type.is !== "text" || !this.known.has(type.value)) throw fault("Wrong", 0);
    const span = given(row.members, "span");
    if (span && holdsFloat(span)) throw fault("Float", 1);
    if (span && !isSpan(span)) throw fault("Wrong", 1);
    for (const field of this.known.get(type.value)) this.field(field, row.members, (kind) => fault(kind, field.number));
    return type.value;
  }

  field(field, members, fault) {
    const value = given(members, field.name);
    if (field.isUnread) {
      if (value) throw fault("Wrong");
      return;
    }
    const isForRow = field.onlyFor === null || given(members, "kind").value === field.onlyFor;
    if (!value && field.isNeeded && isForRow) throw fault("Missing");
    if (!value) return;
    if (holdsFloat(value)) throw fault("Float");
    if (field.kind === "child") this.children(field, value, fault);
    else if (!mayHold(field, value) || (!isForRow && value.value === true)) throw fault("Wrong");
  }

  children(field, value, fault) {
    if (!field.isList) this.child(field, value, fault);
    else if (value.is !== "list") throw fault("Wrong");
    else for (const item of value.items) if (!(field.hasHoles && item.is === "null")) this.child(field, item, fault);
  }

  // A child is an earlier row of the field's set, which is no one's child yet.
  child(field, value, fault) {
    if (value.is !== "whole") throw fault("Wrong");
    const isEarlier = value.value >= 0n && value.value < BigInt(this.types.length);
    if (!isEarlier || !field.types.has(this.types[Number(value.value)])) throw fault("Child");
    if (this.used.has(value.value)) throw new Fault(`Shared row ${value.value}`);
    this.used.add(value.value);
  }
}

function isBelow(value, limit) {
  return value.is === "whole" && value.value >= 0n && value.value < limit;
}

function isSpan(value) {
  return value.is === "list" && value.items.length === 2 && value.items.every((item) => isBelow(item, LIMIT.span));
}

function mayHold(field, value) {
  switch (field.kind) {
    case "text":
      return value.is === "text";
    case "flag":
      return value.is === "flag";
    case "word":
      return value.is === "text" && field.words.includes(value.value);
    case "number":
      return isBelow(value, LIMIT.number);
    case "whole":
      return isBelow(value, LIMIT.whole);
    case "units":
      return value.is === "text" || (value.is === "list" && value.items.every((item) => isBelow(item, LIMIT.unit)));
    case "digits":
      return value.is === "text" ? isDigits(value.value) : isBelow(value, LIMIT.digits);
    default:
      throw new Error(`no such kind of value: ${field.kind}`);
  }
}

function isDigits(text) {
  return /^(0|[1-9][0-9]*)$/.test(text) && BigInt(text) < LIMIT.digits;
}
