// What of the format of jobs is read by now: the types of rows, their fields and the words in these.
import { OPTIONS, TYPES } from "./table.mjs";

// In a flat job a row's type and its span stand before its fields.
const WORDS_BEFORE = 3;

/** A field of a type: its `sort`, by a word of docs/FORMAT.md, its `place` in a flat row, and of words their `numbers` there, from 1. */
class Field {
  constructor(name, place, holds) {
    this.name = name;
    this.place = place;
    this.sort = Array.isArray(holds) ? "word" : holds;
    this.words = Array.isArray(holds) ? holds : null;
    this.numbers = this.words && new Map(holds.map((word, at) => [word, at + 1]));
  }
}

/** A type of row: its `number`, the `length` of a flat row in words, and the `fields` that are read. */
class RowType {
  constructor(name, number, fields) {
    const all = Object.entries(fields).map(([field, holds], at) => new Field(field, WORDS_BEFORE + at, holds));
    this.name = name;
    this.number = number;
    this.length = WORDS_BEFORE + all.length;
    this.fields = all.filter(({ sort }) => sort !== "unread");
  }

  field(name) {
    return this.fields.find((field) => field.name === name);
  }
}

const types = new Map(Object.entries(TYPES).map(([name, fields], number) => [name, new RowType(name, number, fields)]));
const options = new Set(OPTIONS);

const HEAD = ["options", "symbols", "references", "private", "rows"];
const FIRST = ["type", "span"];

/** The type of this name, undefined where rows of it aren't read. */
export function rowType(name) {
  return types.get(name);
}

/** Whether rows of the type are read. */
export function isType(type) {
  return types.has(type);
}

/** Whether the field of rows of this type is read. */
export function isField(type, name) {
  return types.get(type).field(name) !== undefined;
}

/** The words that the field may hold, or null where it holds no word. */
export function wordsOf(type, name) {
  return types.get(type).field(name)?.words ?? null;
}

/** Whether the option may be given. */
export function isOption(name) {
  return options.has(name);
}

/** The name of the field of this number in rows of the type, or in the job's head where the type is null. */
export function fieldName(type, number) {
  return (type === null ? HEAD : [...FIRST, ...Object.keys(TYPES[type] ?? {})])[number];
}
