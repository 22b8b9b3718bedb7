// Flat jobs as the JSON that they stand for, written from docs/FORMAT.md ("Flat jobs"). Nothing here is taken from what writes them, nor from
// the code of tools/nodes: the types are those that tools/faults reads in the table.
import { readFormat } from "../faults/format.mjs";

const MAGIC = "JSGF";
const HEAD_BYTES = 32;
// A row's type and its span.
const WORDS_BEFORE = 3;
const UTF8 = new TextDecoder("utf-8", { fatal: true, ignoreBOM: true });

const TYPES = [...readFormat().types].map(([name, fields]) => ({ name, fields }));
/** The number of the table of types. */
export const TABLE_NUMBER = numberOf(tableText(TYPES));

/** Bytes that are no flat job: those are the fault `Json`. */
export class NoFlatJob extends Error {}

/**
 * The job that the bytes stand for, in JSON. What a word can't be is a value of the wrong kind: `false` in the place of a text, and a text
 * elsewhere. Behind a row that is none, which is null, no row is read. `readHead` reads the head's JSON. Throws a NoFlatJob.
 */
export function decoded(bytes, readHead = JSON.parse) {
  const flat = sectionsOf(bytes, readHead);
  return { ...flat.head, rows: rowsOf(flat) };
}

// ---- the table's number

function tableText(types) {
  const lines = types.flatMap(({ name, fields }) => [name, ...fields.map((field) => ["", field.name, sortOf(field), ...(field.words ?? [])].join(" "))]);
  return lines.map((line) => `${line}\n`).join("");
}

/** How a field is held. */
function sortOf({ kind, isUnread, isList }) {
  if (isUnread) return "unread";
  if (kind === "child") return isList ? "list" : "child";
  return kind === "units" ? "string" : kind;
}

// FNV-1a of 32 bits.
function numberOf(text) {
  return new TextEncoder().encode(text).reduce((number, byte) => Math.imul(number ^ byte, 16777619) >>> 0, 2166136261);
}

// ---- the sections

function sectionsOf(bytes, readHead) {
  const wants = (isSo, what) => {
    if (!isSo) throw new NoFlatJob(what);
  };
  wants(bytes.length >= HEAD_BYTES, "no head");
  const word = wordsIn(bytes, 0, HEAD_BYTES / 4);
  wants(Buffer.from(bytes.subarray(0, 4)).toString("latin1") === MAGIC, "other first bytes");
  wants(word(1) === TABLE_NUMBER, "another table");
  const [rowCount, rowWords, listWords, textCount, heapBytes, headBytes] = [2, 3, 4, 5, 6, 7].map(word);
  const ends = [];
  for (const length of [HEAD_BYTES, 4 * rowWords, 4 * listWords, 8 * textCount, heapBytes, headBytes]) ends.push((ends.at(-1) ?? 0) + length);
  const [rowsAt, listsAt, textsAt, heapAt, headAt, end] = ends;
  wants(bytes.length === end, "another length");
  const heap = bytes.subarray(heapAt, headAt);
  wants(textOf(heap) !== undefined, "a heap that is no UTF-8");
  const head = headOf(bytes.subarray(headAt), readHead);
  wants(typeof head === "object" && head !== null && !Array.isArray(head), "no head in JSON");
  return {
    head,
    heap,
    rowCount,
    rowWords: { count: rowWords, at: wordsIn(bytes, rowsAt, rowWords) },
    lists: { count: listWords, at: wordsIn(bytes, listsAt, listWords) },
    texts: { count: textCount, at: wordsIn(bytes, textsAt, 2 * textCount) },
  };
}

// A function that gives the words of a section by their numbers.
function wordsIn(bytes, from, count) {
  const view = new DataView(bytes.buffer, bytes.byteOffset + from, 4 * count);
  return (number) => view.getUint32(4 * number, true);
}

function textOf(bytes) {
  try {
    return UTF8.decode(bytes);
  } catch {
    return undefined;
  }
}

function headOf(bytes, readHead) {
  try {
    return readHead(textOf(bytes));
  } catch (error) {
    if (!(error instanceof SyntaxError)) throw error;
    return undefined;
  }
}

// ---- rows

function rowsOf(flat) {
  const { count, at } = flat.rowWords;
  const rows = [];
  let begin = 0;
  while (rows.length < flat.rowCount) {
    const type = begin < count ? TYPES[at(begin)] : undefined;
    const end = type && begin + WORDS_BEFORE + type.fields.length;
    if (type === undefined || end > count) return [...rows, null];
    rows.push(rowOf(flat, type, begin));
    begin = end;
  }
  return rows;
}

function rowOf(flat, { name, fields }, begin) {
  const { at } = flat.rowWords;
  const row = { type: name };
  const span = [at(begin + 1), at(begin + 2)];
  if (span[0] !== 0 || span[1] !== 0) row.span = span;
  fields.forEach((field, number) => {
    const word = at(begin + WORDS_BEFORE + number);
    if (word !== 0) row[field.name] = valueOf(flat, field, word);
  });
  return row;
}

function valueOf(flat, field, word) {
  switch (sortOf(field)) {
    case "child":
    case "number":
      return word - 1;
    case "list":
      return listAt(flat, word - 1)?.map((item) => (item === 0 ? null : item - 1)) ?? "";
    case "text":
      return textAt(flat, word - 1) ?? false;
    case "string":
      return (word % 2 === 0 ? textAt(flat, word / 2 - 1) : listAt(flat, (word - 1) / 2)) ?? false;
    case "digits":
      return word % 2 === 1 ? (word - 1) / 2 : (textAt(flat, word / 2 - 1) ?? "");
    case "flag":
      return [false, true][word - 1] ?? "";
    case "word":
      return field.words[word - 1] ?? false;
    default:
      return "";
  }
}

// The items of the list that begins at the word of this number, undefined where it doesn't stand in its section.
function listAt({ lists: { count, at } }, begin) {
  if (begin >= count || begin + 1 + at(begin) > count) return undefined;
  return Array.from({ length: at(begin) }, (_, item) => at(begin + 1 + item));
}

// The text of this number, undefined where there is none, or where it isn't whole characters of the heap.
function textAt({ texts: { count, at }, heap }, number) {
  if (number >= count) return undefined;
  const from = at(2 * number);
  const to = from + at(2 * number + 1);
  return to <= heap.length && isBetweenCharacters(heap, from) && isBetweenCharacters(heap, to) ? textOf(heap.subarray(from, to)) : undefined;
}

// Within a character of UTF-8 each byte but the first begins with the bits 10.
function isBetweenCharacters(heap, at) {
  return at === heap.length || heap[at] >> 6 !== 2;
}
