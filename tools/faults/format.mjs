// What a reader of jobs has to know of their format, from two files: the types of rows by tools/nodes/table.txt (its head
// says how it is written), and the options by docs/job.schema.json. Nothing here is taken from the code of tools/nodes,
// which makes the program's reader of that table.
import { readFileSync } from "node:fs";

const TABLE = new URL("../nodes/table.txt", import.meta.url);
const SCHEMA = new URL("../../docs/job.schema.json", import.meta.url);
const VALUES = new Set(["text", "units", "digits", "number", "flag"]);
const FIELD = /^(\w+)(?: as \w+)? (unread )?(\S+?)(!?)(\?\*|\*\?|\?|\*|)(?: at \w+)?(?: for (\S+))?( = .*)?$/;

/** The types, each with its fields from number 2 on, and the options, each with what it may hold. */
export function readFormat() {
  const options = JSON.parse(readFileSync(SCHEMA, "utf8")).properties.options.anyOf.find((kind) => kind.properties).properties;
  const held = new Map(Object.keys(options).map((name) => [name, optionOf(name, options[name].anyOf)]));
  return { types: typesOfTable(readFileSync(TABLE, "utf8")), options: held };
}

// What an option may hold: a text, a flag, one of some words, or a whole number of 32 or of 64 bits.
function optionOf(name, schemas) {
  const words = schemas.find((schema) => schema.enum)?.enum;
  if (words) return { kind: "word", words };
  const schema = schemas.find(({ type }) => type !== "null");
  if (schema?.type === "string") return { kind: "text" };
  if (schema?.type === "boolean") return { kind: "flag" };
  if (schema?.maximum === 2 ** 32 - 1) return { kind: "number" };
  if (schema?.maximum === 2 ** 64) return { kind: "whole" }; // 2^64 - 1, as node reads it
  throw new Error(`no such kind of option: ${name}`);
}

function typesOfTable(text) {
  const { nodes, words, sets } = sections(text);
  const known = { words, typesOf: (name) => (nodes.has(name) ? [name] : (sets.get(name) ?? []).flatMap(known.typesOf)) };
  const fieldsOf = (lines) => lines.map((line, index) => fieldOf(line, index + 2, known));
  return new Map([...nodes].map(([name, lines]) => [name, fieldsOf(lines)]));
}

// The indented lines of each node (those of its fields alone), of each list of words and of each set, by their names.
function sections(text) {
  const found = { nodes: new Map(), words: new Map(), sets: new Map() };
  let take = () => {};
  for (const line of text.split("\n")) {
    if (line.trim() === "" || /^#( |$)/.test(line)) continue;
    if (line.startsWith(" ")) take(line.trim());
    else take = section(found, line.split(/\s+/));
  }
  return found;
}

// Begins a section: what is done with each of its lines.
function section(found, [head, name]) {
  const lines = [];
  switch (head) {
    case "node":
      found.nodes.set(name, lines);
      return (line) => isField(line) && lines.push(line);
    case "words":
      found.words.set(name, lines);
      return (line) => line.split(/\s+/).length === 2 && lines.push(line.split(/\s+/)[0]);
    case "set":
      found.sets.set(name, lines);
      return (line) => line.startsWith("| ") || lines.push(...line.split(/\s+/));
    case "file":
    case "place":
      return () => {};
    default:
      throw new Error(`table: unknown section ${head}`);
  }
}

// A field that is made by hand of those below it isn't one of the format.
function isField(line) {
  return !line.startsWith("| ") && !["rules", "copied", "core", "unpromised"].includes(line) && !line.startsWith("= ") && !line.startsWith("ghost ") && !/^\w+ by /.test(line);
}

function fieldOf(line, number, { words, typesOf }) {
  const parts = FIELD.exec(line.split(" | ")[0].replace(/\s+/g, " ").replace(/ (dropped|core|unpromised)\b/g, "").trim());
  if (!parts) throw new Error(`table: no field: ${line}`);
  const [, name, unread, kinds, mark, many, onlyFor, byDefault] = parts;
  const kind = kinds.split("/")[0];
  const field = { name, number, kind, onlyFor: onlyFor ?? null, isUnread: unread !== undefined };
  field.isNeeded = mark === "!" || (many === "" && kind !== "flag" && byDefault === undefined);
  if (field.isUnread) return field;
  if (words.has(kind)) return { ...field, kind: "word", words: words.get(kind) };
  if (VALUES.has(kind)) return field;
  const types = new Set(typesOf(kind));
  if (types.size === 0) throw new Error(`table: neither a value nor words, a type or a set: ${kind}`);
  return { ...field, kind: "child", types, isList: many.includes("*"), hasHoles: many === "?*" };
}
