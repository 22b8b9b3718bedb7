// Jobs that are made up, of every type of the table and without a fault: what a rule says of their trees isn't looked at.
import { Members, Raw } from "./text.mjs";

const NAMES = ["a", "b", "total", "$", "_x", "größe", "日本", "if", "__proto__"];
const TEXTS = [...NAMES, "use strict", "1.5", "0x1F", "42", "-7", "", "it's", '"', "a\nb", "\u0000", "\u{1F600}", "</script>"];
const WHOLE = [0, 1, 7, 42, 65535, 4294967295, Number.MAX_SAFE_INTEGER];
const REFERENCES = [0, 1, 7, 4294967295];
const DIGITS = ["0", "7", "18446744073709551616", "340282366920938463463374607431768211455"];
const DEPTH = 5;

/** The tables of the head, each with what makes one. */
export const TABLES = {
  symbols: (draw) => draw.several(0, 4, () => draw.of(TEXTS)),
  references: (draw) => draw.several(0, 4, () => draw.of([...REFERENCES, null])),
  private: (draw) => draw.several(0, 3, () => new Members(draw.several(0, 3, () => [draw.of(TEXTS), draw.of(TEXTS)]))),
};

/** A job's head, whose member `rows` is a list of rows. */
export function madeJob({ types, options }, draw) {
  const rows = inOrder(new Maker(types, draw).nodes(), draw);
  const head = [["rows", rows]];
  if (draw.once(2)) head.push(["options", madeOptions(options, draw)]);
  for (const [name, make] of Object.entries(TABLES)) if (draw.once(3)) head.push([name, draw.once(4) ? null : make(draw)]);
  if (draw.once(8)) head.push(["version", draw.of([1, 0.5, "1", null])]);
  return new Members(draw.mixed(head));
}

// Legal comments that are linked need a path.
function madeOptions(options, draw) {
  const given = [...options].filter(() => draw.once(2)).map(([name, option]) => [name, draw.once(4) ? null : heldBy(option, draw)]);
  const members = new Members(given);
  if (members.get("legal") === "linked") members.set("legal_path", draw.of(TEXTS));
  return draw.once(8) ? null : members;
}

// A value that the option may hold.
function heldBy({ kind, words }, draw) {
  if (kind === "flag") return draw.once(2);
  if (kind === "word") return draw.of(words);
  if (kind === "text") return draw.of(TEXTS);
  if (draw.below(8) > 0) return draw.of([0, 1, 2, 7]);
  return draw.of(kind === "number" ? WHOLE.slice(0, -1) : [...WHOLE, new Raw("18446744073709551615")]);
}

class Node {
  constructor(type) {
    this.type = type;
    this.members = [["type", type]];
    this.children = [];
  }
}

class Maker {
  constructor(types, draw) {
    this.types = types;
    this.draw = draw;
    this.heights = heightsOf(types);
    this.made = [];
  }

  // The nodes of a program, some that no node uses, and the program at the end.
  nodes() {
    const unused = [...this.types.keys()].filter((type) => type !== "Program");
    this.draw.several(1, 4, () => this.node(this.draw.of(unused), 2));
    this.node("Program", DEPTH);
    return this.made;
  }

  node(type, depth) {
    const node = new Node(type);
    if (this.draw.once(4)) node.members.push(["span", this.draw.of([[0, 0], [0, 3], [2, 7], [5, 4294967295], null])]);
    const word = this.types.get(type).find(({ name, kind }) => name === "kind" && kind === "word");
    this.kind = word ? this.draw.of(word.words) : null;
    for (const field of this.types.get(type)) this.field(node, field, depth);
    if (this.draw.once(16)) node.members.push([this.draw.of(["parent", "loc", "Type", ""]), this.draw.of([0.5, "x", [], null])]);
    node.members = this.draw.mixed(node.members);
    this.made.push(node);
    return node;
  }

  field(node, field, depth) {
    const mayBeAbsent = field.isUnread || !field.isNeeded || ![null, this.kind].includes(field.onlyFor);
    const isAbsent = field.isUnread || (mayBeAbsent && this.draw.below(6) > (field.onlyFor ? 0 : 2));
    if (isAbsent && this.draw.once(12)) node.members.push([field.name, null]);
    if (!isAbsent) node.members.push([field.name, field.kind === "child" ? this.children(node, field, depth) : this.value(field)]);
  }

  value({ name, kind, words, onlyFor }) {
    if (kind === "word") return name === "kind" ? this.kind : this.draw.of(words);
    if (kind === "flag") return onlyFor !== null && onlyFor !== this.kind ? false : this.draw.once(2);
    if (kind === "digits") return this.draw.of([...WHOLE, ...DIGITS]);
    if (kind === "units" && this.draw.once(2)) return this.draw.several(0, 3, () => this.draw.of([0, 97, 0x2028, 0xd800, 0xdfff, 65535]));
    if (kind === "number") return this.draw.of(WHOLE.slice(0, -1));
    return this.draw.of(name === "name" ? NAMES : TEXTS);
  }

  children(node, field, depth) {
    const [type, kind] = [node.type, this.kind];
    const one = () => {
      const child = this.node(this.typeOf(field.types, depth - 1), depth - 1);
      node.children.push(child);
      return child;
    };
    const item = () => (field.hasHoles && this.draw.once(4) ? null : one());
    const found = field.isList ? this.draw.several(0, type === "Program" ? 4 : 3, item) : one();
    this.kind = kind;
    return found;
  }

  // A type of the set, no higher than is left; the lowest where none is.
  typeOf(types, depth) {
    const low = [...types].filter((type) => this.heights.get(type) <= depth);
    const lowest = Math.min(...[...types].map((type) => this.heights.get(type)));
    return this.draw.of(low.length > 0 ? low : [...types].filter((type) => this.heights.get(type) === lowest));
  }
}

// How high a node of each type is at least.
function heightsOf(types) {
  const heights = new Map([...types.keys()].map((type) => [type, Infinity]));
  const above = (field) => 1 + Math.min(...[...field.types].map((type) => heights.get(type)));
  for (let isNew = true; isNew; ) {
    isNew = false;
    for (const [type, fields] of types) {
      const needed = fields.filter((field) => field.kind === "child" && field.isNeeded && !field.isList);
      const height = Math.max(0, ...needed.map(above));
      isNew ||= height !== heights.get(type);
      heights.set(type, height);
    }
  }
  return heights;
}

// The rows in an order in which children stand before their parents, and the program last.
function inOrder(nodes, draw) {
  const left = nodes.slice(0, -1);
  const numbers = new Map();
  const place = (node) => numbers.set(node, numbers.size);
  while (left.length > 0) {
    const ready = left.filter((node) => node.children.every((child) => numbers.has(child))).slice(0, draw.once(3) ? 8 : 1);
    const next = draw.of(ready);
    place(next);
    left.splice(left.indexOf(next), 1);
  }
  place(nodes.at(-1));
  const numbered = (value) => (value instanceof Node ? numbers.get(value) : Array.isArray(value) ? value.map(numbered) : value);
  return [...numbers.keys()].map((node) => new Members(node.members.map(([name, value]) => [name, numbered(value)])));
}
