// The rows of a job that is JSON (docs/FORMAT.md), of what a walk through a tree finds (walk.mjs).
import { unitsOf } from "./texts.mjs";
import { Rows } from "./words.mjs";

const ROOM = 2 ** 12;

/** `nodes` are for each row the node or the comment that it stands for, or null. */
export class JsonRows extends Rows {
  constructor() {
    super(ROOM);
    this.types = [];
    this.nodes = [];
    // what stands in fields and is no number of their own: a word is the place behind it
    this.values = [];
  }

  open(form, node, start, end) {
    this.types.push(form.type);
    this.nodes.push(node);
    return super.open(form, node, start, end);
  }

  text(text) {
    return this.values.push(text);
  }

  string(text) {
    return this.values.push(unitsOf(text));
  }

  digits(text) {
    const value = Number(text);
    return this.values.push(value <= Number.MAX_SAFE_INTEGER ? value : text);
  }

  number(name, number) {
    return this.values.push(number);
  }

  list(stack, from, to) {
    return this.values.push(stack.slice(from, to).map((word) => (word === 0 ? null : word - 1)));
  }

  /** The rows, each an object. */
  rows() {
    let at = 0;
    return this.types.map((type) => {
      const row = this.row(type, at);
      at += type.length;
      return row;
    });
  }

  row(type, at) {
    const { words } = this;
    const end = words[at + 2];
    const row = end > 0 ? { type: type.name, span: [words[at + 1], end] } : { type: type.name };
    for (const field of type.fields) {
      const word = words[at + field.place];
      if (word > 0) row[field.name] = this.value(field, word);
    }
    return row;
  }

  value({ sort, words }, word) {
    switch (sort) {
      case "child":
        return word - 1;
      case "flag":
        return word === 2;
      case "word":
        return words[word - 1];
      default:
        return this.values[word - 1];
    }
  }
}
