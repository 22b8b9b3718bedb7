// A reader of JSON (RFC 8259) that takes what the crate serde_json takes. Node's own tells neither floats from whole
// numbers nor a member that comes twice, and knows no end of nesting.

const DEEPEST = 127;
const SPACE = /[ \t\n\r]*/y;
const NUMBER = /-?(?:0|[1-9][0-9]*)(\.[0-9]+)?([eE][+-]?[0-9]+)?/y;
const PLAIN = /[^"\\\u0000-\u001f]*/y;
const ESCAPES = { '"': '"', "\\": "\\", "/": "/", b: "\b", f: "\f", n: "\n", r: "\r", t: "\t" };
const WORDS = { null: { is: "null" }, true: { is: "flag", value: true }, false: { is: "flag", value: false } };

/** Why bytes are no JSON to serde_json. */
export class NotJson extends Error {}

/** The value that the bytes spell. `is` tells what it is: `null`, `flag`, `whole`, `float`, `text`, `list` or `object`. */
export function parseJson(bytes) {
  const reader = new Reader(textOf(bytes));
  const value = reader.value(0);
  if (reader.at < reader.text.length) reader.refuse("something behind the value");
  return value;
}

function textOf(bytes) {
  try {
    return new TextDecoder("utf-8", { fatal: true, ignoreBOM: true }).decode(bytes);
  } catch {
    throw new NotJson("not UTF-8");
  }
}

class Reader {
  constructor(text) {
    this.text = text;
    this.at = 0;
  }

  refuse(why) {
    throw new NotJson(`${why} at ${this.at}`);
  }

  // What the pattern matches here, which is passed over.
  match(pattern) {
    pattern.lastIndex = this.at;
    const found = pattern.exec(this.text);
    if (found) this.at += found[0].length;
    return found;
  }

  // Whether the sign stands here. It is passed over, and so is white space on both sides.
  takes(sign) {
    this.match(SPACE);
    if (this.text[this.at] !== sign) return false;
    this.at += 1;
    this.match(SPACE);
    return true;
  }

  value(depth) {
    this.match(SPACE);
    const value = this.bare(depth);
    this.match(SPACE);
    return value;
  }

  bare(depth) {
    const first = this.text[this.at];
    if (first === '"') return { is: "text", value: this.string() };
    if (first === "[") return { is: "list", items: this.items(depth + 1) };
    if (first === "{") return { is: "object", members: this.members(depth + 1) };
    const word = this.match(/[a-z]+/y);
    if (!word) return this.number();
    return Object.hasOwn(WORDS, word[0]) ? WORDS[word[0]] : this.refuse("unknown word");
  }

  // A whole number of 64 bits, with a sign or without, or a float: `-0` is one.
  number() {
    const [text, fraction, exponent] = this.match(NUMBER) ?? this.refuse("no value");
    const whole = fraction === undefined && exponent === undefined && text !== "-0" ? BigInt(text) : null;
    if (whole !== null && whole >= -(2n ** 63n) && whole < 2n ** 64n) return { is: "whole", value: whole };
    return Number.isFinite(Number(text)) ? { is: "float" } : this.refuse("past the range of floats");
  }

  open(depth, sign) {
    if (depth > DEEPEST) this.refuse("nested too deeply");
    this.takes(sign);
  }

  items(depth) {
    this.open(depth, "[");
    const items = [];
    if (this.takes("]")) return items;
    do items.push(this.value(depth));
    while (this.takes(","));
    return this.takes("]") ? items : this.refuse("no end of a list");
  }

  // Of a member that comes twice the last one counts.
  members(depth) {
    this.open(depth, "{");
    const members = new Map();
    if (this.takes("}")) return members;
    do {
      const name = this.text[this.at] === '"' ? this.string() : this.refuse("no name of a member");
      if (!this.takes(":")) this.refuse("no colon");
      members.set(name, this.value(depth));
    } while (this.takes(","));
    return this.takes("}") ? members : this.refuse("no end of an object");
  }

  string() {
    let value = "";
    for (this.at += 1; ; ) {
      value += this.match(PLAIN)[0];
      const sign = this.text[this.at++];
      if (sign === '"') return value.isWellFormed() ? value : this.refuse("a surrogate without its partner");
      if (sign !== "\\") this.refuse("no end of a string");
      value += this.escape();
    }
  }

  escape() {
    const letter = this.text[this.at++];
    if (Object.hasOwn(ESCAPES, letter ?? "")) return ESCAPES[letter];
    const digits = letter === "u" ? this.match(/[0-9a-fA-F]{4}/y) : null;
    return digits ? String.fromCharCode(parseInt(digits[0], 16)) : this.refuse("no escape");
  }
}
