// JSON that is written as it was put together: an object may have a member twice, and a value may be any text.

/** An object, by its members in order. */
export class Members {
  constructor(pairs) {
    this.pairs = pairs;
  }

  get(name) {
    return this.pairs.find(([other]) => other === name)?.[1];
  }

  /** Sets the member, behind the others where it is new. */
  set(name, value) {
    const pair = this.pairs.find(([other]) => other === name);
    if (pair) pair[1] = value;
    else this.pairs.push([name, value]);
  }

  remove(name) {
    this.pairs = this.pairs.filter(([other]) => other !== name);
  }
}

/** A value by its text, which may be no JSON. */
export class Raw {
  constructor(text) {
    this.text = text;
  }
}

const SPACES = ["", "", "", " ", "\n", "\t", "\r\n", "  "];

/** The text of a value: spaces and escapes that mean nothing are drawn. */
export function written(value, draw) {
  const isTight = draw.below(3) > 0;
  const space = () => (isTight ? "" : draw.of(SPACES));
  const string = (text) => (draw.once(24) ? escaped(text) : JSON.stringify(text));
  const listed = (open, parts, close) => `${open}${space()}${parts.join(`${space()},${space()}`)}${space()}${close}`;
  const any = (it) => {
    if (it instanceof Raw) return it.text;
    if (it instanceof Members) return listed("{", it.pairs.map(([name, its]) => `${string(name)}${space()}:${space()}${any(its)}`), "}");
    if (Array.isArray(it)) return listed("[", it.map(any), "]");
    return typeof it === "string" ? string(it) : String(it);
  };
  return `${space()}${any(value)}${space()}`;
}

// Each unit by its number.
function escaped(text) {
  return `"${Array.from({ length: text.length }, (_, at) => `\\u${text.charCodeAt(at).toString(16).padStart(4, "0")}`).join("")}"`;
}
