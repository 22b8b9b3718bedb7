// The constructors of Grammar.antt as they are applied: their arguments, and what of them speaks of tokens.
import { readFileSync } from "node:fs";
import { words } from "../readings/notation.mjs";
import { atomsOf, unbroken } from "../readings/test/grammar.mjs";

const GRAMMAR = new URL("../../crates/jsgen_model/specs/Grammar.antt", import.meta.url);

export { atomsOf };

/** The texts between a word that stands outside of brackets; braces are told as parentheses with a brace within. */
export function split(text, word) {
  const parts = [[]];
  let depth = 0;
  for (const token of words(text.replaceAll("{", " ( { ").replaceAll("}", " } ) "))) {
    if (token === "(") depth++;
    if (token === ")") depth--;
    if (token === word && depth === 0) parts.push([]);
    else parts.at(-1).push(token);
  }
  return parts.map((part) => part.join(" "));
}

// The binders that stand before the first arrow: `{a b : Type}` and `(mark : Bool)`.
const BINDER = /\( (\{ )?((?:\w+ )+): (.*?) (?:\} )?\)/g;

const explicitIn = (text) => [...text.matchAll(BINDER)].flatMap(([, implicit, names]) => (implicit ? [] : names.trim().split(" ")));

function read() {
  const families = new Map();
  const constructors = new Map();
  let family = null;
  for (const line of unbroken(readFileSync(GRAMMAR, "utf8")).split("\n")) {
    const data = /^\s*pub data (\w+) : (.*) → Type 0/.exec(line);
    if (data) {
      family = data[1];
      families.set(family, data[2].split(" → ").indexOf("Tokens"));
    }
    const [, name, type] = /^\s+(\w+) : (.*)$/.exec(line) ?? [];
    if (!name || !(family?.startsWith("Reads") || family === "EndsBy")) continue;
    if (constructors.has(name)) throw new Error(`Grammar.antt has two of the name ${name}`);
    const parts = split(type, "→");
    const isBound = / : /.test(parts[0]) && parts.length > 1;
    constructors.set(name, {
      family,
      explicit: isBound ? explicitIn(parts[0]) : [],
      premises: parts.slice(isBound ? 1 : 0, -1),
      conclusion: parts.at(-1),
    });
  }
  return { families, constructors };
}

const { families, constructors } = read();

/** A constructor by its name: { family, explicit, premises, conclusion }, the last three as texts. */
export function constructorOf(name) {
  const found = constructors.get(name);
  if (!found) throw new Error(`Grammar.antt has no ${name}`);
  return found;
}

/** The tokens of a text like `ReadsBody c true inside ds ss`, and the trees behind them. */
export function judged(text) {
  const [family, ...all] = atomsOf(text);
  const place = families.get(family);
  return { tokens: all[place], trees: all.slice(place + 1) };
}
