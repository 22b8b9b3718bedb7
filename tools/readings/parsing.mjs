// The trees of one list of tokens by the table, whatever its size: top down, each part of the list once for each part of the grammar.
import { PRODUCTIONS } from "./productions/table.mjs";
import { bind, keyOf, narrowed, rowsByName, rulesOf, startOf } from "./rules.mjs";
import { BRACKETS, LINE_END, characterOf } from "./tokens.mjs";

const CLOSING = new Set(Object.values(BRACKETS).map(([, close]) => close));

/** The trees of texts of tokens and line ends as what `start` names: none where they aren't read. */
export function treesOf(start, texts, table = PRODUCTIONS) {
  return [...new Parsing(texts, table).whole(start).keys()];
}

/**
 * The derivations of the same trees, one of each: { tree, production, bound, from, to, items }. `production` is the name of a constructor of
 * Grammar.antt, and `bound` has the names that its labels stand for. An item is { labels, from, to }, and has its own derivation as `part`
 * where it is no token. Places are counted in tokens.
 */
export function derivationsOf(start, texts, table = PRODUCTIONS) {
  return [...new Parsing(texts, table).whole(start).values()];
}

class Parsing {
  // each token with the line end before it
  #tokens = [];
  // how deep in brackets the place before each token is, and the last
  #depths = [0];
  #alphabet;
  #rows;
  #rules = new Map();
  #found = new Map();

  constructor(texts, table) {
    let before = "";
    for (const text of texts) {
      if (text === LINE_END) before = LINE_END;
      else {
        this.#tokens.push(before + characterOf(text));
        this.#depths.push(this.#depths.at(-1) + (BRACKETS[text] ? 1 : CLOSING.has(text) ? -1 : 0));
        before = "";
      }
    }
    this.#alphabet = { tokens: [...new Set(texts.filter((text) => text !== LINE_END))], hasLineEnds: texts.includes(LINE_END) };
    this.#rows = rowsByName(table);
  }

  whole(start) {
    const { name, context } = startOf(start);
    const inner = narrowed(context, this.#alphabet);
    return this.#part({ key: keyOf(name, inner), name, context: inner }, 0, this.#tokens.length);
  }

  #rulesOf({ key, name, context }) {
    if (!this.#rules.has(key)) this.#rules.set(key, (this.#rows.get(name) ?? []).flatMap((row) => rulesOf(row, context, this.#alphabet)));
    return this.#rules.get(key);
  }

  // The trees of the tokens from a place up to another, each with its derivation. What a part is made of is the same tokens only where the grammar comes to an end.
  #part(part, from, to) {
    const key = `${part.key} ${from} ${to}`;
    if (!this.#found.has(key)) {
      const trees = new Map();
      this.#found.set(key, trees);
      if (this.#isWhole(from, to)) for (const rule of this.#rulesOf(part)) this.#produce(rule, from, to, trees);
    }
    return this.#found.get(key);
  }

  // Brackets are closed where they are opened.
  #isWhole(from, to) {
    if (this.#depths[from] !== this.#depths[to]) return false;
    for (let at = from; at < to; at++) if (this.#depths[at] < this.#depths[from]) return false;
    return true;
  }

  #produce({ production, items, premises, make, bound }, from, to, trees) {
    const found = { ...bound };
    const taken = [];
    const add = (tree) => {
      const names = Object.fromEntries(Object.entries(bound).map(([label, choice]) => [label, choice.tree.name]));
      if (!trees.has(tree)) trees.set(tree, { tree, production, bound: names, from, to, items: [...taken] });
    };
    const goOn = (at, place) => {
      if (at === items.length) {
        if (place === to && premises.every((premise) => premise(found))) add(make(found));
        return;
      }
      const { choices, labels } = items[at];
      if (choices) {
        const choice = place < to && choices.find(({ tokens }) => tokens === this.#tokens[place]);
        if (!choice) return;
        bind(found, labels, choice);
        taken[at] = { labels, from: place, to: place + 1 };
        goOn(at + 1, place + 1);
        return;
      }
      // no token stands behind the last item, and one at least for each other
      const behind = items.slice(at + 1).filter((item) => item.choices).length;
      for (let end = at === items.length - 1 ? to : place; end <= to - behind; end++) {
        for (const [tree, part] of this.#part(items[at], place, end)) {
          bind(found, labels, { tokens: this.#tokens.slice(place, end).join(""), tree });
          taken[at] = { labels, from: place, to: end, part };
          goOn(at + 1, end);
        }
      }
    };
    goOn(0, from);
  }
}
