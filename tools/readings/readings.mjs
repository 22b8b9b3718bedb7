// Every list of tokens that the grammar reads, up to a size, with its tree: bottom up by size, production by production.
import { PRODUCTIONS } from "./productions/table.mjs";
import { bind, keyOf, narrowed, rowsByName, rulesOf, startOf } from "./rules.mjs";
import { BRACKETS } from "./tokens.mjs";

/** What is read over an alphabet { tokens, hasLineEnds }. */
export class Readings {
  // lists with two trees: { what, tokens, trees }
  twoTrees = [];
  // the productions by which something was read
  used = new Set();
  #alphabet;
  #rows;
  // By what is read in which context: { rules, views, least, own, all }. A view is another part that is read as this one, with its tree, as
  // a conditional is read as an assignment. `least` is the least size; `own` are the entries { tokens, tree } of the rules by size, and `all`
  // these and those of the views, list by list.
  #parts = new Map();

  constructor(alphabet, table = PRODUCTIONS) {
    this.#alphabet = { ...alphabet, tokens: alphabet.tokens.flatMap((token) => (BRACKETS[token] ? [token, BRACKETS[token][1]] : [token])) };
    this.#rows = rowsByName(table);
  }

  /** The lists of a size that are read as what `start` names, `Body[+return+last]` for one, with their trees. */
  lists(start, size) {
    const { name, context } = startOf(start);
    const found = new Map();
    const part = this.#part(name, narrowed(context, this.#alphabet));
    for (const { tokens, tree } of this.#segments(part, size).flat()) found.set(tokens, tree);
    return found;
  }

  // What is read by a name in a context. It comes with all that its rules need.
  #part(name, context) {
    const key = keyOf(name, context);
    if (!this.#parts.has(key)) this.#addParts(key, { key, name, context });
    return this.#parts.get(key);
  }

  #addParts(key, first) {
    const waiting = [first];
    const added = [];
    while (waiting.length > 0) {
      const { key, name, context } = waiting.pop();
      if (this.#parts.has(key)) continue;
      const rules = (this.#rows.get(name) ?? []).flatMap((row) => rulesOf(row, context, this.#alphabet));
      const [own, views] = [rules.filter(({ view }) => !view), rules.filter(({ view }) => view)];
      const part = { key, rules: own, views, least: Infinity, own: [], all: [] };
      this.#parts.set(key, part);
      added.push(part);
      waiting.push(...rules.flatMap(({ items }) => items.filter((item) => item.key)));
    }
    this.#measure(added);
  }

  // The least sizes, until none is made less. Rules of what can't be read at all are left out.
  #measure(parts) {
    for (const part of parts) {
      part.views = part.views.map(({ production, view }) => ({ production, part: this.#parts.get(view.key) }));
      for (const item of part.rules.flatMap(({ items }) => items)) if (item.key) item.part = this.#parts.get(item.key);
    }
    for (let changed = true; changed; ) {
      changed = false;
      for (const part of parts) {
        const least = Math.min(...part.rules.map(leastOf), ...part.views.map((view) => view.part.least));
        if (least < part.least) [part.least, changed] = [least, true];
      }
    }
    for (const part of parts) {
      part.rules = part.rules.filter((rule) => leastOf(rule) < Infinity);
      for (const view of part.views) view.part.isViewed = true;
    }
  }

  // The entries of a size, in several lists: those of the views, and those of the rules.
  #segments(part, size) {
    if (size < part.least) return [];
    if (part.all[size]) return part.all[size];
    const segments = new Set(part.views.flatMap((view) => this.#viewed(view, size)));
    segments.add(this.#own(part, size));
    part.all[size] = [...segments].filter(({ length }) => length > 0);
    if (!part.isViewed && part.all[size].length > 1) this.#compareSegments(part, part.all[size]);
    return part.all[size];
  }

  #viewed({ production, part }, size) {
    const segments = this.#segments(part, size);
    if (segments.length > 0) this.used.add(production);
    return segments;
  }

  #compareSegments(part, segments) {
    const seen = new Map();
    for (const { tokens, tree } of segments.flat()) this.#isNew(part, seen, tokens, tree);
  }

  #own(part, size) {
    if (part.own[size]) return part.own[size];
    const entries = [];
    const seen = new Map();
    for (const rule of part.rules) {
      this.#produce(rule, size, (tokens, tree) => {
        this.used.add(rule.production);
        if (this.#isNew(part, seen, tokens, tree)) entries.push({ tokens, tree });
      });
    }
    part.own[size] = entries;
    return entries;
  }

  // Whether a list is read for the first time; else it should have the tree that it had.
  #isNew(part, seen, tokens, tree) {
    const before = seen.get(tokens);
    if (before === undefined) seen.set(tokens, tree);
    else if (before !== tree) this.twoTrees.push({ what: part.key, tokens, trees: [before, tree] });
    return before === undefined;
  }

  // Each list that a rule reads, of that size: for each way to share the size out among its items.
  #produce(rule, size, emit) {
    const { items, premises, make } = rule;
    const found = { ...rule.bound };
    const chosen = [];
    const least = items.map((item, at) => items.slice(at).reduce((sum, each) => sum + leastOfItem(each), 0));
    const share = (at, left) => {
      if (at === items.length) return left === 0 ? combine(0, "") : undefined;
      const isLast = at === items.length - 1;
      const most = left - (isLast ? 0 : least[at + 1]);
      for (let own = isLast ? left : leastOfItem(items[at]); own <= most; own++) {
        chosen[at] = this.#entriesOf(items[at], own);
        if (chosen[at].length > 0) share(at + 1, left - own);
        if (items[at].choices) return;
      }
    };
    const combine = (at, tokens) => {
      if (at === items.length) {
        if (premises.every((premise) => premise(found))) emit(tokens, make(found));
        return;
      }
      const { labels } = items[at];
      for (const segment of chosen[at]) {
        for (const entry of segment) {
          bind(found, labels, entry);
          combine(at + 1, tokens + entry.tokens);
        }
      }
    };
    if (size >= (least[0] ?? 0)) share(0, size);
  }

  #entriesOf(item, size) {
    if (item.choices) return size === 1 ? [item.choices] : [];
    return this.#segments(item.part, size);
  }
}

const leastOfItem = (item) => (item.choices ? 1 : item.part.least);
const leastOf = ({ items }) => items.reduce((sum, item) => sum + leastOfItem(item), 0);
