// A derivation of the table as a term of Grammar.antt: each production is the constructor of its name, to which are given what its type
// has as arguments, and of what is implicit there the parts into which an equation cuts tokens.
import { nameOf, specialOf } from "../readings/tokens.mjs";
import { atomsOf, constructorOf, judged, split } from "./grammar.mjs";
import { lemmaAlong } from "./levels.mjs";
import { freeLemma, valueLemma } from "./names.mjs";
import { asArgument } from "./source.mjs";

const argument = (term) => (/ /.test(term) ? `(${term})` : term);

/** The term of a derivation over a source. */
export function termOf(source, derivation) {
  const { lemma, inside } = lemmaAlong(derivation);
  if (lemma) return `${lemma} ${argument(termOf(source, inside))}`;
  return new Step(source, derivation).term();
}

class Step {
  // where the variables of the production that are lists of tokens begin and end, and what its other variables are
  #spans = new Map();
  #values = new Map();
  // the tokens whose spellings are variables
  #words = new Map();

  constructor(source, derivation) {
    this.source = source;
    this.derivation = derivation;
    this.constructed = constructorOf(derivation.production);
    for (const [label, name] of Object.entries(derivation.bound)) this.#values.set(label, name);
    this.#findParts();
    this.#match(judged(this.constructed.conclusion).tokens, derivation.from, derivation.to);
    this.#matchEquations();
  }

  get premises() {
    return this.constructed.premises;
  }

  // The item of the row that a premise reads.
  #itemOf(premise) {
    const labels = judged(premise).trees.join();
    const found = this.derivation.items.filter((item) => item.part && item.labels.join() === labels);
    if (found.length !== 1) throw new Error(`${this.derivation.production}: no part of the table is ${premise}`);
    return found[0];
  }

  #findParts() {
    for (const premise of this.premises.filter((text) => text.startsWith("Reads"))) {
      const { from, to } = this.#itemOf(premise);
      this.#spans.set(judged(premise).tokens, [from, to]);
    }
  }

  // A semicolon ends the tokens, or is omitted.
  get #isEnded() {
    const { items, to } = this.derivation;
    return !items.at(-1).part && this.source.tokens[to - 1] === ";";
  }

  #matchEquations() {
    const { from, to } = this.derivation;
    for (const premise of this.premises) {
      if (premise.startsWith("EndsBy")) this.#match(atomsOf(premise)[3], from, this.#isEnded ? to - 1 : to);
      const [left, right] = split(premise, "≡");
      if (this.#spans.has(left) && right) this.#match(right, ...this.#spans.get(left));
    }
  }

  // What the variables of a text for tokens are, where it stands for those from a place up to another.
  #match(text, from, to) {
    const [first, ...others] = split(text, "⧺");
    if (others.length > 0) {
      const [begin, end] = this.#spans.get(first);
      if (begin !== from) throw new Error(`${this.derivation.production}: ${first} is elsewhere`);
      this.#match(others.join(" ⧺ ").replace(/^\( (.*) \)$/, "$1"), end, to);
      return;
    }
    const atoms = atomsOf(text);
    if (atoms.length === 1) this.#spans.set(text, [from, to]);
    else this.#matchToken(atoms, from, to);
  }

  #matchToken([constructor, mark, kind, ...behind], from, to) {
    this.#values.set(mark, String(this.source.lines[from]));
    if (constructor === "group") {
      const close = this.source.closings.get(from);
      this.#match(behind[0], from + 1, close);
      this.#match(behind[1], close + 1, to);
      return;
    }
    this.#matchPiece(atomsOf(kind), this.source.tokens[from]);
    this.#match(behind[0], from + 1, to);
  }

  // The variable of a word, or of a token that the grammar has to ask for.
  #matchPiece([piece, said], token) {
    if (piece === "Word" && /^\w+$/.test(said)) this.#noteWord(said, token);
    if (piece === "Beyond") this.#noteWord(atomsOf(said)[1], specialOf(token).parts[0]);
  }

  #noteWord(name, word) {
    this.#values.set(name, asArgument(word));
    this.#words.set(name, word);
  }

  term() {
    const parts = [`grammar.${this.derivation.production}`, ...this.#cuts(this.premises)];
    for (const name of this.constructed.explicit) parts.push(this.#values.get(name));
    for (const premise of this.premises) parts.push(argument(this.#proofOf(premise)));
    return parts.join(" ");
  }

  // The lists of tokens that stand before others in an equation.
  #cuts(premises) {
    const cut = premises.flatMap((premise) => [...premise.matchAll(/(\w+) ⧺/g)].map(([, name]) => name));
    return cut.map((name) => `{${name} = ${this.source.term(...this.#spans.get(name))}}`);
  }

  #proofOf(premise) {
    if (premise.startsWith("Reads")) return termOf(this.source, this.#itemOf(premise).part);
    if (premise.startsWith("EndsBy")) return this.#end();
    const [, word] = /^word_value (\w+) ≡/.exec(premise) ?? [];
    if (word) return valueLemma(this.#words.get(word));
    const [, name] = /^is_free_name (\w+) ≡/.exec(premise) ?? [];
    if (name) return freeLemma(nameOf(this.#words.get(this.#spellingOf(name))));
    return "refl";
  }

  // The word whose value a variable is.
  #spellingOf(name) {
    const found = this.premises.map((premise) => /^word_value (\w+) ≡ Some (\w+)/.exec(premise)).find((match) => match?.[2] === name);
    return found[1];
  }

  #end() {
    const { from, to } = this.derivation;
    if (!this.#isEnded) return "grammar.the_brace";
    return `grammar.a_semicolon {a = ${this.source.term(from, to - 1)}} ${this.source.lines[to - 1]} refl`;
  }
}
