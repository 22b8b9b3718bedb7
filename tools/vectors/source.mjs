// A text with its tokens: where they stand, which brackets match, and both as terms of Tokens.antt.
import { BRACKETS, LINE_END, SIGNS, isNumber, isBigInteger, isString, isTemplate, isWord, specialOf } from "../readings/tokens.mjs";

const CLOSING = new Set(Object.values(BRACKETS).map(([, close]) => close));

/** A text as a term. */
export const codes = (text) => (text === "" ? "[]" : `codes ${JSON.stringify(text)}`);

/** The same as an argument. */
export const asArgument = (text) => (text === "" ? "[]" : `(${codes(text)})`);

const tupleOf = (...parts) => `(${parts.join(", ")})`;
const refls = (count) => Array(count).fill("refl");

export class Source {
  /** A text, and the texts of its tokens and line ends. */
  constructor(text, tokens) {
    this.text = text;
    this.tokens = [];
    // whether a line end stands before each, and where each begins and ends in the text
    this.lines = [];
    this.places = [];
    this.closings = new Map();
    let line = false;
    let at = 0;
    const open = [];
    for (const token of tokens) {
      if (token === LINE_END) {
        line = true;
        continue;
      }
      at = text.indexOf(token, at);
      if (CLOSING.has(token)) this.closings.set(open.pop(), this.tokens.length);
      else if (BRACKETS[token]) open.push(this.tokens.length);
      this.tokens.push(token);
      this.lines.push(line);
      this.places.push([at, at + token.length]);
      at += token.length;
      line = false;
    }
  }

  // Some of the tokens, as a term.
  term(from, to) {
    if (from === to) return "done";
    const [token, line] = [this.tokens[from], this.lines[from]];
    if (BRACKETS[token]) {
      const close = this.closings.get(from);
      return `group ${line} ${BRACKETS[token][0]} ${this.argument(from + 1, close)} ${this.argument(close + 1, to)}`;
    }
    const rest = this.argument(from + 1, to);
    if (!line && isWord(token)) return `word ${asArgument(token)} ${rest}`;
    if (!line && SIGNS[token]) return `sign ${SIGNS[token]} ${rest}`;
    return `piece ${line} (${pieceOf(token)}) ${rest}`;
  }

  argument(from, to) {
    return from === to ? "done" : `(${this.term(from, to)})`;
  }

  // That these are the tokens of the text.
  proof() {
    return this.#proof(0, this.tokens.length, 0, this.text.length);
  }

  // Of the tokens from a place up to another, for the text between two offsets.
  #proof(from, to, start, end) {
    if (from === to) return "refl";
    const [begin, behind] = this.places[from];
    const gap = codes(this.text.slice(start, begin));
    if (!BRACKETS[this.tokens[from]]) {
      return tupleOf(gap, codes(this.text.slice(behind, end)), ...refls(5), this.#proof(from + 1, to, behind, end));
    }
    const close = this.closings.get(from);
    const [last, next] = this.places[close];
    const [inner, rest] = [this.text.slice(behind, last), this.text.slice(next, end)];
    const [inside, others] = [this.#proof(from + 1, close, behind, last), this.#proof(close + 1, to, next, end)];
    return tupleOf(gap, codes(inner), codes(rest), ...refls(3), inside, others);
  }
}

const QUOTES = { "'": "Single", '"': "Double", "`": "Backtick" };

function pieceOf(token) {
  if (isWord(token)) return `Word ${asArgument(token)}`;
  if (SIGNS[token]) return `Sign ${SIGNS[token]}`;
  if (isNumber(token) || isBigInteger(token)) return `Number ${asArgument(token)}`;
  if (isString(token) || isTemplate(token)) return `Quoted ${QUOTES[token[0]]} ${asArgument(token.slice(1, -1))}`;
  const special = specialOf(token);
  if (special) return `Beyond (${[special.name, ...special.parts.map(asArgument)].join(" ")})`;
  throw new Error(`no term for the token ${token}`);
}
