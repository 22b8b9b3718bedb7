// Every list of tokens that the reader accepts, up to a size: its clauses are run on one token after the other, over an alphabet.
import { BRACKETS, LINE_END, SIGNS, characterOf, isBigInteger, isNumber, isString, isTemplate, isWord, specialOf } from "./tokens.mjs";
import { allowedOf } from "./primitives.mjs";
import { treeOf } from "./trees.mjs";
import { isTrue, shown, textValue, truth, value } from "./values.mjs";

const body = (...fields) => value("before_directives", allowedOf(...fields), value("no_trees"));

/** Where the reader begins, by what is read. */
export const STARTS = {
  "Expression[+in]": value("operand", allowedOf("in_operator"), value("[]")),
  "Expression[+in+yield+await]": value("operand", allowedOf("in_operator", "yield_operand", "await_operand"), value("[]")),
  "Body[+return+last]": body("in_operator", "return_statement"),
  "Body[+return+yield+await+last]": body("in_operator", "yield_operand", "await_operand", "return_statement"),
  ModuleBody: body("in_operator", "await_operand"),
};

// A token as a value of the definition.
function pieceOf(text) {
  if (SIGNS[text]) return value("Sign", value(SIGNS[text]));
  if (isWord(text)) return value("Word", textValue(text));
  if (isNumber(text) || isBigInteger(text)) return value("Number", textValue(text));
  if (isString(text)) return value("Quoted", value("quotes.Single"), textValue(text.slice(1, -1)));
  if (isTemplate(text)) return value("Quoted", value("quotes.Backtick"), textValue(text.slice(1, -1)));
  const special = specialOf(text);
  if (special) return value("Beyond", value(special.name, ...special.parts.map(textValue)));
  throw new Error(`no token: ${text}`);
}

const DONE = value("done");

/** What the reader accepts over an alphabet { tokens, hasLineEnds }. */
export class Acceptance {
  #reader;
  #marks;
  #pieces;
  #brackets;
  #ahead;
  #known = new Map();

  constructor(reader, { tokens, hasLineEnds }) {
    this.#reader = reader;
    this.#marks = (hasLineEnds ? [false, true] : [false]).map((mark) => ({ mark: truth(mark), before: mark ? LINE_END : "" }));
    this.#pieces = tokens.filter((text) => !BRACKETS[text]).map((text) => ({ character: characterOf(text), piece: pieceOf(text) }));
    const opening = tokens.filter((text) => BRACKETS[text]);
    this.#brackets = opening.map((open) => ({ open, bracket: value(BRACKETS[open][0]), close: BRACKETS[open][1] }));
    this.#ahead = this.#lookAheads();
  }

  /** The lists of a size that are accepted, with their trees: of two where the answer has two. */
  lists(start, size) {
    const found = new Map();
    for (const { tokens, answer } of this.#accepted(STARTS[start], size)) found.set(tokens, treeOfAnswer(answer));
    return found;
  }

  // What stands behind a bracket decides how it is read: the look-ahead's answers, each with the characters that may come next then. An
  // empty one is the end.
  #lookAheads() {
    const found = new Map();
    const add = (next, answer) => {
      const known = found.get(shown(answer)) ?? { answer, next: new Set() };
      known.next.add(next);
      found.set(shown(answer), known);
    };
    add("", this.#reader.call("behind", DONE));
    const firsts = this.#firsts();
    for (const [next, tokensWith] of firsts) {
      const answer = this.#reader.call("behind", tokensWith(DONE));
      for (const [, others] of firsts) this.#expectSame(answer, this.#reader.call("behind", tokensWith(others(DONE))));
      add(next, answer);
    }
    return [...found.values()];
  }

  // Each character with the tokens that begin so, by what follows.
  #firsts() {
    return this.#marks.flatMap(({ mark }) => [
      ...this.#pieces.map(({ character, piece }) => [character, (rest) => value("piece", mark, piece, rest)]),
      ...this.#brackets.map(({ open, bracket }) => [open, (rest) => value("group", mark, bracket, DONE, rest)]),
    ]);
  }

  #expectSame(one, other) {
    if (shown(one) !== shown(other)) throw new Error("the reader looks ahead by more than one token");
  }

  #accepted(state, size) {
    const key = `${size} ${shown(state)}`;
    if (!this.#known.has(key)) {
      const found = [];
      this.#explore(state, size, "", null, (tokens, last) => {
        const answer = this.#reader.call("finish", last);
        if (answer.name !== "wrong") found.push({ tokens, answer });
      });
      this.#known.set(key, found);
    }
    return this.#known.get(key);
  }

  // Each state that the reader comes to by as many tokens; `next` tells with which these may begin.
  #explore(state, size, tokens, next, emit) {
    if (size === 0) {
      if (!next || next.has("")) emit(tokens, state);
      return;
    }
    for (const { character, piece } of this.#pieces) {
      if (next && !next.has(character)) continue;
      for (const { mark, before } of this.#marks) {
        const behind = this.#reader.call("step", state, mark, piece);
        if (behind.name !== "failed") this.#explore(behind, size - 1, tokens + before + character, null, emit);
      }
    }
    if (size < 2) return;
    for (const bracket of this.#brackets) if (!next || next.has(bracket.open)) this.#exploreBracket(state, size, tokens, bracket, emit);
  }

  #exploreBracket(state, size, tokens, { open, bracket, close }, emit) {
    for (const { mark, before } of this.#marks) {
      for (const { answer, next } of this.#ahead) {
        const faced = this.#reader.call("faced", state, mark, bracket, answer);
        const inner = this.#reader.call("inner", faced, bracket);
        this.#expectFailure(this.#reader.call("enter", faced, bracket, value("wrong")));
        if (inner.name === "failed") continue;
        for (let inside = 0; inside <= size - 2; inside++) {
          for (const read of this.#accepted(inner, inside)) {
            const behind = this.#reader.call("enter", faced, bracket, read.answer);
            const all = tokens + before + open + read.tokens + close;
            if (behind.name !== "failed") this.#explore(behind, size - 2 - inside, all, next, emit);
          }
        }
      }
    }
  }

  // What is wrong inside of brackets is wrong outside: so these need not be looked at.
  #expectFailure({ name }) {
    if (name !== "failed") throw new Error(`behind brackets that aren't read the reader is in the state ${name}`);
  }
}

// An answer of one tree, or the pair of a body.
function treeOfAnswer({ name, parts }) {
  if (name === "wrong") return undefined;
  return treeOf(name === "one_tree" ? parts[0] : value(",", ...parts));
}

const CLOSING = new Set(Object.values(BRACKETS).map(([, close]) => close));

/** The tree that the reader's function `run` answers to tokens and line ends by their texts; undefined where they aren't read. */
export function answerTo(reader, start, texts) {
  const waiting = [...texts];
  const list = tokensFrom(waiting);
  return waiting.length > 0 || !list ? undefined : treeOfAnswer(reader.call("run", STARTS[start], list));
}

// The tokens up to a bracket that closes, as a value; they are taken away.
function tokensFrom(waiting) {
  const mark = truth(waiting[0] === LINE_END);
  if (isTrue(mark)) waiting.shift();
  const [text] = waiting;
  if (text === undefined || CLOSING.has(text)) return DONE;
  waiting.shift();
  if (!BRACKETS[text]) return followed(waiting, (rest) => value("piece", mark, pieceOf(text), rest));
  const inside = tokensFrom(waiting);
  if (!inside || waiting.shift() !== BRACKETS[text][1]) return undefined;
  return followed(waiting, (rest) => value("group", mark, value(BRACKETS[text][0]), inside, rest));
}

function followed(waiting, make) {
  const rest = tokensFrom(waiting);
  return rest && make(rest);
}
