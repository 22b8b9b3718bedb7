// How a text is cut into tokens (Tokens.antt): always the longest that stands there, but that a slash may be a sign or begin a regular
// expression, of which the grammar takes one. Of numbers those of decimal digits are known, and of strings those without escapes.
import { BRACKETS, LINE_END, SIGNS, nameOf } from "./tokens.mjs";

// The first line, where it begins so, is no token (12.5); its line end is a blank before the first.
const HASHBANG = /^#![^\n\r\u2028\u2029]*/;

const BLANKS = /[ \t\n\r\u2028\u2029]*/y;
const HAS_LINE_END = /[\n\r\u2028\u2029]/;

const CODE_POINT = String.raw`\{0*(?:10|[\da-fA-F])?[\da-fA-F]{1,4}\}`;
const WORD = new RegExp(String.raw`(?:[\p{XID_Continue}$\u200c\u200d]|\\u[\da-fA-F]{4}|\\u${CODE_POINT})+`, "uy");
const NAME = /^[\p{XID_Start}$_][\p{XID_Continue}$\u200c\u200d]*$/u;

const NUMBER = /(?:0|[1-9]\d*)n?(?![\p{XID_Continue}$\\.])/uy;
const STRING = /'[^'\\\n\r]*'|"[^"\\\n\r]*"/y;

// A template, or a piece of one: behind a backslash stands anything, but no line ends in CR.
const PIECE = /[`}](?:[^\\`$\r]|\$(?!\{)|\\[^\r])*(?:`|\$\{)/y;

// A regular expression's body, in which a slash may stand in brackets, and its flags, which go on as a word does.
const CHARACTER = String.raw`[^\\/[\n\r\u2028\u2029]|\\[^\n\r\u2028\u2029]`;
const IN_BRACKETS = String.raw`\[(?:[^\\\]\n\r\u2028\u2029]|\\[^\n\r\u2028\u2029])*\]`;
const FLAG = String.raw`[\p{XID_Continue}$\u200c\u200d]`;
const PATTERN = new RegExp(String.raw`\/(?!\*)(?:${CHARACTER}|${IN_BRACKETS})+\/${FLAG}*(?!${FLAG}|\\)`, "uy");

const CLOSING = Object.values(BRACKETS).map(([, close]) => close);
const SIGNS_BY_LENGTH = [...Object.keys(SIGNS), ...Object.keys(BRACKETS), ...CLOSING].sort((one, other) => other.length - one.length);

/**
 * Each list of tokens that a text is and that may be read, by their texts, with LINE_END before each that a line end stands before. There are
 * several where the text has a slash, which may begin a regular expression; there is none where a token is of another kind. A hashbang at
 * the front of the text is none of them.
 */
export function tokenListsOf(text) {
  const lists = [];
  const goOn = (at, tokens, open) => {
    const gap = found(BLANKS, text, at);
    const begin = at + gap.length;
    if (begin === text.length) lists.push(tokens);
    else for (const token of tokensAt(text, begin, open)) goOn(begin + token.length, [...tokens, ...marked(gap, token)], openedBy(token, open));
  };
  goOn(HASHBANG.exec(text)?.[0].length ?? 0, [], []);
  return lists;
}

/** The one list of tokens that a text without a slash is; undefined where there is none. */
export function tokensOfText(text) {
  const lists = tokenListsOf(text);
  if (lists.length > 1) throw new Error(`${JSON.stringify(text)} is several lists of tokens`);
  return lists[0];
}

// brackets are groups, which tell of no line end before what closes them
const marked = (gap, token) => (HAS_LINE_END.test(gap) && !CLOSING.includes(token) ? [LINE_END, token] : [token]);

// The tokens that may stand at a place. A brace goes on with a template where the expression behind its piece is open.
function tokensAt(text, at, open) {
  if (text[at] === "}" && open.at(-1) === "${") return [found(PIECE, text, at)].filter(Boolean);
  if (text[at] === "`") return [found(PIECE, text, at)].filter(Boolean);
  const plain = found(NUMBER, text, at) ?? wordOf(text, at) ?? privateOf(text, at) ?? found(STRING, text, at) ?? signOf(text, at);
  return [plain, text[at] === "/" ? found(PATTERN, text, at) : undefined].filter(Boolean);
}

// The braces that are open behind a token: those of a group, and those of a template.
function openedBy(token, open) {
  const rest = token[0] === "}" ? open.slice(0, -1) : open;
  if (token === "{") return [...rest, "{"];
  return isOpenPiece(token) ? [...rest, "${"] : rest;
}

// A piece of a template that an expression follows.
const isOpenPiece = (token) => /^[`}].*\$\{$/s.test(token);

// What an expression finds at a place of a text.
function found(expression, text, at) {
  expression.lastIndex = at;
  return expression.exec(text)?.[0];
}

function wordOf(text, at) {
  const word = found(WORD, text, at);
  return word !== undefined && NAME.test(nameOf(word)) ? word : undefined;
}

// A private name, which goes on as a word does.
function privateOf(text, at) {
  const word = text[at] === "#" ? wordOf(text, at + 1) : undefined;
  return word && `#${word}`;
}

const signOf = (text, at) => SIGNS_BY_LENGTH.find((sign) => text.startsWith(sign, at) && mayPrecede(sign, text[at + sign.length] ?? ""));

// Two characters begin a comment, and a dot before a digit begins a number.
function mayPrecede(sign, next) {
  if (sign === "/") return !/[/*]/.test(next);
  return ![".", "?."].includes(sign) || !/\d/.test(next);
}
