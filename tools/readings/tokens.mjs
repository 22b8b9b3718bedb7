// Tokens, by their texts: `if`, `=>`, `1`, `'s'`. A list of tokens is a string with one character for each, so that lists are joined and
// compared quickly; a line end before a token is the character LINE_END in front of it, which is no token.

export const LINE_END = "\n";

// The two that follow have no prototype, in which words like `constructor` would be found.

/** The punctuators, with their names in Punctuator.antt. */
export const SIGNS = {
  __proto__: null,
  ".": "dot", "...": "ellipsis", ";": "semicolon", ",": "comma", ":": "colon", "?": "question", "?.": "question_dot", "=>": "arrow",
  "<": "less", ">": "greater", "<=": "less_equal", ">=": "greater_equal",
  "==": "equal_equal", "!=": "not_equal", "===": "equal_equal_equal", "!==": "not_equal_equal",
  "+": "plus", "-": "minus", "*": "star", "/": "slash", "%": "percent", "**": "star_star", "++": "plus_plus", "--": "minus_minus",
  "<<": "shift_left", ">>": "shift_right", ">>>": "shift_right_zero",
  "&": "bit_and", "|": "bit_or", "^": "bit_xor", "!": "bang", "~": "tilde", "&&": "and_and", "||": "or_or", "??": "nullish",
  "=": "equal", "+=": "plus_equal", "-=": "minus_equal", "*=": "star_equal", "/=": "slash_equal", "%=": "percent_equal",
  "**=": "star_star_equal", "<<=": "shift_left_equal", ">>=": "shift_right_equal", ">>>=": "shift_right_zero_equal",
  "&=": "bit_and_equal", "^=": "bit_xor_equal", "|=": "bit_or_equal", "&&=": "and_and_equal", "||=": "or_or_equal", "??=": "nullish_equal",
};

/** The brackets that open, with their names in Punctuator.antt and with those that close. */
export const BRACKETS = { __proto__: null, "(": ["Round", ")"], "[": ["Square", "]"], "{": ["Brace", "}"] };

/** The words that are no free names (Name.antt). */
export const RESERVED = new Set(
  `await break case catch class const continue debugger default delete do else enum export extends false finally for function if import in
  instanceof new null return super switch this throw true try typeof var void while with yield
  let static implements interface package private protected public`.split(/\s+/),
);

export const isWord = (text) => /^[\p{XID_Start}$_\\]/u.test(text);
export const isFreeName = (text) => isWord(text) && !RESERVED.has(text);
export const isString = (text) => text[0] === "'" || text[0] === '"';
export const isBigInteger = (text) => /^\d+n$/.test(text);
export const isNumber = (text) => /^\d+$/.test(text);

// An escape in a word: `\u0066` or `\u{66}`.
const ESCAPE = /\\u(?:([\da-fA-F]{4})|\{([\da-fA-F]+)\})/g;

/** The name that a word spells, maybe with escapes. */
export const nameOf = (word) => word.replace(ESCAPE, (_, four, braced) => String.fromCodePoint(parseInt(four ?? braced, 16)));

// What stands behind a backslash, in the order of the groups below: two digits, four, some in braces, a zero, another character. The last
// group is what is no escape.
const ESCAPES = /\\(?:x([\da-fA-F]{2})|u([\da-fA-F]{4})|u\{([\da-fA-F]+)\}|(0)(?!\d)|([^\dxu])|())/gsu;
const SINGLE = { __proto__: null, b: "\b", t: "\t", n: "\n", v: "\v", f: "\f", r: "\r", "\n": "", "\r": "", "\u2028": "", "\u2029": "" };

/** What a text between backticks stands for, or a piece of a template; undefined where something behind a backslash is no escape. */
export function cookedOf(raw) {
  let isSpelled = true;
  const cooked = raw.replace(ESCAPES, (_, two, four, braced, zero, other) => {
    if (other !== undefined) return SINGLE[other] ?? other;
    if (zero !== undefined) return "\0";
    const number = parseInt(two ?? four ?? braced, 16);
    if (number <= 0x10ffff) return String.fromCodePoint(number);
    isSpelled = false;
    return "";
  });
  return isSpelled ? cooked : undefined;
}

// A template without substitutions. A string spells it where it stands for something.
const isInBackticks = (text) => text.length > 1 && text[0] === "`" && text.at(-1) === "`";

export const isTemplate = (text) => isInBackticks(text) && cookedOf(text.slice(1, -1)) !== undefined;

// The tokens that the grammar has to ask for, by their names in Tokens.antt: how each is known, and what its parts are.
const SPECIALS = {
  Private: { has: (text) => text[0] === "#", parts: (text) => [text.slice(1)] },
  Pattern: { has: (text) => text[0] === "/" && !SIGNS[text], parts: (text) => /^.(.*)\/(.*)$/s.exec(text).slice(1) },
  Whole: { has: (text) => isInBackticks(text) && !isTemplate(text), parts: (text) => [text.slice(1, -1)] },
  Head: { has: (text) => /^`.*\$\{$/s.test(text), parts: (text) => [text.slice(1, -2)] },
  Middle: { has: (text) => /^\}.*\$\{$/s.test(text), parts: (text) => [text.slice(1, -2)] },
  Tail: { has: (text) => /^\}.*`$/s.test(text), parts: (text) => [text.slice(1, -1)] },
};

/** What such a token is, { name, parts }; undefined of another. */
export function specialOf(text) {
  const [name, { parts }] = Object.entries(SPECIALS).find(([, { has }]) => has(text)) ?? [undefined, {}];
  return name && { name, parts: parts(text) };
}

const characters = new Map();
const texts = new Map();

/** The character that stands for a token. */
export function characterOf(text) {
  if (text.length === 1) return text;
  if (!characters.has(text)) {
    const character = String.fromCharCode(0x100 + characters.size);
    characters.set(text, character);
    texts.set(character, text);
  }
  return characters.get(text);
}

const textOf = (character) => texts.get(character) ?? character;

/** A list of tokens from their texts. */
export const listOf = (...tokens) => tokens.map(characterOf).join("");

/** The texts of a list, and of its line ends. */
export const textsOf = (list) => [...list].map(textOf);

/** A list as it is read by people: the texts, with spaces in between. */
export const told = (list) => textsOf(list).join(" ").replaceAll(LINE_END, "\\n") || "(nothing)";

/** The text of the token at a place in a list, counted without line ends. */
export function tokenAt(list, place) {
  const tokens = list.replaceAll(LINE_END, "");
  return place < tokens.length ? textOf(tokens[place]) : undefined;
}

/** How many tokens a list has. */
export const sizeOf = (list) => list.replaceAll(LINE_END, "").length;

/** Whether a line end stands before the token at a place. */
export function isOnNewLine(list, place) {
  for (let at = 0, seen = -1, line = false; at < list.length; at++) {
    if (list[at] === LINE_END) line = true;
    else if (++seen === place) return line;
    else line = false;
  }
  return false;
}
