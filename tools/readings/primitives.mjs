// What the reader's clauses use and other files define, as functions of values: [how many arguments, the function]. Of texts only what the
// alphabets of profiles.mjs and the tokens of lexer.mjs need: a string is its own value, since only templates have escapes, and so are most
// words.
import { namesFunction, simpleTarget } from "./guards.mjs";
import { BINARY } from "./productions/operators.mjs";
import { cookedOf, isBigInteger, isFreeName, nameOf } from "./tokens.mjs";
import { isTrue, option, textValue, truth, value } from "./values.mjs";

const textOf = ({ name }) => name.slice(1, -1);

const isBacktick = ({ name }) => name === "quotes.Backtick";

// What a raw text stands for, if it does, and the piece of a template that it is then.
function cooked(raw) {
  const text = cookedOf(textOf(raw));
  return text === undefined ? undefined : textValue(text);
}

function cookedPiece(raw) {
  const units = cooked(raw);
  return units && value("cooked_piece", units);
}

// The levels of operations, and of their right operands.
const LEVELS = new Map([...BINARY.map(({ name, level }) => [name, level]), ["operators.Exponential", "Exponent"]]);
const NEXT = new Map(BINARY.map(({ level, right }) => [level, right]));

// One list of trees behind the other.
function joined(first, second) {
  if (first.name === "no_trees") return second;
  return value(first.name, ...first.parts.slice(0, -1), joined(first.parts.at(-1), second));
}

/** What may stand is a record, with a flag for each word. */
export const FIELDS = ["in_operator", "yield_operand", "await_operand", "return_statement"];

/** A field of such a record. */
export const fieldOf = (allowed, field) => allowed.parts[FIELDS.indexOf(field)];

/** The record of those of the fields that hold. */
export const allowedOf = (...fields) => value("allowed", ...FIELDS.map((field) => truth(fields.includes(field))));

const setIn = (holds, { parts }) => value("allowed", holds, ...parts.slice(1));

const inBody = (async, generator) => value("allowed", truth(true), generator, async, truth(true));

const inArrowBody = (async, { parts }) => value("allowed", parts[0], truth(false), async, truth(false));

export const PRIMITIVES = {
  set_in: [2, setIn],
  with_in: [1, (allowed) => setIn(truth(true), allowed)],
  without_in: [1, (allowed) => setIn(truth(false), allowed)],
  in_module: [0, () => allowedOf("in_operator", "await_operand")],
  in_parameters: [0, () => allowedOf("in_operator")],
  in_member: [0, () => allowedOf("in_operator")],
  in_body: [2, inBody],
  in_arrow_body: [2, inArrowBody],
  nat_le: [2, (one, other) => truth(one <= other)],
  not: [1, (holds) => truth(!isTrue(holds))],
  bytes_eq: [2, (one, other) => truth(one.name === other.name)],
  codes: [1, textValue],
  word_value: [1, (word) => option(word.name.includes("\\") ? textValue(nameOf(textOf(word))) : word)],
  string_value: [2, (quote, text) => option(isBacktick(quote) ? cooked(text) : text)],
  is_backtick: [1, (quote) => truth(isBacktick(quote))],
  read_piece: [2, (tagged, raw) => option(isTrue(tagged) ? value("raw_piece", raw) : cookedPiece(raw))],
  is_free_name: [1, (name) => truth(isFreeName(textOf(name)))],
  has_suffix: [1, (digits) => truth(isBigInteger(textOf(digits)))],
  without_last: [1, (digits) => textValue(textOf(digits).slice(0, -1))],
  simple_target: [1, (tree) => option(simpleTarget(tree))],
  names_function: [3, (operator, target, given) => truth(namesFunction(operator.name, target, given))],
  operation_level: [1, ({ name }) => value(LEVELS.get(name))],
  next_level: [1, ({ name }) => value(NEXT.get(name) ?? name)],
  joined: [2, joined],
  identifier_reference_name: [1, (atoms) => atoms.parts[0]],
};
