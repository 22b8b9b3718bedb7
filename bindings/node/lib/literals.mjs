// What the literals of a tree say.
import { types } from "node:util";
import { numberText } from "./texts.mjs";

const DIGITS = "[0-9](?:_?[0-9])*";
const NOT_DECIMAL = "0[xX][0-9a-fA-F](?:_?[0-9a-fA-F])*|0[oO][0-7](?:_?[0-7])*|0[bB][01](?:_?[01])*";
const WHOLE = "0|[1-9](?:_?[0-9])*";
// The numeric literals of strict code (ECMA-262, 12.9.3), without the suffix `n`.
const NUMBER = new RegExp(`^(?:${NOT_DECIMAL}|(?:(?:${WHOLE})(?:\\.(?:${DIGITS})?)?|\\.${DIGITS})(?:[eE][-+]?${DIGITS})?)$`);
const BIG = new RegExp(`^(?:${NOT_DECIMAL}|${WHOLE})$`);
const EXPRESSION = /^\/(.+)\/([a-z]*)$/s;
const INFINITE = "1e999";
const ESCAPE = /\\(?:u\{([0-9a-fA-F]+)\}|u([0-9a-fA-F]{4})|x([0-9a-fA-F]{2})|(\r\n|[^]))/g;
const SINGLE = { n: "\n", r: "\r", t: "\t", b: "\b", v: "\v", f: "\f", 0: "\0", "\r\n": "", "\n": "", "\r": "", "\u2028": "", "\u2029": "" };

/**
 * What a Literal says: the `type` of its row, with the `text` of a number or a big integer, the `pattern` and the `flags` of a
 * regular expression, or the `value` of any other. `isNegative` is set where the text stands behind a minus. A `fault` says what
 * is wrong where its members contradict each other, or no literal has that value.
 *
 * `raw` counts where it has the value, or where the tree lost that in JSON. Where `regex` or `bigint` isn't the value, the one
 * that `raw` doesn't have was changed, and counts.
 */
export function literalOf({ value, raw, regex, bigint }) {
  if (isGiven(regex)) return expressionOf(value, raw, regex);
  if (isGiven(bigint)) return bigIntOf(value, raw, bigint);
  switch (typeof value) {
    case "string":
      return { type: "StringLiteral", value };
    case "boolean":
      return { type: "BooleanLiteral", value };
    case "number":
      return numberOf(value, raw);
    case "bigint":
      return signed(value);
    default:
      return types.isRegExp(value) ? expression(value.source, value.flags) : lostOf(value, raw);
  }
}

/** What the text between the quotes of a string stands for. What is no escape stays as it is. */
export function stringIn(text) {
  return text.replace(ESCAPE, (all, point, unit, byte, other) => {
    if (other !== undefined) return SINGLE[other] ?? other;
    const code = Number.parseInt(point ?? unit ?? byte, 16);
    return code <= 0x10ffff ? String.fromCodePoint(code) : all;
  });
}

function isGiven(value) {
  return value !== undefined && value !== null;
}

function numberOf(value, raw) {
  // This is so of most of them, and needs no look at how `raw` is written.
  if (value > 0 && Number.isSafeInteger(value) && String(value) === raw) return { type: "NumericLiteral", text: raw };
  if (Number.isNaN(value)) return { fault: "NaN as the value of Literal" };
  if (isNumber(raw) && Object.is(numberIn(raw), value)) return { type: "NumericLiteral", text: numberText(raw) };
  const isNegative = value < 0 || Object.is(value, -0);
  return { type: "NumericLiteral", text: Number.isFinite(value) ? String(Math.abs(value)) : INFINITE, isNegative };
}

function isNumber(raw) {
  return typeof raw === "string" && NUMBER.test(raw);
}

function numberIn(raw) {
  return Number(raw.replaceAll("_", ""));
}

function signed(value) {
  return { type: "BigIntLiteral", text: String(value < 0n ? -value : value), isNegative: value < 0n };
}

function bigIntOf(value, raw, bigint) {
  const isKind = !isGiven(value) || typeof value === "bigint";
  const said = typeof bigint === "string" ? bigIntIn(bigint) : null;
  const counts = isKind && said !== null ? counting(value ?? said, said, bigIntBefore(raw)) : null;
  return counts === null ? { fault: "a Literal whose bigint isn't its value" } : signed(counts);
}

// The whole number of a text, or null.
function bigIntIn(text) {
  if (text.startsWith("-") && !text.startsWith("--")) return BIG.test(text.slice(1)) ? -bigIntIn(text.slice(1)) : null;
  return BIG.test(text) ? BigInt(text.replaceAll("_", "")) : null;
}

function bigIntBefore(raw) {
  return typeof raw === "string" && raw.endsWith("n") ? bigIntIn(raw.slice(0, -1)) : null;
}

// Of two that are to say the same the one that counts, or null: where they differ, the one that the source didn't have.
function counting(one, other, raw) {
  if (one === other || other === raw) return one;
  return one === raw ? other : null;
}

function expressionOf(value, raw, { pattern, flags }) {
  const isKind = types.isRegExp(value) || isLost(value);
  if (!isKind || typeof pattern !== "string" || typeof flags !== "string") return { fault: "a Literal whose regex isn't its value" };
  if (isLost(value)) return expression(pattern, flags);
  const said = normalOf(pattern, flags);
  const counts = counting(said, String(value), typeof raw === "string" ? normalIn(raw) : null);
  if (counts === null) return { fault: "a Literal whose regex isn't its value" };
  return counts === said ? expression(pattern, flags) : expression(value.source, value.flags);
}

function expression(pattern, flags) {
  return { type: "RegExpLiteral", pattern, flags };
}

// A regular expression's text as V8 tells it, where it knows it.
function normalOf(pattern, flags) {
  try {
    return String(new RegExp(pattern, flags));
  } catch {
    return `/${pattern}/${flags}`;
  }
}

function normalIn(raw) {
  const [, pattern, flags] = EXPRESSION.exec(raw) ?? [];
  return pattern === undefined ? null : normalOf(pattern, flags);
}

// In JSON a regular expression is an object without members, and infinity and what isn't known are null.
function isLost(value) {
  return !isGiven(value) || (Object.getPrototypeOf(value) === Object.prototype && Object.keys(value).length === 0);
}

function lostOf(value, raw) {
  if (typeof raw === "string" && isLost(value)) {
    const [, pattern, flags] = EXPRESSION.exec(raw) ?? [];
    if (pattern !== undefined) return expression(pattern, flags);
    const big = bigIntBefore(raw);
    if (big !== null) return signed(big);
    if (isNumber(raw) && numberIn(raw) === Infinity) return numberOf(Infinity, raw);
  }
  return value === null ? { type: "NullLiteral" } : { fault: value === undefined ? "a Literal without a value" : "this value of Literal" };
}
