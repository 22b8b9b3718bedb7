// Values that a reader of jobs may take for something else.
import { Members, Raw } from "./text.mjs";

// ---- texts of values

export const NUMBERS = [
  ..."0 1 7 -1 -0 0.5 1.0 -0.0 1e3 1E-7 2.5e+1 0e0 -0e1 1e-400 65535 65536 4294967295 4294967296".split(" "),
  ..."-4294967296 9007199254740993 9223372036854775807 9223372036854775808 -9223372036854775808".split(" "),
  ..."-9223372036854775809 18446744073709551615 18446744073709551616 340282366920938463463374607431768211455".split(" "),
  ...["1.7976931348623158e308", `1${"0".repeat(308)}`], // both in the range of floats
];

export const NO_JSON = [
  ..."1.7976931348623159e308 1e309 -1e400000 01 -01 1. .5 +1 - 1e 1e+ 0x1F 1_0".split(" "),
  ..."NaN Infinity -Infinity undefined True NULL nulll tru 'a' a".split(" "),
  `-1${"0".repeat(309)}`,
  ...['"', '"\\', '"\\x41"', '"\\u00g0"', '"\\u{41}"', '"\\U0041"', '"\\u004"', '"\\\'"', '"\t"', '"\n"', '"\u0000"', '"\u001f"'],
  ...["[,]", "[1,]", "[1 2]", "[1", "{]", "{,}", '{"a"}', '{"a":}', '{"a":1,}', '{"a":1 "b":2}', "{a:1}", "{1:1}", '{"a":1', "{null:1}"],
];

export const SURROGATES = [
  ...['"\\ud800"', '"\\udc00"', '"\\uDFFF"', '"\\ude00\\ud83d"', '"\\ud83dx"', '"\\ud83d\\u0041"', '"a\\ud83d"', '"\\ud83d\\n"'],
  ...['"\\uD83D\\uD83D\\uDE00"', '"\\ud83d\\\\ude00"', '"\\ud83d\\ude00"', '"\\uD83D\\uDE00"', '"\\udbff\\udfff"', '"\\uD7FF\\uE000"'],
];

export const SPANS = [
  ...["[0]", "[0,1,2]", "[]", "[5,2]", "[0,4294967295]", "[0,4294967296]", "[-1,0]", '["0",1]', "[null,null]", "[0,-0]", "[0,1.0]"],
  ...["{}", '"0,1"', "[true,false]", "[[0,1]]", "7", '{"start":0,"end":1}', "[18446744073709551615,0]"],
];

export const UNITS = [
  ...["[65535]", "[65536]", "[65536]", "[-1]", '[97,"a"]', "[null]", "[97,0.5]", "[[97]]", "[]", "{}", "97", "[4294967296]", "[1e2]"],
  ...["true", '["\\ud800"]', "[55296,56320]", '"\\u0000"'],
];

// ---- values

export const DIGITS = [
  ...["01", "00", "", "+1", "-1", "-0", "1e3", "1.0", " 1", "1 ", "0x1F", "1_000", "１", "1\n", "1n", "18446744073709551616"],
  ...["340282366920938463463374607431768211455", "340282366920938463463374607431768211456", "999999999999999999999999999999999999999"],
  ...["340282366920938463463374607431768211456", "1000000000000000000000000000000000000000"],
];

export const TYPES = [
  ...["", "Programme", "program", "Program ", "WithStatement", "FunctionBody", "File", "Property", "Expression", "null"],
  ...["constructor", "__proto__", "toString"],
];

export const WORDS = [
  ...["", " ", "script", "let", "nan", "infinite", "Whole", "get", "constructor", "__proto__", "Addition"],
  ...["=>", "?.", "++", "+", "=", "typeof", "&&", "+ ", "whole", "raw"],
];

export const LEGAL = ["linked", "linked", "none", "inline", "eof", "external", "Inline", "link", ""];

/** A value of any kind. */
export function oddValue(draw, depth = 2) {
  const inner = () => draw.several(0, 2, () => oddValue(draw, depth - 1));
  switch (draw.below(depth > 0 ? 8 : 6)) {
    case 0:
      return draw.of([true, false]);
    case 1:
      return null;
    case 2:
      return draw.of(["", "0", "1.5", "a", "true", "Program", "__proto__"]);
    case 3:
      return draw.of([[], new Members([])]);
    case 4:
    case 5:
      return new Raw(draw.of(NUMBERS));
    case 6:
      return inner();
    default:
      return new Members(inner().map((value) => [draw.of(["", "a", "type"]), value]));
  }
}

/** A value that holds a float, and may hold the other value beside it. */
export function holdingFloat(draw, value) {
  let held = new Raw(draw.of(["0.5", "-0", "1e3", "18446744073709551616", "-9223372036854775809", "1.0"]));
  for (let depth = draw.below(4); depth > 0; depth--) {
    const beside = draw.once(2) ? [value ?? null] : [];
    held = draw.once(2) ? [...beside, held] : new Members([...beside.map((it) => ["b", it]), ["a", held]]);
  }
  return held;
}

const BRACKETS = [["[", "]"], ['{"":', "}"], ['[0,"",', ",null]"]];

/** The text of so many containers, one in another. */
export function nested(draw, depth) {
  const brackets = draw.several(depth - 1, depth - 1, () => draw.of(BRACKETS));
  const innermost = draw.of(["[]", "{}", "[0]", "[0.5]"]);
  return brackets.map(([open]) => open).join("") + innermost + brackets.reverse().map(([, close]) => close).join("");
}
