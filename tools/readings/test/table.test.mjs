// The table of productions says what Grammar.antt says: who adds a production there is told to add it here.
import assert from "node:assert/strict";
import { readFileSync } from "node:fs";
import { test } from "node:test";
import { fileURLToPath } from "node:url";
import { functionsIn } from "../interpret.mjs";
import { words } from "../notation.mjs";
import { ASSIGNMENT, BINARY, UNARY, UPDATE } from "../productions/operators.mjs";
import { KINDS } from "../productions/rows.mjs";
import { PRODUCTIONS } from "../productions/table.mjs";
import { rowsByName } from "../rules.mjs";
import { BRACKETS, RESERVED, SIGNS, isWord } from "../tokens.mjs";
import { textTree, tree, treeOf } from "../trees.mjs";
import { textValue } from "../values.mjs";
import { atomsOf, productionsOfGrammar, readBy, toldPart, tokensIn } from "./grammar.mjs";

const productions = productionsOfGrammar();
const rows = [...rowsByName(PRODUCTIONS).values()].flat();

// Each production with its rows.
function* pairs() {
  for (const production of productions) {
    const own = [PRODUCTIONS[production.family]?.[production.name] ?? []].flat();
    for (const row of own) yield [production, rows.find((found) => found.row === row)];
  }
}

test("each constructor of the grammar's families has its place in the table, and nothing else has one", () => {
  const inGrammar = productions.map(({ family, name }) => `${family} ${name}`);
  const inTable = Object.entries(PRODUCTIONS).flatMap(([family, named]) => Object.keys(named).map((name) => `${family} ${name}`));
  assert.ok(inGrammar.length > 150);
  assert.deepEqual(inTable, inGrammar);
});

test("each makes the trees of the grammar", () => {
  for (const [{ name, conclusion }, { row }] of pairs()) {
    const trees = [row.tree].flat();
    assert.deepEqual(trees.map((text) => words(text).join(" ")), atomsOf(conclusion).slice(-trees.length), name);
  }
});

// Premises.antt has a name for a string's tree, which the reader doesn't use everywhere.
test("a text has the tree that the grammar says", () => {
  const file = fileURLToPath(new URL("../../../crates/jsgen_model/specs/Premises.antt", import.meta.url));
  const grammar = functionsIn(file, ["text_of"]);
  assert.equal(treeOf(grammar.call("text_of", textValue("s"))), tree("text_of", textTree("s")));
});

const GUARDS = [
  "simple_target", "names_function", "on_same_line", "starts_in_brace", "starts_statement", "starts_with_directive", "may_precede_of",
  "may_be_exported", "is_reference_alone",
];

test("each has the guards of the grammar", () => {
  for (const { family, name, premises } of productions) {
    const found = new Set([PRODUCTIONS[family][name]].flat().flatMap((row) => row.premises.map(({ guard }) => guard)));
    const wanted = GUARDS.filter((guard) => premises.some((premise) => words(premise).includes(guard)));
    assert.deepEqual([...found].sort(), wanted.sort(), name);
  }
});

const ASKED_FLAGS = [["c.in_operator", "in"], ["c.return_statement", "return"], ["c.yield_operand", "yield"], ["c.await_operand", "await"]];

// `an_operation` computes its levels.
test("each reads the parts of the grammar, in their contexts", () => {
  for (const [{ name, premises, conclusion }, { row, whole, items }] of pairs()) {
    if (name === "an_operation") continue;
    const outer = readBy(conclusion, row.bound);
    for (const [word, flag] of ASKED_FLAGS) if (premises.includes(`${word} ≡ true`)) outer.flags[flag] = true;
    assert.equal(toldPart(whole), toldPart(outer), name);
    const within = (part) => toldPart({ name: part.name, flags: { ...whole.flags, ...part.flags } });
    const wanted = premises.filter((premise) => premise.startsWith("Reads")).map((premise) => readBy(premise, row.bound));
    assert.deepEqual(items.flatMap(({ part }) => (part ? within(part) : [])).sort(), wanted.map(within).sort(), name);
  }
});

const OPERATORS = new Map([...BINARY, ...UNARY, ...UPDATE, ...ASSIGNMENT].map(({ name, token }) => [name, token]));
const CLASSES = {
  free: "word", name: "word", number: "number", big: "number", string: "quoted", quoted: "quoted", template: "template",
  private: "Private", pattern: "Pattern", whole: "Whole", head: "Head", cooked_head: "Head",
  cooked_middle: "Middle", raw_middle: "Middle", cooked_tail: "Tail", raw_tail: "Tail",
};
const CLOSING = Object.values(BRACKETS).map(([, close]) => close);

// The names by which tokensIn has them.
function tokensOf({ row, items }) {
  const operator = OPERATORS.get(row.bound?.o);
  const kind = KINDS.find(({ name }) => name === row.bound?.kind)?.word;
  const nameOf = ({ token, end, className }) => {
    if (end) return "end";
    if (className) return CLASSES[className];
    if (token === operator) return "operator";
    return token === kind ? "declaring" : (BRACKETS[token]?.[0] ?? SIGNS[token] ?? token);
  };
  return items.filter(({ part, token }) => !part && !CLOSING.includes(token)).map((item) => (item.isBehind ? "_" : "") + nameOf(item));
}

test("each has the tokens of the grammar", () => {
  for (const [{ name, premises, conclusion }, found] of pairs()) {
    assert.deepEqual(tokensOf(found).sort(), tokensIn([...premises, conclusion].join(" → ")).sort(), name);
  }
});

// What the grammar asks of a token of a class with a label.
const ASKED = {
  free: (label) => [`word_value w ≡ Some ${label}`, `is_free_name ${label} ≡ true`],
  name: (label) => [`word_value w ≡ Some ${label}`],
  number: (label) => [`has_suffix ${label} ≡ false`],
  big: (label) => [`w ≡ ${label} ++ codes "n"`],
  string: (label) => [`string_value q w ≡ Some ${label}`, "is_backtick q ≡ false"],
  quoted: (label) => [`string_value q w ≡ Some ${label}`],
  template: () => [],
  private: (label) => [`word_value w ≡ Some ${label}`],
  pattern: () => [],
  whole: () => [],
  head: () => [],
  cooked_head: (label) => [`read_piece false w ≡ Some ${label}`],
  cooked_middle: (label) => [`read_piece false w ≡ Some ${label}`],
  raw_middle: (label) => [`read_piece true w ≡ Some ${label}`],
  cooked_tail: (label) => [`read_piece false w ≡ Some ${label}`],
  raw_tail: (label) => [`read_piece true w ≡ Some ${label}`],
};

// Of two strings the second has other names.
const asFirst = (premise) => premise.replace(/^string_value \w \w /, "string_value q w ").replace(/^is_backtick \w /, "is_backtick q ");

const ASKS_OF_TOKEN = /\b(word_value|is_free_name|has_suffix|codes "n"|string_value|is_backtick|read_piece)/;

test("each asks of names, numbers, strings and pieces of templates what the grammar asks", () => {
  for (const [{ name, premises }, { row, items }] of pairs()) {
    const asked = items.flatMap(({ className, labels }) => (className ? labels.flatMap(ASKED[className]) : []));
    const inRow = (premise) => words(asFirst(premise)).map((word) => row.bound?.[word] ?? word).join(" ");
    assert.deepEqual(asked.sort(), premises.filter((premise) => ASKS_OF_TOKEN.test(premise)).map(inRow).sort(), name);
  }
});

// What the clauses of a function say of an operator or a level, in a definition of other crates.
function saidIn(path, pattern) {
  const text = readFileSync(new URL(`../../../crates/${path}`, import.meta.url), "utf8");
  return [...text.matchAll(pattern)].map(([, ...said]) => said);
}

test("operators have the tokens and the levels of the grammar", () => {
  const said = (name) => new Map(saidIn("jsgen_model/specs/Premises.antt", new RegExp(`^${name} ([\\w.]+) = (.*)$`, "gm")));
  const piece = (token) => (isWord(token) ? `Word (codes "${token}")` : `Sign ${SIGNS[token]}`);
  const without = (map, name) => new Map([...map].filter(([key]) => key !== name));
  const pieces = (operators) => new Map(operators.map(({ name, token }) => [name, piece(token)]));
  const signs = (operators) => new Map(operators.map(({ name, token }) => [name, SIGNS[token]]));
  const power = "operators.Exponential";
  assert.deepEqual(pieces(BINARY), without(said("operator_piece"), power));
  assert.deepEqual(new Map(BINARY.map(({ name, level }) => [name, level])), without(said("operation_level"), power));
  assert.deepEqual(new Map(BINARY.map(({ level, right }) => [level, right])), without(said("next_level"), "level"));
  assert.deepEqual(pieces(UNARY), said("unary_piece"));
  assert.deepEqual(signs(UPDATE), said("update_sign"));
  assert.deepEqual(signs(ASSIGNMENT), said("assignment_sign"));
});

test("punctuators and words are those of the definitions", () => {
  const signs = saidIn("jsgen_model/specs/Punctuator.antt", /^punctuator_text (\w+) = codes "(.*)"$/gm).map(([name, text]) => [text, name]);
  assert.deepEqual(new Map(Object.entries(SIGNS)), new Map(signs));
  const lists = saidIn("jsgen_syntax/specs/Name.antt", /^\w+_words = (.*)$/gm).join(" ");
  assert.deepEqual([...RESERVED].sort(), [...lists.matchAll(/"(\w+)"/g)].map(([, word]) => word).sort());
});
