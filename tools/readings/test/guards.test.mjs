// The guards that ask what a tree is, beside the clauses of Premises.antt: both answer the same of each expression of small sizes. The
// reader's clauses use the guards too, so nothing else compares them with the grammar.
import assert from "node:assert/strict";
import { test } from "node:test";
import { fileURLToPath } from "node:url";
import { namesFunction, simpleTarget } from "../guards.mjs";
import { functionsIn } from "../interpret.mjs";
import { ASSIGNMENT } from "../productions/operators.mjs";
import { PRODUCTIONS } from "../productions/table.mjs";
import { Readings } from "../readings.mjs";
import { written } from "../trees.mjs";
import { isTrue, option, shown, value } from "../values.mjs";

const PREMISES = fileURLToPath(new URL("../../../crates/jsgen_model/specs/Premises.antt", import.meta.url));

const grammar = functionsIn(PREMISES, ["simple_target", "names_function", "may_name", "is_identifier_reference", "is_anonymous_function", "function_of", "class_of"]);

// Alphabets, each with the size up to which its expressions are tried.
const ALPHABETS = [
  ["a this null true false 1 1n 's' new target . ?. super ( [ {", 3],
  ["a ! ++ * ** && || ?? , =", 3],
  ["a ? :", 5],
  ["a . ( [", 5],
  ["a => function ( {", 7],
  ["a async await yield * =>", 4],
  ["async function * ( {", 7],
  ["a import meta . (", 4],
  ["a class extends = ( {", 6],
  ["a #a in . ?. (", 4],
  ["a /b/g `s` `\\u` `h${ }m${ }t` (", 4],
];

function* expressions() {
  for (const [tokens, most] of ALPHABETS) {
    const readings = new Readings({ tokens: tokens.split(" ") });
    for (let size = 0; size <= most; size++) yield* readings.lists("Expression[+in+yield+await]", size).values();
  }
}

const trees = [...new Set(expressions())];

// A tree as a value, in which `function_of` and `class_of` stand for what their clauses say.
const valueOf = ({ name, parts }) => grammar.call(name, ...parts.map(valueOf));

const values = new Map(trees.map((tree) => [tree, valueOf(tree)]));

test("each form of an expression is tried", () => {
  const rows = Object.values(PRODUCTIONS.ReadsExpression).flat();
  const forms = new Set(rows.flatMap(({ tree }) => /^tree\.\w+/.exec(tree)?.[0] ?? []));
  assert.ok(forms.size > 20);
  const tried = new Set(trees.map(({ name }) => name));
  assert.deepEqual([...forms, "function_of", "class_of"].filter((form) => !tried.has(form)), []);
});

test("simple targets are those of the grammar", () => {
  for (const tree of trees) {
    const target = simpleTarget(tree);
    assert.equal(shown(option(target && valueOf(target))), shown(grammar.call("simple_target", values.get(tree))), written(tree));
  }
});

test("an assignment names a function where it does in the grammar", () => {
  for (const { name } of ASSIGNMENT) {
    const operator = value(name);
    for (const [target, targetValue] of values) {
      for (const [given, givenValue] of values) {
        const byGrammar = isTrue(grammar.call("names_function", operator, targetValue, givenValue));
        if (namesFunction(name, target, given) !== byGrammar) assert.fail(`${name}: ${written(target)}, ${written(given)}`);
      }
    }
  }
});
