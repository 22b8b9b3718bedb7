// No list of tokens has two trees; and where a guard of the grammar is taken out, one has.
import assert from "node:assert/strict";
import { test } from "node:test";
import { PRODUCTIONS, altered, withoutGuard } from "../productions/table.mjs";
import { PROFILES } from "../profiles.mjs";
import { Readings } from "../readings.mjs";
import { listOf, told } from "../tokens.mjs";
import { written } from "../trees.mjs";
import { arraysAreTargets, reads } from "./edits.mjs";

const used = new Set();

for (const [name, profile] of Object.entries(PROFILES)) {
  test(`${name}: no list has two trees`, () => {
    const readings = new Readings(profile);
    const counts = profile.starts.map((start) => countUpTo(readings, start, profile.tried.read));
    assert.ok(counts.every((count) => count > 0));
    assert.deepEqual(readings.twoTrees.map(({ tokens }) => told(tokens)), []);
    for (const production of readings.used) used.add(production);
  });
}

test("each production reads something there", () => {
  const all = Object.values(PRODUCTIONS).flatMap((productions) => Object.keys(productions));
  // the whole of a module is its body
  assert.deepEqual(all.filter((production) => !used.has(production)), ["a_module"]);
});

function countUpTo(readings, start, size) {
  let count = 0;
  for (let at = 0; at <= size; at++) count += readings.lists(start, at).size;
  return count;
}

test("lists have their trees", () => {
  const tree = (text, start = "Expression[+in]") => {
    const tokens = text.split(" ");
    const open = tokens.filter((token) => !/^[)\]}]$/.test(token));
    const found = new Readings({ tokens: [...new Set(open)] }).lists(start, tokens.length).get(listOf(...tokens));
    return found && written(found);
  };
  const name = (text) => `(tree.identifier_reference (unnumbered "${text}"))`;
  const binary = (operator, left, right) => `(tree.binary (bare (∷ (binary_operator operators.${operator}) [])) ${left} ${right})`;
  assert.equal(tree("a + b * c"), binary("Addition", name("a"), binary("Multiplication", name("b"), name("c"))));
  assert.equal(tree("a * b + c"), binary("Addition", binary("Multiplication", name("a"), name("b")), name("c")));
  assert.equal(tree("- a ** b"), undefined);
  assert.equal(tree("a && b ?? c"), undefined);
  assert.equal(tree("( a ) ++"), `(tree.update (bare (∷ (update_operator update_operators.Increment) (∷ (flag false) []))) ${name("a")})`);
  const pattern = `(tree.array_target (nothing_of 0) (more ${name("a")} no_trees) absent)`;
  const assign = "(bare (∷ (assignment_operator assignment_operators.Assign) []))";
  assert.equal(tree("[ a ] = b"), `(tree.assignment ${assign} ${pattern} ${name("b")})`);
  assert.equal(tree("[ a ] += b"), undefined);
  assert.equal(tree("let [ a ] ;", "ModuleBody"), undefined);
  assert.equal(tree("if ( a ) let a ;", "ModuleBody"), undefined);
  assert.equal(tree("return ;", "ModuleBody"), undefined);
});

// What is taken out, what is read, and a list that has two trees then, or a part of it that has.
const FUNCTION_BODY = "Body[+return+last]";
const EXPRESSION = "Expression[+in]";
const chainsOfTwo = altered("ReadsExpression", "a_coalescing", reads("r:BitOr", "r:CoalesceHead"));
for (const [what, table, start, list, part = list] of [
  ["the first statement is no directive", withoutGuard("ReadsBody", "statements", "starts_with_directive"), FUNCTION_BODY, "'s'"],
  ["an arrow's body begins with no brace", withoutGuard("ReadsArrow", "an_arrow_function", "starts_in_brace"), EXPRESSION, "a => { }"],
  ["a statement begins with no brace", withoutGuard("ReadsStatement", "an_expression_statement", "starts_statement"), FUNCTION_BODY, "{ }"],
  ["nor with `function`", withoutGuard("ReadsStatement", "an_expression_statement", "starts_statement"), FUNCTION_BODY, "function a ( ) { }"],
  ["nor with `async function`", withoutGuard("ReadsStatement", "an_expression_statement", "starts_statement"), FUNCTION_BODY, "async function a ( ) { }"],
  ["nor with `class`", withoutGuard("ReadsStatement", "an_expression_statement", "starts_statement"), FUNCTION_BODY, "class a { }"],
  ["no `if` alone before `else`", altered("ReadsStatement", "an_if", reads("[-before_else]", "")), "ModuleBody", "if ( a ) if ( a ) ; else ;"],
  ["a default export doesn't begin with `function`", withoutGuard("ReadsDefault", "a_default_expression", "may_be_exported"), "ModuleBody", "export default function ( ) { } ;"],
  ["an array is no simple target", altered("ReadsExpression", "an_assignment_to", arraysAreTargets), EXPRESSION, "[ ] = a"],
  ["nor in a pattern", altered("ReadsTarget", "a_simple_target", arraysAreTargets), EXPRESSION, "[ [ ] ] = a", "[ ]"],
  ["nor before a default", altered("ReadsTargetElement", "a_target_with_default", arraysAreTargets), EXPRESSION, "[ [ ] = a ] = a", "[ ] = a"],
  ["nor in the head of a loop", altered("ReadsLeft", "a_target", arraysAreTargets), "ModuleBody", "for ( [ ] of a ) ;", "[ ]"],
  ["no private test is the right operand of one", altered("ReadsExpression", "a_private_test", reads("t:Shift", "t:Relational")), EXPRESSION, "#a in a in a"],
  ["a chain of `??` groups from the left", chainsOfTwo, EXPRESSION, "a ?? a ?? a"],
]) {
  test(`without a guard a list has two trees: ${what}`, () => {
    const tokens = list.split(" ");
    const readings = new Readings({ tokens: [...new Set(tokens)].filter((token) => !/^[)\]}]$/.test(token)) }, table);
    countUpTo(readings, start, tokens.length);
    const found = readings.twoTrees.map(({ tokens }) => told(tokens));
    assert.ok(found.includes(part), `${part} is not among ${found.join(", ")}`);
  });
}
