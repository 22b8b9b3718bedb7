// Where the package bindings/node says that a fault of a tree is.
import assert from "node:assert/strict";
import { test } from "node:test";
import { parsed } from "../../estree/parser.mjs";
import { unbuilt } from "../../estree/program.mjs";

const { JsgenError, print, renaming } = await import("../../../bindings/node/index.mjs");
const { addon } = await import("../../../bindings/node/lib/printer.mjs");
const skip = addon === null && unbuilt;

function errorOf(tree, settings) {
  try {
    print(tree, settings);
  } catch (error) {
    assert.ok(error instanceof JsgenError, error.stack);
    return error;
  }
  return assert.fail("it printed");
}

// The tree of a source, one node of which is spoilt, with that node.
function spoilt(source, spoil, options) {
  const tree = parsed(source, options);
  return { tree, node: spoil(tree.body.at(-1).expression ?? tree.body.at(-1), tree) };
}

const SOURCE = 'é("😀");\r\nf(a.b, (c, d), x => x.y, `${z}`);\n';
const nameless = (node) => Object.assign(node, { name: "a b" });
const CASES = [
  ["a name", (call) => nameless(call.arguments[2].body.object), "Name", 2, 21, "Identifier"],
  ["a name at which an argument starts too", (call) => nameless(call.arguments[0].object), "Name", 2, 3, "Identifier"],
  ["a name at which the statement starts too", (call) => nameless(call.callee), "Name", 2, 1, "Identifier"],
  ["a member's name", (call) => nameless(call.arguments[0].property), "Name", 2, 5, "Identifier"],
  ["a sequence of one part", (call) => (call.arguments[1].expressions.pop(), call.arguments[1]), "Place", 2, 9, "SequenceExpression"],
  ["a template's piece", (call) => Object.assign(call.arguments[3].quasis[0], { value: { raw: "`", cooked: "`" } }), "Template", 2, 27, "TemplateElement"],
  ["a call's argument that is of another type", (call) => (call.arguments[3] = { type: "Super", start: 30, end: 31 }), "Place", 2, 21, "Super"],
];

for (const [name, spoil, rule, line, column, type] of CASES) {
  test(`with its source a tree's error has the node, its line and its column: ${name}`, { skip }, () => {
    const { tree, node } = spoilt(SOURCE, spoil);
    for (const settings of [{ source: SOURCE }, { source: SOURCE, sourceMap: true }, { source: SOURCE, minify: true }]) {
      const error = errorOf(tree, settings);
      assert.deepEqual([error.status, error.rule, error.line, error.column], [1, rule, line, column]);
      assert.equal(error.node, node);
      assert.ok(error.message.endsWith(` (${type} in line ${line}, column ${column})`), error.message);
    }
  });
}

test("without a source a tree's error has what its nodes tell", { skip }, () => {
  const { tree, node } = spoilt(SOURCE, CASES[0][1]);
  const byOffset = errorOf(tree);
  assert.equal(byOffset.node, node);
  assert.deepEqual([byOffset.message, byOffset.line], [`refused: Name at 0 (Identifier at offset ${node.start})`, undefined]);
  node.loc = { start: { line: 2, column: 20 }, end: { line: 2, column: 21 } };
  const byPlace = errorOf(tree);
  assert.deepEqual([byPlace.message, byPlace.line, byPlace.column], ["refused: Name at 0 (Identifier in line 2, column 21)", 2, 21]);
  const bare = { type: "Identifier", name: "a b" };
  const error = errorOf({ type: "Program", sourceType: "module", body: [{ type: "ExpressionStatement", expression: bare }] });
  assert.equal(error.node, bare);
  assert.equal(error.message, "refused: Name at 0 (Identifier)");
});

test("an error of a field has its name and the node of its row", { skip }, () => {
  const source = "let\n  a;";
  const tree = parsed(source);
  const node = tree.body[0].declarations[0].id;
  const names = { ...renaming(tree), symbolOf: new Map([[node, -1]]) };
  const error = errorOf(tree, { source, names });
  assert.equal(error.node, node);
  assert.deepEqual([error.status, error.rule, error.fieldName, error.line, error.column], [3, "Wrong", "symbol", 2, 3]);
  assert.match(error.message, /^not a job: Wrong row 0 field \d+ \(symbol of BindingIdentifier in line 2, column 3\)$/);
  const option = errorOf(parsed("a"), { options: { initial_indent: -1 } });
  assert.deepEqual([option.fieldName, option.message], ["options", "not a job: Wrong head field 0 (options)"]);
});

test("an error of a comment has the comment, and one of the indentation the program", { skip }, () => {
  const tree = parsed("// a\nb", { comments: true });
  tree.comments[0].end += 2;
  const comment = errorOf(tree, { source: "// a\nb" });
  assert.deepEqual([comment.rule, comment.line, comment.column], ["Comment", 1, 1]);
  assert.equal(comment.node, tree.comments[0]);
  const program = parsed("  a");
  const indent = errorOf(program, { source: "  a", options: { initial_indent: 2 ** 32 - 1 } });
  assert.equal(indent.rule, "Indent");
  assert.equal(indent.node, program);
});
