// Literals are what their members say, also where these were changed since they were parsed. Those tests that print need the program.
import assert from "node:assert/strict";
import { spawnSync } from "node:child_process";
import { test } from "node:test";
import { inspect } from "node:util";
import { runInNewContext } from "node:vm";
import { jobOf } from "../../../bindings/node/lib/convert.mjs";
import { parsed } from "../parser.mjs";
import { program as jsgen, unbuilt } from "../program.mjs";

function literalIn(node) {
  if (node === null || typeof node !== "object") return null;
  if (node.type === "Literal") return node;
  return Object.values(node).map(literalIn).find((found) => found) ?? null;
}

// A program whose first literal has these members.
function changed(source, members) {
  const tree = parsed(source);
  Object.assign(literalIn(tree), members);
  return tree;
}

function printed(tree, settings = {}) {
  const { status, stdout, stderr } = spawnSync(jsgen(), ["print"], { input: JSON.stringify(jobOf(tree, settings)) });
  assert.equal(status, 0, stderr.toString());
  return stdout.toString().trim();
}

function refusal(tree) {
  try {
    jobOf(tree);
    return null;
  } catch (error) {
    assert.equal(error.name, "NotRead", error.stack);
    return error.message;
  }
}

const WITHOUT = { regex: undefined, bigint: undefined };
// A program, what its literal is made, and what is printed.
const PRINTED = [
  ["x = 1", {}, "x = 1;"],
  ["x = 1", { value: 2 }, "x = 2;"],
  ["x = 0xFF", {}, "x = 0xFF;"],
  ["x = 0xFF", { value: 256 }, "x = 256;"],
  ["x = 1_000.5e-7", {}, "x = 1_000.5e-7;"],
  ["x = 1_000", { value: 1 }, "x = 1;"],
  ["x = 1", { raw: "1.0" }, "x = 1.0;"],
  ["x = 1", { raw: undefined, value: 1e21 }, "x = 1e+21;"],
  ["x = 1", { value: 5e-324 }, "x = 5e-324;"],
  ["x = 8", { raw: "010" }, "x = 8;"],
  ["x = 1", { raw: " 1" }, "x = 1;"],
  ["x = 1", { raw: "+1" }, "x = 1;"],
  ["x = 1", { value: -1 }, "x = -1;"],
  ["x = 1", { value: -0 }, "x = -0;"],
  ["x = 1", { value: -1.5e-7 }, "x = -1.5e-7;"],
  ["x = (1).a", { value: -1 }, "x = (-1).a;"],
  ["x = 1 ** 2", { value: -1 }, "x = (-1) ** 2;"],
  ["x = -1", { value: -1 }, "x = - -1;"],
  ["x = -1", { value: -0 }, "x = - -0;"],
  ["x = 1", { value: Infinity }, "x = 1e999;"],
  ["x = (1).a", { value: -Infinity }, "x = (-1e999).a;"],
  ["x = 1e999", { value: null }, "x = 1e999;"],
  ["x = { [1]: 2 }", { value: -1 }, "x = { [-1]: 2 };"],
  ["x = 1", { value: 2n }, "x = 2n;"],
  ["x = 1n", {}, "x = 1n;"],
  ["x = 0x1Fn", {}, "x = 31n;"],
  ["x = 1n", { value: 2n }, "x = 2n;"],
  ["x = 1n", { bigint: "2" }, "x = 2n;"],
  ["x = 1n", { value: -2n }, "x = -2n;"],
  ["x = 1n ** 2n", { value: -3n }, "x = (-3n) ** 2n;"],
  ["x = 1n", { value: null }, "x = 1n;"],
  ["x = 1n", { ...WITHOUT, value: null }, "x = 1n;"],
  ["x = /a/g", {}, "x = /a/g;"],
  ["x = /a/g", { value: /b/i }, "x = /b/i;"],
  ["x = /a/g", { regex: { pattern: "b", flags: "i" } }, "x = /b/i;"],
  ["x = /[/]\\/a/mig", {}, "x = /[/]\\/a/mig;"],
  ["x = /a/g", { value: {} }, "x = /a/g;"],
  ["x = /a/g", { ...WITHOUT, value: {} }, "x = /a/g;"],
  ["x = /a/g", { ...WITHOUT, value: null }, "x = /a/g;"],
  ["x = 1", { value: /a\/[/]/u, raw: undefined }, "x = /a\\/[/]/u;"],
  ["x = 1", { value: new RegExp("") }, "x = /(?:)/;"],
  ["x = 1", { value: runInNewContext("/a/") }, "x = /a/;"],
  ["x = null", {}, "x = null;"],
  ["x = 1", { value: null }, "x = null;"],
  ["x = 'a'", { value: null }, "x = null;"],
  ["x = 'a'", { value: "b" }, 'x = "b";'],
  ["x = 1", { value: "b" }, 'x = "b";'],
  ["x = true", { value: false }, "x = false;"],
];
const REFUSED = [
  ["x = 1", { value: NaN }, "NaN as the value of Literal at 4 is not read yet"],
  ["x = 1", { value: undefined }, "a Literal without a value at 4 is not read yet"],
  ["x = 1", { value: {} }, "this value of Literal at 4 is not read yet"],
  ["x = 1", { value: new Date(0) }, "this value of Literal at 4 is not read yet"],
  ["x = 1", { value: () => 1 }, "this value of Literal at 4 is not read yet"],
  ["x = 1", { value: Symbol("a") }, "this value of Literal at 4 is not read yet"],
  ["x = 1n", { value: 2n, bigint: "3" }, "a Literal whose bigint isn't its value at 4 is not read yet"],
  ["x = 1n", { value: 1 }, "a Literal whose bigint isn't its value at 4 is not read yet"],
  ["x = 1n", { value: null, bigint: "01" }, "a Literal whose bigint isn't its value at 4 is not read yet"],
  ["x = /a/", { value: /b/, regex: { pattern: "c", flags: "" } }, "a Literal whose regex isn't its value at 4 is not read yet"],
  ["x = /a/", { value: "a" }, "a Literal whose regex isn't its value at 4 is not read yet"],
  ["x = /a/", { regex: { pattern: "a" } }, "a Literal whose regex isn't its value at 4 is not read yet"],
  ["x = { 1: 2 }", { value: -1 }, "a negative number as a key at 6 is not read yet"],
  ["x = { 1: 2 }", { value: -0 }, "a negative number as a key at 6 is not read yet"],
  ["class A { 1() {} }", { value: -1n }, "a negative number as a key at 10 is not read yet"],
  ["let { 1: a } = b", { value: -1 }, "a negative number as a key at 6 is not read yet"],
];

function shown(source, members) {
  const changes = Object.keys(members).map((name) => `${name} ${inspect(members[name])}`);
  return changes.length > 0 ? `${source} with ${changes.join(", ")}` : source;
}

for (const [source, members, text] of PRINTED) {
  test(`${shown(source, members)} is ${text}`, { skip: unbuilt }, () => assert.equal(printed(changed(source, members)), text));
}

for (const [source, members, message] of REFUSED) {
  test(`${shown(source, members)} is refused`, () => assert.equal(refusal(changed(source, members)), message));
}

test("what is printed for a number has its value", { skip: unbuilt }, () => {
  const values = [1, -1, -0, 0.1, -1e300, 1e21, 1e-7, 2 ** 53, -(2 ** 64), Number.MAX_VALUE, -Number.MIN_VALUE, Infinity, -Infinity, 2n ** 130n, -7n];
  for (const options of [{}, { minify: true }]) {
    for (const negative of [false, true]) {
      const number = (value) => ({ type: "Literal", value });
      const tree = parsed("[]");
      const minus = (value) => ({ type: "UnaryExpression", operator: "-", prefix: true, argument: number(value) });
      tree.body[0].expression.elements = values.flatMap((value) => [number(value), minus(value)]);
      const wanted = values.flatMap((value) => [value, -value]);
      assert.deepEqual(new Function(`return ${printed(tree, { options, negative })}`)(), wanted);
    }
  }
});

test("a tree that was JSON keeps its literals", { skip: unbuilt }, () => {
  const source = "x = [1, -1, 1e999, 0x1F, /a[/]/gi, 'b', null, true, `c`];";
  const tree = JSON.parse(JSON.stringify(parsed(source)));
  assert.equal(printed(tree), printed(parsed(source)));
});

test("a template of which raw and cooked say different things is refused by the program", { skip: unbuilt }, () => {
  for (const value of [{ raw: "a\\n", cooked: "b" }, { raw: "b", cooked: "a\n" }, { raw: "b" }, { raw: "\\u", cooked: "u" }]) {
    const tree = parsed("`a\\n${b}`");
    tree.body[0].expression.quasis[0].value = value;
    const { status, stderr } = spawnSync(jsgen(), ["print"], { input: JSON.stringify(jobOf(tree)) });
    assert.deepEqual([status, stderr.toString().trim()], [1, "refused: Template at 0"]);
  }
});
