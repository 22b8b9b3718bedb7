// Nodes whose names are other than those that parsers give, or come in another order, are judged as any are, whatever nodes of their type were
// met before. These tests need no built program.
import assert from "node:assert/strict";
import { test } from "node:test";
import { jobOf } from "../../../bindings/node/lib/convert.mjs";
import { firstLook } from "../../../bindings/node/lib/looks.mjs";
import { parsed } from "../parser.mjs";

const NAMES = ["type", "start", "end", "callee", "arguments", "optional"];
// More orders than are kept.
const MANY = 300;

function call(change) {
  const program = parsed("f(a, b)");
  const statement = program.body[0];
  statement.expression = change(statement.expression);
  return program;
}

function rowsOf(change) {
  return jobOf(call(change), { spans: false }).rows;
}

function messageOf(change) {
  try {
    rowsOf(change);
    return null;
  } catch (error) {
    return `${error.name}: ${error.message}`;
  }
}

function inOrder(node, names) {
  return Object.fromEntries(names.map((name) => [name, node[name]]));
}

function without(node, name) {
  return inOrder(node, NAMES.filter((other) => other !== name));
}

// An order of the names for each number.
function ordered(number) {
  const left = [...NAMES];
  const names = [];
  for (let rest = number; left.length > 0; rest = Math.floor(rest / (left.length + 1))) names.push(...left.splice(rest % left.length, 1));
  return names;
}

// That a name is unknown or missing is told of each of many orders, and a node as parsers give it is taken after any of them.
test("the order of names changes nothing, be there ever so many", () => {
  const wanted = rowsOf((node) => node);
  for (let number = 0; number < MANY; number += 1) {
    const names = ordered(number);
    assert.deepEqual(rowsOf((node) => inOrder(node, names)), wanted);
    const other = messageOf((node) => ({ ...inOrder(node, names), [`other${number}`]: 1 }));
    assert.equal(other, `NotRead: other${number} of CallExpression at 0 is not read yet`);
    const missing = messageOf((node) => inOrder(node, names.filter((name) => name !== "arguments")));
    assert.equal(missing, "TypeError: program.body[0].expression.arguments is no list");
    assert.deepEqual(rowsOf((node) => node), wanted);
  }
});

test("what is wrong is told in the order of a node's names, and what is missing behind that", () => {
  const broken = (node) => ({ ...node, optional: 1, arguments: 2 });
  const [list, flag] = ["program.body[0].expression.arguments is no list", "program.body[0].expression.optional is neither true nor false"];
  assert.equal(messageOf(broken), `TypeError: ${list}`);
  assert.equal(messageOf((node) => inOrder(broken(node), ["optional", "arguments", "type", "callee"])), `TypeError: ${flag}`);
  assert.equal(messageOf((node) => without({ ...node, optional: 1 }, "callee")), `TypeError: ${flag}`);
});

test("of names that a node inherits those that it needs count, and no others", () => {
  const wanted = rowsOf((node) => node);
  const inherits = (node, name) => Object.assign(Object.create({ [name]: node[name], other: 1 }), without(node, name));
  assert.deepEqual(rowsOf((node) => inherits(node, "callee")), wanted);
  assert.deepEqual(rowsOf((node) => inherits(node, "arguments")), wanted);
  assert.equal(messageOf((node) => inherits({ ...node, callee: 5 }, "callee")), "TypeError: program.body[0].expression.callee is no node");
  assert.equal(messageOf((node) => inherits({ ...node, callee: undefined }, "callee")), "TypeError: program.body[0].expression.callee is no node");
});

test("a node may be without a prototype, be frozen, be a proxy, and hide what it needs", () => {
  const wanted = rowsOf((node) => node);
  assert.deepEqual(rowsOf((node) => Object.assign(Object.create(null), node)), wanted);
  assert.deepEqual(rowsOf((node) => Object.freeze({ ...node })), wanted);
  assert.deepEqual(rowsOf((node) => new Proxy(node, {})), wanted);
  assert.deepEqual(rowsOf((node) => Object.defineProperty(node, "arguments", { enumerable: false })), wanted);
});

test("a look knows the member of the name that was met, and what is still missing", () => {
  const [a, b] = [{ holds: 1, isNeeded: true }, { holds: 2, isNeeded: false }];
  const look = firstLook(new Map([["a", a], ["b", b]]), ["a"]);
  assert.deepEqual(look.missing, ["a"]);
  assert.deepEqual([look.after("b").member, look.after("b").missing], [b, ["a"]]);
  assert.deepEqual([look.after("b").after("a").member, look.after("b").after("a").missing], [a, []]);
  assert.deepEqual([look.after("c").member, look.after("c").missing], [null, ["a"]]);
  assert.equal(look.after("a"), look.after("a"));
  for (let number = 0; number < MANY; number += 1) assert.equal(look.after(`c${number}`).member, null);
  assert.equal(look.after("b").after("a").member, a);
});
