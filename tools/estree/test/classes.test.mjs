// Classes, patterns and targets as the rows of a job. These tests need no built program.
import assert from "node:assert/strict";
import { test } from "node:test";
import { jobOf } from "../../../bindings/node/lib/convert.mjs";
import { parsed } from "../parser.mjs";
import { isType } from "../../../bindings/node/lib/reads.mjs";
import { renaming } from "../../../bindings/node/lib/scopes.mjs";

function rowsOf(source, rest = {}) {
  return jobOf(parsed(source), { source, spans: false, ...rest }).rows;
}

// Why a test is left out: false where all these types are read.
function unread(...types) {
  return !types.every(isType) && `${types.find((type) => !isType(type))} isn't read yet`;
}

const CLASSES = unread("Class", "ClassBody", "StaticBlock", "MethodDefinition", "PropertyDefinition");
const PRIVATE = CLASSES || unread("PrivateIdentifier", "PrivateFieldExpression", "PrivateInExpression");
const PATTERNS = unread("ObjectPattern", "BindingProperty", "BindingRestElement", "ArrayPattern", "AssignmentPattern");
const TARGETS = unread(
  "ArrayAssignmentTarget", "ObjectAssignmentTarget", "AssignmentTargetWithDefault", "AssignmentTargetPropertyIdentifier",
  "AssignmentTargetPropertyProperty", "AssignmentTargetRest",
);

test("import.meta is a row", { skip: unread("ImportMeta") }, () => {
  assert.deepEqual(rowsOf("import.meta.a").slice(0, 3).map(({ type }) => type), ["ImportMeta", "IdentifierName", "StaticMemberExpression"]);
});

test("classes have their kind, their name, what they extend and their body", { skip: CLASSES }, () => {
  assert.deepEqual(rowsOf("class A extends b {}").slice(0, -1), [
    { type: "BindingIdentifier", name: "A" },
    { type: "IdentifierReference", name: "b" },
    { type: "ClassBody" },
    { type: "Class", kind: "declaration", id: 0, heritage: 1, body: 2 },
  ]);
  assert.deepEqual(rowsOf("(class {})").slice(0, 2), [{ type: "ClassBody" }, { type: "Class", kind: "expression", body: 0 }]);
});

test("members of a class have their kind and their key", { skip: CLASSES }, () => {
  const rows = rowsOf("class A { constructor() {} static b() {} get 'c'() {} set [d](e) {} f; static 1 = g; static { h } }");
  const members = rows.find(({ type }) => type === "ClassBody").body.map((row) => rows[row]);
  assert.deepEqual(members.map(({ type, kind, computed, is_static }) => [type, kind, computed, is_static]), [
    ["MethodDefinition", "constructor", undefined, undefined],
    ["MethodDefinition", "method", undefined, true],
    ["MethodDefinition", "get", undefined, undefined],
    ["MethodDefinition", "set", true, undefined],
    ["PropertyDefinition", undefined, undefined, undefined],
    ["PropertyDefinition", undefined, undefined, true],
    ["StaticBlock", undefined, undefined, undefined],
  ]);
  const keys = members.slice(0, -1).map(({ key }) => rows[key].type);
  assert.deepEqual(keys, ["IdentifierName", "IdentifierName", "StringLiteral", "IdentifierReference", "IdentifierName", "NumericLiteral"]);
  assert.equal(rows[members[1].value].type, "Function");
  assert.equal(rows[members[5].value].type, "IdentifierReference");
  assert.equal(rows[members[6].body[0]].type, "ExpressionStatement");
});

test("private names stand in keys, members and tests", { skip: PRIVATE }, () => {
  const rows = rowsOf("class A { #x = a.#x; y = a?.#x; z = #x in a }");
  const of = (wanted) => rows.filter(({ type }) => type === wanted);
  assert.deepEqual(of("PrivateIdentifier"), Array(4).fill({ type: "PrivateIdentifier", name: "x" }));
  assert.deepEqual(of("PrivateFieldExpression").map(({ optional }) => optional), [undefined, true]);
  assert.deepEqual(rows[of("PrivateInExpression")[0].right], { type: "IdentifierReference", name: "a" });
  const source = "class A { #x }";
  const spans = jobOf(parsed(source), { source }).rows.find(({ type }) => type === "PrivateIdentifier").span;
  assert.deepEqual(spans, [10, 12]);
});

test("new private names stand in a table for each class", { skip: PRIVATE }, () => {
  const program = parsed("class A extends class { #x } { #y }");
  assert.deepEqual(jobOf(program, { names: renaming(program) }).private, [{ x: "a" }, { y: "a" }]);
});

test("patterns have their properties and elements, and what takes the rest", { skip: PATTERNS }, () => {
  assert.deepEqual(rowsOf("let { a, [b]: c = d, ...e } = f").slice(0, 11), [
    { type: "IdentifierName", name: "a" },
    { type: "BindingIdentifier", name: "a" },
    { type: "BindingProperty", key: 0, value: 1 },
    { type: "IdentifierReference", name: "b" },
    { type: "BindingIdentifier", name: "c" },
    { type: "IdentifierReference", name: "d" },
    { type: "AssignmentPattern", left: 4, right: 5 },
    { type: "BindingProperty", key: 3, value: 6, computed: true },
    { type: "BindingIdentifier", name: "e" },
    { type: "BindingRestElement", argument: 8 },
    { type: "ObjectPattern", properties: [2, 7], rest: 9 },
  ]);
  const arrays = (source) => rowsOf(source).filter(({ type }) => type === "ArrayPattern");
  assert.deepEqual(arrays("for (const [a, , b] of c);"), [{ type: "ArrayPattern", elements: [0, null, 1] }]);
  const [inner, outer] = [{ type: "ArrayPattern", elements: [1] }, { type: "ArrayPattern", elements: [null], rest: 3 }];
  assert.deepEqual(arrays("f(([, ...[a]]) => a)"), [inner, outer]);
  assert.deepEqual(arrays("try {} catch ([]) {}"), [{ type: "ArrayPattern" }]);
});

test("a parameter's own default is no pattern", { skip: PATTERNS }, () => {
  const types = rowsOf("f(({ a = 1 } = {}, ...[b]) => a)").map(({ type }) => type);
  assert.equal(types.filter((type) => type === "AssignmentPattern").length, 1);
  assert.ok(types.indexOf("FormalParameterRest") > types.indexOf("ArrayPattern"));
});

test("targets have their properties and elements, and what takes the rest", { skip: TARGETS }, () => {
  assert.deepEqual(rowsOf("({ a, b = c, d: (e), 'f': g.h = i, ...j } = k)").slice(0, 17), [
    { type: "IdentifierReference", name: "a" },
    { type: "AssignmentTargetPropertyIdentifier", binding: 0 },
    { type: "IdentifierReference", name: "b" },
    { type: "IdentifierReference", name: "c" },
    { type: "AssignmentTargetPropertyIdentifier", binding: 2, init: 3 },
    { type: "IdentifierName", name: "d" },
    { type: "IdentifierReference", name: "e" },
    { type: "AssignmentTargetPropertyProperty", name: 5, binding: 6 },
    { type: "StringLiteral", value: "f" },
    { type: "IdentifierReference", name: "g" },
    { type: "IdentifierName", name: "h" },
    { type: "StaticMemberExpression", object: 9, property: 10 },
    { type: "IdentifierReference", name: "i" },
    { type: "AssignmentTargetWithDefault", binding: 11, init: 12 },
    { type: "AssignmentTargetPropertyProperty", name: 8, binding: 13 },
    { type: "IdentifierReference", name: "j" },
    { type: "AssignmentTargetRest", target: 15 },
  ]);
  const arrays = (source) => rowsOf(source).filter(({ type }) => type === "ArrayAssignmentTarget");
  assert.deepEqual(arrays("for ([a, , b = 1] of c);").map(({ elements }) => elements), [[0, null, 3]]);
  assert.deepEqual(arrays("[,] = a"), [{ type: "ArrayAssignmentTarget", elements: [null] }]);
});

test("parentheses of targets are no rows", { skip: TARGETS }, () => {
  const program = parsed("[(a), [(b.c)], ...(d)] = e", { parentheses: true });
  assert.ok(jobOf(program, { spans: false }).rows.every(({ type }) => type !== "ParenthesizedExpression"));
});
