// What the nodes of a tree have: each member is read or refused, and a tree that is none is told by the way to where it is broken.
// These tests need no built program.
import assert from "node:assert/strict";
import { spawnSync } from "node:child_process";
import { test } from "node:test";
import { fileURLToPath } from "node:url";
import { isDeepStrictEqual } from "node:util";
import { MalformedTree, NotRead, jobOf } from "../../../bindings/node/lib/convert.mjs";
import { parsed } from "../parser.mjs";

const SOURCES = [
  "a; { b } ; debugger; if (a) b; else c; if (a) b",
  "let a = 1, b; const c = `d${e}f`; var [g, , h = 2, ...i] = j, { k, l: m = 3, [n]: o, ...p } = q",
  "a: while (b) { continue a; break } do { break } while (c)",
  "for (;;) a; for (let b = 1; c; d) e; for (f in g) h; for (const i of j) k; for await (l of m) n",
  "switch (a) { case b: c; default: } try { d } catch (e) { f } finally { g } try {} catch {} throw h",
  "function f(a, b = 1, { c }, ...d) { return a } function h() { 'use strict' } async function* g() { await b; yield; yield* c; return }",
  "x = async (a, b = 1, ...c) => a; y = () => {}; z = function () { new.target }; import.meta",
  "class A extends B { #a = 1; constructor() { super(); super.b } get c() {} static set d(e) {} static { f } ['g'] = h; i; #j() { #a in k; l.#a } }",
  "x = class B {}; a.b; a?.b; a[b]; a?.[b]; f(a, ...b); f?.(); new F; new F(a); a ? b : c; a, b; a += b; [a, , ...b]; -a; a++; --b; a && b",
  "({ a, b: c, d() {}, get e() {}, set e(f) {}, [g]: h, 'i': 1, 2: /j/g, ...k }); ({ a, b = 1, c: d.e, ...f } = g); [a, , b = 1, ...c] = d",
  "f`a${b}c`; import('a'); 1n; 'a'; 1.5; null; true; a in b; a ** b",
  "import a, { b as c, d, 'e f' as g } from 'x'; import * as h from 'y'; import 'z'; export { a, c as 'i j' }; export let k; export default l",
  "export * from 'x'; export * as a from 'y'; export { b as c, 'd e' as f } from 'z'; export default function () {}",
];
const PARENTHESES = "(a) = (b); (c.d)++; [(e)] = f; for ((g) of h);";
const ATTRIBUTES = "import a from 'x'; export * from 'y'; export { b } from 'z'; import('v');";
const NAME = { type: "Identifier", name: "other" };
const VALUES = [undefined, null, false, true, 5, "other", {}, [], [null], [NAME], () => 1, NAME, { type: "JSXElement" }];
const NOTES = new Set(["type", "start", "end"]);

// What another member says too, or what says nothing: these may be changed. Literals have tests of their own.
const SAID_TWICE = /^(Literal\..*|TemplateElement\.tail|UnaryExpression\.prefix|ArrowFunctionExpression\.expression|Property\.shorthand|Program\.sourceType)$/;

function treesOf() {
  const withAttributes = parsed(ATTRIBUTES);
  const [first, second, third, { expression }] = withAttributes.body;
  const attribute = () => ({ type: "ImportAttribute", key: { ...NAME }, value: { type: "Literal", value: "json" } });
  for (const node of [first, second, third]) node.attributes = [attribute(), attribute()];
  expression.options = { ...NAME };
  const babel = parsed("a");
  babel.interpreter = { type: "InterpreterDirective", value: "/bin/node" };
  const oxc = parsed("a");
  oxc.hashbang = { type: "Hashbang", value: "/bin/node" };
  return [...SOURCES.map((source) => parsed(source)), parsed(PARENTHESES, { parentheses: true }), withAttributes, babel, oxc];
}

function* nodesIn(value) {
  if (Array.isArray(value)) for (const inside of value) yield* nodesIn(inside);
  else if (typeof value?.type === "string") {
    yield value;
    for (const name of Object.keys(value)) yield* nodesIn(value[name]);
  }
}

function jobText(program) {
  return JSON.stringify(jobOf(program, { spans: false }));
}

// The error that a tree gives, which is none of any other kind.
function refusalOf(program) {
  try {
    jobOf(program, { spans: false });
    return null;
  } catch (error) {
    assert.ok(error instanceof NotRead || error instanceof MalformedTree, error.stack);
    return error;
  }
}

test("a member that isn't known is refused by its name, the node's type and the place, whatever node has it", () => {
  for (const source of SOURCES) {
    const program = parsed(source);
    for (const node of nodesIn(program)) {
      node.other = 1;
      const message = `other of ${node.type} in line 1, column ${node.start + 1} is not read yet`;
      assert.throws(() => jobOf(program, { source }), { name: "NotRead", message });
      delete node.other;
    }
  }
});

test("what parsers note of a node is passed over, and so are members that say nothing", () => {
  const notes = ["loc", "range", "extra", "parent", "tokens", "comments", "leadingComments", "trailingComments", "innerComments", "errors", "sourceFile", "_rollupAnnotations", "_rollupRemoved"];
  for (const source of SOURCES) {
    const program = parsed(source);
    const wanted = jobText(program);
    for (const node of [...nodesIn(program)]) {
      for (const name of notes) node[name] = [1];
    }
    assert.equal(jobText(program), wanted);
    for (const node of nodesIn(parsed(source))) Object.assign(node, { other: null, another: undefined, third: false, fourth: [] });
    assert.equal(jobText(program), wanted);
  }
});

test("a member that is changed changes the job, or is refused", () => {
  let refused = 0;
  let changed = 0;
  for (const program of treesOf()) {
    const before = jobText(program);
    for (const node of nodesIn(program)) {
      for (const name of Object.keys(node).filter((key) => !NOTES.has(key) && !SAID_TWICE.test(`${node.type}.${key}`))) {
        const old = node[name];
        for (const value of VALUES) {
          node[name] = value;
          const isSame = isDeepStrictEqual(value, old) || (isNothing(value) && isNothing(old));
          if (refusalOf(program)) refused += 1;
          else if (!isSame) {
            changed += 1;
            assert.notEqual(jobText(program), before, `${name} of ${node.type} in ${before}: ${String(value)}`);
          }
        }
        node[name] = old;
      }
    }
  }
  assert.ok(refused > 1000 && changed > 100, `${refused} refused, ${changed} changed`);
});

function isNothing(value) {
  return value === undefined || value === null || value === false || (Array.isArray(value) && value.length === 0);
}

// The error of a program whose first statement is changed so.
function refusedBy(source, change) {
  const program = parsed(source);
  change(program.body[0], program);
  return refusalOf(program)?.message;
}

test("what parsers say of types, of phases and of keywords that aren't read is refused", () => {
  const annotation = { type: "TSTypeAnnotation" };
  const refused = [
    ["let a", (node) => (node.declare = true), "declare of VariableDeclaration at 0 is not read yet"],
    ["let a", (node) => (node.declarations[0].id.typeAnnotation = annotation), "typeAnnotation of Identifier at 4 is not read yet"],
    ["let a", (node) => (node.declarations[0].definite = true), "definite of VariableDeclarator at 4 is not read yet"],
    ["let a", (node) => (node.kind = "using"), "kind using of VariableDeclaration at 0 is not read yet"],
    ["f()", (node) => (node.expression.typeArguments = annotation), "typeArguments of CallExpression at 0 is not read yet"],
    ["f()", (node) => (node.expression.typeParameters = annotation), "typeParameters of CallExpression at 0 is not read yet"],
    ["x = (a) => b", (node) => (node.expression.right.params[0].optional = true), "optional of Identifier at 5 is not read yet"],
    ["class A {}", (node) => (node.decorators = [annotation]), "decorators of ClassDeclaration at 0 is not read yet"],
    ["class A { b }", (node) => (node.body.body[0].accessibility = "private"), "accessibility of PropertyDefinition at 10 is not read yet"],
    ["import a from 'x'", (node) => (node.importKind = "type"), "importKind type of ImportDeclaration at 0 is not read yet"],
    ["import { a } from 'x'", (node) => (node.specifiers[0].importKind = "type"), "importKind type of ImportSpecifier at 9 is not read yet"],
    ["export * from 'x'", (node) => (node.exportKind = "type"), "exportKind type of ExportAllDeclaration at 0 is not read yet"],
    ["import a from 'x'", (node) => (node.phase = "defer"), "phase of ImportDeclaration at 0 is not read yet"],
    ["import('x')", (node) => (node.expression.phase = "source"), "phase of ImportExpression at 0 is not read yet"],
    ["import a from 'x'", (node) => (node.assertions = [attributeOf("json")]), "the keyword assert of ImportDeclaration at 0 is not read yet"],
    ["let a; a.b", (node, { body }) => (body[1].type = "WithStatement"), "WithStatement at 7 is not read yet"],
    ["for (a in b) c", (node) => (node.await = true), "await of ForInStatement at 0 is not read yet"],
  ];
  for (const [source, change, message] of refused) assert.equal(refusedBy(source, change), message, source);
  assert.equal(refusedBy("import { a } from 'x'", (node) => Object.assign(node, { importKind: "value", phase: null, assertions: [] })), undefined);
});

function attributeOf(value) {
  return { type: "ImportAttribute", key: { type: "Identifier", name: "type" }, value: { type: "Literal", value } };
}

test("the options of import() are those of either member, and not two", () => {
  const options = (change) => {
    const program = parsed("import('x')");
    Object.assign(program.body[0].expression, change);
    return jobOf(program, { spans: false }).rows.some(({ type, options: row }) => type === "ImportExpression" && row === 1);
  };
  assert.ok(options({ options: NAME }) && options({ attributes: NAME }) && options({ options: NAME, attributes: NAME }));
  assert.throws(() => options({ options: NAME, attributes: { ...NAME } }), /^TypeError: program\.body\[0\]\.expression has options and other attributes$/);
});

test("a script says how the parser is to be called", () => {
  const script = "a script at 0 is not read yet: ask the parser for sourceType: \"module\", since the default of acorn and espree is a script";
  assert.equal(refusedBy("a", (node, program) => (program.sourceType = "script")), script);
  assert.match(refusedBy("a", (node, program) => (program.sourceType = "commonjs")), /^sourceType commonjs of Program at 0 is not read yet: ask /);
});

test("a File is taken by its program", () => {
  const program = parsed("a");
  assert.deepEqual(jobOf({ type: "File", errors: [], comments: [], program }), jobOf(program));
});

test("a tree that is none is told by the way to where it is broken", () => {
  const program = (...body) => ({ type: "Program", body });
  const call = (...args) => program({ type: "ExpressionStatement", expression: { type: "CallExpression", callee: NAME, arguments: args } });
  const broken = [
    [null, "program is no node"],
    [undefined, "program is no node"],
    ["a", "program is no node"],
    [[], "program is no node"],
    [{}, "program.type is no text"],
    [{ type: "File" }, "program is no node"],
    [{ type: "Identifier", name: "a" }, "program is of type Identifier, not Program"],
    [{ type: "Program" }, "program.body is no list"],
    [{ type: "Program", body: {} }, "program.body is no list"],
    [program(null), "program.body[0] is no node"],
    [program(undefined), "program.body[0] is no node"],
    [program("a"), "program.body[0] is no node"],
    [program({}), "program.body[0].type is no text"],
    [program(NAME), "program.body[0] is of type Identifier, which is no statement"],
    [program({ type: "ReturnStatement", argument: "a" }), "program.body[0].argument is no node"],
    [program({ type: "VariableDeclaration", kind: "let" }), "program.body[0].declarations is no list"],
    [program({ type: "VariableDeclaration", declarations: [] }), "program.body[0].kind is no text"],
    [program({ type: "VariableDeclaration", kind: "let", declarations: [NAME] }),
      "program.body[0].declarations[0] is of type Identifier, which can't be the declarations of VariableDeclaration"],
    [program({ type: "ExpressionStatement", expression: { type: "Identifier" } }), "program.body[0].expression.name is no text"],
    [call(null), "program.body[0].expression.arguments[0] is no node"],
    [call(NAME, { type: "ArrayExpression", elements: [null, undefined] }), "program.body[0].expression.arguments[1].elements[1] is no node"],
    [call({ type: "MemberExpression", object: NAME, property: NAME, computed: 1 }), "program.body[0].expression.arguments[0].computed is neither true nor false"],
    [call({ type: "MemberExpression", object: NAME, property: { type: "Literal", value: 1 } }),
      "program.body[0].expression.arguments[0].property is of type Literal, which is no name"],
    [call({ type: "SpreadElement", argument: { type: "RestElement", argument: NAME } }),
      "program.body[0].expression.arguments[0].argument is of type RestElement, which is no expression"],
    [call({ type: "TemplateLiteral", quasis: [{ type: "TemplateElement" }], expressions: [] }),
      "program.body[0].expression.arguments[0].quasis[0] has no texts raw and cooked in its value"],
  ];
  for (const [tree, message] of broken) assert.throws(() => jobOf(tree), (error) => error instanceof TypeError && error.message === message, message);
});

test("a tree that goes round is told, and one that is too deep for the stack", () => {
  const program = parsed("-a");
  program.body[0].expression.argument = program.body[0].expression;
  assert.equal(refusalOf(program).message, "program.body[0].expression stands within itself");
  const twice = parsed("a + b");
  twice.body[0].expression.right = twice.body[0].expression.left;
  assert.equal(refusalOf(twice), null);
  const deep = parsed("a");
  for (let depth = 0; depth < 200_000; depth += 1) deep.body[0].expression = { type: "UnaryExpression", operator: "-", argument: deep.body[0].expression };
  assert.throws(() => jobOf(deep), { name: "RangeError", message: /^the tree is nested too deeply for the stack of this process/ });
});

test("a tree whose members contradict each other is refused", () => {
  const refused = [
    ["class A { a() {} }", (node) => (node.body.body[0].kind = "constructor"), "program.body[0].body.body[0] is of kind constructor, which its key contradicts"],
    ["class A { constructor() {} }", (node) => (node.body.body[0].kind = "method"), "program.body[0].body.body[0] is of kind method, which its key contradicts"],
    ["({ a() {} })", (node) => (node.expression.properties[0].kind = "get"), "program.body[0].expression.properties[0] is of kind get and a method"],
    ["let { a } = b", (node) => (node.declarations[0].id.properties[0].kind = "get"), "program.body[0].declarations[0].id.properties[0] is a method in a pattern"],
    ["let [...a] = b", (node) => node.declarations[0].id.elements.push(NAME),
      "program.body[0].declarations[0].id.elements[0] is of type RestElement, and something stands behind it"],
    ["export let a", (node) => (node.source = { type: "Literal", value: "x" }), "program.body[0] has more than its declaration"],
    ["export {}", (node) => (node.attributes = [attributeOf("json")]), "program.body[0] has attributes without a source"],
    ["import 'x'", (node) => (node.source.value = 1), "program.body[0].source is no string"],
    ["import.meta", (node) => (node.expression.property.name = "other"), "program.body[0].expression.property is other, of which import has none"],
    ["class A { #a; b = #a in c }", (node) => (node.body.body[1].value.operator = "+"),
      "program.body[0].body.body[1].value.left is of type PrivateIdentifier, which is no expression"],
    ["'use strict'", (node) => (node.expression.value = "use client"), "a directive that isn't what its expression says at 0 is not read yet"],
    ["'use strict'", (node, { body }) => body.unshift({ type: "EmptyStatement" }), "a directive that doesn't stand at the front of a body at 0 is not read yet"],
  ];
  for (const [source, change, message] of refused) assert.equal(refusedBy(source, change), message, source);
  assert.equal(refusedBy("'a\\u{62}\\x63\\\n\\t\\0\\'d'", () => {}), undefined);
});

test("a property of a target whose name was changed is no shorthand", () => {
  const program = parsed("({ a, b = 1, c } = d)");
  const [first, second] = program.body[0].expression.left.properties;
  Object.assign(first, { value: { type: "Identifier", name: "x" } });
  second.value.left = { type: "Identifier", name: "y" };
  const rows = jobOf(program, { spans: false }).rows;
  const names = rows.filter(({ type }) => /^Identifier/.test(type)).map(({ name }) => name);
  assert.deepEqual(names, ["a", "x", "b", "y", "c", "d"]);
});

test("a node without a place is told by the way to it", () => {
  const program = { type: "Program", body: [{ type: "ExpressionStatement", expression: { type: "JSXElement" } }] };
  assert.throws(() => jobOf(program), { name: "NotRead", message: "JSXElement at program.body[0].expression is not read yet" });
});

test("the command that writes jobs tells a tree that is none in one line", () => {
  const command = fileURLToPath(new URL("../job.mjs", import.meta.url));
  for (const [tree, line] of [
    ["null", "program is no node"],
    ["{}", "program.type is no text"],
    ['{"type":"Program","body":[null]}', "program.body[0] is no node"],
    ['{"type":"Program","body":[{"type":"WithStatement","start":0}]}', "WithStatement at 0 is not read yet"],
  ]) {
    const { status, stdout, stderr } = spawnSync(process.execPath, [command], { input: tree });
    assert.deepEqual([status, stdout.toString(), stderr.toString()], [1, "", `<stdin>: ${line}\n`]);
  }
});
