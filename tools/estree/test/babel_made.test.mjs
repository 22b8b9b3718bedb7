// Babel's own trees as tools make and change them: without places and what the parser notes, and with values that the source didn't have. What
// isn't read of them is refused by its name and its place. Those tests that parse take Debian's node-babel7, and none needs a built program.
import assert from "node:assert/strict";
import { test } from "node:test";
import { MalformedTree, NotRead, flatJobOf, jobOf } from "../../../bindings/node/lib/convert.mjs";
import { renaming } from "../../../bindings/node/lib/scopes.mjs";
import { babelTree, declarationOf, estreeTree, isMissing, moduleOf, nameOf, nodesIn, programOf, stringOf } from "../babel.mjs";
import { CHAINS, SOURCES } from "../babel_sources.mjs";
import { parsed } from "../parser.mjs";

// As a tool makes it: nodes without places and what the parser notes.
function bare(value) {
  if (Array.isArray(value)) return value.map(bare);
  if (typeof value !== "object" || value === null) return value;
  const notes = ["start", "end", "loc", "range", "extra", "errors", "comments", "leadingComments", "trailingComments", "innerComments"];
  return Object.fromEntries(Object.entries(value).filter(([name]) => !notes.includes(name)).map(([name, inside]) => [name, bare(inside)]));
}

test("trees without extra and places give the same jobs, but for texts of numbers and chains in parentheses", { skip: isMissing }, () => {
  for (const source of [...Object.values(SOURCES), ...CHAINS].filter((text) => !/0x10|0xFF|\)\)?\?\./.test(text))) {
    assert.deepEqual(jobOf(bare(babelTree(source)).program), jobOf(babelTree(source)), source);
  }
});

test("what a tool makes without the members that say nothing is read", () => {
  const body = { type: "BlockStatement", body: [] };
  const method = (members) => ({ type: "ObjectMethod", key: nameOf("a"), params: [], body, ...members });
  const made = moduleOf({
    type: "ObjectExpression",
    properties: [
      method({ kind: "method" }), method({ kind: "get", computed: null }), { type: "ObjectProperty", key: stringOf("b"), value: nameOf("c"), decorators: null },
      { type: "ObjectProperty", key: { type: "NumericLiteral", value: 1 }, value: { type: "RegExpLiteral", pattern: "a", flags: "g" } },
    ],
  });
  const rows = jobOf(made).rows.filter(({ type }) => type === "ObjectProperty").map(({ kind, method: isMethod }) => [kind, isMethod]);
  assert.deepEqual(rows, [["init", true], ["get", undefined], ["init", undefined], ["init", undefined]]);
  assert.deepEqual(jobOf(made), jobOf(parsed("({ a() {}, get a() {}, 'b': c, 1: /a/g })")));
  const named = { type: "ExportNamedDeclaration", specifiers: [{ type: "ExportNamespaceSpecifier", exported: nameOf("a") }], source: stringOf("b") };
  assert.deepEqual(jobOf(programOf([named])), jobOf(parsed("export * as a from 'b'")));
  const privates = { type: "ClassPrivateProperty", key: { type: "PrivateName", id: nameOf("a") }, value: null, static: null };
  const made2 = { type: "ClassDeclaration", id: nameOf("A"), superClass: null, body: { type: "ClassBody", body: [privates] }, decorators: null };
  assert.deepEqual(jobOf(programOf([made2])), jobOf(parsed("class A { #a }")));
  const directive = { type: "Directive", value: { type: "DirectiveLiteral", value: "a\\u0062'" } };
  assert.deepEqual(jobOf(programOf([], [directive])), jobOf(parsed("\"a\\u0062'\"")));
});

test("a literal prints its value, and extra.raw only where it has that", { skip: isMissing }, () => {
  const changed = (source, change) => {
    const tree = babelTree(source);
    change(tree.program.body[0].expression);
    return jobOf(tree, { spans: false });
  };
  const wanted = (source) => jobOf(parsed(source), { spans: false });
  assert.deepEqual(changed("0x10", () => {}), wanted("0x10"));
  assert.deepEqual(changed("0x10", (node) => (node.value = 17)), wanted("17"));
  assert.deepEqual(changed("0x10", (node) => (node.extra.raw = "1_7")), wanted("16"));
  assert.deepEqual(changed("0x10", (node) => (node.extra = { raw: "16.0" })), wanted("16"));
  assert.deepEqual(changed("0x10", (node) => (node.extra.raw = "16.0")), wanted("16.0"));
  assert.deepEqual(changed("1", (node) => (node.value = -1)), wanted("-1"));
  assert.deepEqual(changed("1", (node) => (node.value = -0)), wanted("-0"));
  assert.deepEqual(changed("1", (node) => (node.value = Infinity)), wanted("1e999"));
  assert.deepEqual(changed("1n", (node) => (node.value = "0x_f".replace("_", ""))), wanted("15n"));
  assert.deepEqual(changed("1n", (node) => (node.value = 15n)), wanted("15n"));
  assert.deepEqual(changed("('a')", (node) => (node.value = "b")), wanted("('b')"));
  assert.deepEqual(changed("/a/", (node) => Object.assign(node, { pattern: "b", flags: "g" })), wanted("/b/g"));
  assert.deepEqual(changed("true", (node) => (node.value = false)), wanted("false"));
  const directive = babelTree("'a'");
  directive.program.directives[0].value.value = "b\\n";
  assert.deepEqual(jobOf(directive), jobOf(parsed("'b\\n'")));
});

test("of a chain that was changed the types count", { skip: isMissing }, () => {
  const link = (object, optional, extra) => ({ type: "OptionalMemberExpression", object, property: nameOf("x"), computed: false, optional, extra });
  const same = (expression, source) => assert.deepEqual(jobOf(moduleOf(expression)), jobOf(parsed(source)), source);
  const written = { parenthesized: true };
  same(link(link(nameOf("a"), true), false), "a?.x.x");
  same(link(link(nameOf("a"), true, written), false), "a?.x.x");
  same(link(link(nameOf("a"), true, written), true), "(a?.x)?.x");
  same(link(link(nameOf("a"), true), true), "a?.x?.x");
  same({ ...link(link(nameOf("a"), true), false), type: "MemberExpression" }, "(a?.x).x");
  same(link(link(nameOf("a"), false), false), "a.x.x");
  same(link(link(nameOf("a"), false), true), "a.x?.x");
});

test("import() takes a second argument, as ImportExpression does", { skip: isMissing }, () => {
  const source = "import('a', b); import(c, { d: 1 })";
  const plugins = ["importAssertions"];
  assert.deepEqual(jobOf(babelTree(source, { plugins }), { source }), jobOf(estreeTree(source, { plugins }), { source }));
  const node = { type: "ImportExpression", source: stringOf("a"), options: nameOf("b"), phase: null };
  assert.deepEqual(jobOf(moduleOf(node)), jobOf(babelTree("import('a', b)", { plugins })));
});

test("attributes of imports", () => {
  const attribute = (key) => ({ type: "ImportAttribute", key, value: stringOf("json") });
  const attributes = [attribute(nameOf("type")), attribute(stringOf("a b"))];
  const own = programOf([{ type: "ImportDeclaration", specifiers: [], source: stringOf("x"), attributes, assertions: null, importKind: "value" }]);
  const types = jobOf(own).rows.map(({ type }) => type);
  assert.deepEqual(types, ["StringLiteral", "IdentifierName", "StringLiteral", "ImportAttribute", "StringLiteral", "StringLiteral", "ImportAttribute", "WithClause", "ImportDeclaration", "Program"]);
});

test("what a link that is no optional one calls by the name eval sees what is bound round it", () => {
  const link = (optional) => ({ type: "OptionalCallExpression", callee: nameOf("eval"), arguments: [], optional });
  const program = (optional) => programOf([declarationOf("a", null), ...moduleOf(link(optional)).body]);
  assert.deepEqual(renaming(program(false), ["x"]).symbols, ["a"]);
  assert.deepEqual(renaming(program(true), ["x"]).symbols, ["x"]);
});

// ---- what is refused

const BODY = { type: "BlockStatement", body: [] };
const NAME = nameOf("other");
const VALUES = [undefined, null, false, true, 5, "other", {}, [], [null], [NAME], () => 1, NAME, { type: "JSXElement" }];
const NOTES = new Set(["type", "start", "end", "loc", "extra", "innerComments", "leadingComments", "trailingComments", "errors"]);
// What another member says too, or the name that a shorthand says again: these may be changed.
const SAID_TWICE = /^(ObjectMethod\.method|ObjectProperty\.shorthand|TemplateElement\.(tail|value)|UnaryExpression\.prefix|Program\.sourceType)$/;

function refusalOf(program) {
  const errors = [jobOf, flatJobOf].map((make) => {
    try {
      make(program);
      return null;
    } catch (error) {
      assert.ok(error instanceof NotRead || error instanceof MalformedTree, error.stack);
      return error.message;
    }
  });
  assert.equal(errors[0], errors[1]);
  return errors[0];
}

// The refusal of a source whose program is changed so.
function refusedBy(source, change, plugins = []) {
  const { program } = babelTree(source, { plugins });
  change(program.body[0], program);
  return refusalOf(program);
}

const isNothing = (value) => value === undefined || value === null || value === false || (Array.isArray(value) && value.length === 0);

test("a member that is changed changes the job, or is refused", { skip: isMissing }, () => {
  let refused = 0;
  let changed = 0;
  for (const source of [SOURCES.literals, SOURCES.directives, SOURCES.properties, SOURCES.classes, SOURCES["private names"], SOURCES.patterns, SOURCES.exports, "a?.b.c(d)?.[e]; import('f')"]) {
    const tree = bare(babelTree(source));
    const before = JSON.stringify(jobOf(tree));
    for (const node of nodesIn(tree.program)) {
      for (const name of Object.keys(node).filter((key) => !NOTES.has(key) && !SAID_TWICE.test(`${node.type}.${key}`))) {
        const old = node[name];
        for (const value of VALUES) {
          node[name] = value;
          if (refusalOf(tree) !== null) refused += 1;
          else if (value !== old && !(isNothing(value) && isNothing(old))) {
            changed += 1;
            assert.notEqual(JSON.stringify(jobOf(tree)), before, `${name} of ${node.type} in ${source}: ${String(value)}`);
          }
        }
        node[name] = old;
      }
    }
  }
  assert.ok(refused > 1000 && changed > 100, `${refused} refused, ${changed} changed`);
});

test("a member that isn't known is refused by its name, the node's type and the place", { skip: isMissing }, () => {
  for (const source of [...Object.values(SOURCES), ...CHAINS]) {
    const { program } = babelTree(source);
    for (const node of nodesIn(program)) {
      node.other = 1;
      assert.equal(refusalOf(program), `other of ${node.type} at ${node.start} is not read yet`);
      delete node.other;
    }
  }
});

test("what Babel's transformations note is passed over", { skip: isMissing }, () => {
  const { program } = babelTree(SOURCES.properties);
  const before = jobOf(program);
  for (const node of nodesIn(program)) Object.assign(node, { _blockHoist: 2, _compact: true, trailingComments: [1], extra: { ...node.extra, trailingComma: 3, parenthesized: true } });
  assert.deepEqual(jobOf(program), before);
});

test("a link that was made a plain member or call is one, whatever it had as a link", { skip: isMissing }, () => {
  const tree = babelTree("a?.b; c?.(d); eval?.(e)");
  for (const { expression } of tree.program.body) expression.type = expression.type.replace("Optional", "");
  assert.deepEqual(jobOf(tree), jobOf(parsed("a.b; c(d); eval(e)")));
  tree.program.body.push(declarationOf("f", null));
  assert.deepEqual(renaming(tree, ["x"]).symbols, ["f"]);
  const estree = estreeTree("a?.b");
  estree.program.body[0].expression = estree.program.body[0].expression.expression;
  assert.ok(jobOf(estree).rows.some(({ optional }) => optional), "of ESTree it is a fault of the job, which has no chain");
});

test("a method that was made a function is one, whatever it had as a method", { skip: isMissing }, () => {
  const tree = babelTree("x = { get [a]() { b } }; y = class { static #c(d) {} }");
  const [{ expression: object }, { expression: type }] = tree.program.body;
  for (const assignment of [object, type]) {
    const [method] = (assignment.right.properties ?? assignment.right.body.body).map((node) => Object.assign(node, { type: "FunctionExpression" }));
    assignment.right = method;
  }
  assert.deepEqual(jobOf(tree), jobOf(parsed("x = function () { b }; y = function (d) {}")));
});

test("syntax of Babel's plugins is refused by its place", { skip: isMissing }, () => {
  const refused = [
    ["declare let x: number;", "typescript", "declare of VariableDeclaration at 0"],
    ["a;\nconst b: number = 1;", "typescript", "typeAnnotation of Identifier at 9"],
    ["f<T>();", "typescript", "typeParameters of CallExpression at 0"],
    ["a?.<T>()", "typescript", "typeParameters of OptionalCallExpression at 0"],
    ["import type { a } from 'x';", "typescript", "importKind type of ImportDeclaration at 0"],
    ["export type { a } from 'x';", "typescript", "exportKind type of ExportNamedDeclaration at 0"],
    ["export type * from 'x';", "flow", "exportKind type of ExportAllDeclaration at 0"],
    ["class A { private b; }", "typescript", "accessibility of ClassProperty at 10"],
    ["class A { private b() {} }", "typescript", "accessibility of ClassMethod at 10"],
    ["class A { b?: c }", "typescript", "optional of ClassProperty at 10"],
    ["abstract class A { }", "typescript", "abstract of ClassDeclaration at 0"],
    ["({ a(): b {} })", "typescript", "returnType of ObjectMethod at 3"],
    ["class A { #b: c }", "flow", "typeAnnotation of ClassPrivateProperty at 10"],
    ["a as b", "typescript", "TSAsExpression at 0"],
    ["a!", "typescript", "TSNonNullExpression at 0"],
    ["enum A {}", "typescript", "TSEnumDeclaration at 0"],
    ["type A = b", "flow", "TypeAlias at 0"],
    ["(a: b)", "flow", "TypeCastExpression at 1"],
    ["<a/>;", "jsx", "JSXElement at 0"],
    ["<></>;", "jsx", "JSXFragment at 0"],
    ["@a class B {}", "decorators", "decorators of ClassDeclaration at 0"],
    ["class B { @a c() {} }", "decorators", "decorators of ClassMethod at 10"],
    ["class A { accessor b }", "decoratorAutoAccessors", "ClassAccessorProperty at 10"],
    ["%DebugPrint(a)", "v8intrinsic", "V8IntrinsicIdentifier at 0"],
    ["export a from 'b'", "exportDefaultFrom", "ExportDefaultSpecifier at 7"],
    ["a::b", "functionBind", "BindExpression at 0"],
    ["do { a } while (b); c = do { d }", "doExpressions", "DoExpression at 24"],
    ["#{ a: 1 }", "recordAndTuple", "RecordExpression at 0"],
    ["a = throw b", "throwExpressions", "operator throw of UnaryExpression at 4"],
    ["module { a }", "moduleBlocks", "ModuleExpression at 0"],
    ["f(?)", "partialApplication", "ArgumentPlaceholder at 2"],
    ["1m", "decimal", "DecimalLiteral at 0"],
    ["import module a from 'b'", "importReflection", "module of ImportDeclaration at 0"],
    ["import a from 'x' assert { type: 'json' }", "importAssertions", "the keyword assert of ImportDeclaration at 0"],
    ["using a = b", "explicitResourceManagement", "kind using of VariableDeclaration at 0"],
  ];
  const settings = { decorators: { version: "2022-03" }, recordAndTuple: { syntaxType: "hash" } };
  for (const [source, name, wanted] of refused) {
    const plugins = [settings[name] ? [name, settings[name]] : name, ...(name === "decoratorAutoAccessors" ? [["decorators", settings.decorators]] : [])];
    const said = refusedBy(source, () => {}, plugins);
    assert.equal(said, `${wanted} is not read yet`, source);
  }
  for (const name of ["typescript", "flow"]) {
    assert.equal(refusedBy("let a = 1; let { b } = c; import d, { e } from 'f'; class G { h; i() {} #j; #k() {} } l?.m(); ({ n() {}, o }); export * as p from 'q'", () => {}, [name]), null);
  }
});

test("a script is refused, and says how the parser is to be called", { skip: isMissing }, () => {
  const message = 'a script at 0 is not read yet: ask the parser for sourceType: "module", since the default of acorn and espree is a script';
  assert.equal(refusalOf(babelTree("a", { sourceType: "script" })), message);
});

test("what contradicts itself, or is no tree, is told by the way to it in the tree itself", { skip: isMissing }, () => {
  const way = "program.body[0]";
  const refused = [
    ["a", (node) => (node.expression = { type: "Import" }), `${way}.expression is of type Import, which is no expression`],
    ["a", (node) => (node.expression = { type: "PrivateName", id: NAME }), `${way}.expression is of type PrivateName, which is no expression`],
    ["a", (node) => (node.expression = { type: "ObjectMethod", kind: "method", key: NAME, params: [], body: BODY }), `${way}.expression is of type ObjectMethod, which is no expression`],
    ["a", (node) => (node.expression = { type: "Directive", value: { type: "DirectiveLiteral", value: "" } }), `${way}.expression is of type Directive, which is no expression`],
    ["a", (node) => (node.expression.type = "PrivateName"), "name of PrivateName at 0 is not read yet"],
    ["a?.b = c".replace("?", ""), (node) => (node.expression.left.type = "OptionalMemberExpression"), `${way}.expression.left is of type OptionalMemberExpression, which is no assignment target`],
    ["import('a')", (node) => (node.expression.arguments = []), `${way}.expression is no call of import with one argument or two`],
    ["import('a')", (node) => node.expression.arguments.push(NAME, NAME), `${way}.expression is no call of import with one argument or two`],
    ["import('a')", (node) => (node.expression.type = "OptionalCallExpression"), `${way}.expression.callee is of type Import, which is no expression`],
    ["import('a')", (node) => (node.expression.type = "NewExpression"), `${way}.expression.callee is of type Import, which is no expression`],
    ["({ get a() {} })", (node) => (node.expression.properties[0].method = true), `${way}.expression.properties[0] is of kind get and a method`],
    ["({ a() {} })", (node) => (node.expression.properties[0].kind = "init"), "kind init of ObjectMethod at 3 is not read yet"],
    ["({ a: b })", (node) => (node.expression.properties[0].method = true), `${way}.expression.properties[0] is a method without a function`],
    ["let { a } = b", (node) => (node.declarations[0].id.properties[0].method = true), `${way}.declarations[0].id.properties[0] is a method without a function`],
    ["let { a } = b", (node) => Object.assign(node.declarations[0].id.properties[0], { type: "ObjectMethod" }),
      `${way}.declarations[0].id.properties[0] is of type ObjectMethod, which can't be the properties of ObjectPattern`],
    ["({ a() {} })", (node) => (node.expression.properties[0].params = [{ type: "ThisExpression" }]),
      `${way}.expression.properties[0].params[0] is of type ThisExpression, which is no binding pattern`],
    ["({ a() {} })", (node) => (node.expression.properties[0].body = NAME), `${way}.expression.properties[0].body is of type Identifier, which can't be the body of ObjectMethod`],
    ["class A { a() {} }", (node) => (node.body.body[0].kind = "constructor"), `${way}.body.body[0] is of kind constructor, which its key contradicts`],
    ["class A { constructor() {} }", (node) => (node.body.body[0].kind = "method"), `${way}.body.body[0] is of kind method, which its key contradicts`],
    ["class A { #a() {} }", (node) => (node.body.body[0].key = NAME), `${way}.body.body[0].key is of type Identifier, which can't be the key of ClassPrivateMethod`],
    ["class A { #a }", (node) => (node.body.body[0].key.id = null), `${way}.body.body[0].key.id is no node`],
    ["class A { a }", (node) => (node.body.body[0].type = "ObjectProperty"),
      `${way}.body.body[0] is of type ObjectProperty, which can't be the body of ClassBody`],
    ["class A { #a; b = #a in c }", (node) => (node.body.body[1].value.operator = "+"), `${way}.body.body[1].value.left is of type PrivateName, which is no expression`],
    ["1", (node) => (node.expression.value = NaN), "the value NaN of NumericLiteral at 0 is not read yet"],
    ["1", (node) => (node.expression.value = "1"), "the value 1 of NumericLiteral at 0 is not read yet"],
    ["({ 1: a })", (node) => (node.expression.properties[0].key.value = -1), "a negative number as a key at 3 is not read yet"],
    ["1n", (node) => (node.expression.value = "1.5"), "a BigIntLiteral whose value is no whole number at 0 is not read yet"],
    ["1n", (node) => (node.expression.value = null), "a BigIntLiteral whose value is no whole number at 0 is not read yet"],
    ["true", (node) => (node.expression.value = undefined), `${way}.expression.value is neither true nor false`],
    ["('a')", (node) => (node.expression.value = 1), `${way}.expression.value is no text`],
    ["/a/", (node) => (node.expression.flags = null), `${way}.expression.flags is no text`],
    ["export * as a from 'b'", (node) => (node.source = null), `${way} has a namespace without a source`],
    ["export * as a from 'b'", (node) => (node.declaration = declarationOf("c", null)), `${way} has more than its declaration`],
    ["export * as a from 'b'", (node) => node.specifiers.push(node.specifiers[0]), "an ExportNamespaceSpecifier beside other specifiers at 7 is not read yet"],
    ["import 'x'", (node) => (node.source = { type: "NumericLiteral", value: 1 }), `${way}.source is of type NumericLiteral, which can't be the source of ImportDeclaration`],
    ["{ a }", (node) => (node.directives = [{ type: "Directive", value: { type: "DirectiveLiteral", value: "b" } }]),
      `a directive that doesn't stand at the front of a body at ${way}.directives[0] is not read yet`],
    ["a", (node, program) => (program.directives = [{ type: "Directive" }]), "program.directives[0].value is no node"],
    ["a", (node, program) => (program.directives = [node]), "program.directives[0] is of type ExpressionStatement, which can't be the directives of Program"],
    ["a?.b", (node) => (node.expression.object = node.expression), `${way}.expression stands within itself`],
  ];
  for (const [source, change, message] of refused) assert.equal(refusedBy(source, change), message, source);
});

test("a node that has no place is told by the way to it, and with a source by its line", { skip: isMissing }, () => {
  const source = "a;\nb?.c(%d())";
  const tree = babelTree(source, { plugins: ["v8intrinsic"] });
  assert.throws(() => jobOf(tree, { source }), { name: "NotRead", message: /^V8IntrinsicIdentifier in line 2, column 6 is not read yet$/ });
  assert.equal(refusalOf(bare(tree)), "V8IntrinsicIdentifier at program.body[1].expression.arguments[0].callee is not read yet");
});
