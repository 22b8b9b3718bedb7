// The converter, over trees of acorn and over trees that are made by hand. These tests need no built program.
import assert from "node:assert/strict";
import { test } from "node:test";
import { commentsOf } from "../../../bindings/node/lib/comments.mjs";
import { NotRead, jobOf } from "../../../bindings/node/lib/convert.mjs";
import { parsed } from "../parser.mjs";

function rowsOf(source, rest = {}) {
  return jobOf(parsed(source), { source, spans: false, ...rest }).rows;
}

test("children stand before their parents, and the program is last", () => {
  assert.deepEqual(rowsOf("const a = 1 + b;"), [
    { type: "BindingIdentifier", name: "a" },
    { type: "NumericLiteral", kind: "whole", digits: 1 },
    { type: "IdentifierReference", name: "b" },
    { type: "BinaryExpression", operator: "+", left: 1, right: 2 },
    { type: "VariableDeclarator", id: 0, init: 3 },
    { type: "VariableDeclaration", kind: "const", declarations: [4] },
    { type: "Program", kind: "module", body: [5] },
  ]);
});

test("spans count bytes of UTF-8", () => {
  const source = '"é\u{1F600}"; a';
  const { rows } = jobOf(parsed(source), { source });
  const name = rows.find((row) => row.type === "IdentifierReference");
  assert.deepEqual(name.span, [10, 11]);
  assert.deepEqual(rows.at(-1).span, [0, 11]);
});

test("options stand in the head, and an option that isn't read is refused", () => {
  assert.deepEqual(jobOf(parsed(""), { options: { minify: true } }).options, { minify: true });
  assert.throws(() => jobOf(parsed(""), { options: { indented: 3 } }), NotRead);
});

function commentRows(source, settings = {}) {
  const program = parsed(source, { comments: true });
  const { rows } = jobOf(program, { source, comments: program.comments, ...settings });
  return (rows.at(-1).comments ?? []).map((row) => rows[row]);
}

test("comments have their places in the source, which stands in the job", () => {
  const source = "é; // b\n/* c */ d /*\n*/";
  assert.deepEqual(commentRows(source), [
    { type: "Comment", kind: "line", content: "normal", attached_to: 17, followed_by_newline: true, span: [4, 8] },
    { type: "Comment", kind: "block", content: "normal", leading: true, attached_to: 17, preceded_by_newline: true, span: [9, 16] },
    { type: "Comment", kind: "multiline", content: "normal", leading: true, attached_to: 24, span: [19, 24] },
  ]);
  const program = parsed(source, { comments: true });
  assert.equal(jobOf(program, { source, comments: program.comments }).rows.at(-1).source, source);
  assert.equal("source" in jobOf(program, { source }).rows.at(-1), false);
  assert.equal(jobOf(program, { source, options: { source_map_path: "a.map" } }).rows.at(-1).source, source);
  assert.throws(() => jobOf(program, { comments: program.comments }), TypeError);
});

test("comments have what they say", () => {
  const contentOf = (comment) => commentRows(`${comment}\nf()`)[0].content;
  const said = {
    "// a": "normal", "/***/": "normal", "/*****/": "normal", "/**/": "normal", "//* a": "normal", "/** a */": "jsdoc", "/**\na */": "jsdoc",
    "//! a": "legal", "/*! a */": "legal", "/* @license */": "legal", "// a @preserve": "legal", "/** @preserve */": "jsdoclegal",
    "/* @__PURE__ */": "pure", "/*#__PURE__*/": "pure", "//#__PURE__ a": "pure", "/* __PURE__ */": "normal",
    "/* @__NO_SIDE_EFFECTS__ */": "nosideeffects", "/*#__NO_SIDE_EFFECTS__ a*/": "nosideeffects", "/* @__KEY__ */": "propertykey",
    "/* webpackChunkName: 'a' */": "webpack", "/* webpack */": "normal", "/* @vite-ignore */": "vite",
    "/* v8 ignore next */": "coverage", "/* istanbul ignore if */": "coverage", "/* node:coverage disable */": "coverage",
    "/* c8 ignore file */": "coveragefile", "/* c8 */": "normal", "//# sourceURL=a": "normal",
  };
  for (const [comment, content] of Object.entries(said)) assert.equal(contentOf(comment), content, comment);
});

test("the hashbang, which acorn lists as a comment, is none", () => {
  const source = "#!/bin/node\n// b\na";
  const program = parsed(source, { comments: true });
  assert.deepEqual(program.comments.map(({ start }) => start), [0, 12]);
  assert.deepEqual(commentRows(source).map(({ span }) => span), [[12, 16]]);
  const ranged = program.comments.map(({ start, end }) => ({ range: [start, end] }));
  assert.equal(jobOf(program, { source, comments: ranged }).rows.at(-1).comments.length, 1);
  assert.deepEqual(jobOf(parsed("#!"), { source: "#!", comments: [{ start: 0, end: 2 }] }).rows.at(-1), { type: "Program", span: [0, 2], kind: "module", hashbang: 0 });
});

test("the comment that names the source map of the source is left out, unless it is to be kept", () => {
  const texts = (source, settings) => commentRows(source, settings).map(({ span: [start, end] }) => source.slice(start, end));
  for (const comment of ["//# sourceMappingURL=a.map", "//@ sourceMappingURL=a.map", "/*# sourceMappingURL=a.map */", "//#sourceMappingURL=", "/*@\tsourceMappingURL=data:a,b\n*/"]) {
    const source = `a; /* b */\n// c\n${comment}\n`;
    assert.deepEqual(texts(source), ["/* b */", "// c"], comment);
    assert.deepEqual(texts(source, { keepSourceMappingUrl: true }), ["/* b */", "// c", comment], comment);
  }
  for (const comment of ["// # sourceMappingURL=a", "//# sourceMappingURL", "//# sourceURL=a", "//# sourceMappingURL=a b", "//! sourceMappingURL=a", "/** # sourceMappingURL=a */"]) {
    assert.deepEqual(texts(`a;\n${comment}\n`), [comment]);
  }
  assert.equal("source" in jobOf(parsed("//# sourceMappingURL=a"), { source: "//# sourceMappingURL=a", comments: [{ start: 0, end: 22 }] }).rows.at(-1), false);
});

test("comments whose places don't stand in order in the source are a TypeError", () => {
  const message = (...comments) => {
    const source = "/*a*//*b*/";
    assert.throws(() => jobOf(parsed(source), { source, comments }), (error) => error instanceof TypeError && / has no place in the source behind /.test(error.message));
  };
  message({});
  message({ start: 0 });
  message({ start: 5, end: 10 }, { start: 0, end: 5 });
  message({ start: 0, end: 5 }, { start: 0, end: 5 });
  message({ start: 5, end: 11 });
  message({ start: 5, end: 5 });
});

test("an annotation marks the call or the function that it stands before", () => {
  const marked = (source) => {
    const program = parsed(source, { comments: true });
    return jobOf(program, { source, comments: program.comments }).rows.filter((row) => row.pure).map(({ span }) => source.slice(...span));
  };
  const pure = {
    "/* @__PURE__ */ f();": ["f()"], "a = /*#__PURE__*/ new F;": ["new F"], "/* @__PURE__ */ f() + g();": ["f()"], "(/* @__PURE__ */ f()).a;": ["f()"],
    "/* @__PURE__ */ f().a;": [], "/* @__PURE__ */ f()();": ["f()()"], "/* @__PURE__ */ f() ? a : g();": ["f()"],
    "f(/* @__PURE__ */ g(), h());": ["g()"], "/* @__PURE__ */ f(), g();": ["f()"], "f(); // @__PURE__": [], "/* @__PURE__ */ a;\nf();": [],
    "/* @__PURE__ */ function f() {}": [], "/* @__NO_SIDE_EFFECTS__ */ f();": [],
  };
  const functions = {
    "/* @__NO_SIDE_EFFECTS__ */ function f() {}": ["function f() {}"], "/*#__NO_SIDE_EFFECTS__*/ export function f() {}": ["function f() {}"],
    "export default /* @__NO_SIDE_EFFECTS__ */ () => 1;": ["() => 1"], "/* @__NO_SIDE_EFFECTS__ */ const f = () => 1, g = () => 2;": ["() => 1"],
    "/* @__NO_SIDE_EFFECTS__ */ let f = () => 1;": [], "a = /* @__NO_SIDE_EFFECTS__ */ async function() {};": ["async function() {}"],
  };
  for (const [source, found] of Object.entries({ ...pure, ...functions })) assert.deepEqual(marked(source), found, source);
});

test("a comment belongs to the next token, behind other comments", () => {
  const starts = (source) => commentRows(source).map(({ attached_to }) => attached_to);
  assert.deepEqual(starts("/*a*/ //b\n /*c*/ d"), [17, 17, 17]);
  assert.deepEqual(starts("/*a*//*b*/d/*c*/"), [10, 10, 16]);
  assert.deepEqual(starts("#!/bin/node // a\n/*b*/c"), [22]);
  assert.deepEqual(starts("`/*a*/${/*b*/c}`"), [13]);
  assert.deepEqual(starts("// a"), [4]);
  assert.deepEqual(starts("a;\n// b\n"), [8]);
});

// The comments that lead, by what they say.
function leading(source) {
  return commentRows(source).filter((row) => row.leading).map(({ span: [start, end] }) => source.slice(start, end).replace(/[/*]/g, "").trim()).join(" ");
}

test("a comment that ends the line of the code before it doesn't lead, nor does one before it there", () => {
  assert.equal(leading("a; // b"), "");
  assert.equal(leading("a; /*b*/\nc"), "");
  assert.equal(leading("a; /*b*/ c"), "b");
  assert.equal(leading("a; /*b*/ // c\n/*d*/ e"), "d");
  assert.equal(leading("a; /*b*/ /*c*/\n// d\ne"), "d");
  assert.equal(leading("a; /*b\n*/ c"), "b");
  assert.equal(leading("a; /*b\n*/ // c\nd"), "");
  assert.equal(leading("// a\n/*b*/\nc"), "a b");
  assert.equal(leading("{ // a\n// b\n}"), "b");
  assert.equal(leading("#!/bin/node\n// a\nb"), "a");
});

test("a licence leads where it ends the line, and stands on a line of its own", () => {
  assert.equal(leading("a; /*! b */\nc"), "! b");
  assert.equal(leading("a; //! b"), "! b");
  assert.equal(leading("a; // @license b\nc"), "@license b");
  assert.equal(leading("a; /** @preserve b */ // c\nd"), "@preserve b");
  assert.equal(leading("a; /* b */ /*! c */ /* d */\n/* e */ f"), "! c e");
  assert.equal(leading("{ /*! a */\n}"), "! a");
  assert.deepEqual(commentRows("a; /*! b */\nc"), [
    { type: "Comment", kind: "block", content: "legal", leading: true, attached_to: 12, preceded_by_newline: true, followed_by_newline: true, span: [3, 11] },
  ]);
  const places = (source) => commentRows(source).map((row) => [row.attached_to, row.preceded_by_newline, row.followed_by_newline]);
  assert.deepEqual(places("a; /*! b */ // c\n"), [[17, true, true], [17, undefined, true]]);
  assert.deepEqual(places("a; //! b"), [[8, true, true]]);
  assert.deepEqual(places("a; /*! b */ c"), [[12, undefined, undefined]]);
});

test("a line comment behind `=` or `(` leads", () => {
  assert.equal(leading("const a = // b\nc"), "b");
  assert.equal(leading("const a/*b*/= // c\nd"), "b c");
  assert.equal(leading("f( // a\nb)"), "a");
  assert.equal(leading("f( /*a*/ // b\n /*c*/ d)"), "a b c");
  assert.equal(leading("f( /*a*/\nb)"), "");
  for (const code of ["a == ", "a >= ", "a = b => ", "a += ", "a, ", "a ? b : "]) assert.equal(leading(`${code}// c\nd`), "", code);
});

test("a comment is preceded by the line ends behind the token before it, and by the text's start", () => {
  const told = (source) => commentRows(source).map((row) => `${row.preceded_by_newline ? "<" : ""}${row.followed_by_newline ? ">" : ""}`);
  assert.deepEqual(told("/*a*/ b"), ["<"]);
  assert.deepEqual(told("a; /*b*/ c /*d*/\n/*e*/ /*f*/ g"), ["", ">", "<", "<"]);
  assert.deepEqual(told("a // b\n// c\n\n/*d*/"), [">", "<>", "<"]);
  assert.deepEqual(told("a\u2028/*b*/\r\nc"), ["<>"]);
});

test("comments behind the last token belong to the text's end, where the program ends then", () => {
  const source = "a\n// é\n";
  const program = { ...parsed(source), end: 1 };
  const comments = [{ start: 2, end: 6 }];
  const { rows } = jobOf(program, { source, comments });
  assert.deepEqual([rows[0].attached_to, rows.at(-1).span], [8, [0, 8]]);
  assert.deepEqual(jobOf(program, { source }).rows.at(-1).span, [0, 1]);
});

test("many comments take no longer than few, by the comment", () => {
  const source = "// a\n".repeat(200_000);
  const comments = Array.from({ length: 200_000 }, (_, at) => ({ start: 5 * at, end: 5 * at + 4 }));
  const rows = commentsOf(source, comments);
  assert.ok(rows.every(({ leading, attached_to }) => leading && attached_to === source.length));
});

test("directives are their raw text", () => {
  assert.deepEqual(rowsOf("'a\\\nb'; 'c'.d")[0], { type: "Directive", directive: "a\\\nb" });
  assert.equal(rowsOf("'c'.d").some((row) => row.type === "Directive"), false);
});

test("a string with a surrogate alone is its units", () => {
  const value = (source) => rowsOf(source).find((row) => row.type === "StringLiteral").value;
  assert.equal(value("f('\u{1F600}')"), "\u{1F600}");
  assert.deepEqual(value("f('a\\ud800')"), [97, 0xd800]);
});

test("a surrogate alone that isn't a string's is refused by its place", () => {
  const refused = { "`\uD800`": "raw of TemplateElement", "/\uDC00/": "pattern of RegExpLiteral", "'\uD800'; a": "directive of Directive" };
  for (const [source, what] of Object.entries(refused)) {
    const message = new RegExp(`^half a surrogate pair in the ${what} in line 1, column [12] is not read yet$`);
    assert.throws(() => jobOf(parsed(source), { source }), { name: "NotRead", message }, what);
  }
  const source = "// \uD800\nf('\uD800')";
  const { rows } = jobOf(parsed(source), { source, comments: [{ start: 0, end: 4 }] });
  assert.equal(rows.at(-1).source, "// \uFFFD\nf('\uFFFD')");
  assert.deepEqual(rows.find((row) => row.type === "StringLiteral"), { type: "StringLiteral", span: [9, 14], value: [0xd800] });
});

test("an update says where its operator stands", () => {
  const program = parsed("a++");
  delete program.body[0].expression.prefix;
  assert.throws(() => jobOf(program), { name: "TypeError", message: "program.body[0].expression.prefix is neither true nor false" });
});

test("values that aren't defaults are kept, and others left out", () => {
  assert.equal(rowsOf("false")[0].value, false);
  assert.equal("arguments" in rowsOf("f()")[1], false);
  assert.deepEqual(rowsOf("[,a,]").find((row) => row.type === "ArrayExpression").elements, [null, 0]);
});

test("parentheses are rows where the tree has them, but for those of a target", () => {
  const program = parsed("(a)++; (b)", { parentheses: true });
  const types = jobOf(program, { spans: false }).rows.map((row) => row.type);
  assert.equal(types.filter((type) => type === "ParenthesizedExpression").length, 1);
});

test("what isn't read yet is named with its place", () => {
  const source = "a;\n  <b/>;";
  const statement = { type: "ExpressionStatement", expression: { type: "JSXElement", start: 5, end: 9 } };
  assert.throws(() => jobOf({ type: "Program", sourceType: "module", body: [statement] }, { source }), {
    name: "NotRead",
    message: "JSXElement in line 2, column 3 is not read yet",
  });
});

test("a tree without places is taken", () => {
  const name = { type: "Identifier", name: "a" };
  const program = { type: "Program", sourceType: "module", body: [{ type: "ExpressionStatement", expression: name }] };
  assert.deepEqual(jobOf(program).rows[0], { type: "IdentifierReference", name: "a" });
});

test("an arrow function has its parameters, the values of some, and a last one that takes the rest", () => {
  assert.deepEqual(rowsOf("(a, b = 1, ...c) => a").slice(0, -2), [
    { type: "BindingIdentifier", name: "a" },
    { type: "FormalParameter", pattern: 0 },
    { type: "BindingIdentifier", name: "b" },
    { type: "NumericLiteral", kind: "whole", digits: 1 },
    { type: "FormalParameter", pattern: 2, initializer: 3 },
    { type: "BindingIdentifier", name: "c" },
    { type: "FormalParameterRest", argument: 5 },
    { type: "FormalParameters", items: [1, 4], rest: 6 },
    { type: "IdentifierReference", name: "a" },
    { type: "ArrowFunctionExpression", params: 7, body: 8 },
  ]);
});

test("parameters have the spans that the tree has of them", () => {
  const source = "(a = 1, ...b) => a";
  const spanOf = (type) => jobOf(parsed(source), { source }).rows.find((row) => row.type === type).span;
  assert.deepEqual(spanOf("FormalParameter"), [1, 6]);
  assert.deepEqual(spanOf("FormalParameterRest"), [8, 12]);
  assert.equal(spanOf("FormalParameters"), undefined);
});

test("statements have their parts", () => {
  const last = (source) => rowsOf(source).at(-2);
  assert.deepEqual(last("for (;;) a"), { type: "ForStatement", body: 1 });
  assert.deepEqual(last("for (var a = 1; b; c) d"), { type: "ForStatement", init: 3, test: 4, update: 5, body: 7 });
  assert.deepEqual(last("for ((a) of b) c"), { type: "ForOfStatement", left: 0, right: 1, body: 3 });
  assert.deepEqual(last("for (let a in b) c"), { type: "ForInStatement", left: 2, right: 3, body: 5 });
  assert.deepEqual(last("do a; while (b)"), { type: "DoWhileStatement", body: 1, test: 2 });
  assert.deepEqual(last("a: while (b) c"), { type: "LabeledStatement", label: 0, body: 4 });
  assert.deepEqual(last("switch (a) { case b: c; default: }"), { type: "SwitchStatement", discriminant: 0, cases: [4, 5] });
  assert.deepEqual(last("try {} catch {} finally {}"), { type: "TryStatement", block: 0, handler: 2, finalizer: 3 });
  assert.deepEqual(rowsOf("try {} catch (a) {}")[3], { type: "CatchClause", param: 1, body: 2 });
  assert.deepEqual(rowsOf("a: for (;;) continue a").slice(0, 3), [
    { type: "LabelIdentifier", name: "a" }, { type: "LabelIdentifier", name: "a" }, { type: "ContinueStatement", label: 1 },
  ]);
});

test("functions have their kind, their parameters and their bodies, with directives", () => {
  assert.deepEqual(rowsOf("function f(a) { 'use strict'; return a }").slice(0, -1), [
    { type: "BindingIdentifier", name: "f" },
    { type: "BindingIdentifier", name: "a" },
    { type: "FormalParameter", pattern: 1 },
    { type: "FormalParameters", items: [2] },
    { type: "Directive", directive: "use strict" },
    { type: "IdentifierReference", name: "a" },
    { type: "ReturnStatement", argument: 5 },
    { type: "FunctionBody", directives: [4], statements: [6] },
    { type: "Function", kind: "declaration", id: 0, params: 3, body: 7 },
  ]);
  assert.deepEqual(rowsOf("f(() => {})").slice(1, 4).map(({ type }) => type), ["FormalParameters", "FunctionBody", "ArrowFunctionExpression"]);
  const properties = rowsOf("f({ a() {}, get b() {}, set c(d) {} })").filter(({ type }) => type === "ObjectProperty");
  assert.deepEqual(properties.map(({ kind, method }) => [kind, method]), [["init", true], ["get", undefined], ["set", undefined]]);
});

test("functions that are `async` and generators have their flags, and what they wait for and give", () => {
  const of = (source, ...types) => rowsOf(source).filter(({ type }) => types.includes(type));
  assert.deepEqual(of("async function f() { await a }", "Function", "AwaitExpression"), [
    { type: "AwaitExpression", argument: 2 },
    { type: "Function", kind: "declaration", id: 0, is_async: true, params: 1, body: 5 },
  ]);
  assert.deepEqual(of("function* f() { yield; yield* a }", "Function", "YieldExpression"), [
    { type: "YieldExpression" },
    { type: "YieldExpression", delegate: true, argument: 4 },
    { type: "Function", kind: "declaration", id: 0, generator: true, params: 1, body: 7 },
  ]);
  assert.deepEqual(of("f(async () => a)", "ArrowFunctionExpression").map((row) => row.is_async), [true]);
  assert.deepEqual(of("f({ async *g() {} })", "Function").map((row) => [row.is_async, row.generator]), [[true, true]]);
  assert.deepEqual(of("for await (a of b) c", "ForOfStatement").map((row) => row.is_await), [true]);
});

test("templates have their pieces, by how they are written and what they stand for", () => {
  assert.deepEqual(rowsOf("f`a\\u${b}\\n`").slice(0, -2), [
    { type: "IdentifierReference", name: "f" },
    { type: "TemplateElement", raw: "a\\u" },
    { type: "TemplateElement", raw: "\\n", cooked: "\n" },
    { type: "IdentifierReference", name: "b" },
    { type: "TemplateLiteral", quasis: [1, 2], expressions: [3] },
    { type: "TaggedTemplateExpression", tag: 0, quasi: 4 },
  ]);
});

test("imports have their specifiers, and an empty list of them is told from none by the source", () => {
  assert.deepEqual(rowsOf('import a, { b as c, "d e" as f } from "x"').slice(0, -1), [
    { type: "BindingIdentifier", name: "a" },
    { type: "ImportDefaultSpecifier", local: 0 },
    { type: "BindingIdentifier", name: "c" },
    { type: "IdentifierName", name: "b" },
    { type: "ImportSpecifier", import_kind: "value", imported: 3, local: 2 },
    { type: "BindingIdentifier", name: "f" },
    { type: "StringLiteral", value: "d e" },
    { type: "ImportSpecifier", import_kind: "value", imported: 6, local: 5 },
    { type: "StringLiteral", value: "x" },
    { type: "ImportDeclaration", import_kind: "value", specifiers: [1, 4, 7], source: 8 },
  ]);
  const specifiers = (source) => jobOf(parsed(source), { source }).rows.at(-2).specifiers;
  assert.deepEqual(specifiers('import {} from "x"'), []);
  assert.equal(specifiers('import /* {} */ "x"'), undefined);
});

test("exports are declarations, references, names of another module, or the default", () => {
  const types = (source) => rowsOf(source).slice(0, -1).map(({ type }) => type);
  assert.deepEqual(types("export let a"), ["BindingIdentifier", "VariableDeclarator", "VariableDeclaration", "ExportDeclaration"]);
  assert.deepEqual(types("let a; export { a as b }").slice(3), ["IdentifierReference", "IdentifierName", "ExportSpecifier", "ExportNamedDeclaration"]);
  assert.deepEqual(types('export { a as "b" } from "x"'), ["IdentifierName", "StringLiteral", "ExportSpecifier", "StringLiteral", "ExportFromDeclaration"]);
  assert.deepEqual(types('export * as a from "x"'), ["IdentifierName", "StringLiteral", "ExportAllDeclaration"]);
  assert.deepEqual(types("export default function () {}"), ["FormalParameters", "FunctionBody", "Function", "ExportDefaultDeclaration"]);
  assert.deepEqual(types("export default a"), ["IdentifierReference", "ExportDefaultDeclaration"]);
});

test("a hashbang is the tree's where it says one or none, be there a source or not", () => {
  const source = "#!/bin/a\nb;";
  const hashbangOf = (more, settings) => {
    const { rows } = jobOf({ ...parsed(source), ...more }, settings);
    return rows[rows.at(-1).hashbang]?.value;
  };
  assert.deepEqual([hashbangOf({}, { source }), hashbangOf({}, {})], ["/bin/a", undefined]);
  for (const said of [{ interpreter: { type: "InterpreterDirective", value: "/bin/c" } }, { hashbang: { type: "Hashbang", value: "/bin/c" } }]) {
    assert.deepEqual([hashbangOf(said, { source }), hashbangOf(said, {})], ["/bin/c", "/bin/c"]);
  }
  for (const none of [{ interpreter: null }, { hashbang: null }]) assert.equal(hashbangOf(none, { source }), undefined);
});

test("a hashbang is the first line", () => {
  const source = "#!/usr/bin/env node\na";
  const { rows } = jobOf(parsed(source), { source });
  assert.deepEqual(rows[0], { type: "Hashbang", span: [0, 19], value: "/usr/bin/env node" });
  assert.equal(rows.at(-1).hashbang, 0);
});

// As Babel gives it with its plugin `estree`: nodes have members that acorn's don't have.
function babelArrow(params, rest = {}) {
  const body = { type: "Identifier", name: "a", extra: { parenthesized: true, parenStart: 9 } };
  const arrow = { type: "ArrowFunctionExpression", id: null, generator: false, async: false, expression: true, params, body, ...rest };
  const statement = { type: "ExpressionStatement", expression: arrow };
  return { type: "Program", sourceType: "module", interpreter: null, body: [statement] };
}

test("Babel's arrow functions are taken, and what a type says of them is refused", () => {
  const name = { type: "Identifier", name: "a", loc: { identifierName: "a" } };
  const withDefault = { type: "AssignmentPattern", left: name, right: { type: "Literal", value: 1, raw: "1" } };
  const types = (program) => jobOf(program).rows.map((row) => row.type);
  assert.deepEqual(types(babelArrow([withDefault, { type: "RestElement", argument: name }])), [
    "BindingIdentifier", "NumericLiteral", "FormalParameter", "BindingIdentifier", "FormalParameterRest",
    "FormalParameters", "IdentifierReference", "ArrowFunctionExpression", "ExpressionStatement", "Program",
  ]);
  const annotation = { type: "TSTypeAnnotation" };
  assert.throws(() => jobOf(babelArrow([{ ...name, typeAnnotation: annotation }])), /^NotRead: typeAnnotation of Identifier at /);
  assert.throws(() => jobOf(babelArrow([], { returnType: annotation })), /^NotRead: returnType of ArrowFunctionExpression at /);
});
