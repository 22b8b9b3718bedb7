// Flat jobs of small programs, and of programs that are made up, stand for their jobs in JSON; and what is refused is refused by both alike.
import assert from "node:assert/strict";
import { test } from "node:test";
import { MalformedTree, NotRead, flatJobOf } from "../../../bindings/node/lib/convert.mjs";
import { renaming } from "../../../bindings/node/lib/scopes.mjs";
import { parsed } from "../../estree/parser.mjs";
import { randomProgram } from "../../estree/random.mjs";
import { assertSame } from "../compare.mjs";
import { treeOf } from "../sources.mjs";

const PROGRAMS = [
  "", "#!/bin/n\u{f6}de\n", "'use strict'; 'a\\n'; b",
  "import 'a'; import {} from 'b'; import * as c from 'd'; import e, { f, 'g h' as i } from 'j'; export {}; export { c as 'k l' }; export * from 'm'",
  "class A extends B { #a = 1; static #b() {} get #c() { return #a in this } static { this.#b } constructor() { super() } ['d'] = this.#c; 'e'; 5() {} }",
  "class A { #x; m() { return class B { #x; #y; n(o) { return #x in o && o.#y } } } }",
  "[a, , b, ...c] = [, , d]; ({ e, f: g = 1, ...h } = i); let [j, , k = 2, ...l] = m, { n, o: p, [q]: r = 3, ...s } = t",
  "0; 1; 2147483647; 2147483648; 4294967296; 9007199254740991; 9007199254740992",
  "340282366920938463463374607431768211455; 340282366920938463463374607431768211456; 1e21; 1000000000000000000000",
  "-0; -1; -2147483648; - 5n; 0x10; 1_000; .5; 5.; 1e3; 0b1; 17n; -1.5",
  "true; false; null; this; import.meta; function f() { new.target }",
  "'\\ud800'; '\\udc00\\ud800'; '\\ud83d\\ude00'; '\u{1f600}\u{e9}'; ''; `a${b}\u{e9}\\ud800`; f`\\u`; f`\\ud800`",
  "/* @__PURE__ */ f(); /* @__PURE__ */ new F; /*#__NO_SIDE_EFFECTS__*/ function g() {} /*! \u{a9} a licence */ a(); // b\n// c\n/** d */ e\n/* f\n */",
  "a?.b?.[c]?.(d); (a, b); a ??= b; async (a = 1, ...b) => { for await (const c of d) await e }; function* f() { yield; yield* a }",
  "x: for (;;) { continue x; break } do {} while (a); for (let b in c); for (d of e); switch (f) { case g: default: } try {} catch {} finally {}",
];

function settingsOf(source, tree) {
  const { comments } = tree;
  return [
    {}, { source }, { source, spans: false }, { negative: true }, { source, comments, keepSourceMappingUrl: true, spans: false },
    { source, comments, options: { source_map_path: "a", indent_char: "space" } }, { source, names: renaming(tree), comments },
  ];
}

function assertAllSame(source, tree, what) {
  for (const settings of settingsOf(source, tree)) {
    assert.notEqual(assertSame(tree, settings, `${what}, ${Object.keys(settings)}`), undefined, what);
  }
}

test("small programs", () => {
  for (const source of PROGRAMS) assertAllSame(source, parsed(source, { comments: true }), source);
});

test("parentheses, attributes, and hashbangs that the tree says", () => {
  assertSame(parsed("(a) = (b); (c.d)++; ((e));", { parentheses: true }), {}, "parentheses");
  const program = parsed("import a from 'x'; export * from 'y'; import('z');");
  const attribute = { type: "ImportAttribute", key: { type: "Identifier", name: "type" }, value: { type: "Literal", value: "json" } };
  Object.assign(program.body[0], { attributes: [attribute] });
  Object.assign(program.body[1], { attributes: [{ ...attribute }] });
  Object.assign(program.body[2].expression, { options: { type: "ObjectExpression", properties: [] } });
  assertSame({ ...program, interpreter: { type: "InterpreterDirective", value: "/bin/node" } }, {}, "attributes");
});

test("programs that are made up", () => {
  for (let seed = 1; seed <= 60; seed += 1) {
    const source = randomProgram(seed);
    assertAllSame(source, treeOf(source), `seed ${seed}`);
  }
});

test("texts of any length and of all kinds of characters", () => {
  const names = Array.from({ length: 3000 }, (_, at) => `${["a", "\u{e9}", "\u{4e2d}", "\u{20000}"][at % 4]}${at}`);
  const long = "b".repeat(70_000);
  const source = `${names.join(";")};"${long}";"\u{e9}${long}";"${long}\u{1f600}";"\\ud800${long}";${long}`;
  assertAllSame(source, parsed(source, { comments: true }), "texts");
});

test("long lists", () => {
  const source = `f(${"a,".repeat(5_000)} ...b); [${",".repeat(5_000)}]`;
  assertAllSame(source, parsed(source, { comments: true }), "lists");
});

// ---- what is refused

const REFUSED = [
  "a; { b }; let c = d ? e : f; g: while (h) break g",
  "import a, { b as c } from 'x'; export { a, c as 'd e' }; export default class { #f; static { } g = 1; constructor() {} }",
  "[a, ...b] = c; ({ d, e: f = 1, ...g } = h); let { i, ...j } = k; (l, m = 1, ...n) => `o${p}`; q += -r; s++; t?.u",
];
const NAME = { type: "Identifier", name: "other" };
const VALUES = [undefined, null, false, true, 5, "other", "half \ud800", {}, [], [null], NAME, { type: "JSXElement" }, { type: "Literal", value: Number.NaN }];

function* nodesIn(value) {
  if (Array.isArray(value)) for (const inside of value) yield* nodesIn(inside);
  else if (typeof value?.type === "string") {
    yield value;
    for (const name of Object.keys(value)) yield* nodesIn(value[name]);
  }
}

test("a tree with any member changed is taken or refused by both", () => {
  const counts = { taken: 0, refused: 0 };
  for (const source of REFUSED) {
    const tree = parsed(source);
    for (const node of nodesIn(tree)) {
      for (const name of [...Object.keys(node), "other"]) {
        const before = Object.getOwnPropertyDescriptor(node, name);
        for (const value of VALUES) {
          node[name] = value;
          counts[assertSame(tree, { source }, `${source}: ${node.type}.${name}`) === undefined ? "refused" : "taken"] += 1;
        }
        if (before === undefined) delete node[name];
        else node[name] = before.value;
      }
    }
  }
  assert.ok(counts.taken > 1000 && counts.refused > 1000, JSON.stringify(counts));
});

test("settings that are wrong, places, names and depth are refused by both", () => {
  const tree = parsed("a");
  const settings = [
    { options: { other: 1 } }, { source: 5 }, { comments: 5 }, { comments: [{}] }, { source: "a", comments: [{ start: 3, end: 4 }] },
    { names: {} }, { names: renaming(parsed("b")) },
  ];
  for (const wrong of settings) assert.equal(assertSame(tree, wrong, JSON.stringify(wrong)), undefined);
  const programs = [null, 5, {}, { type: "Program" }, { ...tree, sourceType: "script" }, parsed("a = 1").body[0]];
  for (const program of programs) assert.equal(assertSame(program, {}, JSON.stringify(program)), undefined);
  const wrapped = { ...tree, body: [] };
  wrapped.body.push({ type: "BlockStatement", body: wrapped.body });
  assert.equal(assertSame(wrapped, {}, "a tree within itself"), undefined);
  assert.throws(() => flatJobOf(wrapped), MalformedTree);
  assert.throws(() => flatJobOf({ type: "Program", body: [{ type: "JSXElement" }] }), NotRead);
});

test("a place that no number of 32 bits tells is refused by both", () => {
  for (const [start, end] of [[0.5, 1.5], [0, 2 ** 32], [2 ** 32, 2 ** 33], [0, Infinity]]) {
    const program = parsed("a");
    Object.assign(program.body[0], { start, end });
    assert.equal(assertSame(program, { source: "a" }, `${start}`), undefined);
    assert.notEqual(assertSame(program, {}, `${start}`), undefined);
  }
});
