// Babel's own trees give the jobs of ESTree's, byte for byte, by small sources of each type. They are those of Debian's node-babel7, without
// which these tests are skipped. They need no built program.
import assert from "node:assert/strict";
import { test } from "node:test";
import { flatJobOf, jobAndNodes, jobOf } from "../../../bindings/node/lib/convert.mjs";
import { renaming } from "../../../bindings/node/lib/scopes.mjs";
import { babelTree, estreeTree, isMissing, nodesIn } from "../babel.mjs";
import { CHAINS, SOURCES } from "../babel_sources.mjs";
import { parsed } from "../parser.mjs";

const PARENTHESES = "((a)); (b)(c); (a?.b).c; (a?.b)?.c; ((d)) = 1; [(e)] = f; ({ g: (h) } = i); ((j?.k))(); (function () {})(); ((l) => (m)); -(1); ('a'); `${(n)}`";

function settingsOf(source, { comments }) {
  return { bare: {}, spans: { source }, comments: { source, comments }, all: { source, comments, negative: true, spans: false, options: { source_map_path: "a.map" } } };
}

function assertSame(source, options) {
  const [own, estree] = [babelTree(source, options), estreeTree(source, options)];
  for (const [name, settings] of Object.entries(settingsOf(source, estree))) {
    assert.equal(JSON.stringify(jobOf(own, settings)), JSON.stringify(jobOf(estree, settings)), `${source}, ${name}`);
    assert.ok(flatJobOf(own, settings).equals(flatJobOf(estree, settings)), `${source}, ${name}`);
  }
}

for (const [name, source] of Object.entries(SOURCES)) test(`Babel's own trees: ${name}`, { skip: isMissing }, () => assertSame(source));

test("Babel's own trees give the jobs of acorn's", { skip: isMissing }, () => {
  for (const source of Object.values(SOURCES).filter((text) => !text.startsWith("#!"))) {
    assert.equal(JSON.stringify(jobOf(babelTree(source))), JSON.stringify(jobOf(parsed(source))), source);
  }
});

test("a chain is one node round its links, and ends at parentheses", { skip: isMissing }, () => {
  for (const source of CHAINS) assertSame(source);
});

test("parentheses that the tree has are rows", { skip: isMissing }, () => assertSame(PARENTHESES, { createParenthesizedExpressions: true }));

test("tokens and ranges are passed over", { skip: isMissing }, () => assertSame(SOURCES.classes, { tokens: true, ranges: true, attachComment: true }));

test("comments, and the annotations among them", { skip: isMissing }, () => {
  assertSame(`/*! licence */ /** doc */ a; // end
    x = /*#__PURE__*/ a?.b(); y = /*#__PURE__*/ a?.b.c; z = /*#__PURE__*/ (a?.())?.b; /* @__PURE__ */ f()?.g(); w = /*#__PURE__*/ import('a');
    /*#__NO_SIDE_EFFECTS__*/ function g() {} export /*#__NO_SIDE_EFFECTS__*/ const h = () => {};
    o = { a /*#__NO_SIDE_EFFECTS__*/ () {}, /*#__PURE__*/ [/*#__PURE__*/ b()]: /*#__PURE__*/ c(), get d /*#__PURE__*/ () {} };
    class A { e /*#__NO_SIDE_EFFECTS__*/ () {} /* f */ #f = /*#__PURE__*/ new B; /*#__NO_SIDE_EFFECTS__*/ g() {} }
    /* 'in' */ function i() { /* a */ 'use strict' /* b */; /* c */ j } // last`);
  assertSame("#!/bin/node\n// a\n'use strict'; /* b */\n// c");
});

test("a tree of the plugin estree without classFeatures has nodes of both kinds", { skip: isMissing }, () => {
  const source = `${SOURCES.classes}; ${SOURCES["private names"].replaceAll("class A ", "class Z ")}`;
  const mixed = babelTree(source, { plugins: ["estree"] });
  assert.deepEqual(jobOf(mixed, { source }), jobOf(estreeTree(source), { source }));
});

test("the nodes of rows are those of the tree", { skip: isMissing }, () => {
  for (const source of [...Object.values(SOURCES), ...CHAINS].filter((text) => !text.startsWith("#!"))) {
    const tree = babelTree(source);
    const all = new Set(nodesIn(tree.program));
    for (const [at, node] of jobAndNodes(tree).nodes.entries()) assert.ok(node === null || all.has(node), `row ${at} of ${source}`);
  }
});

test("no tree is changed", { skip: isMissing }, () => {
  const frozen = (value) => {
    for (const inside of Object.values(value)) if (typeof inside === "object" && inside !== null && !Object.isFrozen(inside)) frozen(Object.freeze(inside));
    return value;
  };
  for (const source of [...Object.values(SOURCES), ...CHAINS]) {
    const tree = frozen(babelTree(source));
    assert.deepEqual(jobOf(tree, { source, names: renaming(tree) }).symbols, renaming(estreeTree(source)).symbols);
  }
});

// ---- new names

const NAMED = `import a, { b as c, d } from 'x'; export { a as e, d }; export let f = 1; let __proto__ = 2, g = { __proto__, a }; var h; { var h, i; let j } function k(l, { m, n: [o] = p, ...q }, ...r) { var l, s; t } (l) => { 'use x'; var l }
class A extends B { #a; #b() { var u; return this?.#a + o?.p.#b } static #cc; [c] = a; static { var v; this.#cc } d() { w } get #e() { return #a in c } x = () => c; [a]() {} a() { return function y() { y } } }
try { z } catch (h) { var h } for (let i of c) a?.[i]?.(i.j).k; ({ a, c: d.e, f = a, [c]: g } = h); ({ m() { var aa; return aa }, get c() {}, [c]() {}, c }); x: for (;;) break x; class C { #a; m(bb) { eval("bb") } } import('a').then(c)`;

test("tables of new names are those of the same source in ESTree", { skip: isMissing }, () => {
  for (const source of [NAMED, ...Object.values(SOURCES), ...CHAINS]) {
    const [own, estree] = [babelTree(source), estreeTree(source)];
    const [names, wanted] = [renaming(own), renaming(estree)];
    for (const table of ["symbols", "references", "private"]) assert.deepEqual(names[table], wanted[table], source);
    for (const table of ["symbolOf", "referenceOf", "privateOf", "specifiers"]) {
      assert.deepEqual([...names[table]].map(([node, to]) => [node.start, to]), [...wanted[table]].map(([node, to]) => [node.start, to]), source);
    }
    assert.ok(flatJobOf(own, { source, names }).equals(flatJobOf(estree, { source, names: wanted })), source);
  }
});
