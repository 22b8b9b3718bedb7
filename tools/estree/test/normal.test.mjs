// The normal form: what it takes for the same, and what for another.
import assert from "node:assert/strict";
import { test } from "node:test";
import { difference, normal } from "../normal.mjs";
import { parsed } from "../parser.mjs";

function differenceOf(one, other) {
  return difference(normal(parsed(one, { parentheses: true })), normal(parsed(other)));
}

const SAME = [
  ["(a) + (b)", "a+b"],
  ["a && (b && c)", "a && b && c"],
  ["(a, b), c", "a, b, c"],
  ["'a'", '"a"'],
  ["f('a\\nb')", "f(`a\nb`)"],
  ["({ a: a })", "({ a })"],
  ["if (a) { if (b) c }", "if (a) if (b) c"],
  ["'use strict'", '"use strict"'],
  [".5 + 1.", "0.5 + 1"],
  ["c`</Script`", "c`<\\/Script`"],
  ["((a) => (a))", "a => a"],
  ["(a, b = (1), ...c) => ((a, b), c)", "(a, b = 1, ...c) => (a, b, c)"],
  ["require('x')", "require(`x`)"],
  ["for (let a = (b), c; (d); (e, f)) g", "for (let a = b, c; d; e, f) g;"],
  ["for ((a) in (b)) c", "for (a in b) c;"],
  ["for ((async) of a) b", "for ((async) of (a)) (b)"],
  ["while ((a)) b", "while (a) b;"],
  ["if (a) { while (b) if (c) d }", "if (a) while (b) if (c) d"],
  ["if (a) { b: for (;;) if (c) break b }", "if (a) b: for (;;) if (c) break b"],
  ["switch (a) { case (b): c }", "switch ((a)) { case b: c; }"],
  ["try { (a) } catch (b) { } finally { c }", "try { a; } catch (b) {} finally { c; }"],
  ["throw (a)", "throw a;"],
  ["let { a: a, b: b = (1), ...c } = d", "let { a, b = 1, ...c } = d"],
  ["({ a: (a), b: b = 1, c: [(d)] } = e)", "({ a, b = 1, c: [d] } = e)"],
  ["({ __proto__: __proto__ } = a)", "({ __proto__ } = a)"],
  ["let { __proto__: __proto__ } = a", "let { __proto__ } = a"],
  ["class A extends (B) { ; a() { (b) } ; #c = (1); }", "class A extends B { a() { b } #c = 1 }"],
  ["(class {})", "(class { })"],
];

const OTHER = [
  ["a - (b - c)", "a - b - c"],
  ["(a && b) || c", "a && (b || c)"],
  ["({ __proto__ })", "({ __proto__: __proto__ })"],
  ["if (a) { if (b) c } else d", "if (a) if (b) c; else d"],
  ["('use strict')", "'use strict'"],
  ["[a,,]", "[a]"],
  ["1", "1.0"],
  ["new (f())()", "new f()()"],
  ["() => ({})", "() => {}"],
  ["(() => a)()", "() => a()"],
  ["(a) => (b) => c", "(a, b) => c"],
  ["(...a) => b", "(a) => b"],
  ["(a = 1) => b", "(a) => b"],
  ["async () => a", "() => a"],
  ["let a", "var a"],
  ["for (a in b) c", "for (a of b) c"],
  ["for (;a;) b", "while (a) b"],
  ["while (a) b", "do b; while (a)"],
  ["while (a) { b }", "while (a) b"],
  ["while (a) { if (b) c }", "while (a) if (b) c"],
  ["if (a) { do if (b) c; while (d) }", "if (a) do if (b) c; while (d)"],
  ["a: b", "c: b"],
  ["a: for (;;) break a", "a: for (;;) break"],
  ["for (;;) break", "for (;;) continue"],
  ["switch (a) { case b: c }", "switch (a) { default: c }"],
  ["switch (a) { case b: case c: d }", "switch (a) { case b: d; case c: }"],
  ["try {} catch (a) {}", "try {} catch {}"],
  ["try {} catch { a }", "try {} finally { a }"],
  ["let { a } = b", "let { 'a': a } = b"],
  ["let { ['a']: b } = c", "let { 'a': b } = c"],
  ["let [a,,] = b", "let [a] = b"],
  ["let [...a] = b", "let [a] = b"],
  ["let { a = 1 } = b", "let { a } = b"],
  ["[{ a }] = b", "[{ a }]"],
  ["class A {}", "(class A {})"],
  ["class A { a() {} }", "class A { a = function () {} }"],
  ["class A { a() {} }", "class A { static a() {} }"],
  ["class A { get a() {} }", "class A { a() {} }"],
  ["class A { #a }", "class A { #b }"],
  ["class A { #a; b = this.#a }", "class A { #a; b = this.a }"],
  ["class A { #a; b = #a in c }", "class A { #a; b = a in c }"],
  ["class A { a }", "class A { ['a'] }"],
  ["class A { static {} }", "class A { static() {} }"],
  ["class A extends a {}", "class A {}"],
  ["import.meta", "import_.meta"],
];

for (const [one, other] of SAME) {
  test(`${one} is ${other}`, () => assert.equal(differenceOf(one, other), null));
}

for (const [one, other] of OTHER) {
  test(`${one} is not ${other}`, () => assert.notEqual(differenceOf(one, other), null));
}

test("a difference says where it is", () => {
  assert.match(differenceOf("f(a)", "f(b)"), /arguments/);
});
