// Sources with all that Babel has otherwise than ESTree, for the tests of its trees.

/** By what each has. */
export const SOURCES = {
  "literals": "a = 'b\\u{63}\\\n\\ud800'; a = 0x10 + 1_000 + .5 + 5. + 1e999 + 8.5e1; a = 0xFFn + 1_0n; a = true || false; a = null; a = /[/]b/giu; -1; -2n",
  "directives": "'use strict'; \"a\\u0062\\\n'\"; f(); ('no directive'); function g() { 'use x'; 'y' } h = () => { 'use z' }; class A { b() { 'c' } } ({ d() { 'e'; f } })",
  "a string behind the directives": "'a'; b; 'c'",
  "blocks": "{ a } { } if (b) { 'c' } try { 'd' } catch { 'e' } finally { }",
  "a hashbang": "#!/bin/node\n'use strict'; a",
  "a hashbang alone": "#!/bin/node",
  "properties": "({ a, b: 1, c() {}, get d() { return 1 }, set d(e) {}, async *[f]() {}, ...g, 'h': 2, 3: 4, [i]: 5, async j() {}, *k() {}, 6n: 7, l: function () {} })",
  "a prototype": "({ __proto__, a: { __proto__: b }, c: { ['__proto__']: d }, e: { __proto__() {} } })",
  "the places of parameters": "({ a /* ( */ () {}, [(b)] // (\n (c) {}, get /* d */ e\n() {}, async * [ f ] /**/ ( g) {}, 'h'(i = (1)) {} }); class A { /* */ static /* ( */ #b /*)*/ () {} [(c)]/*]*/() {} }",
  "places behind letters of several bytes": "({ größe() {}, 'äö'(é) {}, b: '\u{20BB7}' }); class Ä { #ß() {} ü = 1 }",
  "classes": "class A extends B { constructor() { super(); super.a } b() {} static c() {} get d() {} set d(e) {} static async *[f]() {} 'g'() {} 1() {} h; i = 1; static j = 2; [k] = 3; 'l' = 4; static { m; var n } }",
  "names of constructors": "class A { static constructor() {} ['constructor']() {} } class B { 'constructor'() {} } class C { get a() {} static get constructor() {} }",
  "private names": "class A { #a = 1; #b() {} get #c() {} set #c(d) {} static #e; f() { return this.#a + this?.#b() + a?.b.#c; } static g = #a in h && (#e in i) }",
  "patterns": "let { a, b: c, d = 1, e: f = 2, [g]: h, 'i': j, ...k } = l, [m, , n = 3, ...[o]] = p; ({ a, b: c.d, e = 1, f: g = 2, [h]: i[j], ...k } = l); [a, b.c, [d] = 1, ...e] = f; for ({ a } of b) ; for (const { c } in d) ; f = ({ a }, [b]) => a",
  "calls": "f(); f(...a, b); new F; new F(a); f`a${b}c`; import('a'); import(b).c; new (import('d').e)(); eval('f')",
  "the rest": "a: for (;;) { continue a } do ; while (b); switch (c) { case 1: d; default: } throw e; i = import.meta; function f() { new.target; return } async function* g() { yield; yield* a; await b; for await (c of d) ; } x = async a => b; y ??= `a${1}\\``; debugger; ; a, b; a ? b : c; a++; --a.b; typeof a; a ** b; a instanceof b; a in b",
  "imports": "import a, { b as c, d, 'e f' as g } from 'x'; import * as h from 'y'; import 'z'; import {} from 'w'; import i, * as j from 'v'",
  "exports": "export { a, b as c, d as 'e f' }; let a, b, d; export * from 'x'; export * as g from 'y'; export * as 'h i' from 'z'; export { j as k, 'l' as m } from 'w'; export {}; export {} from 'v'; export const n = 1; export function o() {} export default class {}",
  "an export of a function": "export default function () {}",
  "an export of an expression": "export default (class {}).a",
};

/** Expressions and classes with chains. */
export const CHAINS = [
  "a?.b", "a?.b.c", "(a?.b).c", "(a?.b)?.c", "((a?.b))?.c.d", "a?.b?.c", "a?.b.c?.d.e", "a?.[b]", "a?.[b].c[d]", "a?.()", "a?.b()", "(a?.b)()", "(a?.b)?.()", "a?.b().c",
  "a.b?.c(d?.e).f", "(a.b)?.c", "(a?.b).c?.d", "(a?.b.c).d.e?.f.g", "((a?.b).c?.d).e", "delete a?.b", "delete (a?.b)", "new (a?.b)()", "(a?.b)`c`", "new (a?.b())", "a?.b ? c?.d : e?.f",
  "f(a?.b, ...c?.())", "a?.[b?.c]?.(d?.e)", "async () => (await a)?.b", "import('a')?.b", "a?.b + c", "!a?.b", "(a?.b, c)?.d", "(a ?? b)?.c", "this?.a", "a?.b.c().d[e]()",
  "class A extends (a?.b) { #c; d = a?.#c; e = a?.b.#c.f; g = (a?.#c).h; i = super.a?.b }", "for (a of b?.c) d", "(a?.b).c = 1", "[(a?.b).c] = d", "({ a: b?.c })", "x = a?.b",
];
