// What names stand for, and the tables that rename them. These tests need no built program.
import assert from "node:assert/strict";
import { test } from "node:test";
import { jobOf } from "../../../bindings/node/lib/convert.mjs";
import { parsed } from "../parser.mjs";
import { randomProgram } from "../random.mjs";
import { LETTERS, SIGNS, renamedSource, renaming } from "../../../bindings/node/lib/scopes.mjs";

function renamed(source, letters) {
  return renamedSource(source, renaming(parsed(source), letters));
}

const RENAMED = [
  ["const first = 1; f(first, second)", "const a = 1; f(a, second)"],
  ["f(x); const x = 1", "f(a); const a = 1"],
  ["const x = 1; { const x = 2; f(x) } f(x)", "const a = 1; { const b = 2; f(b) } f(a)"],
  ["{ const x = 2 } f(x)", "{ const a = 2 } f(x)"],
  ["const f = (x, y = x, ...z) => x + y + z + w", "const a = (b, c = b, ...d) => b + c + d + w"],
  ["f((x) => (x) => x, x)", "f((a) => (b) => b, x)"],
  ["const x = a; const y = b.x", "const c = a; const d = b.x"],
  ["const x = 1; f({ x, y: x, x: 1, [x]: x }, x.x, x[x])", "const a = 1; f({ x: a, y: a, x: 1, [a]: a }, a.x, a[a])"],
  ["const __proto__ = 1, x = 2; f({ __proto__ }, x)", "const __proto__ = 1, a = 2; f({ __proto__ }, a)"],
  ["const __proto__ = 1; f({ __proto__: __proto__ })", "const a = 1; f({ __proto__: a })"],
  ["const \\u0061b = 1; f(ab)", "const a = 1; f(a)"],
  ["if (x) { const x = y } else y => x = y", "if (x) { const a = y } else b => x = b"],
  ["f(x); { var x = 1 } x", "f(a); { var a = 1 } a"],
  ["var x; var x; let y = x", "var a; var a; let b = a"],
  ["for (let x = 0; x < y; x++) f(x); x", "for (let a = 0; a < y; a++) f(a); x"],
  ["for (var x of x) f(x); x", "for (var a of a) f(a); a"],
  ["for (const x in y) { const x = 1; f(x) }", "for (const a in y) { const b = 1; f(b) }"],
  ["try { x } catch (x) { f(x) } finally { x }", "try { x } catch (a) { f(a) } finally { x }"],
  ["try {} catch (x) { var x = 1; var y = x } f(x, y)", "try {} catch (a) { var a = 1; var b = a } f(a, b)"],
  ["try {} catch (x) { let y = x; { let x = y } }", "try {} catch (a) { let b = a; { let c = b } }"],
  ["switch (x) { case x: let x = 1; default: f(x) }", "switch (x) { case a: let a = 1; default: f(a) }"],
  ["x: for (;;) { let x; continue x }", "x: for (;;) { let a; continue x }"],
  ["function f(x) { var y = x; return g(y, f) } f(x)", "function a(b) { var c = b; return g(c, a) } a(x)"],
  ["h(function f(x) { return f(x) }, f)", "h(function a(b) { return a(b) }, f)"],
  ["function f(x = y) { var y; { function z() {} z() } z }", "function a(b = y) { var c; { function d() {} d() } z }"],
  ["let y; (x = () => y) => { let y; var x = y }", "let a; (b = () => a) => { let c; var b = c }"],
  ["function f(x) { function x() {} x }", "function a(b) { function b() {} b }"],
  ["f({ x(x) { return x }, get y() { return y } })", "f({ x(a) { return a }, get y() { return y } })"],
  ["(x) => { var x; return x }", "(a) => { var a; return a }"],
  ["const { x, y: z = x, ...w } = v; f(x, z, w)", "const { x: a, y: b = a, ...c } = v; f(a, b, c)"],
  ["const [x, , [y], ...z] = x", "const [a, , [b], ...c] = a"],
  ["const { [x]: y = x, 'x': z } = x; let x", "const { [c]: a = c, 'x': b } = c; let c"],
  ["let x, y; ({ x, y: [y = x], z: x.y, ...x.z } = y)", "let a, b; ({ x: a, y: [b = a], z: a.y, ...a.z } = b)"],
  ["let x; ({ x = 1, z = x } = y); [x.y] = [x]", "let a; ({ x: a = 1, z = a } = y); [a.y] = [a]"],
  ["let __proto__; ({ __proto__ } = x)", "let a; ({ __proto__: a } = x)"],
  ["(({ x, y = x }, [z] = x, ...[w]) => x + w)", "(({ x: a, y: b = a }, [c] = a, ...[d]) => a + d)"],
  ["try {} catch ({ x, y: [z] }) { var w = x }", "try {} catch ({ x: b, y: [c] }) { var a = b }"],
  ["for (const [x, { y }] of z) f(x, y)", "for (const [a, { y: b }] of z) f(a, b)"],
  ["for ([x.y] of z) { let { z } = x }", "for ([x.y] of z) { let { z: a } = x }"],
  ["var { x } = y; { var [y] = x }", "var { x: a } = b; { var [b] = a }"],
  ["class X extends X { x = X }; X", "class a extends a { x = a }; a"],
  ["f(class X extends X { [X] = X }, X)", "f(class a extends a { [a] = a }, X)"],
  ["f(class X extends g(() => X) {}, X)", "f(class a extends g(() => a) {}, X)"],
  ["f(class { x; x() { return x }; static x = y }); let y", "f(class { x; x() { return x }; static x = a }); let a"],
  ["class A { static { var x; { var y } f(x, y) } z = x }", "class a { static { var b; { var c } f(b, c) } z = x }"],
  ["class A { #x; #y() { this.#x; #y in this } }", "class a { #a; #b() { this.#a; #b in this } }"],
  ["class A { get #x() {} set #x(x) {} }", "class a { get #a() {} set #a(b) {} }"],
  ["class A { #x; a = class extends x.#x { #y = this.#x; #x }; b = class { #y; c = x?.#x } }",
    "class a { #a; a = class extends x.#a { #b = this.#c; #c }; b = class { #b; c = x?.#a } }"],
];

// What a direct `eval` sees keeps its name.
const SEEN = [
  ["const x = 1; { let y = eval('x') } { let z = x }", "const x = 1; { let y = eval('x') } { let a = x }"],
  ["h(function f(x) { { let y } eval(z) }); let w", "h(function f(x) { { let a } eval(z) }); let w"],
  ["let x = (a) => eval(a), y = (z) => z", "let x = (a) => eval(a), y = (b) => b"],
  ["class X { x(y) { return eval('X') } z(w) {} }", "class X { x(y) { return eval('X') } z(a) {} }"],
  ["function f(x = eval('y')) { var y }", "function f(x = eval('y')) { var a }"],
  ["try {} catch (x) { eval('x'); var x = 1 }", "try {} catch (x) { eval('x'); var x = 1 }"],
  ["import { a, b as x } from 'y'; { let z } eval(a)", "import { a, b as x } from 'y'; { let b } eval(a)"],
  ["let x; { let y } (eval)('x')", "let x; { let a } (eval)('x')"],
  ["let x; eval('x')?.y((x) => x)", "let x; eval('x')?.y((a) => a)"],
  ["let x; \\u0065val('x')", "let x; \\u0065val('x')"],
  ["class A { #x; y = class { #z; w() { this.#z } }; v() { eval('this.#x') } }", "class A { #x; y = class { #a; w() { this.#a } }; v() { eval('this.#x') } }"],
  ["class A { #a; b = class { #x; c = this.#a }; [eval(d)] }", "class A { #a; b = class { #b; c = this.#a }; [eval(d)] }"],
  ["class A extends eval(x) { #y }", "class A extends eval(x) { #a }"],
  // these see globals alone
  ["let x; eval?.('x'); (0, eval)('x'); new eval('x'); eval`x`; x.eval('x')", "let a; eval?.('x'); (0, eval)('x'); new eval('x'); eval`x`; a.eval('x')"],
  ["let x = { eval: (y) => y }; class A { #x; eval() {} }", "let a = { eval: (c) => c }; class b { #a; eval() {} }"],
];

for (const [source, wanted] of [...RENAMED, ...SEEN]) {
  test(`names of ${source}`, () => assert.equal(renamed(source), wanted));
}

test("a direct `eval` in parentheses that the tree keeps is one", () => {
  const symbols = (source) => renaming(parsed(source, { parentheses: true })).symbols;
  assert.deepEqual(symbols("let x; ((eval))('x')"), ["x"]);
  assert.deepEqual(symbols("let x; (0, eval)('x'); (eval)?.('x')"), ["a"]);
});

async function valueOf(source) {
  return (await import(`data:text/javascript,${encodeURIComponent(source)}`)).default;
}

// Modules with the value of what they export by default, which is the same of the renamed ones.
const VALUES_OF = [
  ["const y = 1; function f(x = y) { var y = 2; return x } export default f()", 1],
  ["const f = (x, y = () => x) => { var x = 2; return [x, y()].join() }; export default f(1)", "2,1"],
  ["const K = class X extends ((f) => class { f() { return f() } })(() => X) {}; export default new K().f() === K", true],
  ["const first = 1; function f(second) { { let third = 3; second += third } return eval('first + second') } export default f(2)", 6],
  ["const f = function own(a = 1) { return (() => eval('typeof own + a'))() }; export default f()", "function1"],
  ["class A { #first = 1; f() { return new (class { #second = 2; f(a) { return a.first() + this.#second } })().f(this) } first() { return eval('this.#first') } } export default new A().f()", 3],
  ["export default (function (text) { try { throw 1 } catch (caught) { var caught = 2; return eval(text) } })('caught')", 2],
];

for (const [source, wanted] of VALUES_OF) {
  test(`value of ${source}`, async () => {
    for (const text of [source, renamed(source)]) assert.equal(await valueOf(text), wanted, text);
  });
}

test("each global has a reference that names no symbol, and each binding a symbol", () => {
  const program = parsed("const x = y; x");
  const { rows, symbols, references } = jobOf(program, { names: renaming(program), spans: false });
  assert.deepEqual([symbols, references], [["a"], [null, 0]]);
  assert.deepEqual(rows.filter(({ name }) => name), [
    { type: "BindingIdentifier", name: "x", symbol: 0 },
    { type: "IdentifierReference", name: "y", reference: 0 },
    { type: "IdentifierReference", name: "x", reference: 1 },
  ]);
});

test("no new name is reserved, or that of a global", () => {
  const count = 26 + 26 * 26 + 200;
  const source = `f(do_, a, ab); ${Array.from({ length: count }, (_, at) => `const name${at} = 1;`).join(" ")}`;
  const { symbols } = renaming(parsed(source));
  assert.equal(new Set(symbols).size, count);
  for (const name of ["a", "ab", "f", "do", "if", "in", "for", "let"]) assert.ok(!symbols.includes(name), name);
  assert.ok(symbols.includes("b") && symbols.includes("zz") && symbols.includes("aaa"));
});

test("new names are made of any letters, each once", () => {
  const program = parsed("let x, y, z, w; class A { #x; #y; #z }");
  const { symbols, private: privates } = renaming(program, ["q", "qq", "q"]);
  assert.equal(new Set(symbols).size, 5);
  assert.equal(new Set(Object.values(privates[0])).size, 3);
});

test("private tables are in the order of the bodies, and what a class extends is none of its own", () => {
  const source = "class A extends class { #x; y = class { #z } } { #x; #y; [class { #v }] = class {} }";
  assert.deepEqual(renaming(parsed(source)).private, [{ x: "a" }, { z: "b" }, { x: "a", y: "b" }, { v: "c" }, {}]);
  const tables = renaming(parsed("class A { #__proto__; #constructor_ }"), LETTERS).private;
  assert.equal(JSON.stringify(tables), '[{"__proto__":"a","constructor_":"b"}]');
});

// A copy without places, whose members stand in another order.
function turned(value) {
  if (Array.isArray(value)) return value.map(turned);
  if (value === null || typeof value !== "object" || value instanceof RegExp) return value;
  const members = Object.entries(value).filter(([name]) => !["start", "end"].includes(name));
  return Object.fromEntries(members.reverse().map(([name, inside]) => [name, turned(inside)]));
}

test("private tables are in the order of the text, whatever places and order the tree has", () => {
  const parts = ["class A { #a; #b; c() { return this.#b } }", "class B { #b; #c; d = class { #e; [class { #f; #g }] } }"];
  const source = `do { f(${parts[0]}) } while (${parts[1]}, class extends class { #h } { #i })`;
  const { private: tables } = renaming(parsed(source));
  assert.deepEqual(tables, [{ a: "a", b: "b" }, { b: "a", c: "b" }, { e: "c" }, { f: "d", g: "e" }, { h: "a" }, { i: "a" }]);
  assert.deepEqual(renaming(turned(parsed(source))).private, tables);
  const moved = parsed(parts.join(" "));
  moved.body.reverse();
  assert.deepEqual(renaming(moved).private, renaming(parsed(parts.toReversed().join(" "))).private);
});

test("members that parsers and tools note of a node aren't gone into", () => {
  const source = "let x = 1; { var y = x } class A { #b = y; c() { eval('x'); return this.#b } }";
  const program = parsed(source);
  const note = (node, parent) => {
    const children = Object.values(node).flat().filter((child) => typeof child?.type === "string");
    for (const child of children) note(child, node);
    Object.assign(node, { parent, leadingComments: [{ type: "Block", value: "a" }], extra: { type: "Identifier", name: "x" } });
  };
  note(program, null);
  const { symbols, references, private: privates } = renaming(program);
  const expected = renaming(parsed(source));
  assert.deepEqual([symbols, references, privates], [expected.symbols, expected.references, expected.private]);
});

// What is printed of a tree that was changed by hand, as a source has it.
function sameAs(source, change) {
  const program = parsed(source);
  change(program.body);
  return printedTree(jobOf(program, { spans: false, names: renaming(program) }));
}

const treeOf = (source) => printedTree(jobOf(parsed(source), { spans: false }));

test("a node that stands in the tree twice has one name", () => {
  const params = sameAs("function f(x) { return x } function g(x) { return x * 2 }", ([f, g]) => {
    g.params = f.params;
  });
  assert.deepEqual(params, treeOf("function a(c) { return c } function b(c) { return c * 2 }"));
  const moved = sameAs("{ let x = 1; f(x) } { let x = 2; { let x = 3 } g }", ([one, other]) => {
    other.body[2] = one.body[1];
  });
  assert.deepEqual(moved, treeOf("{ let a = 1; f(a) } { let a = 2; { let b = 3 } f(a) }"));
  const three = sameAs("{ let x = 1; f(x) } { let x = 2; g } { let x = 3; g }", ([one, ...others]) => {
    for (const { body } of others) body[1] = one.body[1];
  });
  assert.deepEqual(three, treeOf("{ let a = 1; f(a) } { let a = 2; f(a) } { let a = 3; f(a) }"));
});

test("where such a node names a global too, the name stays", () => {
  const behind = sameAs("{ let x = 1; f(x) } g", (body) => {
    body[1] = body[0].body[1];
  });
  assert.deepEqual(behind, treeOf("{ let x = 1; f(x) } f(x)"));
  const before = sameAs("g; { let x = 1; f(x) }", (body) => {
    body[0] = body[1].body[1];
  });
  assert.deepEqual(before, treeOf("f(x); { let x = 1; f(x) }"));
});

test("a tree that isn't read, or is none, gets no tables, and the line that it gets of its job", () => {
  const cyclic = parsed("{}");
  cyclic.body[0].body.push(cyclic.body[0]);
  const trees = [
    null, undefined, "a", {}, { type: "Program" }, { type: "Program", body: [null] }, cyclic, { ...parsed("a"), sourceType: "script" },
    { type: "Program", body: [{ type: "VariableDeclaration", kind: "let" }] }, { type: "Program", body: [{ type: "WithStatement" }] },
    { type: "Program", body: [{ type: "ClassDeclaration", id: { type: "Identifier", name: "A" } }] },
  ];
  for (const tree of trees) {
    const fault = faultOf(() => jobOf(tree));
    assert.match(fault.name, /^(NotRead|TypeError)$/);
    assert.deepEqual(faultOf(() => renaming(tree)), fault);
  }
  const file = { type: "File", program: parsed("let x; x") };
  assert.deepEqual(renaming(file).symbols, ["a"]);
});

function faultOf(call) {
  try {
    return call();
  } catch ({ name, message }) {
    return { name, message };
  }
}

test("tables that aren't of the tree are refused", () => {
  const program = parsed("let x = 1; f(x)");
  for (const names of [{}, 1, "a", true, [], { symbols: [], references: [], private: [] }, JSON.parse(JSON.stringify(renaming(program)))]) {
    assert.throws(() => jobOf(program, { names }), { name: "TypeError", message: "names are what `renaming` gives of the tree" });
  }
  const line = /^program\.body\[0\]\.declarations\[0\]\.id isn't in the tables of new names, /;
  assert.throws(() => jobOf(program, { names: renaming(parsed("let x = 1; f(x)")) }), { name: "TypeError", message: line });
  const names = renaming(program);
  program.body.push(parsed("x").body[0]);
  assert.throws(() => jobOf(program, { names }), { name: "TypeError", message: /^program\.body\[2\]\.expression isn't in the tables of new names, / });
});

// Fields of rows that hold numbers of no rows.
const VALUES = new Set(["symbol", "reference", "digits", "value of StringLiteral"]);

// The tree of a job, with the names that its tables print and without numbers. A property is a name alone by its value.
class Printed {
  constructor({ rows, symbols = [], references = [], private: tables = [] }) {
    Object.assign(this, { rows, symbols, references, tables, inside: [], entered: 0 });
  }

  tree(number) {
    const { type, symbol, reference, shorthand, ...fields } = this.rows[number];
    if (type === "BindingIdentifier") return { type, name: this.symbols[symbol] ?? fields.name };
    if (type === "IdentifierReference") return { type, name: this.symbols[this.references[reference] ?? undefined] ?? fields.name };
    if (type === "PrivateIdentifier") return { type, name: this.privateName(fields.name) };
    if (type === "AssignmentTargetPropertyIdentifier") return this.targetProperty(fields);
    if (type !== "ClassBody") return this.node(type, fields);
    this.inside.unshift(this.entered++);
    const node = this.node(type, fields);
    this.inside.shift();
    return node;
  }

  node(type, fields) {
    const isChild = (name) => !VALUES.has(name) && !VALUES.has(`${name} of ${type}`);
    const held = (value) => (typeof value === "number" ? this.tree(value) : Array.isArray(value) ? value.map(held) : value);
    return { type, ...Object.fromEntries(Object.entries(fields).map(([name, value]) => [name, isChild(name) ? held(value) : value])) };
  }

  privateName(name) {
    const table = this.tables[this.inside.find((number) => Object.hasOwn(this.tables[number] ?? {}, name))];
    return table ? table[name] : name;
  }

  targetProperty({ binding, init }) {
    const target = this.tree(binding);
    const value = init === undefined ? target : { type: "AssignmentTargetWithDefault", binding: target, init: this.tree(init) };
    const name = { type: "IdentifierName", name: this.rows[binding].name };
    return { type: "AssignmentTargetPropertyProperty", name, binding: value };
  }
}

function printedTree(job) {
  return new Printed(job).tree(job.rows.length - 1);
}

test("the tables and the renamed source say the same of programs that are made up", () => {
  let count = 0;
  for (let seed = 1; seed <= 200; seed++) {
    const source = randomProgram(seed);
    for (const letters of [LETTERS, SIGNS]) {
      const program = parsed(source);
      const names = renaming(program, letters);
      const other = parsed(renamedSource(source, names));
      assert.deepEqual(printedTree(jobOf(program, { spans: false, names })), printedTree(jobOf(other, { spans: false })), `seed ${seed}`);
      count += names.symbols.length;
    }
  }
  assert.ok(count > 1000);
});
