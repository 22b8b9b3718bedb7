// The judge of maps: right ones and wrong ones made by hand, those of a printer that echoes, and the program's where it is built and
// has the word `map`.
import assert from "node:assert/strict";
import { spawnSync } from "node:child_process";
import { chmodSync, mkdtempSync, readFileSync, rmSync, writeFileSync } from "node:fs";
import { tmpdir } from "node:os";
import { join } from "node:path";
import { test } from "node:test";
import { fileURLToPath } from "node:url";
import { parsed } from "../../estree/parser.mjs";
import { unmapped } from "../../estree/program.mjs";
import { filesBelow } from "../../estree/programs.mjs";
import { randomProgram } from "../../estree/random.mjs";
import { LETTERS, SIGNS, renaming } from "../../../bindings/node/lib/scopes.mjs";
import { pairsOf } from "../pairs.mjs";
import { faultsOf } from "../rules.mjs";
import { echo, linesOf } from "./echo.mjs";

const here = (name) => fileURLToPath(new URL(name, import.meta.url));
const lines = (...all) => all.map((line) => `${line}\n`).join("");

// Sources with what is printed for them and the map, worked out by hand.
const RIGHT = [
  ["const a = 1 + 2;", "const a = 1 + 2;\n", lines("0 0 0 0", "0 6 0 6", "0 10 0 10", "0 14 0 14")],
  ["const a = 1 + 2;", "const a=1+2;", lines("0 0 0 0", "0 6 0 6", "0 8 0 10", "0 10 0 14")],
  ["f(a)(b);", "f(a)(b);\n", lines("0 0 0 0", "0 2 0 2", "0 3 0 3", "0 4 0 4", "0 5 0 5", "0 6 0 6")],
  ["a[b].c", "a[b].c;\n", lines("0 0 0 0", "0 2 0 2", "0 4 0 4", "0 5 0 5")],
  ["{a}", "{\n\ta;\n}\n", lines("0 0 0 0", "1 1 0 1", "2 0 0 2")],
  ["let ab=1;", "let x=1;", lines("0 0 0 0", "0 4 0 4 0", "0 6 0 7", 'name "ab"')],
  ["ab;ab", "x;x;", lines("0 0 0 0 0", "0 2 0 3 0", 'name "ab"')],
  // the name went with its mark, which stood behind that of the statement
  ["{ab}", "{\n\tx;\n}\n", lines("0 0 0 0", "1 1 0 1", "2 0 0 3")],
  ["f((ab)=>ab)", "f(x=>x);", lines("0 0 0 0", "0 2 0 3", "0 5 0 8 0", "0 6 0 10", 'name "ab"')],
  ["", "", ""],
  ["é+b;", "é + b;\n", lines("0 0 0 0", "0 4 0 2")],
  ["é+b;", "\\u00E9+b;", lines("0 0 0 0", "0 7 0 2")],
  ["\\u0061;", "a;", lines("0 0 0 0 0", 'name "\\\\u0061"')],
  ["'\u{20BB7}';a", "'\u{20BB7}';a;", lines("0 0 0 0", "0 5 0 5")],
  ["a;\r\nb;\u2028c", "a;\nb;\nc;\n", lines("0 0 0 0", "1 0 1 0", "2 0 2 0")],
  ["`\n${a}`", "`\n${a}`;", lines("0 0 0 0", "1 2 1 2", "1 4 1 4")],
  ["(ab).c", "x.c;", lines("0 0 0 1 0", "0 2 0 5", 'name "ab"')],
  // of two marks of one place the later one counts
  ["(ab).c", "x.c;", lines("0 0 0 0", "0 0 0 1 0", "0 2 0 5", 'name "ab"')],
  ["class A{#b=this.#b}", "class A{#c=this.#c}", lines("0 0 0 0", "0 6 0 6", "0 7 0 7", "0 8 0 8", "0 11 0 11", "0 16 0 16 0", "0 18 0 18", 'name "#b"')],
  ["import.meta.a", "import.meta.a;", lines("0 0 0 0", "0 12 0 12")],
  ["({ab}=c)", "({ab:x}=c);", lines("0 1 0 1", "0 8 0 6")],
  ["const{ab}=c", "const{ab:x}=c;", lines("0 0 0 0", "0 5 0 5", "0 6 0 6", "0 12 0 10")],
  ["let ab;export{ab}", "let x;export{x as ab};", lines("0 0 0 0", "0 4 0 4 0", "0 6 0 7", "0 13 0 14 0", 'name "ab"')],
  // a mark of what begins with a name stands before the space that parts it from a word
  ["()=>{return ab=1}", "()=>{return x=1};", lines("0 4 0 4", "0 5 0 5", "0 11 0 12", "0 14 0 15", "0 15 0 16")],
];

test("right maps have no fault", () => {
  for (const [source, printed, map] of RIGHT) assert.deepEqual(faultsOf(source, printed, map), [], source);
});

const SOURCE = "let ab=1;\nab;c";
const PRINTED = "let x=1;x;c;";
const MAP = ["0 0 0 0", "0 4 0 4 0", "0 6 0 7", "0 8 1 0 0", "0 10 1 3", 'name "ab"'];
const TWO = ["0 0 0 0 0", "0 2 0 3 1", 'name "ab"', 'name "bc"'];

// Of a map in which lines stand in place of others.
function faultsWith(changes) {
  return faultsOf(SOURCE, PRINTED, lines(...MAP.flatMap((line) => changes[line] ?? [line])));
}

test("the map that is changed has no fault", () => {
  assert.deepEqual(faultsWith({}), []);
  assert.deepEqual(faultsOf("ab;bc", "x;y;", lines(...TWO)), []);
});

test("form: lines are tokens and then names", () => {
  for (const line of ["0 6 0", "0 6 0 7 ", " 0 6 0 7", "0 06 0 7", "0 -6 0 7", "0 6 0 7.0", "0 6 0 7 0 0", "0  6 0 7", "", "nothing", 'name "ab', "name ab", "name 5", 'name  "ab"']) {
    assert.deepEqual(faultsWith({ "0 6 0 7": [line] }).slice(0, 1), [`form: neither a token nor a name: ${line}`]);
  }
  assert.deepEqual(faultsWith({ "0 10 1 3": [], 'name "ab"': ['name "ab"', "0 10 1 3"] }), ["form: a token behind a name: 0 10 1 3"]);
  assert.deepEqual(faultsOf(SOURCE, PRINTED, MAP.join("\n")).slice(0, 1), ["form: the last line has no end"]);
});

test("form: each name is there once, for a token, in its turn", () => {
  assert.deepEqual(faultsWith({ "0 8 1 0 0": ["0 8 1 0 1"] }), ["form: a number that no name has: 0 8 1 0 1"]);
  assert.deepEqual(faultsWith({ 'name "ab"': ['name "ab"', 'name "c"'] }), ['form: a name that no token has: "c"']);
  assert.deepEqual(faultsWith({ "0 8 1 0 0": ["0 8 1 0 1"], 'name "ab"': ['name "ab"', 'name "ab"'] }), ['form: a name that is there twice: "ab"']);
  assert.deepEqual(faultsOf("ab;bc", "x;y;", lines("0 0 0 0 1", "0 2 0 3 0", 'name "bc"', 'name "ab"')), ["form: a name out of its turn: 0 0 0 0 1"]);
});

test("order: printed places never fall, and neighbours have other places in the source", () => {
  assert.deepEqual(faultsWith({ "0 6 0 7": ["0 3 0 7"] }), ["order: 0 3 0 7 stands behind 0 4 0 4 0"]);
  assert.deepEqual(faultsOf("a;b", "a;\nb;\n", lines("1 0 0 2", "0 0 0 0")), ["order: 0 0 0 0 stands behind 1 0 0 2"]);
  assert.deepEqual(faultsWith({ "0 6 0 7": ["0 6 0 7", "0 7 0 7"] }), ["order: 0 7 0 7 has the place in the source of 0 6 0 7 before it"]);
});

test("range: places are within their texts, and part no character", () => {
  for (const line of ["0 13 1 2", "1 0 1 2"]) assert.deepEqual(faultsWith({ "0 10 1 3": ["0 10 1 3", line] }), [`range: ${line}: no place of the printed text`]);
  for (const line of ["0 11 0 10", "0 11 1 5", "0 11 2 0"]) assert.deepEqual(faultsWith({ "0 10 1 3": ["0 10 1 3", line] }), [`range: ${line}: no place of the source`]);
  assert.deepEqual(faultsWith({ "0 10 1 3": ["0 10 1 3", "0 12 1 4"] }), []);
  const parted = lines("0 0 0 0", "0 2 0 4", "0 5 0 5");
  assert.deepEqual(faultsOf("'\u{20BB7}';a", "'\u{20BB7}';a;", parted), ["range: 0 2 0 4: no place of the printed text"]);
  assert.deepEqual(faultsOf("'\u{20BB7}';a", "'\u{20BB7}';a;", lines("0 0 0 0", "0 3 0 2", "0 5 0 5")), ["range: 0 3 0 2: no place of the source"]);
});

test("place: each name leads to where it stands in the source", () => {
  const first = "place: x at 1:9, which is ab at 2:1 of the source: the token is ";
  assert.deepEqual(faultsWith({ "0 8 1 0 0": ["0 8 1 1 0"] }).slice(0, 1), [`${first}0 8 1 1 0`]);
  assert.deepEqual(faultsWith({ "0 8 1 0 0": [] }), [`${first}0 6 0 7`]);
  assert.deepEqual(faultsWith({ "0 8 1 0 0": ["0 9 1 0 0"] }).slice(0, 1), [`${first}0 6 0 7`]);
  assert.deepEqual(faultsWith({ "0 8 1 0 0": ["0 8 1 0 0", "0 8 1 2"] }).slice(0, 1), [`${first}0 8 1 2`]);
  assert.deepEqual(faultsOf("a;b", "a;b;", ""), ["place: a at 1:1, which is a at 1:1 of the source: the token is none", "place: b at 1:3, which is b at 1:3 of the source: the token is none"]);
});

test("place: columns are units of UTF-16, not bytes", () => {
  assert.match(faultsOf("é+b;", "é + b;\n", lines("0 0 0 0", "0 5 0 3"))[0], /^place: b at 1:5, /);
});

test("name: the source's text, where another one is printed", () => {
  const first = "name: x at 1:9, which is ab at 2:1 of the source: the token is ";
  assert.deepEqual(faultsWith({ "0 8 1 0 0": ["0 8 1 0"] }), [`${first}0 8 1 0, of the name null`]);
  assert.deepEqual(faultsWith({ "0 8 1 0 0": ["0 8 1 0 1"], 'name "ab"': ['name "ab"', 'name "x"'] }), [`${first}0 8 1 0 1, of the name "x"`]);
  assert.deepEqual(faultsWith({ "0 10 1 3": ["0 10 1 3 1"], 'name "ab"': ['name "ab"', 'name "c"'] }), ['name: c at 1:11, which is c at 2:4 of the source: the token is 0 10 1 3 1, of the name "c"']);
  assert.deepEqual(faultsWith({ "0 6 0 7": ["0 6 0 7 0"] }), ["name: 0 6 0 7 0: no name is printed there"]);
  assert.match(faultsOf("\\u0061;", "a;", lines("0 0 0 0"))[0], /^name: a at 1:1, which is \\u0061 at 1:1 /);
  assert.match(faultsOf("class A{m(){return this.#b}#b}", "class A{m(){return this.#c}#c}", lines("0 0 0 0", "0 6 0 6", "0 7 0 7", "0 8 0 8", "0 11 0 11", "0 12 0 12", "0 19 0 19", "0 24 0 24", "0 26 0 26", "0 27 0 27"))[0], /^name: #c at 1:25, which is #b /);
});

test("name: it may lack only where a mark of its own place stands before it", () => {
  const without = (source, printed, ...map) => faultsOf(source, printed, lines(...map)).map((fault) => fault.split(":")[0]);
  assert.deepEqual(without("{ab}", "{x}", "0 0 0 0", "0 1 0 1", "0 2 0 3"), ["name"]);
  assert.deepEqual(without("{ab}", "{\n\tx;\n}\n", "0 0 0 0", "1 1 0 1", "2 0 0 3"), []);
  assert.deepEqual(without("ab=1", "x=1;", "0 0 0 0", "0 2 0 3"), []);
  assert.deepEqual(without("ab+1", "x+1;", "0 0 0 0", "0 2 0 3"), ["name"]);
  assert.deepEqual(without("ab:for(;;)break ab", "x:for(;;)break x;", "0 0 0 0", "0 2 0 3", "0 10 0 11", "0 16 0 16"), ["place"]);
});

test("shape: what is printed is the source in its normal form", () => {
  assert.deepEqual(faultsOf("f(a)", "f(a,b);", lines("0 0 0 0", "0 2 0 2")), ["shape: 1 and 2 nodes, from 2 and 2"]);
  assert.deepEqual(faultsOf("f(a)", "f(`a`);", lines("0 0 0 0", "0 2 0 2")), ["shape: Identifier at 2 and Literal at 2"]);
});

// Names of a source and of what is printed for it, beside each other.
for (const [source, printed, ...wanted] of [
  ["a && (b && c)", "a && b && c", "a a", "b b", "c c"],
  ["(a, (b, c))", "a, b, c", "a a", "b b", "c c"],
  ["if (a) if (b) c", "if (a) { if (b) c }", "a a", "b b", "c c"],
  ["if (a) { if (b) c } else d", "if (a) { if (b) c } else d", "a a", "b b", "c c", "d d"],
  ["if (a) for (;;) if (b) c", "if (a) { for (;;) if (b) c }", "a a", "b b", "c c"],
  ["f({ a: a, b: c })", "f({ a, b: x })", "f f", "a a", "b b", "c x"],
  ["f({ a, b: c })", "f({ a: x, c })", "f f", "a a", "a x second", "c c"],
  ["let { a, b = c, d: e } = f", "let { a: x, b: y = c, d } = f", "a a", "a x second", "b b", "b y second", "c c", "e d", "f f"],
  ["({ a, b = c } = d)", "({ a: x, b: y = c } = d)", "a a unmarked", "a x unmarked", "b b unmarked", "b y unmarked", "c c", "d d"],
  ["[{ a }, { b: { c } }] = d", "[{ a }, { b: { c: x } }] = d", "a a", "b b", "c c unmarked", "c x unmarked", "d d"],
  ["[{ a = function({ b }) {} }] = c", "[{ a = function({ b: x }) {} }] = c", "a a", "b b", "b x second", "c c"],
  ["for ({ a } of b) c", "for ({ a: x } of b) c", "a a unmarked", "a x unmarked", "b b", "c c"],
  ["import { a, b as c, d as e } from 'm'", "import { a as x, b, d as y } from 'm'", "a a", "a x second", "b b", "d d", "e y"],
  ["import { 'a' as b, 'c d' as e } from 'm'", "import { a, 'c d' as e } from 'm'", "b a", "e e"],
  ["import a, * as b from 'm'", "import x, * as y from 'm'", "a x", "b y"],
  ["let a, b; export { a, b as c }", "let x, c; export { x as a, c }", "a x", "b c", "a x", "a a second", "b c"],
  ["export { a as 'a', 'b' as b } from 'm'; export * as c from 'm'", "export { a, 'b' } from 'm'; export * as c from 'm'", "a a", "c c"],
  ["class A { #a = this.#a; static b() { #a in c } }", "class A { #x = this.#x; static b() { #x in c } }", "A A", "#a #x", "#a #x", "b b", "#a #x", "c c"],
  ["'a'; f('b', `c`, d`e${g}h`)", "'a'; f(`b`, 'c', d`e${g}h`)", "f f", "d d", "g g"],
  ["function f() { new.target } import.meta.a", "function f() { new.target } import.meta.a", "f f", "new new", "target target unmarked", "import import", "meta meta unmarked", "a a"],
]) {
  test(`names of ${source}`, () => {
    const text = (all, { start, end }) => all.slice(start, end);
    const told = pairsOf(parsed(source), parsed(printed)).map((pair) => [text(source, pair.source), text(printed, pair.printed), pair.isUnmarked && "unmarked", pair.isSecond && "second"].filter(Boolean).join(" "));
    assert.deepEqual(told, wanted);
  });
}

// Programs, and which new names they get.
function* echoed() {
  const sources = [...filesBelow(here("../../estree"))].map((path) => readFileSync(path, "utf8"));
  for (const source of [...sources, ...Array.from({ length: 60 }, (_, at) => randomProgram(at + 1))]) {
    for (const letters of [null, LETTERS, SIGNS]) yield [source, letters && renaming(parsed(source), letters)];
  }
}

test("maps of a printer that echoes have no fault", () => {
  for (const [source, names] of echoed()) {
    const { code, tokens } = echo(source, names);
    assert.deepEqual(faultsOf(source, code, linesOf(source, code, tokens)), []);
  }
});

const DAMAGES = {
  left: ({ at, ...token }) => ({ ...token, at: at - 1 }),
  right: ({ at, ...token }) => ({ ...token, at: at + 1 }),
  elsewhere: ({ sourceAt, ...token }) => ({ ...token, sourceAt: sourceAt + 1 }),
  renamed: (token) => ({ ...token, name: token.name === null ? "a" : `${token.name}a` }),
  unnamed: (token) => ({ ...token, name: null }),
  gone: () => null,
};

test("each damage of such a map is found", () => {
  const source = "let one = two(three), four = one;\nfor (const five of four) two(one[five], -four.six);\nexport { one, four as seven };\n";
  const { code, tokens } = echo(source, renaming(parsed(source)));
  for (const [at, token] of tokens.entries()) {
    for (const [name, damage] of Object.entries(DAMAGES)) {
      const damaged = damage(token);
      if (damaged?.at < 0 || (name === "unnamed" && token.name === null)) continue;
      const map = linesOf(source, code, tokens.toSpliced(at, 1, ...(damaged ? [damaged] : [])));
      assert.notDeepEqual(faultsOf(source, code, map), [], `${name}: ${JSON.stringify(token)}`);
    }
  }
});

// The command, with a program that answers so, whatever it is asked.
function judged(source, script) {
  const folder = mkdtempSync(join(tmpdir(), "jsgen-"));
  try {
    const [file, program] = [join(folder, "file.js"), join(folder, "program")];
    writeFileSync(file, source);
    writeFileSync(program, `#!/bin/sh\ncat > /dev/null\n${script}\n`);
    chmodSync(program, 0o755);
    const { status, stdout, stderr } = spawnSync(process.execPath, [here("../judge.mjs"), file], { env: { ...process.env, JSGEN: program } });
    return { status, out: stdout.toString(), err: stderr.toString().replaceAll(file, "FILE") };
  } finally {
    rmSync(folder, { recursive: true });
  }
}

test("the command counts maps, and tells what is wrong by file and set", () => {
  const script = (map) => `if [ "$1" = print ]; then echo 'f(a);'; else printf '${map}'; fi`;
  assert.deepEqual(judged("f(a)", script("0 0 0 0\\n0 2 0 2\\n0 3 0 3\\n")), { status: 0, out: "1 programs; 0 files are no modules, or aren't read; 10 maps, 0 bad\n", err: "" });
  const wrong = judged("f(a)", script("0 0 0 0\\n0 3 0 3\\n"));
  assert.equal(wrong.status, 1);
  assert.match(wrong.out, / 10 maps, 10 bad\n$/);
  assert.match(wrong.err, /^FILE: pretty: place: a at 1:3, which is a at 1:3 of the source: the token is 0 0 0 0\nFILE: pretty with parentheses: /);
});

test("the command tells what the program refuses, and what doesn't parse", () => {
  assert.match(judged("a", "echo 'refused: Name at 0' >&2; exit 1").err, /^FILE: pretty: status 1: refused: Name at 0\n/);
  assert.match(judged("a", 'if [ "$1" = print ]; then echo "a("; fi').err, /^FILE: pretty: what is printed does not parse: /);
  assert.match(judged("a", 'if [ "$1" = map ]; then echo "usage: jsgen COMMAND" >&2; exit 2; fi; echo "a;"').err, /^the program has no word `map`\n/);
  assert.match(judged("a(", "exit 1").out, /^0 programs; 1 files are no modules, /);
});

test("the program's maps have no fault", { skip: unmapped }, () => {
  const { status, stdout, stderr } = spawnSync(process.execPath, [here("../judge.mjs"), "--random", "20", here("../../estree")]);
  assert.equal(status, 0, `${stderr}${stdout}`);
  assert.match(stdout.toString(), / maps, 0 bad\n$/);
});
