// The trees of acorn, of espree (Debian's node-espree) and of Babel's parser, with its plugin `estree` and without (node-babel7), give the same
// jobs and the same text, over the sources of d3 (node-d3) and lodash-es (node-lodash). Where a package isn't there its test is skipped.
import assert from "node:assert/strict";
import { spawnSync } from "node:child_process";
import { existsSync, readFileSync, readdirSync } from "node:fs";
import Module from "node:module";
import { delimiter, join } from "node:path";
import { test } from "node:test";
import { NotRead, jobOf } from "../../../bindings/node/lib/convert.mjs";
import { packageOrNull } from "../../../bindings/node/lib/packages.mjs";
import { parsed, parserVersion } from "../parser.mjs";
import { program, unbuilt } from "../program.mjs";
import { filesBelow } from "../programs.mjs";

const DEBIAN = "/usr/share/nodejs";
const SAMPLE = 40;

// Debian's packages look for each other in their folder, which only Debian's own node knows.
process.env.NODE_PATH = [process.env.NODE_PATH, DEBIAN].filter(Boolean).join(delimiter);
Module._initPaths();

const espree = packageOrNull("espree");
const babel = packageOrNull("@babel/parser");

const PARSERS = {
  espree: espree && ((text) => espree.parse(text, { ecmaVersion: "latest", sourceType: "module", comment: true, tokens: true, loc: true, range: true })),
  "@babel/parser with its plugin estree": babel && ((text) => babel.parse(text, { sourceType: "module", tokens: true, ranges: true, plugins: [["estree", { classFeatures: true }]] })),
  "@babel/parser": babel && ((text) => babel.parse(text, { sourceType: "module", tokens: true, ranges: true })),
};

function foldersOf(library) {
  if (library === "lodash-es") return [join(DEBIAN, library)].filter((folder) => existsSync(folder));
  const packages = existsSync(DEBIAN) ? readdirSync(DEBIAN).filter((name) => name.startsWith("d3-")) : [];
  return packages.map((name) => join(DEBIAN, name, "src")).filter((folder) => existsSync(folder));
}

function jobText(tree, settings) {
  return JSON.stringify(jobOf(tree, settings));
}

function printed(tree, source) {
  const { status, stdout, stderr } = spawnSync(program(), ["print"], { input: jobText(tree, { source, options: { minify: true } }), maxBuffer: 2 ** 28 });
  assert.equal(status, 0, stderr.toString());
  return stdout.toString();
}

for (const library of ["d3", "lodash-es"]) {
  const files = foldersOf(library).flatMap((folder) => [...filesBelow(folder)]);
  for (const [name, parse] of Object.entries(PARSERS)) {
    const skip = (!parse && `${name} isn't there`) || (files.length === 0 && `${library} isn't there`);
    test(`${name}'s trees of ${library} give the jobs of acorn's`, { skip }, (t) => {
      for (const file of files) {
        const source = readFileSync(file, "utf8");
        assert.equal(jobText(parse(source), { spans: false }), jobText(parsed(source), { spans: false }), file);
      }
      t.diagnostic(`${files.length} files`);
    });
    test(`${name}'s trees of ${library} are printed as acorn's`, { skip: skip || unbuilt }, () => {
      for (const file of files.filter((_, at) => at % SAMPLE === 0)) {
        const source = readFileSync(file, "utf8");
        assert.equal(printed(parse(source), source), printed(parsed(source), source), file);
      }
    });
  }
}

// What those libraries don't have.
const SOURCE = `'use client'; import a, { b as c } from "x"; export * as d from "y"; export default class extends a { #e = 1n; static { this.f = /g/u; } get h() { return #e in this } }
for await (const [i, { j = 2, ...k }] of l?.m?.(...n)) ({ o: p, [q]: r } = s); const t = async () => { await import(u) }; \`v\${w}x\`; y\`\\u\`; z ??= import.meta; async function* A() { yield* B }`;

for (const [name, parse] of Object.entries(PARSERS)) {
  test(`${name}'s tree of modern syntax gives the job of acorn's`, { skip: !parse && `${name} isn't there` }, () => {
    assert.equal(jobText(parse(SOURCE), { spans: false }), jobText(parsed(SOURCE), { spans: false }));
  });
}

test("what Babel's plugins read is refused by its place", { skip: !babel && "@babel/parser isn't there" }, () => {
  const refusalOf = (source, ...plugins) => {
    const tree = babel.parse(source, { sourceType: "module", plugins: [["estree", { classFeatures: true }], ...plugins] });
    try {
      return String(jobOf(tree, { source }).rows.length);
    } catch (error) {
      assert.ok(error instanceof NotRead, error.stack);
      return error.message.replace(/ is not read yet$/, "");
    }
  };
  assert.equal(refusalOf("declare let x: number;", "typescript"), "declare of VariableDeclaration in line 1, column 1");
  assert.equal(refusalOf("a;\nconst b: number = 1;", "typescript"), "typeAnnotation of Identifier in line 2, column 7");
  assert.equal(refusalOf("f<T>();", "typescript"), "typeParameters of CallExpression in line 1, column 1");
  assert.equal(refusalOf("import type { a } from 'x';", "typescript"), "importKind type of ImportDeclaration in line 1, column 1");
  assert.equal(refusalOf("class A { private b; }", "typescript"), "accessibility of PropertyDefinition in line 1, column 11");
  assert.equal(refusalOf("@a class B {}", ["decorators", { version: "2022-03" }]), "decorators of ClassDeclaration in line 1, column 1");
  assert.equal(refusalOf("import a from 'x' assert { type: 'json' };", "importAssertions"), "the keyword assert of ImportDeclaration in line 1, column 1");
  assert.equal(refusalOf("import 'x' assert {};", "importAssertions"), "the keyword assert of ImportDeclaration in line 1, column 1");
  assert.equal(refusalOf("<a/>;", "jsx"), "JSXElement in line 1, column 1");
  assert.match(refusalOf("let a = 1; let { b } = c;", "typescript"), /^\d+$/);
  assert.match(refusalOf("let a = 1; let { b } = c; import d, { e } from 'f'; class G { h; i() {} }", "flow"), /^\d+$/);
});

test("a script is refused, and says how its parser is to be called", { skip: !espree && "espree isn't there" }, () => {
  const message = 'a script in line 1, column 1 is not read yet: ask the parser for sourceType: "module", since the default of acorn and espree is a script';
  const source = "a";
  assert.throws(() => jobOf(espree.parse(source, { ecmaVersion: "latest", range: true }), { source }), { name: "NotRead", message });
});

const [major, minor] = parserVersion().split(".").map(Number);
const isOlder = major < 8 || (major === 8 && minor < 14);

test("an acorn that is older than the attributes of imports says so", { skip: !isOlder && "acorn reads them" }, () => {
  const hint = new RegExp(`: this acorn, ${parserVersion().replaceAll(".", "\\.")}, is older than the syntax, which 8\\.14 reads$`);
  for (const source of ["import a from 'x' with { type: 'json' }", "export * from 'x' with {}", "import 'x' with{a:'b'}"]) {
    assert.throws(() => parsed(source), (error) => error instanceof SyntaxError && hint.test(error.message), source);
  }
  for (const source of ["with (a) b", "let with", "import 'x' other"]) {
    assert.throws(() => parsed(source), (error) => error instanceof SyntaxError && !hint.test(error.message), source);
  }
});
