// Source maps: of the lines of the word `map`, of the command that prints, and the worked rows of the program. Tests that make maps
// need the package source-map, and those of the program itself that it is built and has that word.
import assert from "node:assert/strict";
import { spawnSync } from "node:child_process";
import { chmodSync, mkdirSync, mkdtempSync, readFileSync, readdirSync, rmSync, writeFileSync } from "node:fs";
import { tmpdir } from "node:os";
import { join } from "node:path";
import { test } from "node:test";
import { fileURLToPath } from "node:url";
import { addon } from "../../../bindings/node/lib/printer.mjs";
import { jobOf } from "../../../bindings/node/lib/convert.mjs";
import { packageOrNull } from "../../../bindings/node/lib/packages.mjs";
import { decoded } from "../../flat/decode.mjs";
import { parsed } from "../parser.mjs";
import { program, unmapped } from "../program.mjs";
import { dataUrl, linked, sourceMapOf } from "../../../bindings/node/lib/source_map.mjs";

const here = (name) => fileURLToPath(new URL(name, import.meta.url));
const { SourceMapConsumer } = packageOrNull("source-map") ?? {};
const skip = !SourceMapConsumer && "source-map isn't installed";
const byAddon = addon !== null && "the addon prints, not the program";
const MAP = '0 0 0 0\n0 4 0 4 0\n0 6 0 7\n1 0 1 0 0\nname "ab"\n';

// What a map says of a place, with columns and lines of the map's package, and what it says of each.
async function traced(map, places) {
  const consumer = await new SourceMapConsumer(map);
  return places.map((place) => consumer.originalPositionFor(place));
}

test("a map is made of the lines", { skip }, async () => {
  const map = sourceMapOf(MAP, { name: "x.js", source: "let ab=1\nab", file: "y.js" });
  assert.deepEqual(map, { version: 3, file: "y.js", sources: ["x.js"], sourcesContent: ["let ab=1\nab"], names: ["ab"], mappings: "AAAA,IAAIA,EAAG;AACPA" });
  assert.deepEqual(await traced(map, [{ line: 1, column: 5 }, { line: 2, column: 0 }]), [
    { source: "x.js", line: 1, column: 4, name: "ab" },
    { source: "x.js", line: 2, column: 0, name: "ab" },
  ]);
});

test("names have their numbers, whatever stands in them", { skip }, () => {
  const map = sourceMapOf('0 0 0 0 0\n0 2 0 8 1\nname "\\\\u0061\\""\nname "größe"\n', { name: "x", source: "" });
  assert.deepEqual(map.names, ['\\u0061"', "größe"]);
});

test("a map without tokens has its source, and no file where none is known", { skip }, () => {
  assert.deepEqual(sourceMapOf("", { name: "x.js", source: "" }), { version: 3, sources: ["x.js"], sourcesContent: [""], names: [], mappings: "" });
});

test("lines of another kind are no map", { skip }, () => {
  for (const line of ["usage: jsgen COMMAND", "0 0 0", "0 0 0 0 0", "name a"]) assert.throws(() => sourceMapOf(`${line}\n`, { name: "x", source: "" }), /^Error: no /);
});

test("a code names its map on a line of its own", () => {
  assert.equal(linked("a;\n", "a.js.map"), "a;\n//# sourceMappingURL=a.js.map\n");
  assert.equal(linked("a;", "a.js.map"), "a;\n//# sourceMappingURL=a.js.map\n");
  assert.equal(linked("", "a.js.map"), "//# sourceMappingURL=a.js.map\n");
  assert.deepEqual(mapIn(linked("a;", dataUrl({ version: 3, names: ["é"] }))), { version: 3, names: ["é"] });
});

// The map in a code's URL.
function mapIn(code) {
  const [, base64] = /^\/\/# sourceMappingURL=data:application\/json;charset=utf-8;base64,(\S+)\n$/m.exec(code);
  return JSON.parse(Buffer.from(base64, "base64"));
}

// Runs the command in a folder, with the program at this path.
function ran(words, folder, program) {
  const { status, stdout, stderr } = spawnSync(process.execPath, [here("../print.mjs"), ...words], { cwd: folder, env: { ...process.env, JSGEN: program } });
  return { status, out: stdout.toString(), err: stderr.toString() };
}

function inFolder(use) {
  const folder = mkdtempSync(join(tmpdir(), "jsgen-"));
  try {
    return use(folder);
  } finally {
    rmSync(folder, { recursive: true });
  }
}

// A program that prints these lines of a map, or the code, and keeps the job.
function withProgram(answers, use) {
  return inFolder((folder) => {
    const program = join(folder, "program");
    writeFileSync(program, `#!/bin/sh\ncat > "${folder}/job-$1"\n${answers}\n`);
    chmodSync(program, 0o755);
    mkdirSync(join(folder, "in"));
    writeFileSync(join(folder, "in/a b.js"), "let ab=1\nab");
    const jobOfWord = (word) => decoded(readFileSync(join(folder, `job-${word}`)));
    return use((words) => ran(words, folder, program), folder, jobOfWord);
  });
}

const ANSWERS = `if [ "$1" = map ]; then printf '${MAP.replaceAll("\n", "\\n")}'; else printf 'let x=1;\\nx;'; fi`;

test("print puts the map into the code, where that goes to standard output", { skip: skip || byAddon }, () => {
  withProgram(ANSWERS, (print, folder, jobOfWord) => {
    const { status, out } = print(["--source-map", "in/a b.js"]);
    assert.equal(status, 0);
    assert.ok(out.startsWith("let x=1;\nx;\n//# sourceMappingURL=data:"), out);
    const { sources, sourcesContent, names, file } = mapIn(out);
    assert.deepEqual([sources, sourcesContent, names, file], [["in/a b.js"], ["let ab=1\nab"], ["ab"], undefined]);
    assert.deepEqual(jobOfWord("map"), jobOfWord("print"));
    assert.deepEqual(jobOfWord("map").options, { source_map_path: "in/a b.js" });
  });
});

test("print writes the map beside the file behind -o", { skip: skip || byAddon }, () => {
  withProgram(ANSWERS, (print, folder, jobOfWord) => {
    mkdirSync(join(folder, "out"));
    assert.deepEqual(print(["--source-map", "-o", "out/c d.js", "--minify", "in/a b.js"]), { status: 0, out: "", err: "" });
    assert.equal(readFileSync(join(folder, "out/c d.js"), "utf8"), "let x=1;\nx;\n//# sourceMappingURL=c%20d.js.map\n");
    const { file, sources, names } = JSON.parse(readFileSync(join(folder, "out/c d.js.map"), "utf8"));
    assert.deepEqual([file, sources, names], ["c d.js", ["../in/a b.js"], ["ab"]]);
    assert.deepEqual(jobOfWord("print").options, { minify: true, normal: false, jsdoc: false, source_map_path: "../in/a b.js" });
  });
});

test("print without --source-map asks for no map", { skip: byAddon }, () => {
  withProgram(ANSWERS, (print, folder, jobOfWord) => {
    assert.equal(print(["in/a b.js"]).out, "let x=1;\nx;");
    assert.equal(print(["-o", "c.js", "in/a b.js"]).out, "");
    assert.equal(readFileSync(join(folder, "c.js"), "utf8"), "let x=1;\nx;");
    assert.deepEqual(readdirSync(folder).sort(), ["c.js", "in", "job-print", "program"]);
    assert.equal(jobOfWord("print").options, undefined);
  });
});

test("print writes nothing where the program says why it doesn't", { skip: byAddon }, () => {
  const cases = [
    ["print", 1, "refused: Name at 4", "in/a b.js:1:5: refused: Name at 4 (VariableDeclarator)"],
    ["map", 2, "usage: jsgen COMMAND", "in/a b.js: usage: jsgen COMMAND"],
  ];
  for (const [word, status, line, told] of cases) {
    withProgram(`if [ "$1" = ${word} ]; then echo '${line}' >&2; exit ${status}; fi; ${ANSWERS}`, (print, folder) => {
      const ends = print(["--source-map", "-o", "c.js", "in/a b.js"]);
      assert.deepEqual([ends.status, ends.out], [status, ""]);
      assert.equal(ends.err.split("\n")[0], told);
      assert.ok(!readdirSync(folder).includes("c.js"));
    });
  }
});

// The program itself.
function mapOfProgram(source, options = {}) {
  const job = jobOf(parsed(source), { source, options: { ...options, source_map_path: "x.js" } });
  const { status, stdout, stderr } = spawnSync(program(), ["map"], { input: JSON.stringify(job) });
  assert.equal(status, 0, stderr.toString());
  return stdout.toString().split("\n").slice(0, -1);
}

const MINIFY = { minify: true };

for (const [source, options, ...lines] of [
  ["const a = 1 + 2;", {}, "0 0 0 0", "0 6 0 6", "0 10 0 10", "0 14 0 14"],
  ["const a = 1 + 2;", MINIFY, "0 0 0 0", "0 6 0 6", "0 8 0 10", "0 10 0 14"],
  ["f(a)(b);", {}, "0 0 0 0", "0 2 0 2", "0 3 0 3", "0 4 0 4", "0 5 0 5", "0 6 0 6"],
  ["a[b].c", {}, "0 0 0 0", "0 2 0 2", "0 4 0 4", "0 5 0 5"],
  ["{a}", {}, "0 0 0 0", "1 1 0 1", "2 0 0 2"],
  ["{a}", MINIFY, "0 0 0 0", "0 1 0 1", "0 2 0 2"],
  ["é+b;", {}, "0 0 0 0", "0 4 0 2"],
  ["é+b;", { minify: true, ascii_only: true }, "0 0 0 0", "0 7 0 2"],
  ["if(a)b;", {}, "0 0 0 0", "0 4 0 3", "0 7 0 5"],
  ["if(a)b;", MINIFY, "0 0 0 0", "0 3 0 3", "0 5 0 5"],
  ["new X;", {}, "0 0 0 0", "0 4 0 4"],
  ["x={a:1};", {}, "0 0 0 0", "0 4 0 2", "0 6 0 3", "0 9 0 5", "0 11 0 6"],
  ["function f(){}", {}, "0 0 0 0", "0 9 0 9", "0 13 0 12", "0 14 0 13"],
  ["\\u0061", {}, "0 0 0 0 0", 'name "\\\\u0061"'],
]) {
  test(`the map of ${source}${options.minify ? ", minified" : ""}`, { skip: unmapped }, () => assert.deepEqual(mapOfProgram(source, options), lines));
}

test("no map is written where no path is set", { skip: unmapped }, () => {
  const ended = spawnSync(program(), ["map"], { input: JSON.stringify(jobOf(parsed("a"), { source: "a" })) });
  assert.deepEqual([ended.status, ended.stdout.toString(), ended.stderr.toString()], [0, "", ""]);
});

test("a printed file is traced back to its source", { skip: skip || unmapped }, async () => {
  const path = here("../../../examples/hello.mjs");
  for (const style of [[], ["--minify"]]) {
    const { status, out, err } = ran(["--source-map", ...style, path], ".", program());
    assert.equal(status, 0, err);
    const source = readFileSync(path, "utf8");
    const map = mapIn(out);
    assert.deepEqual(map.sourcesContent, [source]);
    for (const name of ["Greeter", "constructor", "greetAll", "greeter", "others", "filter"]) {
      const [[place], [wanted]] = [placesOf(out, name), placesOf(source, name)];
      assert.deepEqual(await traced(map, [place]), [{ source: path, ...wanted, name: null }], name);
    }
  }
});

// Where the word stands in a text, as the map's package counts.
function placesOf(text, word) {
  return [...text.matchAll(new RegExp(`\\b${word}\\b`, "g"))].map(({ index }) => {
    const before = text.slice(0, index).split("\n");
    return { line: before.length, column: before.at(-1).length };
  });
}
